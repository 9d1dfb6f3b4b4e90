//! How often each message, refusal, limit and kind of case occurred in a run.

use crate::generate::Case;
use crate::oracle::{self, Judge, Verdict};
use crate::{formats, keys, shape};
use std::collections::BTreeMap;

const REFUSALS: [u8; 8] = [2, 3, 4, 5, 6, 7, 8, 9];
const LIMITS: [&str; 9] = [
    "255 keys",
    "256 keys",
    "255 diagnostics",
    "256 diagnostics",
    "65535 listing bytes",
    "65536 listing bytes",
    "statement level 8",
    "expression level 32",
    "16384 file bytes",
];
const JUDGES: [&str; 2] = ["listed by the Rust", "listed by the tool's own reading"];

#[derive(Default)]
pub struct Counts(BTreeMap<String, usize>);

impl Counts {
    fn add(&mut self, what: &str, more: usize) {
        match self.0.get_mut(what) {
            Some(count) => *count += more,
            None => drop(self.0.insert(what.to_string(), more)),
        }
    }

    pub fn merge(&mut self, other: &Counts) {
        other.0.iter().for_each(|(what, count)| self.add(what, *count));
    }

    pub fn add_case(&mut self, case: &Case, verdict: &Verdict) {
        self.add(&format!("case {}", case.kind), 1);
        match verdict {
            Verdict::Refused(number, _) => self.add(&format!("refused {number}"), 1),
            Verdict::Listed(diagnostics, judge) => {
                for d in diagnostics {
                    let note = d.note.as_ref().map_or("", |(note, _)| note);
                    self.add(&formats::form(if d.error { "E" } else { "W" }, &d.message, note), 1);
                }
                self.add(JUDGES[(*judge == Judge::Own) as usize], 1);
                let size = oracle::listing(diagnostics).len();
                if size > oracle::MOST_LISTING_BYTES {
                    self.add("refused 9", 1);
                }
                self.add_limits(case, diagnostics.len(), size);
            }
        }
    }

    fn add_limits(&mut self, case: &Case, diagnostics: usize, size: usize) {
        let sizes = [
            format!("{} keys", keys::count(&case.tree)),
            format!("{diagnostics} diagnostics"),
            format!("{size} listing bytes"),
            format!("statement level {}", shape::depth(&case.tree.statements)),
            format!("expression level {}", shape::expression_depth(&case.tree.statements)),
            format!("{} file bytes", case.bytes.len()),
        ];
        let limits = sizes.iter().filter(|size| LIMITS.contains(&size.as_str()));
        limits.for_each(|limit| self.add(limit, 1));
    }

    /// Prints the counts in a list; how many of them are 0.
    fn print(&self, title: &str, all: &[String]) -> usize {
        println!("{title}");
        let count = |what: &String| *self.0.get(what).unwrap_or(&0);
        for what in all {
            println!("{:8} {what}", count(what));
        }
        all.iter().filter(|what| count(what) == 0).count()
    }

    /// Prints all counts; whether everything occurred and nothing else did.
    pub fn report(&self) -> bool {
        let forms = formats::all();
        let refusals: Vec<String> = REFUSALS.iter().map(|n| format!("refused {n}")).collect();
        let limits = LIMITS.map(String::from);
        let judges = JUDGES.map(String::from);
        let mut missing = self.print("Messages, with their notes:", &forms);
        missing += self.print("Refusals:", &refusals);
        missing += self.print("Limits that are accepted:", &limits);
        missing += self.print("Judges:", &judges);
        let named = [&forms[..], &refusals[..], &limits[..], &judges[..]].concat();
        let others: Vec<String> =
            self.0.keys().filter(|what| !named.contains(what)).cloned().collect();
        let (kinds, strange) =
            others.into_iter().partition::<Vec<_>, _>(|what| what.starts_with("case "));
        self.print("Kinds of cases:", &kinds);
        self.print("Messages that are on no list:", &strange);
        println!("{} forms, {missing} did not occur, {} on no list", forms.len(), strange.len());
        missing + strange.len() == 0
    }
}
