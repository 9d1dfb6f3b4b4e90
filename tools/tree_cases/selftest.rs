//! Checks the cases and the reader against each other.

use crate::base::base_tree;
use crate::cases::{line, Case};
use crate::writer::Role;
use std::collections::{BTreeMap, BTreeSet};

const MOST_CASES: usize = 3_000;
const MOST_INPUT_BYTES: usize = 2 * 1024 * 1024;

/// 0 if all is well, else 1. Prints what is not.
pub fn run(cases: &[Case]) -> i32 {
    let mut faults = answers(cases);
    faults.extend(every_answer_occurs(cases));
    faults.extend(base_is_complete());
    faults.extend(sizes(cases));
    for fault in &faults {
        println!("{fault}");
    }
    let said = cases.iter().filter(|case| case.said.is_some()).count();
    println!("{} cases, {} with an answer by hand, {} faults", cases.len(), said, faults.len());
    if faults.is_empty() {
        0
    } else {
        1
    }
}

/// Where an answer was worked out by hand, the reader gives the same.
fn answers(cases: &[Case]) -> Vec<String> {
    let mut faults = vec![];
    for case in cases {
        let answer = case.answer();
        match &case.said {
            Some(said) if *said != answer => faults.push(format!(
                "{}: by hand {}, the reader {}",
                case.name,
                line(said),
                line(&answer)
            )),
            _ => (),
        }
    }
    faults
}

/// Counted among the answers by hand.
fn every_answer_occurs(cases: &[Case]) -> Vec<String> {
    let number = |case: &Case| match case.said {
        Some(Ok(())) => Some(0),
        Some(Err(refusal)) => Some(refusal.number),
        None => None,
    };
    let seen: BTreeSet<u8> = cases.iter().filter_map(number).collect();
    let missing = [0, 2, 3, 4, 5, 6].iter().filter(|n| !seen.contains(n));
    missing.map(|n| format!("no case with answer {n}")).collect()
}

/// The base tree has each statement, expression and modifier, and each Bool
/// and Option as 0 and as 1.
fn base_is_complete() -> Vec<String> {
    let base = base_tree();
    let mut seen: BTreeMap<&str, BTreeSet<u8>> = BTreeMap::new();
    let mut wanted: BTreeMap<&str, u8> = BTreeMap::new();
    for mark in &base.marks {
        let (of, cases) = match mark.role {
            Role::Case(of, cases) => (of, cases),
            Role::Flag(of) => (of, 2),
            _ => continue,
        };
        seen.entry(of).or_default().insert(base.bytes[mark.place]);
        wanted.insert(of, cases);
    }
    let mut faults = vec![];
    for plain in ["type", "qualifier kind", "assign", "binary", "compare", "constant"] {
        if wanted.remove(plain).is_none() {
            faults.push(format!("base without {plain}"));
        }
    }
    // Statement, expression, modifier; then twelve flags.
    if wanted.len() != 3 + 12 {
        faults.push(format!("base with {} kinds of case bytes", wanted.len()));
    }
    for (of, cases) in wanted {
        if seen[of].len() != cases as usize {
            faults.push(format!("base has not every {of}"));
        }
    }
    faults
}

fn sizes(cases: &[Case]) -> Vec<String> {
    let mut faults = vec![];
    let bytes: usize = cases.iter().map(|case| 4 + case.bytes.len()).sum();
    if cases.len() > MOST_CASES || bytes > MOST_INPUT_BYTES {
        faults.push(format!("{} cases of {bytes} bytes", cases.len()));
    }
    let names: BTreeSet<&str> = cases.iter().map(|case| case.name.as_str()).collect();
    if names.len() != cases.len() {
        faults.push(format!("{} names for {} cases", names.len(), cases.len()));
    }
    faults
}
