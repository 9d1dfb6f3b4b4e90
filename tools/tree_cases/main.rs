//! Makes the cases for the reader of tree files, and their answers.

mod base;
mod cases;
mod counts;
mod fields;
mod levels;
mod make;
#[path = "../output.rs"]
mod output;
mod random;
mod reader;
mod selftest;
mod sizes;
mod texts;
mod tree;
mod writer;

use cases::{line, Case};

fn main() {
    let command = std::env::args().nth(1).unwrap_or_default();
    let cases = cases::all();
    let text = match command.as_str() {
        "input" => input(&cases),
        "expected" => expected(&cases).into_bytes(),
        "names" => names(&cases).into_bytes(),
        "count" => count(&cases).into_bytes(),
        "selftest" => std::process::exit(selftest::run(&cases)),
        _ => output::usage("usage: tree_cases input | expected | names | count | selftest"),
    };
    output::write("tree_cases", &text);
}

fn input(cases: &[Case]) -> Vec<u8> {
    cases.iter().flat_map(|case| output::measured(&case.bytes)).collect()
}

fn expected(cases: &[Case]) -> String {
    cases.iter().map(|case| line(&case.answer()) + "\n").collect()
}

/// The number is the line in `expected`, the first being 1.
fn names(cases: &[Case]) -> String {
    let numbered = cases.iter().enumerate();
    numbered.map(|(i, case)| format!("{} {}\n", i + 1, case.name)).collect()
}

fn count(cases: &[Case]) -> String {
    let mut counts = [0; 7];
    for case in cases {
        counts[case.answer().map_or_else(|refusal| refusal.number as usize, |_| 0)] += 1;
    }
    let mut text = format!("accepted {}\n", counts[0]);
    for number in 2..=6 {
        text += &format!("refused {number}: {}\n", counts[number]);
    }
    text + &format!("all {}\n", cases.len())
}
