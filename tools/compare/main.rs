//! Makes trees, gives them to the checker and to sema.rs, and compares.

#[path = "../output.rs"]
mod output;
#[path = "../qasm.rs"]
mod qasm;
#[path = "../../target/qasm/sema_wide.rs"]
#[allow(dead_code)]
mod sema_wide;

mod bench;
mod bench_trees;
mod brute;
mod buffers;
mod checker;
mod convert;
mod coverage;
mod decode;
mod draws;
mod edges;
mod exprs;
mod formats;
mod generate;
mod keys;
mod known;
mod maker;
mod oracle;
mod run;
mod shape;
mod show;
mod statements;
mod tables;
mod values;
mod wide;

use output::measured;
use qasm::{ast, reader, sema, span, tree, writer};

const USAGE: &str = "usage: compare run N SEED [THREADS], every N SEED, show SEED NUMBER, bench SEED,
       cases | expected N SEED [FILE ..]";

fn main() {
    let words: Vec<String> = std::env::args().skip(1).collect();
    let numbers: Vec<u64> = words.iter().skip(1).filter_map(|word| word.parse().ok()).collect();
    let files = words.get(3..).unwrap_or(&[]);
    let bytes = match (words.first().map(String::as_str), &numbers[..]) {
        (Some("run"), [cases, seed]) => ended(run::run(*cases, *seed, 1, false)),
        (Some("run"), [cases, seed, threads]) => ended(run::run(*cases, *seed, *threads, false)),
        (Some("every"), [cases, seed]) => ended(run::run(*cases, *seed, 1, true)),
        (Some("bench"), [seed]) => ended(bench::run(*seed)),
        (Some("cases"), [cases, seed]) => {
            listed(files, *cases, *seed).iter().flat_map(|case| measured(&case.bytes)).collect()
        }
        (Some("expected"), [cases, seed]) => {
            listed(files, *cases, *seed).iter().flat_map(printed).collect()
        }
        (Some("show"), [seed, number]) => shown(*seed, *number),
        _ => output::usage(USAGE),
    };
    output::write("compare", &bytes);
}

fn ended(status: i32) -> ! {
    std::process::exit(status)
}

/// The trees of the files, then the cases of a seed.
fn listed(files: &[String], cases: u64, seed: u64) -> Vec<generate::Case> {
    let of_file = |name: &String| {
        let bytes = std::fs::read(name).unwrap_or_else(|error| panic!("{name}: {error}"));
        generate::Case { kind: "file", tree: decode::tree(&bytes), bytes }
    };
    let generated = (0..cases).map(|number| generate::case(seed, number));
    files.iter().map(of_file).chain(generated).collect()
}

fn printed(case: &generate::Case) -> Vec<u8> {
    oracle::printed(&oracle::verdict(&case.bytes, &case.tree))
}

/// The kind of a case, its program as it was before any damage, its answer.
fn shown(seed: u64, number: u64) -> Vec<u8> {
    let case = generate::case(seed, number);
    let head = format!("{}, {} bytes\n{}", case.kind, case.bytes.len(), show::program(&case.tree));
    [head.into_bytes(), printed(&case)].concat()
}
