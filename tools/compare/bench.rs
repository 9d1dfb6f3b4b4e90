//! How long the checker and sema.rs take on the same trees, in one run.

use crate::bench_trees::{self, Sized};
use crate::{ast, checker, convert, decode, oracle, sema};
use std::hint::black_box;
use std::time::Instant;

const ROUNDS: usize = 31;
/// A round repeats a call until it took so long.
const ROUND_NANOS: f64 = 400_000.0;

struct Times {
    name: &'static str,
    bytes: usize,
    ours: f64,
    /// `analyze` alone, from the decoded program.
    rust: f64,
    /// From the same bytes to the listing.
    rust_bytes: f64,
    /// Ours on the same file without its last byte: it is read, refused, and
    /// the scratch is cleared.
    refused: f64,
}

impl Times {
    fn ratio(&self) -> f64 {
        self.rust / self.ours
    }

    fn ratio_bytes(&self) -> f64 {
        self.rust_bytes / self.ours
    }
}

fn once(call: &mut dyn FnMut(), times: usize) -> f64 {
    let start = Instant::now();
    (0..times).for_each(|_| call());
    start.elapsed().as_nanos() as f64 / times as f64
}

fn median(mut values: Vec<f64>) -> f64 {
    values.sort_by(f64::total_cmp);
    values[values.len() / 2]
}

/// The median of the rounds of each call, taken in turns.
fn measure(calls: &mut [&mut dyn FnMut()]) -> Vec<f64> {
    let times: Vec<usize> =
        calls.iter_mut().map(|c| (ROUND_NANOS / once(*c, 2)).ceil() as usize).collect();
    let mut all = vec![vec![]; calls.len()];
    for _ in 0..ROUNDS {
        for (i, call) in calls.iter_mut().enumerate() {
            all[i].push(once(*call, times[i]));
        }
    }
    all.into_iter().map(median).collect()
}

/// Reading, with the refusals, `analyze` and the listing.
fn from_bytes(bytes: &[u8]) -> String {
    let program = decode::program(bytes).expect("an accepted file");
    oracle::listing(&oracle::by_rust(&program))
}

fn time(case: &Sized, scratch: &mut [u8], listing: &mut [u8]) -> Times {
    let program: ast::Program = convert::program(&case.tree);
    assert_eq!(format!("{program:?}"), format!("{:?}", decode::program(&case.bytes).unwrap()));
    let answer = checker::check(&case.bytes, scratch, listing);
    assert!(matches!(answer, checker::Answer::Accepted { .. }), "{}: {answer}", case.name);
    let cut = &case.bytes[..case.bytes.len() - 1];
    let mut again = (vec![0; 65_536], vec![0; 65_536]);
    let times = measure(&mut [
        &mut || _ = black_box(checker::check(black_box(&case.bytes), scratch, listing)),
        &mut || drop(black_box(sema::analyze(black_box(&program)))),
        &mut || drop(black_box(from_bytes(black_box(&case.bytes)))),
        &mut || _ = black_box(checker::check(black_box(cut), &mut again.0, &mut again.1)),
    ]);
    let bytes = case.bytes.len();
    let [ours, rust, rust_bytes, refused] = times[..] else { unreachable!() };
    Times { name: case.name, bytes, ours, rust, rust_bytes, refused }
}

fn line(name: &str, all: &[&Times]) {
    let of = |f: fn(&Times) -> f64| median(all.iter().map(|t| f(t)).collect());
    let worst = |f: fn(&Times) -> f64| all.iter().map(|t| f(t)).fold(f64::INFINITY, f64::min);
    println!(
        "| {name} | {} | {:.0} | {:.1} | {:.1} | {:.1} | {:.1} | {:.2} | {:.2} | {:.2} | {:.2} |",
        all.len(),
        of(|t| t.bytes as f64),
        of(|t| t.ours) / 1000.0,
        of(|t| t.refused) / 1000.0,
        of(|t| t.rust) / 1000.0,
        of(|t| t.rust_bytes) / 1000.0,
        of(Times::ratio),
        worst(Times::ratio),
        of(Times::ratio_bytes),
        worst(Times::ratio_bytes),
    );
}

/// The exit status.
pub fn run(seed: u64) -> i32 {
    let (mut scratch, mut listing) = (vec![0; 65_536], vec![0; 65_536]);
    let cases = bench_trees::all(seed);
    let times: Vec<Times> =
        cases.iter().map(|case| time(case, &mut scratch, &mut listing)).collect();
    println!(
        "| trees | count | bytes | ours, us | refused, us | analyze, us | from bytes, us \
         | ratio to analyze | worst | ratio from bytes | worst |"
    );
    println!("|---|---|---|---|---|---|---|---|---|---|---|");
    for name in bench_trees::NAMES {
        line(name, &times.iter().filter(|t| t.name == name).collect::<Vec<_>>());
    }
    line("1 KiB and more", &times.iter().filter(|t| t.bytes >= 1024).collect::<Vec<_>>());
    println!();
    let cleared = measure(&mut [&mut || black_box(&mut scratch).fill(0)]);
    println!("Clearing the scratch once: {:.2} us", cleared[0] / 1000.0);
    println!();
    println!("| bytes | ours, ns a byte | analyze, ns a byte |");
    println!("|---|---|---|");
    for case in bench_trees::growing(seed) {
        let t = time(&case, &mut scratch, &mut listing);
        let a_byte = |nanos: f64| nanos / t.bytes as f64;
        println!("| {} | {:.1} | {:.1} |", t.bytes, a_byte(t.ours), a_byte(t.rust));
    }
    0
}
