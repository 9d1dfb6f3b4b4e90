//! The run: every case is given to the checker and compared.

use crate::brute;
use crate::buffers::{listing_length, Buffers, Wanted, SCRATCH_LENGTHS};
use crate::coverage::Counts;
use crate::generate::{case, Case};
use crate::{decode, oracle, reader};
use std::sync::atomic::{AtomicU64, Ordering};

/// Cases that a thread takes at once.
const BLOCK: u64 = 1_000;

#[derive(Default)]
struct Tally {
    counts: Counts,
    calls: u64,
    /// Trees whose paths were all walked, the paths, the paid lines.
    walked: u64,
    paths: u64,
    paid: u64,
    different: Vec<String>,
}

impl Tally {
    fn merge(&mut self, other: Tally) {
        self.counts.merge(&other.counts);
        self.calls += other.calls;
        self.walked += other.walked;
        self.paths += other.paths;
        self.paid += other.paid;
        self.different.extend(other.different);
    }

    /// Demand 3 of the listing that the last call left.
    fn walk(&mut self, case: &Case, listing: &[u8]) -> Result<(), String> {
        let Some((lines, paths)) = brute::lines(&case.tree) else { return Ok(()) };
        self.walked += 1;
        self.paths += paths as u64;
        self.paid += lines.len() as u64;
        if lines != brute::listed(listing) {
            return Err(format!("the paths give {} paid lines: {lines:?}", lines.len()));
        }
        Ok(())
    }

    /// A call with room for all, and one whose lengths take turns; or all.
    fn compare(
        &mut self,
        case: &Case,
        buffers: &mut Buffers,
        turns: &[usize],
    ) -> Result<(), String> {
        if reader::read(&case.bytes).err() != decode::program(&case.bytes).err() {
            return Err("decode.rs and reader.rs differ".to_string());
        }
        let verdict = oracle::verdict(&case.bytes, &case.tree);
        self.counts.add_case(case, &verdict);
        let wanted = Wanted::new(&verdict);
        let exact = wanted.listing.len();
        for turn in turns {
            let scratch = SCRATCH_LENGTHS[turn % SCRATCH_LENGTHS.len()];
            buffers.call(&case.bytes, &wanted, scratch, listing_length(*turn, exact))?;
        }
        buffers.call(&case.bytes, &wanted, 65_600, exact.max(65_536))?;
        self.calls += 1 + turns.len() as u64;
        if exact > 0 {
            self.walk(case, buffers.listed(exact))?;
        }
        Ok(())
    }
}

/// Two turns of the 28 pairs of lengths for each case, or all of them.
fn turns(number: u64, all: bool) -> Vec<usize> {
    if all {
        return (0..28).collect();
    }
    // The second has a scratch of 65,536 or 65,537.
    let number = number as usize;
    vec![number % 28, number * 2 % 28]
}

fn block(
    tally: &mut Tally,
    buffers: &mut Buffers,
    numbers: std::ops::Range<u64>,
    seed: u64,
    all: bool,
) {
    for number in numbers {
        let case = case(seed, number);
        if let Err(what) = tally.compare(&case, buffers, &turns(number, all)) {
            tally.different.push(format!("seed {seed}, case {number} ({}): {what}", case.kind));
        }
    }
}

/// The exit status: 0 if nothing differs and everything occurred.
pub fn run(cases: u64, seed: u64, threads: u64, all: bool) -> i32 {
    let next = AtomicU64::new(0);
    let work = || {
        let (mut tally, mut buffers) = (Tally::default(), Buffers::new());
        loop {
            let from = next.fetch_add(BLOCK, Ordering::Relaxed);
            if from >= cases {
                return tally;
            }
            block(&mut tally, &mut buffers, from..cases.min(from + BLOCK), seed, all);
        }
    };
    let mut tally = Tally::default();
    std::thread::scope(|scope| {
        let workers: Vec<_> = (0..threads).map(|_| scope.spawn(work)).collect();
        workers.into_iter().for_each(|w| tally.merge(w.join().expect("a thread ended early")));
    });
    let complete = tally.counts.report();
    tally.different.iter().take(20).for_each(|line| println!("{line}"));
    println!(
        "{} trees walked along {} paths, {} paid lines",
        tally.walked, tally.paths, tally.paid
    );
    println!("{cases} trees, {} calls, {} different", tally.calls, tally.different.len());
    (!complete || !tally.different.is_empty()) as i32
}
