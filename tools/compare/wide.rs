//! What sema_wide.rs has in place of five lines of sema.rs.

use std::collections::HashMap;

/// Slices with more indices are not given to sema.rs.
pub const LONGEST_SLICE: u64 = 1_000_000;

/// The indices that a loop from `start` to `end` visits: of a long slice only
/// the first and those that have a mark. The whole key covers the first.
pub fn indices<V>(start: u64, end: u64, marks: &HashMap<(String, Option<u64>), V>) -> Vec<u64> {
    if !is_long(start, end) {
        return (start..=end).collect();
    }
    let marked = marks.keys().filter_map(|(_, index)| *index);
    let mut all: Vec<u64> = marked.filter(|i| start <= *i && *i <= end).collect();
    all.push(start);
    all.sort();
    all.dedup();
    all
}

pub fn is_long(start: u64, end: u64) -> bool {
    start <= end && end - start >= LONGEST_SLICE
}

pub fn sum(qubits: usize, controls: usize) -> u128 {
    qubits as u128 + controls as u128
}
