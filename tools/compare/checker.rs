//! The proved checker, from target/staticlib/libpuntsalak.a.

use std::fmt;

pub const SCRATCH_BYTES: usize = 65_536;

#[derive(Clone, Copy, PartialEq)]
pub enum Answer {
    Accepted { errors: u64, warnings: u64, size: u64 },
    Refused { number: u64, place: u64 },
}

impl fmt::Display for Answer {
    fn fmt(&self, f: &mut fmt::Formatter) -> fmt::Result {
        match self {
            Answer::Accepted { errors, warnings, size } => {
                write!(f, "accepted, {errors} errors, {warnings} warnings, {size} bytes")
            }
            Answer::Refused { number, place } => write!(f, "refused {number} {place}"),
        }
    }
}

extern "C" {
    fn puntsalak_check(
        tree: *const u8,
        tree_len: usize,
        scratch: *mut u8,
        scratch_len: usize,
        listing: *mut u8,
        listing_len: usize,
        answer: *mut [u64; 4],
    );
}

pub fn check(tree: &[u8], scratch: &mut [u8], listing: &mut [u8]) -> Answer {
    let mut answer = [u64::MAX; 4];
    // The three slices are apart, since two of them are borrowed alone, and the
    // function keeps no pointer.
    unsafe {
        puntsalak_check(
            tree.as_ptr(),
            tree.len(),
            scratch.as_mut_ptr(),
            scratch.len(),
            listing.as_mut_ptr(),
            listing.len(),
            &mut answer,
        );
    }
    match answer {
        [0, errors, warnings, size] => Answer::Accepted { errors, warnings, size },
        [number, place, _, _] => Answer::Refused { number, place },
    }
}
