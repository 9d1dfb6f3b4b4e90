//! One call of the checker with buffers of a pattern: its answer, what it
//! wrote, and that it wrote nothing else.

use crate::checker::{check, Answer, SCRATCH_BYTES};
use crate::oracle::{self, Verdict};

/// Bytes before and after a lent buffer.
const GUARD: usize = 64;
const MOST: usize = 131_072;

/// What document 01 says of a tree when its buffers are large enough.
pub struct Wanted {
    pub answer: Answer,
    pub listing: Vec<u8>,
}

impl Wanted {
    pub fn new(verdict: &Verdict) -> Wanted {
        match verdict {
            Verdict::Refused(number, place) => Wanted {
                answer: Answer::Refused { number: *number as u64, place: *place as u64 },
                listing: vec![],
            },
            Verdict::Listed(diagnostics, _) => {
                let errors = diagnostics.iter().filter(|d| d.error).count() as u64;
                let warnings = diagnostics.len() as u64 - errors;
                let listing = oracle::listing(diagnostics).into_bytes();
                let size = listing.len() as u64;
                Wanted { answer: Answer::Accepted { errors, warnings, size }, listing }
            }
        }
    }

    /// The answer with buffers of these lengths: 1 goes before all, 9 comes last.
    pub fn with(&self, scratch: usize, listing: usize) -> Answer {
        if scratch < SCRATCH_BYTES {
            return Answer::Refused { number: 1, place: 0 };
        }
        if listing < self.listing.len() {
            return Answer::Refused { number: 9, place: 0 };
        }
        self.answer
    }
}

/// Lengths of listing buffers, of which `turn` picks one.
pub const LISTING_LENGTHS: usize = 7;
pub const SCRATCH_LENGTHS: [usize; 4] = [65_536, 65_535, 65_537, 0];

pub fn listing_length(turn: usize, exact: usize) -> usize {
    [exact, exact.saturating_sub(1), exact + 1, 0, 65_535, 65_536, 65_537][turn % LISTING_LENGTHS]
}

pub struct Buffers {
    pattern: Vec<u8>,
    zeros: Vec<u8>,
    scratch: Vec<u8>,
    listing: Vec<u8>,
}

impl Buffers {
    pub fn new() -> Buffers {
        let mut draws = crate::draws::Draws::new(1, 1);
        // No byte is 0, so that one that is cleared shows.
        let pattern: Vec<u8> = (0..MOST).map(|_| 1 + draws.below(255) as u8).collect();
        let zeros = vec![0; SCRATCH_BYTES];
        Buffers { scratch: pattern.clone(), listing: pattern.clone(), zeros, pattern }
    }

    /// The listing of the last call.
    pub fn listed(&self, size: usize) -> &[u8] {
        &self.listing[GUARD..GUARD + size]
    }

    /// What is wrong with a call, if anything is.
    pub fn call(
        &mut self,
        tree: &[u8],
        wanted: &Wanted,
        scratch: usize,
        listing: usize,
    ) -> Result<(), String> {
        let (scratch_end, listing_end) = (GUARD + scratch, GUARD + listing);
        let used = scratch_end.max(listing_end) + GUARD;
        self.scratch[..used].copy_from_slice(&self.pattern[..used]);
        self.listing[..used].copy_from_slice(&self.pattern[..used]);
        let answer = check(
            tree,
            &mut self.scratch[GUARD..scratch_end],
            &mut self.listing[GUARD..listing_end],
        );
        let expected = wanted.with(scratch, listing);
        let at = format!("scratch {scratch}, listing {listing}");
        if answer != expected {
            return Err(format!("{at}: {answer}, expected {expected}"));
        }
        let cleared = if scratch < SCRATCH_BYTES { 0 } else { SCRATCH_BYTES };
        let written = match answer {
            Answer::Accepted { .. } => wanted.listing.len(),
            Answer::Refused { .. } => 0,
        };
        if self.listing[GUARD..GUARD + written] != wanted.listing[..written] {
            return Err(format!("{at}: the listing differs"));
        }
        if !self.kept(&self.listing, written, used) {
            return Err(format!("{at}: the listing buffer has other bytes changed"));
        }
        if self.scratch[GUARD..GUARD + cleared] != self.zeros[..cleared] {
            return Err(format!("{at}: the scratch is not cleared"));
        }
        if !self.kept(&self.scratch, cleared, used) {
            return Err(format!("{at}: the scratch has other bytes changed"));
        }
        Ok(())
    }

    /// Before the lent buffer, and after so many of its bytes, nothing changed.
    fn kept(&self, buffer: &[u8], changed: usize, used: usize) -> bool {
        let after = GUARD + changed;
        buffer[..GUARD] == self.pattern[..GUARD] && buffer[after..used] == self.pattern[after..used]
    }
}
