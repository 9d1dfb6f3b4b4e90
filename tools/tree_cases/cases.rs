//! The cases: a name, the bytes, and the answer where it is known without the
//! reader.

use crate::reader::{self, Refusal};
use crate::{base, counts, fields, levels, random, sizes, texts};

pub type Answer = Result<(), Refusal>;

pub struct Case {
    pub name: String,
    pub bytes: Vec<u8>,
    /// The answer that the document gives, worked out by hand, if any.
    pub said: Option<Answer>,
}

impl Case {
    pub fn answer(&self) -> Answer {
        reader::read(&self.bytes)
    }
}

pub fn accepted(name: impl Into<String>, bytes: Vec<u8>) -> Case {
    Case { name: name.into(), bytes, said: Some(Ok(())) }
}

pub fn refused(name: impl Into<String>, bytes: Vec<u8>, number: u8, place: usize) -> Case {
    Case { name: name.into(), bytes, said: Some(Err(Refusal { number, place })) }
}

/// A case whose answer only the reader gives.
pub fn unsaid(name: impl Into<String>, bytes: Vec<u8>) -> Case {
    Case { name: name.into(), bytes, said: None }
}

/// The bytes with others from a place on.
pub fn replaced(bytes: &[u8], place: usize, by: &[u8]) -> Vec<u8> {
    let mut copy = bytes.to_vec();
    copy[place..place + by.len()].copy_from_slice(by);
    copy
}

/// The bytes with more bytes after them.
pub fn longer(bytes: &[u8], by: &[u8]) -> Vec<u8> {
    [bytes, by].concat()
}

pub fn all() -> Vec<Case> {
    let mut cases = sizes::cases();
    cases.extend(texts::cases());
    cases.extend(counts::cases());
    cases.extend(fields::cases());
    cases.extend(levels::cases());
    cases.extend(base::cases());
    cases.extend(random::cases());
    cases
}

/// The line of an answer, without its end.
pub fn line(answer: &Answer) -> String {
    match answer {
        Ok(()) => "accepted".to_string(),
        Err(refusal) => format!("refused {} {}", refusal.number, refusal.place),
    }
}
