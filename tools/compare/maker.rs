//! What random trees are made from: a few texts, so that names collide, and
//! spans that differ.

use crate::draws::Draws;
use crate::tree::*;

pub const TYPES: [ClassicalType; 5] = [
    ClassicalType::Int,
    ClassicalType::UInt,
    ClassicalType::Float,
    ClassicalType::Angle,
    ClassicalType::Bool,
];

const VARIABLES: [&str; 12] = ["q", "r", "s", "a", "b", "c", "d", "n", "t", "_w", "i", "Q"];
const GATES: [&str; 44] = [
    "u", "U", "gphase", "GPhase", "id", "ID", "x", "X", "y", "Y", "z", "Z", "h", "H", "s", "sdg",
    "Sdg", "t", "tdg", "TDG", "sx", "p", "P", "rx", "RX", "ry", "rz", "Rz", "cx", "CX", "cnot",
    "CNOT", "cy", "cz", "ch", "swap", "cp", "CP", "crx", "cry", "cRZ", "ccx", "CCX", "cswap",
];
const OWN_GATES: [&str; 6] = ["g", "G", "mine", "q", "cxx", "u3"];
const FUNCTIONS: [&str; 5] = ["f", "F", "half", "q", "h"];
const FLOATS: [&str; 4] = ["1.5", "0.0", "007.250", "123456789012345678901234567890.5"];
const PATHS: [&str; 3] = ["stdgates.inc", "a/b", "~"];
const LONG: &str = "a234567890123456789012345678901234567890123456789012345678901234";

pub struct Maker {
    pub draws: Draws,
    pub texts: Vec<Vec<u8>>,
    pub variables: Vec<Text>,
    pub gates: Vec<Text>,
    pub functions: Vec<Text>,
    pub floats: Vec<Text>,
    pub paths: Vec<Text>,
    /// Where the next span begins.
    pub at: u32,
}

impl Maker {
    pub fn new(draws: Draws) -> Maker {
        let mut maker = Maker {
            draws,
            texts: vec![],
            variables: vec![],
            gates: vec![],
            functions: vec![],
            floats: vec![],
            paths: vec![],
            at: 0,
        };
        let count = 4 + maker.draws.below(5);
        maker.variables = maker.some(&VARIABLES, count);
        if maker.draws.one_in(8) {
            let long = maker.text(LONG);
            maker.variables.push(long);
        }
        maker.gates = maker.some(&GATES, 5);
        let own = maker.some(&OWN_GATES, 2);
        maker.gates.extend(own);
        maker.functions = maker.some(&FUNCTIONS, 2);
        maker.floats = maker.some(&FLOATS, 2);
        maker.paths = maker.some(&PATHS, 1);
        maker
    }

    /// The number of a text, which is added if it is new.
    pub fn text(&mut self, text: &str) -> Text {
        let known = self.texts.iter().position(|t| t == text.as_bytes());
        known.unwrap_or_else(|| {
            self.texts.push(text.as_bytes().to_vec());
            self.texts.len() - 1
        }) as Text
    }

    fn some(&mut self, from: &[&str], count: usize) -> Vec<Text> {
        (0..count)
            .map(|_| {
                let text = self.draws.of(from);
                self.text(text)
            })
            .collect()
    }

    pub fn variable(&mut self) -> Text {
        // Now and then a name of another kind.
        if self.draws.one_in(40) {
            return self.draws.of(&self.gates);
        }
        self.draws.of(&self.variables)
    }

    /// Spans differ, so that a wrong one shows. Some are at the limits.
    pub fn span(&mut self) -> Span {
        self.at += 1 + self.draws.below(3) as u32;
        match self.draws.below(60) {
            0 => Span { start: u32::MAX, end: self.at },
            1 => Span { start: self.at, end: u32::MAX },
            2 => Span { start: self.at + 7, end: self.at },
            3 => Span { start: 0, end: 0 },
            _ => Span { start: self.at, end: self.at + 1 + self.draws.below(9) as u32 },
        }
    }

    pub fn ty(&mut self) -> ClassicalType {
        self.draws.of(&TYPES)
    }

    pub fn maybe<T>(&mut self, percent: usize, make: impl FnOnce(&mut Self) -> T) -> Option<T> {
        if self.draws.percent(percent) {
            Some(make(self))
        } else {
            None
        }
    }

    /// Up to `most` values, fewer rather than more.
    pub fn list<T>(&mut self, most: usize, mut make: impl FnMut(&mut Self) -> T) -> Vec<T> {
        let count = self.draws.below(most + 1).min(self.draws.below(most + 1));
        (0..count).map(|_| make(self)).collect()
    }

    pub fn many<T>(&mut self, count: usize, mut make: impl FnMut(&mut Self) -> T) -> Vec<T> {
        (0..count).map(|_| make(self)).collect()
    }

    pub fn size(&mut self) -> Option<u64> {
        match self.draws.below(30) {
            0..=7 => None,
            8 => Some(0),
            9 => Some(self.draws.of(&[20, 100, 1_000_000, 1_000_001, u64::MAX])),
            _ => Some(1 + self.draws.below(5) as u64),
        }
    }

    pub fn index(&mut self) -> u64 {
        match self.draws.below(40) {
            0 => u64::MAX,
            1 => self.draws.next(),
            2 => self.draws.of(&[9, 10, 99, 100, 999_999, 1_000_000]),
            _ => self.draws.below(5) as u64,
        }
    }

    fn slice(&mut self) -> (u64, u64) {
        let (a, b) = (self.draws.below(5) as u64, self.draws.below(5) as u64);
        match self.draws.below(40) {
            0 => (u64::MAX - a, u64::MAX),
            1 => (u64::MAX, a),
            2 => (a, 30),
            3 => (b, a),
            _ => (a.min(b), a.max(b)),
        }
    }

    /// A slice of any length, for trees that sema.rs cannot be given.
    fn long_slice(&mut self) -> (u64, u64) {
        let (a, b) = (self.draws.below(5) as u64, self.draws.below(3) as u64);
        match self.draws.below(5) {
            0 => (0, u64::MAX),
            1 => (0, u64::MAX - 1),
            2 => (a, 1_000_000 + a - b),
            _ => (a, u64::MAX - b),
        }
    }

    pub fn operand(&mut self) -> GateOperand {
        let name = self.variable();
        let (mut index, mut slice) = (None, None);
        let case = self.draws.below(20);
        if case < 7 || case == 19 {
            index = Some(self.index());
        }
        if (7..11).contains(&case) || case == 19 {
            slice = Some(self.slice());
        }
        GateOperand { name, index, slice, span: self.span() }
    }

    pub fn long_operand(&mut self) -> GateOperand {
        let mut operand = self.operand();
        if self.draws.one_in(2) {
            operand.slice = Some(self.long_slice());
        }
        operand
    }
}
