//! Small random trees that are valid as made, and damaged copies of them. The
//! seed is fixed, so that every run makes the same.

use crate::cases::{accepted, unsaid, Case};
use crate::tree::*;
use crate::writer::{Mark, Role, Writer};

const SEED: u64 = 0x9E37_79B9_7F4A_7C15;
const TREES: usize = 150;
const DAMAGED_COPIES: usize = 5;

pub fn cases() -> Vec<Case> {
    let mut draws = Draws(SEED);
    let mut cases = vec![];
    for number in 0..TREES {
        let written = Writer::tree(&Maker::tree(&mut draws));
        cases.push(accepted(format!("random {number}"), written.bytes.clone()));
        for copy in 0..DAMAGED_COPIES {
            let (what, bytes) = damaged(&mut draws, &written, copy);
            cases.push(unsaid(format!("random {number}, copy {copy} {what}"), bytes));
        }
    }
    cases
}

/// Random numbers by shifts and exclusive or.
struct Draws(u64);

impl Draws {
    fn next(&mut self) -> u64 {
        self.0 ^= self.0 << 13;
        self.0 ^= self.0 >> 7;
        self.0 ^= self.0 << 17;
        self.0
    }

    fn below(&mut self, limit: usize) -> usize {
        (self.next() >> 11) as usize % limit
    }

    fn one_in(&mut self, chances: usize) -> bool {
        self.below(chances) == 0
    }

    fn of<T: Copy>(&mut self, items: &[T]) -> T {
        items[self.below(items.len())]
    }

    fn whole(&mut self) -> u64 {
        match self.below(4) {
            0 => self.next(),
            1 => u64::MAX,
            _ => self.below(20) as u64,
        }
    }

    fn span(&mut self) -> Span {
        if self.one_in(8) {
            return Span { start: self.next() as u32, end: self.next() as u32 };
        }
        let start = self.below(90) as u32;
        Span { start, end: start + self.below(30) as u32 }
    }
}

/// Makes one tree. Sizes and slices stay small.
struct Maker<'a> {
    draws: &'a mut Draws,
    names: Vec<Text>,
    floats: Vec<Text>,
    texts: Vec<Vec<u8>>,
}

const TYPES: [ClassicalType; 5] = [
    ClassicalType::Int,
    ClassicalType::UInt,
    ClassicalType::Float,
    ClassicalType::Angle,
    ClassicalType::Bool,
];
const QUALIFIERS: [ClassicalQualifier; 3] =
    [ClassicalQualifier::Const, ClassicalQualifier::Input, ClassicalQualifier::Output];
const ASSIGN_OPS: [AssignOp; 3] = [AssignOp::Assign, AssignOp::AddAssign, AssignOp::SubAssign];
const BIN_OPS: [BinOp; 5] = [BinOp::Add, BinOp::Sub, BinOp::Mul, BinOp::Div, BinOp::Pow];
const COMPARE_OPS: [CompareOp; 6] =
    [CompareOp::Eq, CompareOp::Ne, CompareOp::Lt, CompareOp::Le, CompareOp::Gt, CompareOp::Ge];
const CONSTANTS: [ConstKind; 3] = [ConstKind::Pi, ConstKind::Tau, ConstKind::Euler];
const LETTERS: &[u8] = b"abcxyzABCXYZ_";
const DIGITS: &[u8] = b"0123456789";

impl Maker<'_> {
    fn tree(draws: &mut Draws) -> Tree {
        let mut maker = Maker { draws, names: vec![], floats: vec![], texts: vec![] };
        maker.make_texts();
        let count = 1 + maker.draws.below(3);
        let statements = (0..count).map(|_| maker.statement(2)).collect();
        Tree { texts: maker.texts, statements }
    }

    /// At least one name and one float, all texts different.
    fn make_texts(&mut self) {
        let count = 2 + self.draws.below(4);
        while self.names.is_empty() || self.floats.is_empty() || self.texts.len() < count {
            let kind = self.draws.below(4);
            let text = match kind {
                0 => self.float_text(),
                1 => self.any_text(),
                _ => self.name_text(),
            };
            if self.texts.contains(&text) {
                continue;
            }
            match kind {
                0 => self.floats.push(self.texts.len() as Text),
                1 => (),
                _ => self.names.push(self.texts.len() as Text),
            }
            self.texts.push(text);
        }
    }

    fn any_text(&mut self) -> Vec<u8> {
        let length = 1 + self.draws.below(4);
        (0..length).map(|_| 33 + self.draws.below(94) as u8).collect()
    }

    fn name_text(&mut self) -> Vec<u8> {
        let more = self.draws.below(4);
        let mut text = vec![self.draws.of(LETTERS)];
        for _ in 0..more {
            let from = if self.draws.one_in(3) { DIGITS } else { LETTERS };
            text.push(self.draws.of(from));
        }
        text
    }

    fn float_text(&mut self) -> Vec<u8> {
        let (before, after) = (1 + self.draws.below(3), 1 + self.draws.below(3));
        let mut text: Vec<u8> = (0..before).map(|_| self.draws.of(DIGITS)).collect();
        text.push(b'.');
        text.extend((0..after).map(|_| self.draws.of(DIGITS)));
        text
    }

    fn name(&mut self) -> Text {
        self.draws.of(&self.names)
    }

    fn size(&mut self) -> Option<u64> {
        if self.draws.one_in(2) {
            None
        } else {
            Some(self.draws.below(9) as u64)
        }
    }

    /// Up to `most` values, fewer rather than more.
    fn list<T>(&mut self, most: usize, mut make: impl FnMut(&mut Self) -> T) -> Vec<T> {
        let count = self.draws.below(most + 1).min(self.draws.below(most + 1));
        (0..count).map(|_| make(self)).collect()
    }

    fn maybe<T>(&mut self, make: impl FnOnce(&mut Self) -> T) -> Option<T> {
        if self.draws.one_in(2) {
            Some(make(self))
        } else {
            None
        }
    }

    fn operand(&mut self) -> GateOperand {
        let name = self.name();
        let index = self.maybe(|m| m.draws.whole());
        let slice = if self.draws.one_in(4) {
            Some((self.draws.below(9) as u64, self.draws.below(9) as u64))
        } else {
            None
        };
        GateOperand { name, index, slice, span: self.draws.span() }
    }

    fn modifier(&mut self) -> GateModifier {
        let case = self.draws.below(4);
        match case {
            0 => GateModifier::Ctrl(self.maybe(|m| m.expr(1)), self.draws.span()),
            1 => GateModifier::NegCtrl(self.maybe(|m| m.expr(1)), self.draws.span()),
            2 => GateModifier::Inv(self.draws.span()),
            _ => GateModifier::Pow(self.expr(1), self.draws.span()),
        }
    }

    /// An expression of at most `depth` levels below the first.
    fn expr(&mut self, depth: usize) -> Expr {
        let span = self.draws.span();
        let case = if depth == 0 { self.draws.below(6) } else { self.draws.below(10) };
        let part = |m: &mut Self| Box::new(m.expr(depth - 1));
        match case {
            0 => Expr::IntLit(self.draws.whole(), span),
            1 => Expr::FloatLit(self.draws.of(&self.floats), span),
            2 => Expr::BoolLit(self.draws.one_in(2), span),
            3 => Expr::Ident(self.name(), span),
            4 => Expr::Index { name: self.name(), index: self.draws.whole(), span },
            5 => Expr::Const(self.draws.of(&CONSTANTS), span),
            6 => Expr::Neg(part(self), span),
            7 => {
                let args = self.list(3, |m| m.expr(depth - 1));
                Expr::Call { name: self.name(), args, span }
            }
            8 => {
                let op = self.draws.of(&BIN_OPS);
                Expr::BinOp { op, lhs: part(self), rhs: part(self), span }
            }
            _ => {
                let op = self.draws.of(&COMPARE_OPS);
                Expr::Compare { op, lhs: part(self), rhs: part(self), span }
            }
        }
    }

    fn body(&mut self, depth: usize) -> Vec<Stmt> {
        if depth == 0 {
            return vec![];
        }
        self.list(2, |m| m.statement(depth - 1))
    }

    /// A statement with at most `depth` levels of bodies below it.
    fn statement(&mut self, depth: usize) -> Stmt {
        let span = self.draws.span();
        let name = self.name();
        match self.draws.below(15) {
            0 => Stmt::Include { path: self.draws.below(self.texts.len()) as Text, span },
            1 => Stmt::QubitDecl { name, size: self.size(), span },
            2 => Stmt::BitDecl { name, size: self.size(), span },
            3 => {
                let qualifier = self.maybe(|m| m.draws.of(&QUALIFIERS));
                let ty = self.draws.of(&TYPES);
                Stmt::ClassicalDecl { qualifier, ty, name, init: self.maybe(|m| m.expr(2)), span }
            }
            4 => {
                let op = self.draws.of(&ASSIGN_OPS);
                Stmt::Assignment { name, op, value: self.expr(3), span }
            }
            5 => {
                let modifiers = self.list(3, Self::modifier);
                let params = self.list(2, |m| m.expr(1));
                Stmt::GateCall { name, modifiers, params, args: self.list(3, Self::operand), span }
            }
            6 => {
                let target = self.maybe(Self::operand);
                Stmt::Measure { qubit: self.operand(), target, span }
            }
            7 => Stmt::Reset { target: self.operand(), span },
            8 => Stmt::Barrier { targets: self.list(3, Self::operand), span },
            9 => {
                let targets = self.list(2, Self::operand);
                Stmt::Delay { duration: self.expr(1), targets, span }
            }
            case => self.longer_statement(case, name, depth, span),
        }
    }

    /// Definitions and statements with bodies.
    fn longer_statement(&mut self, case: usize, name: Text, depth: usize, span: Span) -> Stmt {
        match case {
            10 => {
                let (params, qparams) = (self.list(3, Self::name), self.list(3, Self::name));
                Stmt::GateDef { name, params, qparams, body: self.body(depth), span }
            }
            11 => {
                let params = self.list(3, |m| (m.draws.of(&TYPES), m.name()));
                let return_type = self.draws.of(&TYPES);
                Stmt::FunctionDef { name, params, return_type, body: self.expr(2), span }
            }
            12 => {
                let (condition, then_body) = (self.expr(1), self.body(depth));
                let else_body = self.maybe(|m| m.body(depth));
                Stmt::If { condition, then_body, else_body, span }
            }
            13 => {
                let (start, end) = (self.expr(1), self.expr(1));
                let range = ForRange { start, end, step: self.maybe(|m| m.expr(1)) };
                let var_ty = self.draws.of(&TYPES);
                Stmt::For { var_name: name, var_ty, range, body: self.body(depth), span }
            }
            _ => Stmt::While { condition: self.expr(1), body: self.body(depth), span },
        }
    }
}

/// Copies 0 to 2 have one byte changed, 3 has bytes removed, 4 has bytes more.
fn damaged(draws: &mut Draws, written: &Writer, copy: usize) -> (String, Vec<u8>) {
    let mut bytes = written.bytes.clone();
    let place = damaged_place(draws, written);
    let count = 1 + draws.below(4);
    match copy {
        3 => {
            let end = (place + count).min(bytes.len());
            bytes.drain(place..end);
            (format!("less {} at {place}", end - place), bytes)
        }
        4 => {
            let more: Vec<u8> = (0..count).map(|_| draws.of(&[0, 1, 2, 33, 255])).collect();
            bytes.splice(place..place, more);
            (format!("more {count} at {place}"), bytes)
        }
        _ => {
            let old = bytes[place];
            let any = draws.next() as u8;
            let values = [0, 1, 2, old.wrapping_add(1), old.wrapping_sub(1), 16, 17, 255, any];
            while bytes[place] == old {
                bytes[place] = draws.of(&values);
            }
            (format!("with {} at {place}", bytes[place]), bytes)
        }
    }
}

/// Mostly the beginning of a field that can be wrong.
fn damaged_place(draws: &mut Draws, written: &Writer) -> usize {
    if draws.one_in(4) {
        return draws.below(written.bytes.len());
    }
    let free = |mark: &&Mark| mark.role != Role::Number;
    let places: Vec<usize> = written.marks.iter().filter(free).map(|m| m.place).collect();
    draws.of(&places)
}
