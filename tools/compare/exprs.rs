//! Random expressions: of a wanted type or of any, constant values near the
//! limits, and as deep as allowed.

use crate::maker::Maker;
use crate::tree::*;

pub const BIN_OPS: [BinOp; 5] = [BinOp::Add, BinOp::Sub, BinOp::Mul, BinOp::Div, BinOp::Pow];
pub const COMPARE_OPS: [CompareOp; 6] =
    [CompareOp::Eq, CompareOp::Ne, CompareOp::Lt, CompareOp::Le, CompareOp::Gt, CompareOp::Ge];
pub const CONSTANTS: [ConstKind; 3] = [ConstKind::Pi, ConstKind::Tau, ConstKind::Euler];
pub const EXPRESSION_LEVELS: usize = 32;

impl Maker {
    pub fn int(&mut self, value: u64) -> Expr {
        Expr::IntLit(value, self.span())
    }

    pub fn neg(&mut self, part: Expr) -> Expr {
        Expr::Neg(Box::new(part), self.span())
    }

    pub fn binary(&mut self, op: BinOp, lhs: Expr, rhs: Expr) -> Expr {
        Expr::BinOp { op, lhs: Box::new(lhs), rhs: Box::new(rhs), span: self.span() }
    }

    fn compare(&mut self, lhs: Expr, rhs: Expr) -> Expr {
        let op = self.draws.of(&COMPARE_OPS);
        Expr::Compare { op, lhs: Box::new(lhs), rhs: Box::new(rhs), span: self.span() }
    }

    fn call(&mut self, depth: usize) -> Expr {
        let name =
            if self.draws.one_in(12) { self.variable() } else { self.draws.of(&self.functions) };
        let count = self.draws.of(&[0, 1, 1, 2, 2, 2, 3]);
        let args = self.many(count, |m| m.expr(depth - 1));
        Expr::Call { name, args, span: self.span() }
    }

    fn leaf(&mut self) -> Expr {
        let span = self.span();
        match self.draws.below(12) {
            0..=1 => Expr::IntLit(self.draws.below(9) as u64, span),
            2 => Expr::FloatLit(self.draws.of(&self.floats), span),
            3 => Expr::BoolLit(self.draws.one_in(2), span),
            4 => Expr::Const(self.draws.of(&CONSTANTS), span),
            5..=6 => Expr::Index { name: self.variable(), index: self.index(), span },
            _ => Expr::Ident(self.variable(), span),
        }
    }

    /// An expression of at most `depth` levels below the first.
    pub fn expr(&mut self, depth: usize) -> Expr {
        if depth == 0 || self.draws.one_in(2) {
            return self.leaf();
        }
        match self.draws.below(8) {
            0 => {
                let part = self.expr(depth - 1);
                self.neg(part)
            }
            1..=3 => {
                let (lhs, rhs) = (self.expr(depth - 1), self.expr(depth - 1));
                let op = self.draws.of(&BIN_OPS);
                self.binary(op, lhs, rhs)
            }
            4 => {
                let (lhs, rhs) = (self.expr(depth - 1), self.expr(depth - 1));
                self.compare(lhs, rhs)
            }
            _ => self.call(depth),
        }
    }

    /// Mostly of the type wanted.
    pub fn typed(&mut self, ty: ClassicalType) -> Expr {
        if self.draws.one_in(3) {
            return self.expr(2);
        }
        let span = self.span();
        match ty {
            ClassicalType::Bool if self.draws.one_in(2) => Expr::BoolLit(true, span),
            ClassicalType::Bool => {
                let (lhs, rhs) = (self.expr(1), self.int(2));
                self.compare(lhs, rhs)
            }
            ClassicalType::Float | ClassicalType::Angle => {
                Expr::FloatLit(self.draws.of(&self.floats), span)
            }
            _ => Expr::IntLit(self.draws.below(9) as u64, span),
        }
    }

    /// 2 to a power, and a little more or less, with either sign.
    fn near_power(&mut self) -> Expr {
        let exponent = self.draws.of(&[0, 1, 2, 31, 32, 62, 63, 64, 65, 125, 126, 127, 128]);
        let two = self.int(2);
        let base = if self.draws.one_in(4) { self.neg(two) } else { two };
        let power = self.int(exponent);
        let mut value = self.binary(BinOp::Pow, base, power);
        if self.draws.one_in(2) {
            let little = self.little();
            let op = self.draws.of(&[BinOp::Add, BinOp::Sub]);
            value = self.binary(op, value, little);
        }
        if self.draws.one_in(4) {
            value = self.neg(value);
        }
        value
    }

    fn little(&mut self) -> Expr {
        let value = self.draws.below(4) as u64;
        self.int(value)
    }

    /// The least value, or the largest: -(least + 1).
    pub fn limit(&mut self, least: bool) -> Expr {
        let (two, power) = (self.int(2), self.int(127));
        if least {
            let base = self.neg(two);
            return self.binary(BinOp::Pow, base, power);
        }
        let below = self.limit(true);
        let one = self.int(1);
        let sum = self.binary(BinOp::Add, below, one);
        self.neg(sum)
    }

    fn wide_value(&mut self) -> Expr {
        match self.draws.below(8) {
            0 => self.limit(true),
            1 => self.limit(false),
            2 => self.int(u64::MAX),
            3 => {
                let value = self.draws.next() >> self.draws.below(64);
                self.int(value)
            }
            4 => self.little(),
            _ => self.near_power(),
        }
    }

    /// A control count: small, near a limit, or none.
    pub fn count(&mut self) -> Expr {
        match self.draws.below(12) {
            0..=2 => self.little(),
            3 => self.expr(2),
            4 => self.near_power(),
            5 => self.power(),
            6 => self.quotient(),
            _ => {
                let (lhs, rhs) = (self.wide_value(), self.wide_value());
                let op =
                    self.draws.of(&[BinOp::Div, BinOp::Div, BinOp::Sub, BinOp::Add, BinOp::Mul]);
                let value = self.binary(op, lhs, rhs);
                if self.draws.one_in(2) {
                    return value;
                }
                let last = self.wide_value();
                let op = self.draws.of(&[BinOp::Div, BinOp::Sub, BinOp::Add, BinOp::Mul]);
                self.binary(op, value, last)
            }
        }
    }

    /// A quotient of small numbers with either sign, and a little more.
    fn quotient(&mut self) -> Expr {
        let (a, b) = (self.draws.below(20) as u64, self.draws.below(5) as u64);
        let (mut lhs, mut rhs) = (self.int(a), self.int(b));
        if self.draws.one_in(2) {
            lhs = self.neg(lhs);
        }
        if self.draws.one_in(2) {
            rhs = self.neg(rhs);
        }
        let value = self.binary(BinOp::Div, lhs, rhs);
        let more = self.draws.below(9) as u64;
        let more = self.int(more);
        self.binary(BinOp::Add, value, more)
    }

    /// Powers of small numbers with exponents at their limits.
    fn power(&mut self) -> Expr {
        let base = self.draws.of(&[0, 1, 2, 3, 7, 10, 15, 4294967296]);
        let base = self.int(base);
        let base = if self.draws.one_in(3) { self.neg(base) } else { base };
        let exponent = self.draws.of(&[0, 1, 2, 3, 15, 19, 20, 80, 4294967295, 4294967296]);
        let exponent = self.int(exponent);
        let exponent = if self.draws.one_in(9) { self.neg(exponent) } else { exponent };
        self.binary(BinOp::Pow, base, exponent)
    }

    /// An expression of exactly so many levels.
    pub fn deep(&mut self, levels: usize) -> Expr {
        if levels == 1 {
            return self.int(1);
        }
        let part = self.deep(levels - 1);
        match self.draws.below(6) {
            0..=1 => self.neg(part),
            2 => {
                let one = self.int(1);
                self.binary(BinOp::Mul, part, one)
            }
            3 => {
                let leaf = self.leaf();
                self.binary(BinOp::Add, leaf, part)
            }
            4 => {
                let leaf = self.leaf();
                self.compare(leaf, part)
            }
            _ => {
                let name = self.draws.of(&self.functions);
                Expr::Call { name, args: vec![part], span: self.span() }
            }
        }
    }
}
