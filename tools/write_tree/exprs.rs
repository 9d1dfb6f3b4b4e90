//! Expressions: comparison binds weakest, then + and -, * and /, minus, **.

use crate::ast::{BinOp, CompareOp, ConstKind, Expr};
use crate::error::{error, Error};
use crate::parse::Parser;
use crate::tokens::Kind;

const COMPARE_OPS: [(&str, CompareOp); 6] = [
    ("==", CompareOp::Eq),
    ("!=", CompareOp::Ne),
    ("<", CompareOp::Lt),
    ("<=", CompareOp::Le),
    (">", CompareOp::Gt),
    (">=", CompareOp::Ge),
];
const SUM_OPS: [(&str, BinOp); 2] = [("+", BinOp::Add), ("-", BinOp::Sub)];
const PRODUCT_OPS: [(&str, BinOp); 2] = [("*", BinOp::Mul), ("/", BinOp::Div)];

impl Parser<'_> {
    pub fn expr(&mut self) -> Result<Expr, Error> {
        let start = self.start();
        let mut lhs = self.sum()?;
        while let Some(op) = self.operator(&COMPARE_OPS) {
            let rhs = Box::new(self.sum()?);
            lhs = Expr::Compare { op, lhs: Box::new(lhs), rhs, span: self.since(start) };
        }
        Ok(lhs)
    }

    /// Steps over one of the operators if it comes next.
    fn operator<T: Copy>(&mut self, operators: &[(&str, T)]) -> Option<T> {
        operators.iter().find(|(sign, _)| self.take(sign)).map(|(_, op)| *op)
    }

    fn sum(&mut self) -> Result<Expr, Error> {
        self.chain(&SUM_OPS, Self::product)
    }

    fn product(&mut self) -> Result<Expr, Error> {
        self.chain(&PRODUCT_OPS, Self::unary)
    }

    /// Parts with operators between, read left to right.
    fn chain(
        &mut self,
        operators: &[(&str, BinOp)],
        part: fn(&mut Self) -> Result<Expr, Error>,
    ) -> Result<Expr, Error> {
        let start = self.start();
        let mut lhs = part(self)?;
        while let Some(op) = self.operator(operators) {
            let rhs = Box::new(part(self)?);
            lhs = Expr::BinOp { op, lhs: Box::new(lhs), rhs, span: self.since(start) };
        }
        Ok(lhs)
    }

    fn unary(&mut self) -> Result<Expr, Error> {
        let start = self.start();
        if !self.take("-") {
            return self.power();
        }
        let inner = Box::new(self.unary()?);
        Ok(Expr::Neg(inner, self.since(start)))
    }

    /// Read right to left; the exponent may have a minus.
    fn power(&mut self) -> Result<Expr, Error> {
        let start = self.start();
        let base = self.part()?;
        if !self.take("**") {
            return Ok(base);
        }
        let rhs = Box::new(self.unary()?);
        Ok(Expr::BinOp { op: BinOp::Pow, lhs: Box::new(base), rhs, span: self.since(start) })
    }

    fn part(&mut self) -> Result<Expr, Error> {
        let start = self.start();
        let kind = self.peek().kind;
        match kind {
            Kind::Int => Ok(Expr::IntLit(self.whole()?, self.since(start))),
            Kind::Float => Ok(Expr::FloatLit(self.float()?, self.since(start))),
            Kind::Word => self.word(),
            _ if self.take("(") => {
                let inner = self.expr()?;
                self.expect(")")?;
                Ok(inner)
            }
            _ => self.wrong("an expression"),
        }
    }

    fn float(&mut self) -> Result<f64, Error> {
        let start = self.start();
        let text = self.next(Kind::Float, "a number")?;
        match text.parse::<f64>() {
            Ok(value) if value.is_finite() => Ok(value),
            _ => error(start, format!("{text} is no number of 64 bits")),
        }
    }

    /// A built-in value, a name, a bit of a register, or a call.
    fn word(&mut self) -> Result<Expr, Error> {
        let start = self.start();
        let constants =
            [("pi", ConstKind::Pi), ("tau", ConstKind::Tau), ("euler", ConstKind::Euler)];
        if let Some(kind) = self.operator(&constants) {
            return Ok(Expr::Const(kind, self.since(start)));
        }
        if let Some(yes) = self.operator(&[("true", true), ("false", false)]) {
            return Ok(Expr::BoolLit(yes, self.since(start)));
        }
        let name = self.name()?;
        if self.is(0, "(") {
            let args = self.parentheses(Self::expr)?;
            return Ok(Expr::Call { name, args, span: self.since(start) });
        }
        if self.take("[") {
            let index = self.whole()?;
            self.expect("]")?;
            return Ok(Expr::Index { name, index, span: self.since(start) });
        }
        Ok(Expr::Ident(name, self.since(start)))
    }
}
