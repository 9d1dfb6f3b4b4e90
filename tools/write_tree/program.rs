//! A program of src/ast.rs as a tree with numbered texts. Texts are numbered by
//! first use in the file. What the file cannot hold is an error at its place.

use crate::ast as a;
use crate::error::{error, Error};
use crate::span;
use crate::tree as t;

const MOST_TEXTS: usize = 256;
const MOST_TEXT_BYTES: usize = 64;
const MOST_ITEMS: usize = 16;
const MOST_STATEMENTS: usize = 65_535;

pub fn tree(program: &a::Program) -> Result<t::Tree, Error> {
    let mut texts = Texts(Vec::new());
    let statements = texts.body(&program.statements, 0)?;
    Ok(t::Tree { texts: texts.0, statements })
}

/// The texts so far.
struct Texts(Vec<Vec<u8>>);

/// How one value of a kind is turned.
type Turn<S, T> = fn(&mut Texts, &S) -> Result<T, Error>;

fn at(span: &span::Span) -> Result<t::Span, Error> {
    match (u32::try_from(span.start), u32::try_from(span.end)) {
        (Ok(start), Ok(end)) => Ok(t::Span { start, end }),
        _ => error(span.start, "a span number is above 2^32 - 1"),
    }
}

fn ty(ty: a::ClassicalType) -> t::ClassicalType {
    use t::ClassicalType::*;
    [Int, UInt, Float, Angle, Bool][ty as usize]
}

fn qualifier(qualifier: a::ClassicalQualifier) -> t::ClassicalQualifier {
    use t::ClassicalQualifier::*;
    [Const, Input, Output][qualifier as usize]
}

fn assign_op(op: a::AssignOp) -> t::AssignOp {
    use t::AssignOp::*;
    [Assign, AddAssign, SubAssign][op as usize]
}

fn bin_op(op: a::BinOp) -> t::BinOp {
    use t::BinOp::*;
    [Add, Sub, Mul, Div, Pow][op as usize]
}

fn compare_op(op: a::CompareOp) -> t::CompareOp {
    use t::CompareOp::*;
    [Eq, Ne, Lt, Le, Gt, Ge][op as usize]
}

fn constant(kind: a::ConstKind) -> t::ConstKind {
    use t::ConstKind::*;
    [Pi, Tau, Euler][kind as usize]
}

/// Digits, a point, digits.
fn float_text(value: f64) -> String {
    let digits = value.to_string();
    if digits.contains('.') {
        return digits;
    }
    digits + ".0"
}

impl Texts {
    /// The number of a text that stands in the part of the program at `span`.
    fn text(&mut self, text: &str, span: &span::Span) -> Result<t::Text, Error> {
        let bytes = text.as_bytes();
        if let Some(number) = self.0.iter().position(|known| known == bytes) {
            return Ok(number as t::Text);
        }
        if bytes.is_empty() || bytes.len() > MOST_TEXT_BYTES {
            return error(span.start, format!("`{text}` does not have 1 to 64 bytes"));
        }
        if bytes.iter().any(|byte| *byte < 33 || *byte > 126) {
            return error(span.start, format!("`{text}` has a byte outside 33 to 126"));
        }
        if self.0.len() == MOST_TEXTS {
            return error(span.start, format!("`{text}` is text number 257 of at most 256"));
        }
        self.0.push(bytes.to_vec());
        Ok(self.0.len() as t::Text - 1)
    }

    fn names(&mut self, names: &[String], span: &span::Span) -> Result<Vec<t::Text>, Error> {
        short(names.len(), span.start)?;
        names.iter().map(|name| self.text(name, span)).collect()
    }

    fn list<S, T>(
        &mut self,
        items: &[S],
        span: &span::Span,
        turn: Turn<S, T>,
    ) -> Result<Vec<T>, Error> {
        short(items.len(), span.start)?;
        items.iter().map(|item| turn(self, item)).collect()
    }

    fn maybe<S, T>(&mut self, item: &Option<S>, turn: Turn<S, T>) -> Result<Option<T>, Error> {
        item.as_ref().map(|item| turn(self, item)).transpose()
    }

    fn body(&mut self, body: &[a::Stmt], place: usize) -> Result<Vec<t::Stmt>, Error> {
        if body.len() > MOST_STATEMENTS {
            return error(place, format!("a list of {} statements", body.len()));
        }
        body.iter().map(|statement| self.statement(statement)).collect()
    }

    fn operand(&mut self, o: &a::GateOperand) -> Result<t::GateOperand, Error> {
        Ok(t::GateOperand {
            name: self.text(&o.name, &o.span)?,
            index: o.index,
            slice: o.slice,
            span: at(&o.span)?,
        })
    }

    fn modifier(&mut self, modifier: &a::GateModifier) -> Result<t::GateModifier, Error> {
        use t::GateModifier::*;
        Ok(match modifier {
            a::GateModifier::Ctrl(n, s) => Ctrl(self.maybe(n, Texts::expr)?, at(s)?),
            a::GateModifier::NegCtrl(n, s) => NegCtrl(self.maybe(n, Texts::expr)?, at(s)?),
            a::GateModifier::Inv(s) => Inv(at(s)?),
            a::GateModifier::Pow(power, s) => Pow(self.expr(power)?, at(s)?),
        })
    }

    fn part(&mut self, expr: &a::Expr) -> Result<Box<t::Expr>, Error> {
        Ok(Box::new(self.expr(expr)?))
    }

    fn expr(&mut self, expr: &a::Expr) -> Result<t::Expr, Error> {
        use t::Expr::*;
        let s = expr.span();
        let span = at(s)?;
        Ok(match expr {
            a::Expr::IntLit(value, _) => IntLit(*value, span),
            a::Expr::FloatLit(value, _) => FloatLit(self.text(&float_text(*value), s)?, span),
            a::Expr::BoolLit(yes, _) => BoolLit(*yes, span),
            a::Expr::Ident(name, _) => Ident(self.text(name, s)?, span),
            a::Expr::Index { name, index, .. } => {
                Index { name: self.text(name, s)?, index: *index, span }
            }
            a::Expr::Call { name, args, .. } => {
                Call { name: self.text(name, s)?, args: self.list(args, s, Texts::expr)?, span }
            }
            a::Expr::Const(kind, _) => Const(constant(*kind), span),
            a::Expr::Neg(inner, _) => Neg(self.part(inner)?, span),
            a::Expr::BinOp { op, lhs, rhs, .. } => {
                BinOp { op: bin_op(*op), lhs: self.part(lhs)?, rhs: self.part(rhs)?, span }
            }
            a::Expr::Compare { op, lhs, rhs, .. } => {
                Compare { op: compare_op(*op), lhs: self.part(lhs)?, rhs: self.part(rhs)?, span }
            }
        })
    }

    fn statement(&mut self, statement: &a::Stmt) -> Result<t::Stmt, Error> {
        use t::Stmt::*;
        let s = statement.span();
        let span = at(s)?;
        Ok(match statement {
            a::Stmt::Include { path, .. } => Include { path: self.text(path, s)?, span },
            a::Stmt::QubitDecl { name, size, .. } => {
                QubitDecl { name: self.text(name, s)?, size: *size, span }
            }
            a::Stmt::BitDecl { name, size, .. } => {
                BitDecl { name: self.text(name, s)?, size: *size, span }
            }
            a::Stmt::ClassicalDecl { qualifier: q, ty: of, name, init, .. } => ClassicalDecl {
                qualifier: q.map(qualifier),
                ty: ty(*of),
                name: self.text(name, s)?,
                init: self.maybe(init, Texts::expr)?,
                span,
            },
            a::Stmt::Assignment { name, op, value, .. } => Assignment {
                name: self.text(name, s)?,
                op: assign_op(*op),
                value: self.expr(value)?,
                span,
            },
            a::Stmt::Measure { qubit, target, .. } => Measure {
                qubit: self.operand(qubit)?,
                target: self.maybe(target, Texts::operand)?,
                span,
            },
            a::Stmt::Reset { target, .. } => Reset { target: self.operand(target)?, span },
            a::Stmt::Barrier { targets, .. } => {
                Barrier { targets: self.list(targets, s, Texts::operand)?, span }
            }
            a::Stmt::Delay { duration, targets, .. } => Delay {
                duration: self.expr(duration)?,
                targets: self.list(targets, s, Texts::operand)?,
                span,
            },
            a::Stmt::GateCall { name, modifiers, params, args, .. } => GateCall {
                name: self.text(name, s)?,
                modifiers: self.list(modifiers, s, Texts::modifier)?,
                params: self.list(params, s, Texts::expr)?,
                args: self.list(args, s, Texts::operand)?,
                span,
            },
            a::Stmt::GateDef { name, params, qparams, body, .. } => GateDef {
                name: self.text(name, s)?,
                params: self.names(params, s)?,
                qparams: self.names(qparams, s)?,
                body: self.body(body, s.start)?,
                span,
            },
            a::Stmt::FunctionDef { name, params, return_type, body, .. } => FunctionDef {
                name: self.text(name, s)?,
                params: self.typed_names(params, s)?,
                return_type: ty(*return_type),
                body: self.expr(body)?,
                span,
            },
            a::Stmt::If { condition, then_body, else_body, .. } => If {
                condition: self.expr(condition)?,
                then_body: self.body(then_body, s.start)?,
                else_body: else_body.as_ref().map(|b| self.body(b, s.start)).transpose()?,
                span,
            },
            a::Stmt::For { var_name, var_ty, range, body, .. } => For {
                var_name: self.text(var_name, s)?,
                var_ty: ty(*var_ty),
                range: self.range(range)?,
                body: self.body(body, s.start)?,
                span,
            },
            a::Stmt::While { condition, body, .. } => {
                While { condition: self.expr(condition)?, body: self.body(body, s.start)?, span }
            }
        })
    }

    fn typed_names(
        &mut self,
        params: &[(a::ClassicalType, String)],
        span: &span::Span,
    ) -> Result<Vec<(t::ClassicalType, t::Text)>, Error> {
        short(params.len(), span.start)?;
        params.iter().map(|(of, name)| Ok((ty(*of), self.text(name, span)?))).collect()
    }

    fn range(&mut self, range: &a::ForRange) -> Result<t::ForRange, Error> {
        Ok(t::ForRange {
            start: self.expr(&range.start)?,
            end: self.expr(&range.end)?,
            step: self.maybe(&range.step, Texts::expr)?,
        })
    }
}

fn short(items: usize, place: usize) -> Result<(), Error> {
    if items > MOST_ITEMS {
        return error(place, format!("a list of {items}, but at most 16 can be written"));
    }
    Ok(())
}
