//! The tree as a value of src/ast.rs.

use crate::ast as a;
use crate::span;
use crate::tree as t;

pub fn program(tree: &t::Tree) -> a::Program {
    let texts = Texts(&tree.texts);
    a::Program { version: String::new(), statements: texts.body(&tree.statements) }
}

struct Texts<'a>(&'a [Vec<u8>]);

fn at(span: &t::Span) -> span::Span {
    span.start as usize..span.end as usize
}

pub const TYPES: [a::ClassicalType; 5] = {
    use a::ClassicalType::*;
    [Int, UInt, Float, Angle, Bool]
};
pub const QUALIFIERS: [a::ClassicalQualifier; 3] = {
    use a::ClassicalQualifier::*;
    [Const, Input, Output]
};
pub const ASSIGN_OPS: [a::AssignOp; 3] = {
    use a::AssignOp::*;
    [Assign, AddAssign, SubAssign]
};
pub const BIN_OPS: [a::BinOp; 5] = {
    use a::BinOp::*;
    [Add, Sub, Mul, Div, Pow]
};
pub const COMPARE_OPS: [a::CompareOp; 6] = {
    use a::CompareOp::*;
    [Eq, Ne, Lt, Le, Gt, Ge]
};
pub const CONSTANTS: [a::ConstKind; 3] = {
    use a::ConstKind::*;
    [Pi, Tau, Euler]
};

fn ty(ty: &t::ClassicalType) -> a::ClassicalType {
    TYPES[*ty as usize]
}

impl Texts<'_> {
    fn text(&self, number: &t::Text) -> String {
        String::from_utf8(self.0[*number as usize].clone()).expect("texts are ASCII")
    }

    fn list(&self, numbers: &[t::Text]) -> Vec<String> {
        numbers.iter().map(|number| self.text(number)).collect()
    }

    fn body(&self, body: &[t::Stmt]) -> Vec<a::Stmt> {
        body.iter().map(|statement| self.statement(statement)).collect()
    }

    fn exprs(&self, exprs: &[t::Expr]) -> Vec<a::Expr> {
        exprs.iter().map(|expr| self.expr(expr)).collect()
    }

    fn maybe(&self, expr: &Option<t::Expr>) -> Option<a::Expr> {
        expr.as_ref().map(|expr| self.expr(expr))
    }

    fn operand(&self, o: &t::GateOperand) -> a::GateOperand {
        a::GateOperand {
            name: self.text(&o.name),
            index: o.index,
            slice: o.slice,
            span: at(&o.span),
        }
    }

    fn operands(&self, operands: &[t::GateOperand]) -> Vec<a::GateOperand> {
        operands.iter().map(|operand| self.operand(operand)).collect()
    }

    fn modifier(&self, modifier: &t::GateModifier) -> a::GateModifier {
        match modifier {
            t::GateModifier::Ctrl(n, s) => a::GateModifier::Ctrl(self.maybe(n), at(s)),
            t::GateModifier::NegCtrl(n, s) => a::GateModifier::NegCtrl(self.maybe(n), at(s)),
            t::GateModifier::Inv(s) => a::GateModifier::Inv(at(s)),
            t::GateModifier::Pow(power, s) => a::GateModifier::Pow(self.expr(power), at(s)),
        }
    }

    fn expr(&self, expr: &t::Expr) -> a::Expr {
        use a::Expr::*;
        let part = |expr: &t::Expr| Box::new(self.expr(expr));
        match expr {
            t::Expr::IntLit(value, s) => IntLit(*value, at(s)),
            t::Expr::FloatLit(text, s) => {
                FloatLit(self.text(text).parse().expect("digits, point, digits"), at(s))
            }
            t::Expr::BoolLit(yes, s) => BoolLit(*yes, at(s)),
            t::Expr::Ident(name, s) => Ident(self.text(name), at(s)),
            t::Expr::Index { name, index, span } => {
                Index { name: self.text(name), index: *index, span: at(span) }
            }
            t::Expr::Call { name, args, span } => {
                Call { name: self.text(name), args: self.exprs(args), span: at(span) }
            }
            t::Expr::Const(kind, s) => Const(CONSTANTS[*kind as usize], at(s)),
            t::Expr::Neg(inner, s) => Neg(part(inner), at(s)),
            t::Expr::BinOp { op, lhs, rhs, span } => {
                BinOp { op: BIN_OPS[*op as usize], lhs: part(lhs), rhs: part(rhs), span: at(span) }
            }
            t::Expr::Compare { op, lhs, rhs, span } => {
                Compare { op: COMPARE_OPS[*op as usize], lhs: part(lhs), rhs: part(rhs), span: at(span) }
            }
        }
    }

    fn statement(&self, statement: &t::Stmt) -> a::Stmt {
        use a::Stmt::*;
        match statement {
            t::Stmt::Include { path, span } => Include { path: self.text(path), span: at(span) },
            t::Stmt::QubitDecl { name, size, span } => {
                QubitDecl { name: self.text(name), size: *size, span: at(span) }
            }
            t::Stmt::BitDecl { name, size, span } => {
                BitDecl { name: self.text(name), size: *size, span: at(span) }
            }
            t::Stmt::ClassicalDecl { qualifier: q, ty: of, name, init, span } => ClassicalDecl {
                qualifier: q.as_ref().map(|q| QUALIFIERS[*q as usize]),
                ty: ty(of),
                name: self.text(name),
                init: self.maybe(init),
                span: at(span),
            },
            t::Stmt::Assignment { name, op, value, span } => Assignment {
                name: self.text(name),
                op: ASSIGN_OPS[*op as usize],
                value: self.expr(value),
                span: at(span),
            },
            t::Stmt::Measure { qubit, target, span } => Measure {
                qubit: self.operand(qubit),
                target: target.as_ref().map(|target| self.operand(target)),
                span: at(span),
            },
            t::Stmt::Reset { target, span } => {
                Reset { target: self.operand(target), span: at(span) }
            }
            t::Stmt::Barrier { targets, span } => {
                Barrier { targets: self.operands(targets), span: at(span) }
            }
            t::Stmt::Delay { duration, targets, span } => Delay {
                duration: self.expr(duration),
                targets: self.operands(targets),
                span: at(span),
            },
            longer => self.longer_statement(longer),
        }
    }

    /// Gate calls, definitions, and statements with bodies.
    fn longer_statement(&self, statement: &t::Stmt) -> a::Stmt {
        use a::Stmt::*;
        match statement {
            t::Stmt::GateCall { name, modifiers, params, args, span } => GateCall {
                name: self.text(name),
                modifiers: modifiers.iter().map(|modifier| self.modifier(modifier)).collect(),
                params: self.exprs(params),
                args: self.operands(args),
                span: at(span),
            },
            t::Stmt::GateDef { name, params, qparams, body, span } => GateDef {
                name: self.text(name),
                params: self.list(params),
                qparams: self.list(qparams),
                body: self.body(body),
                span: at(span),
            },
            t::Stmt::FunctionDef { name, params, return_type, body, span } => FunctionDef {
                name: self.text(name),
                params: params.iter().map(|(of, name)| (ty(of), self.text(name))).collect(),
                return_type: ty(return_type),
                body: self.expr(body),
                span: at(span),
            },
            t::Stmt::If { condition, then_body, else_body, span } => If {
                condition: self.expr(condition),
                then_body: self.body(then_body),
                else_body: else_body.as_ref().map(|body| self.body(body)),
                span: at(span),
            },
            t::Stmt::For { var_name, var_ty, range, body, span } => For {
                var_name: self.text(var_name),
                var_ty: ty(var_ty),
                range: self.range(range),
                body: self.body(body),
                span: at(span),
            },
            t::Stmt::While { condition, body, span } => {
                While { condition: self.expr(condition), body: self.body(body), span: at(span) }
            }
            _ => unreachable!("the other cases are in statement"),
        }
    }

    fn range(&self, range: &t::ForRange) -> a::ForRange {
        a::ForRange {
            start: self.expr(&range.start),
            end: self.expr(&range.end),
            step: self.maybe(&range.step),
        }
    }
}
