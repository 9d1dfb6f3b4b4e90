//! Short makers of trees. Every span is 1 to 2, every name is text 0.

use crate::tree::*;
use crate::writer::Writer;

pub const SPAN: Span = Span { start: 1, end: 2 };

/// The bytes of a tree.
pub fn tree(texts: &[&str], statements: Vec<Stmt>) -> Vec<u8> {
    let texts = texts.iter().map(|t| t.as_bytes().to_vec()).collect();
    Writer::tree(&Tree { texts, statements }).bytes
}

/// A part of a statement, how far after the statement's case byte it stands,
/// and the statement with it.
pub struct Part<T> {
    pub name: &'static str,
    pub offset: usize,
    pub with: fn(T) -> Stmt,
}

pub fn part<T>(name: &'static str, offset: usize, with: fn(T) -> Stmt) -> Part<T> {
    Part { name, offset, with }
}

/// `true`, 10 bytes: case, byte, span.
pub fn leaf() -> Expr {
    Expr::BoolLit(true, SPAN)
}

/// 12 bytes: name, two flags, span.
pub fn operand() -> GateOperand {
    GateOperand { name: 0, index: None, slice: None, span: SPAN }
}

/// 10 bytes: case, count, span. It names no text.
pub fn barrier() -> Stmt {
    Stmt::Barrier { targets: vec![], span: SPAN }
}

/// 11 bytes: case, text number, span.
pub fn include() -> Stmt {
    Stmt::Include { path: 0, span: SPAN }
}

pub fn qubit(size: Option<u64>) -> Stmt {
    Stmt::QubitDecl { name: 0, size, span: SPAN }
}

pub fn bit(size: Option<u64>) -> Stmt {
    Stmt::BitDecl { name: 0, size, span: SPAN }
}

pub fn declare(qualifier: Option<ClassicalQualifier>, init: Option<Expr>) -> Stmt {
    Stmt::ClassicalDecl { qualifier, ty: ClassicalType::Int, name: 0, init, span: SPAN }
}

pub fn assign(value: Expr) -> Stmt {
    Stmt::Assignment { name: 0, op: AssignOp::Assign, value, span: SPAN }
}

pub fn call(modifiers: Vec<GateModifier>, params: Vec<Expr>, args: Vec<GateOperand>) -> Stmt {
    Stmt::GateCall { name: 0, modifiers, params, args, span: SPAN }
}

pub fn modified(modifier: GateModifier) -> Stmt {
    call(vec![modifier], vec![], vec![])
}

pub fn function(params: Vec<(ClassicalType, Text)>, body: Expr) -> Stmt {
    Stmt::FunctionDef { name: 0, params, return_type: ClassicalType::Int, body, span: SPAN }
}

pub fn measure(target: Option<GateOperand>) -> Stmt {
    Stmt::Measure { qubit: operand(), target, span: SPAN }
}

pub fn reset(target: GateOperand) -> Stmt {
    Stmt::Reset { target, span: SPAN }
}

pub fn delay(duration: Expr, targets: Vec<GateOperand>) -> Stmt {
    Stmt::Delay { duration, targets, span: SPAN }
}

pub fn gate(params: Vec<Text>, qparams: Vec<Text>, body: Vec<Stmt>) -> Stmt {
    Stmt::GateDef { name: 0, params, qparams, body, span: SPAN }
}

pub fn branch(condition: Expr, then_body: Vec<Stmt>, else_body: Option<Vec<Stmt>>) -> Stmt {
    Stmt::If { condition, then_body, else_body, span: SPAN }
}

pub fn for_loop(start: Expr, end: Expr, step: Option<Expr>, body: Vec<Stmt>) -> Stmt {
    let range = ForRange { start, end, step };
    Stmt::For { var_name: 0, var_ty: ClassicalType::Int, range, body, span: SPAN }
}

pub fn while_loop(condition: Expr, body: Vec<Stmt>) -> Stmt {
    Stmt::While { condition, body, span: SPAN }
}

pub fn negated(part: Expr) -> Expr {
    Expr::Neg(Box::new(part), SPAN)
}

pub fn sum(lhs: Expr, rhs: Expr) -> Expr {
    Expr::BinOp { op: BinOp::Add, lhs: Box::new(lhs), rhs: Box::new(rhs), span: SPAN }
}

pub fn equal(lhs: Expr, rhs: Expr) -> Expr {
    Expr::Compare { op: CompareOp::Eq, lhs: Box::new(lhs), rhs: Box::new(rhs), span: SPAN }
}

pub fn called(args: Vec<Expr>) -> Expr {
    Expr::Call { name: 0, args, span: SPAN }
}
