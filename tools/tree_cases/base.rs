//! One tree with every kind of statement, expression and modifier and every
//! optional part present and absent: cut at every length, lengthened, and
//! damaged field by field.

use crate::cases::{accepted, longer, refused, replaced, unsaid, Case};
use crate::make::{leaf, SPAN};
use crate::tree::*;
use crate::writer::{Mark, Role, Writer};

/// Numbers of the base tree's texts.
const Q: Text = 0;
const FLOAT: Text = 1;
const PATH: Text = 2;
const F: Text = 3;
const R: Text = 4;
const TEXTS: [&str; 5] = ["q", "1.5", "a/b", "_F9", "r"];

pub fn cases() -> Vec<Case> {
    let base = base_tree();
    let bytes = &base.bytes;
    let mut cases = vec![
        accepted("base", bytes.clone()),
        refused("base and a zero byte", longer(bytes, &[0]), 3, bytes.len()),
        refused("base and byte 255", longer(bytes, &[255]), 3, bytes.len()),
        refused("base and itself", longer(bytes, bytes), 3, bytes.len()),
    ];
    for length in 0..bytes.len() {
        let name = format!("base cut at {length}");
        cases.push(refused(name, bytes[..length].to_vec(), 3, length));
    }
    for mark in &base.marks {
        cases.extend(damaged(bytes, mark));
    }
    cases
}

pub fn base_tree() -> Writer {
    let mut statements = declarations();
    statements.push(gate_call());
    statements.extend(definitions());
    statements.extend(operand_statements());
    statements.extend(statements_with_bodies());
    let texts = TEXTS.iter().map(|t| t.as_bytes().to_vec()).collect();
    Writer::tree(&Tree { texts, statements })
}

fn operand(name: Text, index: Option<u64>, slice: Option<(u64, u64)>) -> GateOperand {
    GateOperand { name, index, slice, span: SPAN }
}

fn declarations() -> Vec<Stmt> {
    let power = Expr::BinOp {
        op: BinOp::Pow,
        lhs: Box::new(Expr::IntLit(258, SPAN)),
        rhs: Box::new(Expr::Neg(Box::new(Expr::Ident(F, SPAN)), SPAN)),
        span: SPAN,
    };
    let declare = |qualifier, ty, init| Stmt::ClassicalDecl {
        qualifier,
        ty,
        name: F,
        init,
        span: Span { start: 9, end: 8 },
    };
    vec![
        Stmt::Include { path: PATH, span: SPAN },
        Stmt::QubitDecl { name: R, size: Some(3), span: SPAN },
        Stmt::QubitDecl { name: Q, size: None, span: SPAN },
        Stmt::BitDecl { name: F, size: Some(2), span: SPAN },
        Stmt::BitDecl { name: F, size: None, span: SPAN },
        declare(Some(ClassicalQualifier::Output), ClassicalType::UInt, None),
        declare(None, ClassicalType::Float, Some(Expr::FloatLit(FLOAT, SPAN))),
        Stmt::Assignment { name: F, op: AssignOp::SubAssign, value: power, span: SPAN },
    ]
}

fn gate_call() -> Stmt {
    let index = Expr::Index { name: Q, index: 1, span: SPAN };
    let args = vec![index, Expr::BoolLit(false, SPAN)];
    Stmt::GateCall {
        name: F,
        modifiers: vec![
            GateModifier::Ctrl(None, SPAN),
            GateModifier::Ctrl(Some(leaf()), SPAN),
            GateModifier::NegCtrl(None, SPAN),
            GateModifier::NegCtrl(Some(leaf()), SPAN),
            GateModifier::Inv(SPAN),
            GateModifier::Pow(leaf(), SPAN),
        ],
        params: vec![Expr::Call { name: F, args, span: SPAN }],
        args: vec![operand(Q, None, None), operand(R, Some(0), Some((1, 2)))],
        span: SPAN,
    }
}

fn definitions() -> Vec<Stmt> {
    let compare = Expr::Compare {
        op: CompareOp::Ge,
        lhs: Box::new(Expr::Const(ConstKind::Euler, SPAN)),
        rhs: Box::new(leaf()),
        span: SPAN,
    };
    vec![
        Stmt::GateDef {
            name: Q,
            params: vec![F],
            qparams: vec![R],
            body: vec![Stmt::Barrier { targets: vec![], span: SPAN }],
            span: SPAN,
        },
        Stmt::FunctionDef {
            name: R,
            params: vec![(ClassicalType::Angle, Q)],
            return_type: ClassicalType::Bool,
            body: compare,
            span: SPAN,
        },
    ]
}

fn operand_statements() -> Vec<Stmt> {
    vec![
        Stmt::Measure {
            qubit: operand(Q, None, None),
            target: Some(operand(F, Some(1), None)),
            span: SPAN,
        },
        Stmt::Measure { qubit: operand(Q, None, None), target: None, span: SPAN },
        Stmt::Reset { target: operand(Q, None, None), span: SPAN },
        Stmt::Delay { duration: leaf(), targets: vec![operand(R, None, None)], span: SPAN },
    ]
}

fn statements_with_bodies() -> Vec<Stmt> {
    let inner = || vec![Stmt::Include { path: FLOAT, span: SPAN }];
    let range = |step| ForRange { start: leaf(), end: leaf(), step };
    let each = |step, body| Stmt::For {
        var_name: F,
        var_ty: ClassicalType::Int,
        range: range(step),
        body,
        span: SPAN,
    };
    vec![
        Stmt::If { condition: leaf(), then_body: vec![], else_body: None, span: SPAN },
        Stmt::If { condition: leaf(), then_body: inner(), else_body: Some(inner()), span: SPAN },
        each(Some(leaf()), vec![]),
        Stmt::While { condition: leaf(), body: vec![each(None, inner())], span: SPAN },
    ]
}

/// The cases of one field. A wrong byte is refused at its place; what comes
/// of other damage is left to the reader.
fn damaged(bytes: &[u8], mark: &Mark) -> Vec<Case> {
    let place = mark.place;
    let old = bytes[place];
    let name = |by: &[u8]| format!("base with {by:?} at {place}");
    let bad = |number, by: &[u8]| refused(name(by), replaced(bytes, place, by), number, place);
    let good = |by: &[u8]| accepted(name(by), replaced(bytes, place, by));
    let free = |by: &[u8]| unsaid(name(by), replaced(bytes, place, by));
    let texts = TEXTS.len() as u8;
    match mark.role {
        Role::TextCount => vec![bad(5, &[1, 1]), free(&[0, texts - 1]), free(&[0, texts + 1])],
        Role::TextLength => {
            vec![bad(4, &[0]), bad(4, &[65]), free(&[old + 1]), free(&[64])]
        }
        Role::TextByte => vec![bad(4, &[32]), bad(4, &[127]), free(&[33]), free(&[126])],
        Role::StatementCount => {
            let less = bytes[place + 1].wrapping_sub(1);
            let more = bytes[place + 1] + 1;
            vec![free(&[0, less]), free(&[0, more]), free(&[255, 255])]
        }
        Role::Case(_, cases) => {
            vec![bad(4, &[cases]), free(&[(old + 1) % cases])]
        }
        Role::Flag(_) => vec![bad(4, &[2]), free(&[1 - old])],
        Role::Count => vec![bad(5, &[17]), free(&[old + 1]), free(&[16])],
        Role::Name => vec![bad(4, &[0, texts]), bad(4, &[0, FLOAT as u8])],
        Role::Float => vec![bad(4, &[0, texts]), bad(4, &[0, Q as u8])],
        Role::Path => vec![bad(4, &[0, texts]), good(&[0, Q as u8])],
        Role::Number => vec![good(&[255; 8])],
    }
}
