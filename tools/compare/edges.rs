//! Trees at the limits: keys, diagnostics, listing bytes, levels.

use crate::exprs::EXPRESSION_LEVELS;
use crate::maker::Maker;
use crate::oracle::{self, MOST_LISTING_BYTES};
use crate::statements::{ANY, MARKS, STATEMENT_LEVELS};
use crate::tables;
use crate::tree::*;

/// A maker of statements; its number is one below the limit, at it, or above.
type Edge = fn(&mut Maker, usize) -> Vec<Stmt>;

pub const EDGES: [(&str, Edge); 16] = [
    ("keys of a register", keys_register),
    ("keys of slices", keys_slices),
    ("keys of indices", keys_indices),
    ("keys in scopes", keys_scopes),
    ("errors", errors),
    ("warnings", warnings),
    ("listing bytes", listing_bytes),
    ("statement levels", statement_levels),
    ("expression levels", expression_levels),
    ("nested marks", nested_marks),
    ("keys of names", tables::keys_names),
    ("many names", tables::many_names),
    ("many definitions", tables::many_definitions),
    ("file bytes", tables::file_bytes),
    ("sixteen of each", tables::sixteen),
    ("two refusals", tables::two_refusals),
];

/// One more name, of 64 letters.
fn long_name(m: &mut Maker) -> Text {
    m.text(&"Long".repeat(16))
}

pub fn operand(
    m: &mut Maker,
    name: Text,
    index: Option<u64>,
    slice: Option<(u64, u64)>,
) -> GateOperand {
    GateOperand { name, index, slice, span: m.span() }
}

pub fn qubit(m: &mut Maker, name: Text, size: Option<u64>) -> Stmt {
    Stmt::QubitDecl { name, size, span: m.span() }
}

pub fn measure(m: &mut Maker, qubit: GateOperand) -> Stmt {
    Stmt::Measure { qubit, target: None, span: m.span() }
}

pub fn gate(m: &mut Maker, name: &str, args: Vec<GateOperand>) -> Stmt {
    let name = m.text(name);
    Stmt::GateCall { name, modifiers: vec![], params: vec![], args, span: m.span() }
}

pub fn truth(m: &mut Maker) -> Expr {
    Expr::BoolLit(true, m.span())
}

pub fn branch(m: &mut Maker, then_body: Vec<Stmt>, else_body: Option<Vec<Stmt>>) -> Stmt {
    Stmt::If { condition: truth(m), then_body, else_body, span: m.span() }
}

/// The whole key and an index each.
fn keys_register(m: &mut Maker, more: usize) -> Vec<Stmt> {
    let name = m.variable();
    let declared = qubit(m, name, Some(254 + more as u64));
    let whole = operand(m, name, None, None);
    let measured = measure(m, whole);
    let used: Vec<GateOperand> =
        [0, 253, 254, 255, 256].iter().map(|i| operand(m, name, Some(*i), None)).collect();
    let mut all = vec![declared, measured];
    all.extend(used.into_iter().map(|o| gate(m, "x", vec![o])));
    all
}

/// Slices that lie over one another, some of no declared name.
fn keys_slices(m: &mut Maker, more: usize) -> Vec<Stmt> {
    let name = m.variable();
    let mut all = if m.draws.one_in(2) { vec![qubit(m, name, Some(400))] } else { vec![] };
    let last = 254 + more as u64;
    for slice in [(0, 99), (50, 200), (100, 180), (150, last), (9, 8), (last, last)] {
        let slice = operand(m, name, None, Some(slice));
        all.push(measure(m, slice));
    }
    for slice in [(0, 300), (last, 999), (last + 1, 999), (last, 1_000_000)] {
        let slice = operand(m, name, None, Some(slice));
        all.push(Stmt::Barrier { targets: vec![slice], span: m.span() });
    }
    all
}

/// A statement for each key, in arms, loops and a gate definition.
fn keys_indices(m: &mut Maker, more: usize) -> Vec<Stmt> {
    let (one, two) = (m.text("q"), m.text("r"));
    let mut parts: Vec<Vec<Stmt>> = vec![vec![], vec![], vec![], vec![]];
    for i in 0..255 + more as u64 {
        let key = operand(m, if i % 2 == 0 { one } else { two }, Some(i / 2 * 77), None);
        let statement = measure(m, key);
        parts[i as usize % 4].push(statement);
    }
    let last = operand(m, one, Some(0), None);
    let last = gate(m, "h", vec![last]);
    let mut parts = parts.into_iter();
    let mut next = || parts.next().unwrap_or_default();
    let (a, b, c, d) = (next(), next(), next(), next());
    let two_arms = branch(m, a, Some(b));
    let looped = Stmt::While { condition: truth(m), body: c, span: m.span() };
    let defined =
        Stmt::GateDef { name: one, params: vec![], qparams: vec![two], body: d, span: m.span() };
    vec![two_arms, looped, defined, last]
}

fn whole_measure(m: &mut Maker, name: Text) -> Stmt {
    let whole = operand(m, name, None, None);
    measure(m, whole)
}

fn loop_over(m: &mut Maker, var_name: Text, body: Vec<Stmt>) -> Stmt {
    let range = ForRange { start: m.int(0), end: m.int(1), step: None };
    Stmt::For { var_name, var_ty: ClassicalType::Int, range, body, span: m.span() }
}

/// A register of 300 that is measured only where another name hides it: one
/// key.
fn hidden_register(m: &mut Maker) -> Vec<Stmt> {
    let (name, other) = (m.text("z"), m.text("other"));
    let body = |m: &mut Maker| vec![whole_measure(m, name)];
    let looped = body(m);
    let looped = loop_over(m, name, looped);
    let (params, qparams, inner) = (vec![name], vec![other], body(m));
    let by_param = Stmt::GateDef { name, params, qparams, body: inner, span: m.span() };
    let (params, qparams, inner) = (vec![other], vec![name], body(m));
    let by_qubit = Stmt::GateDef { name: other, params, qparams, body: inner, span: m.span() };
    let number = Stmt::ClassicalDecl {
        qualifier: m.maybe(50, |_| ClassicalQualifier::Output),
        ty: m.ty(),
        name,
        init: None,
        span: m.span(),
    };
    let by_number = [vec![number], body(m)].concat();
    let by_number = branch(m, vec![], Some(by_number));
    let declared = Stmt::BitDecl { name, size: None, span: m.span() };
    let by_bit = [vec![declared], body(m)].concat();
    let by_bit = Stmt::While { condition: truth(m), body: by_bit, span: m.span() };
    vec![qubit(m, name, Some(300)), looped, by_param, by_qubit, by_number, by_bit]
}

/// The visible size counts: an inner register has another.
fn keys_scopes(m: &mut Maker, more: usize) -> Vec<Stmt> {
    let (name, other) = (m.text("q"), m.text("r"));
    // One key, then 101 of q, then 201 of it, then 255 to 257 with those of r.
    let mut all = hidden_register(m);
    all.extend([qubit(m, name, Some(100)), whole_measure(m, name)]);
    let mut inner = vec![qubit(m, name, Some(200)), whole_measure(m, name)];
    let size = Some(52 + more as u64);
    inner.push(qubit(m, name, Some(250)));
    inner.push(Stmt::BitDecl { name: other, size, span: m.span() });
    inner.push(whole_measure(m, other));
    all.push(branch(m, inner, None));
    let used = operand(m, other, Some(51), None);
    all.extend([whole_measure(m, name), whole_measure(m, other), gate(m, "h", vec![used])]);
    all
}

pub fn undeclared(m: &mut Maker, name: &str, count: usize) -> Stmt {
    let name = m.text(name);
    let targets = m.many(count, |m| operand(m, name, None, None));
    Stmt::Barrier { targets, span: m.span() }
}

/// 255 to 257 errors.
fn errors(m: &mut Maker, more: usize) -> Vec<Stmt> {
    let mut all: Vec<Stmt> = (0..15).map(|_| undeclared(m, "no", 16)).collect();
    all.push(undeclared(m, "nor", 15));
    all.push(undeclared(m, "neither", more));
    all
}

/// 255 to 257 diagnostics, most of them warnings.
fn warnings(m: &mut Maker, more: usize) -> Vec<Stmt> {
    let name = m.text("w");
    let mut all = vec![qubit(m, name, None)];
    for _ in 0..240 {
        let whole = operand(m, name, None, None);
        all.push(measure(m, whole));
    }
    all.push(undeclared(m, "no", 16));
    let more = m.many(more, |m| undeclared(m, "nor", 1));
    [all, more].concat()
}

/// A listing of one byte less than the limit, of the limit, and one more.
fn listing_bytes(m: &mut Maker, more: usize) -> Vec<Stmt> {
    let name = long_name(m);
    let far = operand(m, name, Some(u64::MAX), None);
    let mut all = vec![qubit(m, name, Some(u64::MAX)), measure(m, far)];
    let goal = MOST_LISTING_BYTES - 1 + more;
    while length(m, &all) < goal {
        let far = GateOperand {
            name,
            index: Some(u64::MAX - 1),
            slice: Some((u64::MAX, u64::MAX)),
            span: m.span(),
        };
        let same = operand(m, name, Some(u64::MAX), None);
        let wide = Span { start: u32::MAX, end: u32::MAX };
        all.push(Stmt::Barrier {
            targets: vec![if m.draws.one_in(9) { far } else { same }],
            span: wide,
        });
    }
    let mut excess = length(m, &all) - goal;
    for statement in all.iter_mut().skip(2) {
        if let Stmt::Barrier { span, .. } = statement {
            for number in [&mut span.start, &mut span.end] {
                let less = excess.min(9);
                *number /= 10u32.pow(less as u32);
                excess -= less;
            }
        }
    }
    all
}

fn length(m: &Maker, statements: &[Stmt]) -> usize {
    let tree = Tree { texts: m.texts.clone(), statements: statements.to_vec() };
    oracle::listing(&oracle::diagnostics(&tree).0).len()
}

/// Statements of levels 7 to 9.
fn statement_levels(m: &mut Maker, more: usize) -> Vec<Stmt> {
    let mut body = m.many(2, |m| m.statement(&ANY, 1));
    for level in 1..STATEMENT_LEVELS - 1 + more {
        let around = m.statement(&MARKS, 1);
        let inner = match m.draws.below(5) {
            0 => branch(m, body, None),
            1 => branch(m, vec![], Some(body)),
            2 => Stmt::While { condition: truth(m), body, span: m.span() },
            3 => {
                let (name, qubit) = (m.variable(), m.variable());
                Stmt::GateDef { name, params: vec![], qparams: vec![qubit], body, span: m.span() }
            }
            _ => {
                let range = ForRange { start: m.int(0), end: m.int(level as u64), step: None };
                Stmt::For {
                    var_name: m.variable(),
                    var_ty: ClassicalType::Int,
                    range,
                    body,
                    span: m.span(),
                }
            }
        };
        body = vec![inner, around];
    }
    [m.declarations(70), body].concat()
}

/// Expressions of levels 31 to 33 where a statement may hold one.
fn expression_levels(m: &mut Maker, more: usize) -> Vec<Stmt> {
    let levels = EXPRESSION_LEVELS - 1 + more;
    let mut all = m.declarations(20);
    for _ in 0..3 {
        let deep = m.deep(levels);
        let (name, span) = (m.variable(), m.span());
        all.push(match m.draws.below(5) {
            0 => Stmt::Assignment { name, op: AssignOp::Assign, value: deep, span },
            1 => Stmt::Delay { duration: deep, targets: vec![], span },
            2 => Stmt::While { condition: deep, body: vec![], span },
            3 => Stmt::GateCall {
                name: m.text("x"),
                modifiers: vec![GateModifier::Ctrl(Some(deep), m.span())],
                params: vec![],
                args: vec![],
                span,
            },
            _ => {
                let ty = m.ty();
                Stmt::FunctionDef {
                    name: m.text("f"),
                    params: vec![(ty, name)],
                    return_type: ty,
                    body: deep,
                    span,
                }
            }
        });
    }
    all
}

/// Arms in arms, each with measures, resets and uses.
fn nested_marks(m: &mut Maker, _: usize) -> Vec<Stmt> {
    let mut body: Vec<Stmt> = vec![];
    for _ in 1..STATEMENT_LEVELS {
        let other = m.many(2, |m| m.statement(&MARKS, 1));
        let inner = if m.draws.one_in(4) {
            Stmt::While { condition: truth(m), body, span: m.span() }
        } else if m.draws.one_in(2) {
            branch(m, body, Some(other))
        } else {
            branch(m, other, Some(body))
        };
        body = m.many(1, |m| m.statement(&MARKS, 1));
        body.push(inner);
        body.extend(m.many(2, |m| m.statement(&MARKS, 1)));
    }
    [m.declarations(90), body].concat()
}
