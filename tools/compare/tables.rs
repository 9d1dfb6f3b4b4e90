//! Trees with much of one kind: names, definitions, bytes, lists, refusals.

use crate::edges::{branch, gate, measure, operand, qubit, undeclared};
use crate::maker::Maker;
use crate::statements::STATEMENT_LEVELS;
use crate::tree::*;

/// New names until there are 256 texts; at most `count` of them are given.
fn last_names(m: &mut Maker, count: usize) -> Vec<Text> {
    let mut names = vec![];
    while m.texts.len() < 256 {
        let name = format!("v{}", m.texts.len());
        names.push(m.text(&name));
    }
    names.split_off(names.len().saturating_sub(count))
}

/// A whole key for each of the last names, then indices of one.
pub fn keys_names(m: &mut Maker, more: usize) -> Vec<Stmt> {
    m.text("h");
    let names = last_names(m, 200);
    let mut all = vec![];
    for name in &names {
        let whole = operand(m, *name, None, None);
        all.push(measure(m, whole));
    }
    let last = 254 + more - names.len();
    let slice = operand(m, names[0], None, Some((0, last as u64)));
    all.push(measure(m, slice));
    for name in [names[0], names[1], names[names.len() - 1]] {
        let used = operand(m, name, Some(last as u64), None);
        all.push(gate(m, "h", vec![used]));
    }
    all
}

/// Functions, gates, or fewer of both, with the last of the texts.
pub fn many_definitions(m: &mut Maker, more: usize) -> Vec<Stmt> {
    match more {
        0 => many_functions(m, 150),
        1 => many_gates(m, 220),
        _ => [many_functions(m, 90), many_gates(m, 90)].concat(),
    }
}

/// Functions of up to sixteen parameters.
fn many_functions(m: &mut Maker, count: usize) -> Vec<Stmt> {
    let names = last_names(m, count);
    let define = |m: &mut Maker, name: Text| {
        let params = m.many(16 - name as usize % 3, |m| (m.ty(), m.variable()));
        let return_type = m.ty();
        let body = m.int(1);
        Stmt::FunctionDef { name, params, return_type, body, span: m.span() }
    };
    let mut all: Vec<Stmt> = names.iter().map(|name| define(m, *name)).collect();
    for name in [names[0], names[1], names[60], names[names.len() - 1]] {
        let args = m.many(16, |m| m.expr(0));
        let value = Expr::Call { name, args, span: m.span() };
        let target = m.variable();
        all.push(Stmt::Assignment { name: target, op: AssignOp::Assign, value, span: m.span() });
    }
    all.push(define(m, names[3]));
    all
}

/// All 256 texts, declared at every level and looked up again.
pub fn many_names(m: &mut Maker, more: usize) -> Vec<Stmt> {
    m.text("h");
    let names = last_names(m, 256);
    let mut body = vec![];
    for level in 0..STATEMENT_LEVELS {
        let mut list: Vec<Stmt> = vec![];
        for (i, name) in names.iter().enumerate() {
            if i % STATEMENT_LEVELS == level || i % 29 == level {
                list.push(qubit(m, *name, Some((i + level + more) as u64)));
            }
        }
        let ends = [names[0], names[names.len() - 1], m.draws.of(&names)];
        list.extend(ends.map(|name| {
            let used = operand(m, name, Some(90), Some((1, 70)));
            gate(m, "h", vec![used])
        }));
        if level > 0 {
            let at = m.draws.below(list.len());
            let inner = branch(m, body, None);
            list.insert(at, inner);
        }
        body = list;
    }
    body
}

/// Gate definitions of many names, and calls of some.
fn many_gates(m: &mut Maker, count: usize) -> Vec<Stmt> {
    let names: Vec<Text> = (256 - count..256).map(|number| number as Text).collect();
    last_names(m, 0);
    let mut all = vec![];
    for (i, name) in names.iter().enumerate() {
        let (params, qparams) = (m.many(i % 5, Maker::variable), m.many(i % 7, Maker::variable));
        all.push(Stmt::GateDef { name: *name, params, qparams, body: vec![], span: m.span() });
    }
    for name in [names[0], names[77], names[names.len() - 1], names[5]] {
        let args = m.many(2, Maker::operand);
        all.push(Stmt::GateCall { name, modifiers: vec![], params: vec![], args, span: m.span() });
    }
    all
}

/// 16,383 to 16,385 bytes.
pub fn file_bytes(m: &mut Maker, more: usize) -> Vec<Stmt> {
    let name = m.text("q");
    let all = vec![undeclared(m, "no", 3), qubit(m, name, None)];
    let used =
        crate::generate::bytes(&Tree { texts: m.texts.clone(), statements: all.clone() }).len();
    // Includes of 11 bytes, then barriers of 10 until the rest is whole.
    let mut left = 16_383 + more - used;
    let mut fill = vec![];
    while left % 11 != 0 {
        fill.push(Stmt::Barrier { targets: vec![], span: m.span() });
        left -= 10;
    }
    let path = m.paths[0];
    fill.extend(m.many(left / 11, |m| Stmt::Include { path, span: m.span() }));
    [fill, all].concat()
}

/// Lists of sixteen: modifiers, parameters, operands, arguments.
pub fn sixteen(m: &mut Maker, more: usize) -> Vec<Stmt> {
    let name = m.text("g");
    let count = 15 + more;
    let (params, qparams) = (m.many(count, Maker::variable), m.many(count, Maker::variable));
    let define = Stmt::GateDef { name, params, qparams, body: vec![], span: m.span() };
    let modifiers = m.many(16, Maker::modifier);
    let (params, args) = (m.many(16, |m| m.expr(1)), m.many(16, Maker::operand));
    let call = Stmt::GateCall { name, modifiers, params, args, span: m.span() };
    [m.declarations(70), vec![define, call]].concat()
}

/// Too many keys or diagnostics, too long a listing: two of them or all.
pub fn two_refusals(m: &mut Maker, more: usize) -> Vec<Stmt> {
    let mut all = vec![];
    let name = "far".repeat(21);
    if more != 1 {
        let text = m.text(&name);
        let keys = operand(m, text, None, Some((1, 300)));
        all.push(measure(m, keys));
    }
    for _ in 0..60 {
        let count = if more == 0 && all.len() > 17 { 0 } else { 16 };
        all.push(undeclared(m, &name, count));
    }
    all
}
