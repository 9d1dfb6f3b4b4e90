//! Trees for measuring: programs as people write them, with few errors, and
//! some that are large in one way.

use crate::draws::Draws;
use crate::edges::{branch, gate, measure, operand, qubit};
use crate::generate;
use crate::maker::Maker;
use crate::tree::*;

pub struct Sized {
    pub name: &'static str,
    pub tree: Tree,
    pub bytes: Vec<u8>,
}

pub const NAMES: [&str; 9] = [
    "small",
    "middle",
    "16 KiB",
    "deep nests of if",
    "many keys",
    "many names",
    "long texts",
    "long texts, equal beginnings",
    "many diagnostics",
];
const LARGEST: usize = 16_384;

/// A program's registers, by their names.
struct Names {
    qubits: Vec<Text>,
    bits: Text,
    gates: [Text; 4],
}

fn names(m: &mut Maker, qubits: Vec<Text>) -> Names {
    let gates = ["h", "x", "rz", "cx"].map(|name| m.text(name));
    Names { qubits, bits: m.text("c"), gates }
}

fn one(m: &mut Maker, n: &Names) -> GateOperand {
    let (name, index) = (m.draws.of(&n.qubits), m.draws.below(8) as u64);
    operand(m, name, Some(index), None)
}

fn call(m: &mut Maker, n: &Names) -> Stmt {
    let which = m.draws.below(4);
    let params = if which == 2 { vec![angle(m)] } else { vec![] };
    let args = m.many(1 + (which == 3) as usize, |m| one(m, n));
    Stmt::GateCall { name: n.gates[which], modifiers: vec![], params, args, span: m.span() }
}

/// pi over a number.
fn angle(m: &mut Maker) -> Expr {
    let lhs = Expr::Const(ConstKind::Pi, m.span());
    let rhs = m.int(4);
    m.binary(BinOp::Div, lhs, rhs)
}

fn bit(m: &mut Maker, n: &Names) -> GateOperand {
    let index = m.draws.below(8) as u64;
    operand(m, n.bits, Some(index), None)
}

/// Whether a bit is 1.
fn condition(m: &mut Maker, n: &Names) -> Expr {
    let lhs = Expr::Index { name: n.bits, index: m.draws.below(8) as u64, span: m.span() };
    let rhs = m.int(1);
    Expr::Compare { op: CompareOp::Eq, lhs: Box::new(lhs), rhs: Box::new(rhs), span: m.span() }
}

/// A measurement, its use, and a reset of the qubit.
fn measured(m: &mut Maker, n: &Names) -> Vec<Stmt> {
    let qubit = one(m, n);
    let target = GateOperand { span: m.span(), ..qubit.clone() };
    let bit = bit(m, n);
    let measure = Stmt::Measure { qubit, target: Some(bit), span: m.span() };
    let body = vec![call(m, n)];
    let mut asked = branch(m, body, None);
    if let Stmt::If { condition: of, .. } = &mut asked {
        *of = condition(m, n);
    }
    vec![measure, asked, Stmt::Reset { target, span: m.span() }]
}

fn declared(m: &mut Maker, n: &Names, size: Option<u64>) -> Vec<Stmt> {
    let mut all: Vec<Stmt> = n.qubits.iter().map(|name| qubit(m, *name, size)).collect();
    all.push(Stmt::BitDecl { name: n.bits, size: Some(8), span: m.span() });
    all
}

/// Statements until the file has so many bytes, less one step.
fn filled(
    name: &'static str,
    mut m: Maker,
    most: usize,
    first: Vec<Stmt>,
    mut step: impl FnMut(&mut Maker) -> Vec<Stmt>,
) -> Sized {
    let mut tree = Tree { texts: vec![], statements: first };
    loop {
        let more = step(&mut m);
        let before = tree.statements.len();
        tree.statements.extend(more);
        tree.texts = m.texts.clone();
        if generate::bytes(&tree).len() > most {
            tree.statements.truncate(before);
            let bytes = generate::bytes(&tree);
            return Sized { name, tree, bytes };
        }
    }
}

/// Gate calls for the most part, then measurements that are asked and reset.
fn program(name: &'static str, mut m: Maker, most: usize) -> Sized {
    m.floats.truncate(1);
    let qubits = ["q", "r", "anc"].map(|name| m.text(name)).to_vec();
    let n = names(&mut m, qubits);
    let first = declared(&mut m, &n, Some(8));
    filled(name, m, most, first, |m| {
        let calls = 2 + m.draws.below(4);
        [m.many(calls, |m| call(m, &n)), measured(m, &n)].concat()
    })
}

fn nest(m: &mut Maker, n: &Names, levels: usize) -> Vec<Stmt> {
    let mut all = measured(m, n);
    if levels > 2 {
        let (then, other) = (nest(m, n, levels - 1), vec![call(m, n)]);
        all.push(branch(m, then, Some(other)));
    }
    all
}

fn deep(name: &'static str, mut m: Maker) -> Sized {
    let qubits = vec![m.text("q")];
    let n = names(&mut m, qubits);
    let first = declared(&mut m, &n, Some(8));
    filled(name, m, LARGEST, first, |m| nest(m, &n, 8))
}

/// A register of 255 that is measured whole and reset, again and again.
fn many_keys(name: &'static str, mut m: Maker) -> Sized {
    let q = m.text("q");
    let first = vec![qubit(&mut m, q, Some(255))];
    filled(name, m, LARGEST, first, |m| {
        let whole = operand(m, q, None, None);
        let index = m.draws.below(255) as u64;
        let target = operand(m, q, None, None);
        let used = operand(m, q, Some(index), None);
        let all = vec![measure(m, whole), Stmt::Reset { target, span: m.span() }];
        [all, vec![gate(m, "h", vec![used])]].concat()
    })
}

/// 200 uses of a measured qubit among other calls.
fn many_diagnostics(name: &'static str, mut m: Maker) -> Sized {
    let (q, r) = (m.text("q"), m.text("r"));
    let whole = operand(&mut m, q, None, None);
    let mut first = vec![qubit(&mut m, q, Some(8)), qubit(&mut m, r, Some(8))];
    first.push(measure(&mut m, whole));
    let mut left = 200;
    filled(name, m, LARGEST, first, |m| {
        let paid = left > 0 && m.draws.one_in(2);
        left -= paid as usize;
        let index = m.draws.below(8) as u64;
        let used = operand(m, if paid { q } else { r }, Some(index), None);
        vec![gate(m, "h", vec![used])]
    })
}

/// So many registers.
fn many_names(name: &'static str, mut m: Maker, count: usize, text: fn(usize) -> String) -> Sized {
    let qubits: Vec<Text> = (0..count).map(|i| m.text(&text(i))).collect();
    let n = names(&mut m, qubits);
    let first = declared(&mut m, &n, Some(8));
    filled(name, m, LARGEST, first, |m| vec![call(m, &n)])
}

fn ends_differ(i: usize) -> String {
    format!("{}{i:03}", "n".repeat(61))
}

fn begins_differ(i: usize) -> String {
    format!("n{i:03}{}", "n".repeat(60))
}

fn maker(seed: u64, number: u64) -> Maker {
    let mut m = Maker::new(Draws::new(seed, number));
    m.texts.clear();
    m.floats = vec![m.text("1.5")];
    m.functions = vec![m.text("f")];
    m.variables = vec![m.text("i")];
    m
}

fn made(name: &'static str, m: Maker, most: usize) -> Sized {
    match name {
        "deep nests of if" => deep(name, m),
        "many keys" => many_keys(name, m),
        "many diagnostics" => many_diagnostics(name, m),
        "many names" => many_names(name, m, 200, |i| format!("n{i}")),
        "long texts" => many_names(name, m, 120, begins_differ),
        "long texts, equal beginnings" => many_names(name, m, 120, ends_differ),
        _ => program(name, m, most),
    }
}

/// Twenty trees of each name.
pub fn all(seed: u64) -> Vec<Sized> {
    let mut all = vec![];
    for (place, name) in NAMES.iter().enumerate() {
        for number in 0..20 {
            let m = maker(seed, place as u64 * 100 + number);
            let most = match place {
                0 => 200 + number as usize * 40,
                1 => 1_500 + number as usize * 350,
                _ => LARGEST,
            };
            all.push(made(name, m, most));
        }
    }
    all
}

/// Programs of one kind, each twice as large as the one before.
pub fn growing(seed: u64) -> Vec<Sized> {
    [512, 1024, 2048, 4096, 8192, LARGEST]
        .map(|most| program("growing", maker(seed, 7), most))
        .into()
}
