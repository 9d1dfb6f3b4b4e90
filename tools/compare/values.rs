//! Constant values at their limits, as control counts, so that a value that
//! is there or not shows in the number of qubits.

use crate::maker::Maker;
use crate::tree::*;

/// Values near the limits, or none; the operator goes before its parts, `n` is
/// the minus sign before one part and `^` the power.
const LARGE: [&str; 28] = [
    "min",
    "max",
    "n min",
    "n max",
    "+ max 1",
    "+ max 0",
    "- min 1",
    "- min 0",
    "- max n 1",
    "+ min n 1",
    "+ min max",
    "* max 1",
    "* max n 1",
    "* min 1",
    "* min n 1",
    "* n 1 min",
    "/ min 1",
    "/ min n 1",
    "/ max n 1",
    "^ 2 127",
    "^ n 2 128",
    "* ^ 2 126 2",
    "* ^ 2 126 n 2",
    "^ max 1",
    "^ min 1",
    "^ max 2",
    "^ min 2",
    "* 18446744073709551615 18446744073709551615",
];
const SMALL: [&str; 14] = [
    "^ 0 0",
    "^ 1 4294967295",
    "^ 1 4294967296",
    "^ n 1 4294967295",
    "^ 2 4294967295",
    "^ 0 4294967295",
    "^ 1 n 1",
    "/ 7 0",
    "/ 0 7",
    "/ n 7 2",
    "/ 7 n 2",
    "/ n 7 n 2",
    "n 0",
    "/ 0 0",
];

/// Large values over 2^64 and over -2^64, small ones and 5 more.
pub fn limit_values(m: &mut Maker) -> Vec<Stmt> {
    let mut all = vec![];
    for value in LARGE {
        all.push(controlled(m, &format!("/ {value} ^ 2 64")));
        all.push(controlled(m, &format!("/ {value} n ^ 2 64")));
    }
    for value in SMALL {
        all.push(controlled(m, &format!("+ {value} 5")));
    }
    all
}

fn controlled(m: &mut Maker, count: &str) -> Stmt {
    let name = m.text("GPHASE");
    let count = written(m, &mut count.split(' '));
    let modifiers = vec![GateModifier::Ctrl(Some(count), m.span())];
    Stmt::GateCall { name, modifiers, params: vec![], args: vec![], span: m.span() }
}

/// The expression that the next words are.
fn written<'a>(m: &mut Maker, words: &mut impl Iterator<Item = &'a str>) -> Expr {
    let word = words.next().unwrap_or("0");
    let op = match word {
        "+" => BinOp::Add,
        "-" => BinOp::Sub,
        "*" => BinOp::Mul,
        "/" => BinOp::Div,
        "^" => BinOp::Pow,
        "min" => return m.limit(true),
        "max" => return m.limit(false),
        "n" => {
            let part = written(m, words);
            return m.neg(part);
        }
        number => return m.int(number.parse().unwrap_or(0)),
    };
    let (lhs, rhs) = (written(m, words), written(m, words));
    m.binary(op, lhs, rhs)
}
