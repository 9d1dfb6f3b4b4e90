//! Statement levels 8 and 9, expression levels 32 and 33.

use crate::cases::{accepted, longer, refused, replaced, Case};
use crate::make::*;
use crate::tree::{Expr, GateModifier, Stmt};

/// The one text is `q`, so the first statement's case byte stands at 6.
pub const FIRST: usize = 6;

/// How many levels there are, the last case, and bytes that are no case.
struct Levels {
    most: usize,
    last_case: u8,
    no_case: u8,
    no_case_at_end: u8,
}

const STATEMENTS: Levels = Levels { most: 8, last_case: 14, no_case: 15, no_case_at_end: 15 };
const EXPRESSIONS: Levels = Levels { most: 32, last_case: 9, no_case: 10, no_case_at_end: 255 };

pub fn cases() -> Vec<Case> {
    let mut cases = vec![];
    for body in bodies() {
        cases.extend(of_body(&body));
    }
    cases.extend(mixed_bodies());
    for chain in chains() {
        cases.extend(of_chain(&chain));
        cases.extend(in_modifier(&chain));
    }
    for holder in holders() {
        cases.extend(of_holder(&holder));
    }
    cases.extend(both_levels());
    cases
}

/// The bodies, by where the first statement stands.
pub fn bodies() -> Vec<Part<Vec<Stmt>>> {
    vec![
        // Case, name, two counts, body count.
        part("gate", 7, |body| gate(vec![], vec![], body)),
        // Case, condition of 10, body count.
        part("then", 13, |body| branch(leaf(), body, None)),
        // Case, condition of 10, body count, flag, body count.
        part("else", 16, |body| branch(leaf(), vec![], Some(body))),
        // Case, name, type, start and end of 10, flag, body count.
        part("for", 27, |body| for_loop(leaf(), leaf(), None, body)),
        // Case, condition of 10, body count.
        part("while", 13, |body| while_loop(leaf(), body)),
    ]
}

/// Statements one in the other, the innermost with an empty body.
fn nested(with: fn(Vec<Stmt>) -> Stmt, levels: usize) -> Stmt {
    (1..levels).fold(with(vec![]), |inner, _| with(vec![inner]))
}

/// Trees of the most levels and of one more, whose case byte stands at `place`.
fn one_more(
    name: &str,
    levels: &Levels,
    with: impl Fn(usize) -> Vec<u8>,
    place: usize,
) -> Vec<Case> {
    let more = levels.most + 1;
    let name = |level: usize, what: &str| format!("{name} level {level}{what}");
    let over = with(more);
    let no_case = replaced(&over, place, &[levels.no_case]);
    let last_case = replaced(&over, place, &[levels.last_case]);
    let no_case_at_end = longer(&over[..place], &[levels.no_case_at_end]);
    vec![
        accepted(name(levels.most, ""), with(levels.most)),
        refused(name(more, ""), over.clone(), 6, place),
        refused(name(more, ", no case"), no_case, 4, place),
        refused(name(more, ", last case"), last_case, 6, place),
        refused(name(more, " at the end"), over[..place + 1].to_vec(), 6, place),
        refused(name(more, ", no case, at the end"), no_case_at_end, 4, place),
        refused(name(more, " missing"), over[..place].to_vec(), 3, place),
    ]
}

fn of_body(body: &Part<Vec<Stmt>>) -> Vec<Case> {
    let name = |what: &str| format!("{} level {}", body.name, what);
    let nest = |levels| tree(&["q"], vec![nested(body.with, levels)]);
    let twice = |levels| tree(&["q"], vec![nested(body.with, 8), nested(body.with, levels)]);
    let second = nest(8).len();
    let mut cases = one_more(body.name, &STATEMENTS, nest, FIRST + 8 * body.offset);
    cases.push(accepted(name("8 and 8 again"), twice(8)));
    cases.push(refused(name("8, then 9"), twice(9), 6, second + 8 * body.offset));
    cases
}

fn mixed_bodies() -> Vec<Case> {
    // Gate, then, else, for, while, gate, then, else hold one another.
    let order = [0, 1, 2, 3, 4, 0, 1, 2];
    let bodies = bodies();
    let within = |inner| order.iter().rev().fold(inner, |b, i| vec![(bodies[*i].with)(b)]);
    let place = FIRST + order.iter().map(|i| bodies[*i].offset).sum::<usize>();
    let seven = |body| (0..7).fold(body, |inner, _| vec![while_loop(leaf(), inner)]);
    // Seven of 13 bytes, then the if, or a barrier of 10 and the if.
    let in_if = FIRST + 7 * 13;
    let then = || branch(leaf(), vec![barrier()], None);
    let other = || branch(leaf(), vec![], Some(vec![barrier()]));
    let second = tree(&["q"], seven(vec![barrier(), then()]));
    vec![
        accepted("mixed level 8", tree(&["q"], within(vec![]))),
        refused("mixed level 9", tree(&["q"], within(vec![barrier()])), 6, place),
        accepted("two of level 8", tree(&["q"], seven(vec![barrier(), barrier()]))),
        refused("then of level 9", tree(&["q"], seven(vec![then()])), 6, in_if + 13),
        refused("else of level 9", tree(&["q"], seven(vec![other()])), 6, in_if + 16),
        refused("level 9 after one of level 8", second, 6, in_if + 23),
    ]
}

/// An expression that holds another, and where its first part and the part
/// that goes on stand after its case byte.
struct Chain {
    name: &'static str,
    first: usize,
    step: usize,
    with: fn(Expr) -> Expr,
}

fn chains() -> Vec<Chain> {
    let chain = |name, first, step, with| Chain { name, first, step, with };
    vec![
        // Case.
        chain("neg", 1, 1, negated),
        // Case, op; the left side has 10 bytes before the right one.
        chain("binary lhs", 2, 2, |part| sum(part, leaf())),
        chain("binary rhs", 2, 12, |part| sum(leaf(), part)),
        chain("compare lhs", 2, 2, |part| equal(part, leaf())),
        chain("compare rhs", 2, 12, |part| equal(leaf(), part)),
        // Case, name, count; an argument before has 10 bytes.
        chain("call only arg", 4, 4, |part| called(vec![part])),
        chain("call last arg", 4, 14, |part| called(vec![leaf(), part])),
    ]
}

/// Expressions one in the other, a leaf at the last level.
fn chained(with: fn(Expr) -> Expr, levels: usize) -> Expr {
    (1..levels).fold(leaf(), |inner, _| with(inner))
}

/// Where level 33 begins in an expression: the first part of level 32.
fn level_33(chain: &Chain) -> usize {
    31 * chain.step + chain.first
}

fn of_chain(chain: &Chain) -> Vec<Case> {
    let with = |levels| tree(&["q"], vec![assign(chained(chain.with, levels))]);
    // Case, name, op, then the value.
    one_more(chain.name, &EXPRESSIONS, with, FIRST + 4 + level_33(chain))
}

fn in_modifier(chain: &Chain) -> Vec<Case> {
    let name = |what: &str| format!("{} in pow level {}", chain.name, what);
    let pow = |levels| modified(GateModifier::Pow(chained(chain.with, levels), SPAN));
    let with = |levels| tree(&["q"], vec![pow(levels)]);
    // Case, name, count, case, then the power.
    let place = FIRST + 5 + level_33(chain);
    vec![accepted(name("32"), with(32)), refused(name("33"), with(33), 6, place)]
}

/// The expressions of statements and modifiers.
fn holders() -> Vec<Part<Expr>> {
    vec![
        // Case, flag, type, name, flag.
        part("init", 6, |e| declare(None, Some(e))),
        // Case, name, op.
        part("value", 4, assign),
        // Case, name, two counts; a leaf of 10 before the second.
        part("param", 5, |e| call(vec![], vec![e], vec![])),
        part("second param", 15, |e| call(vec![], vec![leaf(), e], vec![])),
        // Case, name, count, type.
        part("function body", 5, |e| function(vec![], e)),
        // Case.
        part("duration", 1, |e| delay(e, vec![])),
        part("if condition", 1, |e| branch(e, vec![], None)),
        // Case, name, type; start, end, flag.
        part("range start", 4, |e| for_loop(e, leaf(), None, vec![])),
        part("range end", 14, |e| for_loop(leaf(), e, None, vec![])),
        part("range step", 25, |e| for_loop(leaf(), leaf(), Some(e), vec![])),
        part("while condition", 1, |e| while_loop(e, vec![])),
        // Case, name, count, case, flag.
        part("ctrl count", 6, |e| modified(GateModifier::Ctrl(Some(e), SPAN))),
        part("negctrl count", 6, |e| modified(GateModifier::NegCtrl(Some(e), SPAN))),
        // Case, name, count, case.
        part("power", 5, |e| modified(GateModifier::Pow(e, SPAN))),
    ]
}

fn of_holder(holder: &Part<Expr>) -> Vec<Case> {
    let name = |what: &str| format!("{} level {}", holder.name, what);
    let with = |levels| tree(&["q"], vec![(holder.with)(chained(negated, levels))]);
    let place = FIRST + holder.offset + 32;
    vec![
        accepted(name("32"), with(32)),
        refused(name("33"), with(33), 6, place),
        refused(name("33, no case"), replaced(&with(33), place, &[EXPRESSIONS.no_case]), 4, place),
    ]
}

/// Statements of level 8 with expressions of level 32 and 33.
fn both_levels() -> Vec<Case> {
    let deep = |levels| {
        let inner = vec![assign(chained(negated, levels))];
        (0..7).fold(inner, |body, _| vec![while_loop(leaf(), body)])
    };
    // Seven of 13 bytes, then case, name, op, 32 case bytes.
    let place = FIRST + 7 * 13 + 4 + 32;
    let two = |levels| sum(chained(negated, 31), chained(negated, levels));
    // Case, name, op, case, op; 30 case bytes, leaf, 30 spans; 31 case bytes.
    let right = FIRST + 4 + 2 + 30 + 10 + 30 * 8 + 31;
    vec![
        accepted("statement level 8, expression level 32", tree(&["q"], deep(32))),
        refused("statement level 8, expression level 33", tree(&["q"], deep(33)), 6, place),
        accepted("both sides level 32", tree(&["q"], vec![assign(two(31))])),
        refused("right side level 33", tree(&["q"], vec![assign(two(32))]), 6, right),
    ]
}
