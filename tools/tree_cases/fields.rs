//! Each field that can be wrong, in each case that has it: case bytes, bytes
//! of Bool and Option, and text numbers. Where each stands is worked out by
//! hand, counted from the case byte of its statement.

use self::Kind::*;
use crate::cases::{accepted, refused, replaced, Case};
use crate::make::*;
use crate::tree::*;

/// The texts are `q` and `1.5`, so the statement's case byte stands at 10.
const TEXTS: [&str; 2] = ["q", "1.5"];
const FIRST: usize = 10;

/// What a field takes.
enum Kind {
    /// An enum without fields: how many cases.
    Plain(u8),
    /// An enum with fields: how many cases.
    Choice(u8),
    Flag,
    Name,
    Path,
    Float,
}

struct Site {
    name: &'static str,
    kind: Kind,
    offset: usize,
    statement: Stmt,
}

fn site(name: &'static str, kind: Kind, offset: usize, statement: Stmt) -> Site {
    Site { name, kind, offset, statement }
}

pub fn cases() -> Vec<Case> {
    let mut sites = choices_of_statements();
    sites.extend(choices_of_expressions());
    sites.extend(plain_cases());
    sites.extend(flags_of_statements());
    sites.extend(flags_of_parts());
    sites.extend(names_of_statements());
    sites.extend(names_of_parts());
    let mut cases: Vec<Case> = sites.iter().flat_map(of_site).collect();
    cases.extend(free_numbers());
    cases
}

fn of_site(site: &Site) -> Vec<Case> {
    let bytes = tree(&TEXTS, vec![site.statement.clone()]);
    let place = FIRST + site.offset;
    let name = |what: &str| format!("{} {}", site.name, what);
    let with = |value: u8| (name(&format!("byte {value}")), replaced(&bytes, place, &[value]));
    let good = |(name, bytes)| accepted(name, bytes);
    let bad = |(name, bytes)| refused(name, bytes, 4, place);
    let mut cases = vec![];
    match site.kind {
        Plain(count) => {
            cases.extend((0..count).map(|case| good(with(case))));
            cases.extend([bad(with(count)), bad(with(255))]);
        }
        Choice(count) => {
            cases.push(good((name("as it is"), bytes.clone())));
            cases.extend([bad(with(count)), bad(with(255))]);
        }
        Flag => {
            cases.push(good((name("as it is"), bytes.clone())));
            cases.push(bad(with(2)));
        }
        Name => cases.extend(of_text_number(site, &bytes, &[0], &[1, 2, 256])),
        Path => cases.extend(of_text_number(site, &bytes, &[0, 1], &[2, 256])),
        Float => cases.extend(of_text_number(site, &bytes, &[1], &[0, 2, 257])),
    }
    cases
}

/// Text numbers that are taken and that are not, and one cut in two.
fn of_text_number(site: &Site, bytes: &[u8], good: &[u16], bad: &[u16]) -> Vec<Case> {
    let place = FIRST + site.offset;
    let name = |number: &u16| format!("{} text {}", site.name, number);
    let with = |number: &u16| replaced(bytes, place, &number.to_be_bytes());
    let mut cases: Vec<Case> = good.iter().map(|n| accepted(name(n), with(n))).collect();
    cases.extend(bad.iter().map(|n| refused(name(n), with(n), 4, place)));
    let half = with(&65_535)[..place + 1].to_vec();
    cases.push(refused(format!("{} half a number", site.name), half, 3, place + 1));
    cases
}

fn choices_of_statements() -> Vec<Site> {
    let one = || vec![while_loop(leaf(), vec![])];
    let pow = || GateModifier::Pow(leaf(), SPAN);
    vec![
        site("statement", Choice(15), 0, while_loop(leaf(), vec![])),
        // Case, name, two counts, body count.
        site("gate body statement", Choice(15), 7, gate(vec![], vec![], one())),
        // Case, condition, count; flag, count.
        site("then statement", Choice(15), 13, branch(leaf(), one(), None)),
        site("else statement", Choice(15), 16, branch(leaf(), vec![], Some(one()))),
        // Case, name, type, start, end, flag, count.
        site("for statement", Choice(15), 27, for_loop(leaf(), leaf(), None, one())),
        site("while statement", Choice(15), 13, while_loop(leaf(), one())),
        // Case, name, count; an inv has 9 bytes.
        site("modifier", Choice(4), 4, modified(pow())),
        site(
            "second modifier",
            Choice(4),
            13,
            call(vec![GateModifier::Inv(SPAN), pow()], vec![], vec![]),
        ),
    ]
}

fn choices_of_expressions() -> Vec<Site> {
    // 30 bytes: case, op, two leaves, span. The last case of an expression.
    let last = || equal(leaf(), leaf());
    let site = |name, offset, statement| site(name, Choice(10), offset, statement);
    vec![
        site("init", 6, declare(None, Some(last()))),
        site("value", 4, assign(last())),
        site("param", 5, call(vec![], vec![last()], vec![])),
        site("function body", 5, function(vec![], last())),
        site("duration", 1, delay(last(), vec![])),
        site("if condition", 1, branch(last(), vec![], None)),
        site("range start", 4, for_loop(last(), leaf(), None, vec![])),
        site("range end", 14, for_loop(leaf(), last(), None, vec![])),
        site("range step", 25, for_loop(leaf(), leaf(), Some(last()), vec![])),
        site("while condition", 1, while_loop(last(), vec![])),
        site("ctrl count", 6, modified(GateModifier::Ctrl(Some(last()), SPAN))),
        site("negctrl count", 6, modified(GateModifier::NegCtrl(Some(last()), SPAN))),
        site("power", 5, modified(GateModifier::Pow(last(), SPAN))),
        // The value stands at 4, its parts at 5 and on.
        site("neg part", 5, assign(negated(last()))),
        site("binary lhs", 6, assign(sum(last(), leaf()))),
        site("binary rhs", 16, assign(sum(leaf(), last()))),
        site("compare lhs", 6, assign(equal(last(), leaf()))),
        site("compare rhs", 16, assign(equal(leaf(), last()))),
        site("call arg", 8, assign(called(vec![last()]))),
        site("second call arg", 18, assign(called(vec![leaf(), last()]))),
    ]
}

fn plain_cases() -> Vec<Site> {
    let constant = Expr::Const(ConstKind::Pi, SPAN);
    let input = Some(ClassicalQualifier::Input);
    vec![
        // Case, flag; then the qualifier.
        site("qualifier", Plain(3), 2, declare(input, None)),
        site("declared type", Plain(5), 2, declare(None, None)),
        site("type after qualifier", Plain(5), 3, declare(input, None)),
        // Case, name.
        site("assign op", Plain(3), 3, assign(leaf())),
        site("for type", Plain(5), 3, for_loop(leaf(), leaf(), None, vec![])),
        // Case, name, count; a parameter has 3 bytes.
        site("return type", Plain(5), 4, function(vec![], leaf())),
        site("param type", Plain(5), 4, function(vec![(ClassicalType::Int, 0)], leaf())),
        site("second param type", Plain(5), 7, function(vec![(ClassicalType::Int, 0); 2], leaf())),
        // The value stands at 4.
        site("constant", Plain(3), 5, assign(constant)),
        site("binary op", Plain(5), 5, assign(sum(leaf(), leaf()))),
        site("compare op", Plain(6), 5, assign(equal(leaf(), leaf()))),
        site("bool", Plain(2), 5, assign(leaf())),
    ]
}

fn flags_of_statements() -> Vec<Site> {
    let site = |name, offset, statement| site(name, Flag, offset, statement);
    let output = Some(ClassicalQualifier::Output);
    let one = || vec![barrier()];
    vec![
        // Case, name.
        site("qubit size absent", 3, qubit(None)),
        site("qubit size present", 3, qubit(Some(2))),
        site("bit size absent", 3, bit(None)),
        site("bit size present", 3, bit(Some(2))),
        // Case; flag, type, name.
        site("qualifier absent", 1, declare(None, None)),
        site("qualifier present", 1, declare(output, None)),
        site("init absent", 5, declare(None, None)),
        site("init present", 5, declare(None, Some(leaf()))),
        site("init after qualifier", 6, declare(output, Some(leaf()))),
        // Case, operand of 12.
        site("target absent", 13, measure(None)),
        site("target present", 13, measure(Some(operand()))),
        // Case, condition, count; a barrier has 10 bytes.
        site("else absent", 13, branch(leaf(), vec![], None)),
        site("else present", 23, branch(leaf(), one(), Some(one()))),
        // Case, name, type, start, end.
        site("step absent", 24, for_loop(leaf(), leaf(), None, vec![])),
        site("step present", 24, for_loop(leaf(), leaf(), Some(leaf()), one())),
    ]
}

fn flags_of_parts() -> Vec<Site> {
    let site = |name, offset, statement| site(name, Flag, offset, statement);
    let at = |index, slice| reset(GateOperand { name: 0, index, slice, span: SPAN });
    let (index, slice) = (Some(1), Some((1, 0)));
    let ctrl = |count| modified(GateModifier::Ctrl(count, SPAN));
    let negctrl = |count| modified(GateModifier::NegCtrl(count, SPAN));
    vec![
        // Case, name; the index has 8 bytes.
        site("index absent", 3, at(None, None)),
        site("index present", 3, at(index, None)),
        site("index with a slice", 3, at(index, slice)),
        site("slice absent", 4, at(None, None)),
        site("slice present", 4, at(None, slice)),
        site("slice absent after an index", 12, at(index, None)),
        site("slice present after an index", 12, at(index, slice)),
        // Case, name, count, case.
        site("ctrl absent", 5, ctrl(None)),
        site("ctrl present", 5, ctrl(Some(leaf()))),
        site("negctrl absent", 5, negctrl(None)),
        site("negctrl present", 5, negctrl(Some(leaf()))),
    ]
}

fn names_of_statements() -> Vec<Site> {
    vec![
        site("include path", Path, 1, include()),
        site("qubit name", Name, 1, qubit(None)),
        site("bit name", Name, 1, bit(None)),
        // Case, flag, type; the qualifier has 1 byte.
        site("declared name", Name, 3, declare(None, None)),
        site("name after qualifier", Name, 4, declare(Some(ClassicalQualifier::Const), None)),
        site("assigned name", Name, 1, assign(leaf())),
        site("gate call name", Name, 1, call(vec![], vec![], vec![])),
        site("gate name", Name, 1, gate(vec![], vec![], vec![])),
        // Case, name, count; count.
        site("gate param", Name, 4, gate(vec![0], vec![], vec![])),
        site("second gate param", Name, 6, gate(vec![0, 0], vec![], vec![])),
        site("gate qubit", Name, 5, gate(vec![], vec![0], vec![])),
        site("gate qubit after params", Name, 7, gate(vec![0], vec![0], vec![])),
        site("function name", Name, 1, function(vec![], leaf())),
        // Case, name, count, type.
        site("function param", Name, 5, function(vec![(ClassicalType::Int, 0)], leaf())),
        site("for name", Name, 1, for_loop(leaf(), leaf(), None, vec![])),
    ]
}

fn names_of_parts() -> Vec<Site> {
    let index = Expr::Index { name: 0, index: 3, span: SPAN };
    vec![
        // Case, name, three counts; an operand has 12 bytes.
        site("gate operand", Name, 6, call(vec![], vec![], vec![operand()])),
        site("second gate operand", Name, 18, call(vec![], vec![], vec![operand(), operand()])),
        site("measured operand", Name, 1, measure(None)),
        site("target operand", Name, 14, measure(Some(operand()))),
        site("reset operand", Name, 1, reset(operand())),
        site("barrier operand", Name, 2, Stmt::Barrier { targets: vec![operand()], span: SPAN }),
        site("delay operand", Name, 12, delay(leaf(), vec![operand()])),
        // The value stands at 4.
        site("used name", Name, 5, assign(Expr::Ident(0, SPAN))),
        site("indexed name", Name, 5, assign(index)),
        site("called name", Name, 5, assign(called(vec![]))),
        site("float", Float, 5, assign(Expr::FloatLit(1, SPAN))),
        // Case, name, count, case.
        site("name in pow", Name, 6, modified(GateModifier::Pow(Expr::Ident(0, SPAN), SPAN))),
    ]
}

/// Numbers and spans may have any value.
fn free_numbers() -> Vec<Case> {
    let one = |statement| tree(&TEXTS, vec![statement]);
    let spanned = |start, end| Stmt::Include { path: 0, span: Span { start, end } };
    let at = |index, slice| reset(GateOperand { name: 0, index, slice, span: SPAN });
    let largest = u64::MAX;
    let index = |index| assign(Expr::Index { name: 0, index, span: SPAN });
    vec![
        accepted("span 0 to 0", one(spanned(0, 0))),
        accepted("span start above end", one(spanned(7, 6))),
        accepted("span of the largest numbers", one(spanned(u32::MAX, u32::MAX))),
        accepted("largest whole number", one(assign(Expr::IntLit(largest, SPAN)))),
        accepted("largest index of a name", one(index(largest))),
        accepted("largest index of an operand", one(at(Some(largest), None))),
        accepted("slice start above end", one(at(None, Some((largest, 0))))),
        accepted("size 0", one(qubit(Some(0)))),
        accepted("largest size", one(qubit(Some(largest)))),
    ]
}
