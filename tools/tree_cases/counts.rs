//! The counts of lists: 16 and 17 for each list with a one-byte count, and
//! statement counts, which have no limit of their own.

use crate::cases::{accepted, refused, replaced, Case};
use crate::levels::{bodies, FIRST};
use crate::make::*;
use crate::tree::{ClassicalType, GateModifier, Stmt};

pub fn cases() -> Vec<Case> {
    let mut cases = vec![];
    for list in lists() {
        cases.extend(of_list(&list));
    }
    cases.extend(statement_counts());
    cases
}

/// The lists with a one-byte count, by where the count stands.
fn lists() -> Vec<Part<usize>> {
    vec![
        // Case, name.
        part("modifiers", 3, |n| call(vec![GateModifier::Inv(SPAN); n], vec![], vec![])),
        // Case, name, no modifiers.
        part("gate call params", 4, |n| call(vec![], vec![leaf(); n], vec![])),
        // Case, name, no modifiers, no params.
        part("gate call args", 5, |n| call(vec![], vec![], vec![operand(); n])),
        // Case, name.
        part("gate params", 3, |n| gate(vec![0; n], vec![], vec![])),
        // Case, name, no params.
        part("gate qparams", 4, |n| gate(vec![], vec![0; n], vec![])),
        // Case, name.
        part("function params", 3, |n| function(vec![(ClassicalType::Bool, 0); n], leaf())),
        // Case.
        part("barrier targets", 1, |n| Stmt::Barrier { targets: vec![operand(); n], span: SPAN }),
        // Case, duration of 10 bytes.
        part("delay targets", 11, |n| delay(leaf(), vec![operand(); n])),
        // Case, name, op, case, name.
        part("call args", 7, |n| assign(called(vec![leaf(); n]))),
    ]
}

fn of_list(list: &Part<usize>) -> Vec<Case> {
    let with = |n| tree(&["q"], vec![(list.with)(n)]);
    let name = |what: &str| format!("{} {}", list.name, what);
    let place = FIRST + list.offset;
    let (most, over) = (with(16), with(17));
    vec![
        accepted(name("0"), with(0)),
        accepted(name("16"), most.clone()),
        refused(name("17"), over.clone(), 5, place),
        refused(name("16 stated as 17"), replaced(&most, place, &[17]), 5, place),
        refused(name("1 stated as 255"), replaced(&with(1), place, &[255]), 5, place),
        refused(name("17 at the end"), over[..place + 1].to_vec(), 5, place),
        refused(name("16 at the end"), most[..place + 1].to_vec(), 3, place + 1),
    ]
}

fn statement_counts() -> Vec<Case> {
    let mut cases = vec![];
    for count in [1, 16, 17, 255, 256, 257, 300] {
        let bytes = tree(&[], vec![barrier(); count]);
        cases.push(accepted(format!("{count} statements"), bytes));
    }
    for part in bodies() {
        for count in [0, 1, 2, 16, 17] {
            let bytes = tree(&["q"], vec![(part.with)(vec![barrier(); count])]);
            cases.push(accepted(format!("{} body of {count}", part.name), bytes));
        }
    }
    let body = |count| tree(&["q"], vec![gate(vec![], vec![], vec![barrier(); count])]);
    cases.push(accepted("gate body of 257", body(257)));
    // The body's count stands 5 after the case byte. The gate's span is then
    // read as an include, which needs 11 bytes and has 8.
    let short = replaced(&body(1), FIRST + 5, &[0, 2]);
    cases.push(refused("body one short", short, 3, FIRST + 7 + 10 + 8));
    cases
}
