//! The cases of a run: random trees, trees at the limits, damaged files.

use crate::decode;
use crate::draws::Draws;
use crate::edges::EDGES;
use crate::known::KNOWN;
use crate::maker::Maker;
use crate::reader;
use crate::statements::{Weights, ANY, CALLS, MARKS, STATEMENT_LEVELS, TYPED};
use crate::tree::*;
use crate::writer::Writer;

const MOST_BYTES: usize = 16_384;

pub struct Case {
    pub kind: &'static str,
    pub tree: Tree,
    pub bytes: Vec<u8>,
}

pub fn bytes(tree: &Tree) -> Vec<u8> {
    Writer::tree(tree).bytes
}

/// So many cases have their full share of trees at a limit, which are large.
const DENSE: u64 = 3_000;

/// The case of a number: of every twelve two are at a limit, two are known, one
/// is damaged, the others are random; past the dense ones fewer are at a limit
/// or known. An edge's number is 0, 1 and 2 in turn.
pub fn case(seed: u64, number: u64) -> Case {
    let mut maker = Maker::new(Draws::new(seed, number));
    let (round, kind) = match number.checked_sub(DENSE) {
        None => ((number / 6) as usize, number % 6),
        Some(more) => ((more / 192) as usize, sparse(more % 192)),
    };
    match kind {
        3 => {
            let (kind, make) = EDGES[round % EDGES.len()];
            let more = (round / EDGES.len() + round % EDGES.len()) % 3;
            let statements = make(&mut maker, more);
            whole(kind, maker, statements)
        }
        4 => {
            let (kind, make) = KNOWN[round % KNOWN.len()];
            let statements = make(&mut maker);
            whole(kind, maker, statements)
        }
        5 if round % 2 == 1 => damaged(maker),
        _ => random(maker, number < DENSE),
    }
}

/// Of 192 cases six are as among the dense ones, and a third may be damaged.
fn sparse(place: u64) -> u64 {
    match place {
        0..=5 => place,
        _ if place % 3 == 2 => 5,
        _ => 0,
    }
}

fn whole(kind: &'static str, maker: Maker, statements: Vec<Stmt>) -> Case {
    let tree = Tree { texts: maker.texts, statements };
    let bytes = bytes(&tree);
    Case { kind, tree, bytes }
}

/// Large trees are more frequent among the dense cases.
fn random(mut maker: Maker, dense: bool) -> Case {
    const STYLES: [(&str, Weights, usize); 5] = [
        ("random", ANY, 50),
        ("random marks", MARKS, 85),
        ("random types", TYPED, 15),
        ("random calls", CALLS, 80),
        ("random dense marks", MARKS, 100),
    ];
    let style = maker.draws.below(STYLES.len());
    let (kind, weights, qubits) = STYLES[style];
    if style == 4 {
        maker.variables.truncate(2);
    }
    let count = match maker.draws.below(if dense { 10 } else { 100 }) {
        0..=4 => 5 + maker.draws.below(16),
        5 => 20 + maker.draws.below(40),
        _ => 1 + maker.draws.below(5),
    };
    let mut statements = maker.declarations(qubits);
    statements.extend(maker.many(count, |m| m.statement(&weights, STATEMENT_LEVELS)));
    let mut case = whole(kind, maker, statements);
    while case.bytes.len() > MOST_BYTES {
        case.tree.statements.pop();
        case.bytes = bytes(&case.tree);
    }
    case
}

/// A file with one place changed. Where the reader still accepts it, the tree
/// is read back from it.
fn damaged(mut maker: Maker) -> Case {
    let mut draws = Draws::new(maker.draws.next(), 0);
    let mut case = random(maker, true);
    case.kind = "damaged";
    let place = draws.below(case.bytes.len());
    match draws.below(5) {
        0 => case.bytes.truncate(place),
        1 => case.bytes.extend([0, 1, 2].iter().take(1 + place % 3)),
        2 => drop(case.bytes.remove(place)),
        3 => case.bytes.insert(place, draws.of(&[0, 1, 16, 17, 255])),
        _ => case.bytes[place] = draws.of(&[0, 1, 2, 15, 17, 33, 255]),
    }
    if reader::read(&case.bytes).is_ok() {
        case.kind = "damaged, accepted";
        case.tree = decode::tree(&case.bytes);
    }
    case
}
