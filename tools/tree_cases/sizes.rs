//! The size of the file, its first and last bytes, and the examples of the
//! document.

use crate::cases::{accepted, longer, refused, replaced, Case};
use crate::make::{barrier, include, tree};
use crate::tree::{GateOperand, Span, Stmt};

pub fn cases() -> Vec<Case> {
    let mut cases = smallest();
    cases.extend(examples());
    cases.extend(largest());
    cases
}

fn smallest() -> Vec<Case> {
    let empty = vec![0, 0, 0, 0];
    vec![
        accepted("no statements", empty.clone()),
        accepted("no statements, one text", tree(&["q"], vec![])),
        refused("no bytes", vec![], 3, 0),
        refused("one byte", vec![0], 3, 1),
        refused("text count alone", vec![0, 0], 3, 2),
        refused("half a statement count", vec![0, 0, 0], 3, 3),
        refused("no statements, a zero byte remains", longer(&empty, &[0]), 3, 4),
        refused("no statements, byte 255 remains", longer(&empty, &[255]), 3, 4),
        refused("no statements, many bytes remain", longer(&empty, &[0; 40]), 3, 4),
        refused("one statement, none stated", replaced(&tree(&[], vec![barrier()]), 3, &[0]), 3, 4),
        refused("one statement stated, none there", vec![0, 0, 0, 1], 3, 4),
        refused("65,535 statements stated, none there", vec![0, 0, 255, 255], 3, 4),
    ]
}

fn examples() -> Vec<Case> {
    // `qubit[2] q;` with text 0, span 0 to 11.
    let texts = [0, 1, 1, b'q'];
    let qubit = [1, 0, 0, 1, 0, 0, 0, 0, 0, 0, 0, 2, 0, 0, 0, 0, 0, 0, 0, 11];
    let example = [&texts[..], &[0, 1], &qubit].concat();
    let twice = [&texts[..], &[0, 2], &qubit, &qubit].concat();
    let without_name = [&[0, 0][..], &[0, 1], &qubit].concat();
    vec![
        accepted("document example", example.clone()),
        refused("document example, one byte less", example[..25].to_vec(), 3, 25),
        refused("document example, one byte more", longer(&example, &[1]), 3, 26),
        accepted("document example twice", twice.clone()),
        refused("two statements, one stated", replaced(&twice, 5, &[1]), 3, 26),
        refused("two statements, three stated", replaced(&twice, 5, &[3]), 3, 46),
        refused("document example without its text", without_name, 4, 5),
        accepted("document listing example", listing_example()),
    ]
}

/// `qubit[2] q; measure q; reset q[0]; h q[0:1];`
fn listing_example() -> Vec<u8> {
    let operand =
        |start, end, index, slice| GateOperand { name: 0, index, slice, span: Span { start, end } };
    let statements = vec![
        Stmt::QubitDecl { name: 0, size: Some(2), span: Span { start: 0, end: 11 } },
        Stmt::Measure {
            qubit: operand(20, 21, None, None),
            target: None,
            span: Span { start: 12, end: 22 },
        },
        Stmt::Reset { target: operand(29, 33, Some(0), None), span: Span { start: 23, end: 34 } },
        Stmt::GateCall {
            name: 1,
            modifiers: vec![],
            params: vec![],
            args: vec![operand(37, 43, None, Some((0, 1)))],
            span: Span { start: 35, end: 44 },
        },
    ];
    tree(&["q", "h"], statements)
}

/// A tree of one text and 1488 includes: 5 + length + 11 * 1488 bytes, so
/// 16,384 with a text of 11 bytes.
fn includes(text: &str) -> Vec<u8> {
    tree(&[text], vec![include(); 1488])
}

fn largest() -> Vec<Case> {
    let most = includes("stdgates.in");
    let over = includes("stdgates.inc");
    let less = includes("stdgates.i");
    // Stating one include more than there are.
    let stated = |bytes: &[u8], place: usize| replaced(bytes, place, &1489u16.to_be_bytes());
    vec![
        accepted("16,383 bytes", less.clone()),
        accepted("16,384 bytes", most.clone()),
        refused("16,385 bytes", over.clone(), 2, 16_384),
        refused("16,384 bytes and one more", longer(&most, &[0]), 2, 16_384),
        refused("16,383 bytes, one remains", longer(&less, &[0]), 3, 16_383),
        refused("16,384 bytes of 16,385", over[..16_384].to_vec(), 3, 16_384),
        refused("16,384 bytes, more stated", stated(&most, 14), 3, 16_384),
        refused("byte 16,383 no case", longer(&stated(&less, 13), &[15]), 4, 16_383),
        refused("byte 16,383 a case", longer(&stated(&less, 13), &[14]), 3, 16_384),
        refused("16,385 bytes, too many texts", replaced(&over, 0, &[1, 1]), 2, 16_384),
        refused("16,385 bytes, no text length", replaced(&over, 2, &[0]), 2, 16_384),
        refused("16,385 zero bytes", vec![0; 16_385], 2, 16_384),
        refused("16,384 zero bytes", vec![0; 16_384], 3, 4),
        refused("16,384 bytes 255", vec![255; 16_384], 5, 0),
        refused("20,000 bytes", vec![0; 20_000], 2, 16_384),
        refused("65,536 bytes", vec![0; 65_536], 2, 16_384),
    ]
}
