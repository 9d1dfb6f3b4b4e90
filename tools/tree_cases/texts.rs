//! The texts: their count, lengths, bytes, equal texts, and the spelling of
//! names, float literals and paths.

use crate::cases::{accepted, longer, refused, replaced, Case};
use crate::make::{assign, include, qubit, tree, SPAN};
use crate::tree::{Expr, Stmt};

pub fn cases() -> Vec<Case> {
    let mut cases = lengths();
    cases.extend(bytes_of_text());
    cases.extend(counts());
    cases.extend(equal_texts());
    cases.extend(names());
    cases.extend(floats());
    cases.extend(paths());
    cases
}

/// A tree of one text and no statements. The length byte stands at 2.
fn one_text(length: usize) -> Vec<u8> {
    tree(&["a".repeat(length).as_str()], vec![])
}

fn lengths() -> Vec<Case> {
    let second = |length: usize| tree(&["q", "a".repeat(length).as_str()], vec![]);
    vec![
        refused("text length 0", one_text(0), 4, 2),
        accepted("text length 1", one_text(1)),
        accepted("text length 2", one_text(2)),
        accepted("text length 63", one_text(63)),
        accepted("text length 64", one_text(64)),
        refused("text length 65", one_text(65), 4, 2),
        refused("text length 255", one_text(255), 4, 2),
        refused("second text length 0", second(0), 4, 4),
        accepted("second text length 64", second(64)),
        refused("second text length 65", second(65), 4, 4),
        refused("text length missing", vec![0, 1], 3, 2),
        refused("text length 0 at the end", vec![0, 1, 0], 4, 2),
        refused("text length 1 at the end", vec![0, 1, 1], 3, 3),
        refused("text length 64 at the end", vec![0, 1, 64], 3, 3),
        refused("text length 65 at the end", vec![0, 1, 65], 4, 2),
        refused("text length 255 at the end", vec![0, 1, 255], 4, 2),
        refused("text of 64 with 63 bytes", one_text(64)[..66].to_vec(), 3, 66),
    ]
}

fn bytes_of_text() -> Vec<Case> {
    let text = tree(&["abc"], vec![]);
    let mut cases = vec![];
    for (part, place) in [("first", 3), ("middle", 4), ("last", 5)] {
        for byte in [0, 10, 31, 32, 127, 128, 255] {
            let name = format!("{part} text byte {byte}");
            cases.push(refused(name, replaced(&text, place, &[byte]), 4, place));
        }
        for byte in [33, 126] {
            let name = format!("{part} text byte {byte}");
            cases.push(accepted(name, replaced(&text, place, &[byte])));
        }
    }
    let early = |bytes: &[u8]| [&[0, 1, 5], bytes].concat();
    cases.extend([
        refused("two bad text bytes", replaced(&text, 4, &[32, 127]), 4, 4),
        refused("text ends early", early(b"abc"), 3, 6),
        refused("text ends early, first byte bad", early(&[32, b'a', b'b']), 3, 6),
        refused("text ends early, last byte bad", early(&[b'a', b'b', 127]), 3, 6),
        refused("text ends early, all bytes bad", early(&[0, 0, 0, 0]), 3, 7),
        refused("text ends early after its bad byte", early(&[255]), 3, 4),
        refused("text whole, bad byte, nothing after", vec![0, 1, 2, b'a', 32], 4, 4),
    ]);
    cases
}

/// Different texts of four bytes each, five with the length.
fn many(count: usize) -> Vec<String> {
    (0..count).map(|i| format!("t{:03}", i)).collect()
}

fn many_texts(count: usize, statements: Vec<Stmt>) -> Vec<u8> {
    let texts = many(count);
    let parts: Vec<&str> = texts.iter().map(String::as_str).collect();
    tree(&parts, statements)
}

fn counts() -> Vec<Case> {
    let by_number = |path| vec![Stmt::Include { path, span: SPAN }];
    // The texts of 256 take 256 * 5 bytes; the path stands 5 after them.
    let past = 256 * 5 + 5;
    let over = many_texts(257, vec![]);
    vec![
        accepted("255 texts", many_texts(255, vec![])),
        accepted("256 texts", many_texts(256, vec![])),
        refused("257 texts", over.clone(), 5, 0),
        refused("257 texts, the first of length 0", replaced(&over, 2, &[0]), 5, 0),
        refused("65,535 texts stated", replaced(&over, 0, &[255, 255]), 5, 0),
        // Length 4 and `t` are read as a statement count, the byte after as a case.
        refused("256 texts stated, 257 there", replaced(&over, 0, &[1, 0]), 4, 256 * 5 + 4),
        refused("256 texts stated, none there", vec![1, 0], 3, 2),
        refused("257 texts stated, none there", vec![1, 1], 5, 0),
        refused("half a text count 1", vec![1], 3, 1),
        refused("half a text count 255", vec![255], 3, 1),
        accepted("text number 255 of 256", many_texts(256, by_number(255))),
        refused("text number 256 of 256", many_texts(256, by_number(256)), 4, past),
        refused("text number 0 of none", tree(&[], by_number(0)), 4, 5),
    ]
}

fn equal_texts() -> Vec<Case> {
    let texts = |parts: &[&str]| tree(parts, vec![]);
    let long = "x".repeat(63);
    let (long_a, long_b) = (format!("{long}a"), format!("{long}b"));
    let mut full = many(256);
    full[255] = full[0].clone();
    let parts: Vec<&str> = full.iter().map(String::as_str).collect();
    vec![
        refused("equal texts, adjacent", texts(&["q", "q"]), 4, 4),
        refused("equal texts, first and last", texts(&["ab", "c", "d", "ab"]), 4, 9),
        refused("equal texts, second and third", texts(&["ab", "c", "c"]), 4, 7),
        refused("equal texts, three", texts(&["a", "a", "a"]), 4, 4),
        refused("equal texts, two pairs", texts(&["a", "b", "b", "a"]), 4, 6),
        refused("equal texts, first and last of 256", texts(&parts), 4, 2 + 255 * 5),
        refused("equal texts of 64 bytes", texts(&[&long_a, &long_a]), 4, 67),
        accepted("texts of 64 bytes, last byte different", texts(&[&long_a, &long_b])),
        accepted("text begins like the one before", texts(&["a", "ab"])),
        accepted("text ends before the one before", texts(&["ab", "a"])),
        accepted("text ends like the one before", texts(&["ba", "a"])),
        accepted("texts with a large and a small letter", texts(&["q", "Q"])),
        refused("equal text ends early", vec![0, 2, 2, b'a', b'b', 2, b'a'], 3, 7),
        refused("equal text, nothing after", vec![0, 2, 1, b'a', 1, b'a'], 4, 4),
        refused("equal text, then a bad length", vec![0, 3, 1, b'a', 1, b'a', 0], 4, 4),
        refused("bad length, then an equal text", vec![0, 3, 1, b'a', 65, b'a', 0], 4, 4),
    ]
}

fn names() -> Vec<Case> {
    let mut cases = vec![];
    let full = "a".repeat(64);
    let good = ["_", "a", "z", "A", "Z", "_0", "__", "a9", "Z_z", "q0_", "abc123", &full];
    for text in good {
        cases.push(accepted(format!("name {text}"), tree(&[text], vec![qubit(None)])));
    }
    let bad = [
        "0", "9", "9a", "0_", "1.5", "-", "a-b", "a.b", "a.", ".a", "@", "@a", "a@", "[a", "a[",
        "`a", "a`", "{a", "a{", "/a", "a/", ":a", "a:", "^", "a^b", "a!", "a~", "\"a\"", "a[0]",
        "$0",
    ];
    for text in bad {
        // Count, length, text, statement count, case, then the name.
        let place = 2 + 1 + text.len() + 2 + 1;
        let bytes = tree(&[text], vec![qubit(None)]);
        cases.push(refused(format!("no name {text}"), bytes, 4, place));
    }
    let (start, end) = ("-".to_string() + &full[1..], full[1..].to_string() + "-");
    for text in [start, end] {
        let bytes = tree(&[&text], vec![qubit(None)]);
        cases.push(refused(format!("no name {text}"), bytes, 4, 70));
    }
    cases
}

fn float(text: &str) -> Vec<u8> {
    tree(&["q", text], vec![assign(Expr::FloatLit(1, SPAN))])
}

fn floats() -> Vec<Case> {
    let mut cases = vec![];
    let full = "1".repeat(32) + "." + &"0".repeat(31);
    for text in ["1.5", "0.0", "00.00", "9.9", "0.9", "10.25", "007.700", &full] {
        cases.push(accepted(format!("float {text}"), float(text)));
    }
    let bad = [
        "1", "10", ".", "1.", ".5", "..", "1..5", "1.5.2", "1.5.", ".1.5", "1e5", "1.5e3", "1.5E3",
        "-1.5", "+1.5", "1.-5", "1,5", "1/5", "/.5", "1.5/", "1:5", ":.5", "1.5:", "1_0.5", "1.5f",
        "x", "x.5", "1.x", "0x1.5", "pi", "1.5!",
    ];
    for text in bad {
        // Count, two texts, statement count, case, name, op, case, then the text.
        let place = 2 + 2 + (1 + text.len()) + 2 + 1 + 2 + 1 + 1;
        cases.push(refused(format!("no float {text}"), float(text), 4, place));
    }
    cases
}

fn paths() -> Vec<Case> {
    let mut cases = vec![];
    for text in ["stdgates.inc", "a/b", "!", "~", "9", "1.5", "-", "\"", "q"] {
        cases.push(accepted(format!("path {text}"), tree(&[text], vec![include()])));
    }
    let path = tree(&["a/b", "q"], vec![include()]);
    cases.push(accepted("path by number 1", replaced(&path, 11, &[0, 1])));
    cases.push(refused("path one past the end", replaced(&path, 11, &[0, 2]), 4, 11));
    cases.push(accepted("a text that none uses", tree(&["-", "1.5.", "q"], vec![])));
    cases.push(refused("path used, a byte remains", longer(&path, &[0]), 3, path.len()));
    cases
}
