//! What the checker must answer of a tree: the listing by sema.rs, or a refusal
//! by document 01.

use crate::reader;
use crate::tree::Tree;
use crate::{ast, convert, keys, sema, sema_wide, shape, span::Span};

const MOST_DIAGNOSTICS: usize = 256;
pub const MOST_LISTING_BYTES: usize = 65_536;

#[derive(Clone, PartialEq, Debug)]
pub struct Diagnostic {
    pub error: bool,
    pub message: String,
    pub span: Span,
    pub note: Option<(String, Span)>,
}

/// Where the diagnostics come from.
#[derive(Clone, Copy, PartialEq)]
pub enum Judge {
    Rust,
    Own,
}

/// What is said of a tree whatever the buffers are: refusals 2 to 8, or the
/// diagnostics.
pub enum Verdict {
    Refused(u8, usize),
    Listed(Vec<Diagnostic>, Judge),
}

pub fn verdict(bytes: &[u8], tree: &Tree) -> Verdict {
    if let Err(refusal) = reader::read(bytes) {
        return Verdict::Refused(refusal.number, refusal.place);
    }
    if keys::count(tree) > keys::MOST_KEYS {
        return Verdict::Refused(7, 0);
    }
    let (diagnostics, judge) = diagnostics(tree);
    if diagnostics.len() > MOST_DIAGNOSTICS {
        return Verdict::Refused(8, 0);
    }
    Verdict::Listed(diagnostics, judge)
}

/// The bytes that the program prints, whose listing buffer has 65,536 bytes.
pub fn printed(verdict: &Verdict) -> Vec<u8> {
    match verdict {
        Verdict::Refused(number, place) => format!("refused {number} {place}\n").into_bytes(),
        Verdict::Listed(diagnostics, _) => match listing(diagnostics).into_bytes() {
            long if long.len() > MOST_LISTING_BYTES => b"refused 9 0\n".to_vec(),
            listing => listing,
        },
    }
}

pub fn listing(diagnostics: &[Diagnostic]) -> String {
    let errors = diagnostics.iter().filter(|d| d.error).count();
    let mut text = format!("list {} {}\n", errors, diagnostics.len() - errors);
    for d in diagnostics {
        let letter = if d.error { "E" } else { "W" };
        text += &format!("{letter} {} {} {}\n", d.span.start, d.span.end, d.message);
        if let Some((note, span)) = &d.note {
            text += &format!("N {} {} {note}\n", span.start, span.end);
        }
    }
    text
}

macro_rules! analyze {
    ($by:ident, $program:expr) => {
        $by::analyze($program)
            .into_iter()
            .map(|d| Diagnostic {
                error: matches!(d.severity, $by::Severity::Error),
                message: d.message,
                span: d.span,
                note: d.secondary,
            })
            .collect::<Vec<Diagnostic>>()
    };
}

/// By the Rust, and by the tool's own reading alone where the Rust would
/// overflow or not end. Where both answer they must agree.
pub fn diagnostics(tree: &Tree) -> (Vec<Diagnostic>, Judge) {
    let program: ast::Program = convert::program(tree);
    let own = analyze!(sema_wide, &program);
    if shape::has_long(tree) || own.iter().any(|d| overflows(&d.message)) {
        return (own, Judge::Own);
    }
    let rust = by_rust(&program);
    assert!(rust == own, "sema.rs and sema_wide.rs differ");
    (rust, Judge::Rust)
}

pub fn by_rust(program: &ast::Program) -> Vec<Diagnostic> {
    analyze!(sema, program)
}

/// A message whose number of qubits is beyond 2^64 - 1.
fn overflows(message: &str) -> bool {
    let before = message.split(" qubit(s) after").next().unwrap_or("");
    let number = before.rsplit(' ').next().unwrap_or("").parse::<u128>();
    number.is_ok_and(|number| number > u64::MAX as u128)
}
