//! What `lister` must print of a program: the listing by sema.rs, or one of
//! the refusals 7 to 9.

use crate::ast::Program;
use crate::keys;
use crate::sema::{analyze, Diagnostic, Severity};
use crate::tree::Tree;

const MOST_DIAGNOSTICS: usize = 256;
const MOST_LISTING_BYTES: usize = 65_536;

pub fn printed(program: &Program, tree: &Tree) -> String {
    if keys::count(tree) > keys::MOST_KEYS {
        return "refused 7 0\n".to_string();
    }
    let diagnostics = analyze(program);
    if diagnostics.len() > MOST_DIAGNOSTICS {
        return "refused 8 0\n".to_string();
    }
    let listing = listing(&diagnostics);
    if listing.len() > MOST_LISTING_BYTES {
        return "refused 9 0\n".to_string();
    }
    listing
}

fn is_error(diagnostic: &Diagnostic) -> bool {
    matches!(diagnostic.severity, Severity::Error)
}

fn listing(diagnostics: &[Diagnostic]) -> String {
    let errors = diagnostics.iter().filter(|d| is_error(d)).count();
    let mut text = format!("list {errors} {}\n", diagnostics.len() - errors);
    for d in diagnostics {
        let letter = if is_error(d) { "E" } else { "W" };
        text += &format!("{letter} {} {} {}\n", d.span.start, d.span.end, d.message);
        if let Some((note, span)) = &d.secondary {
            text += &format!("N {} {} {note}\n", span.start, span.end);
        }
    }
    text
}
