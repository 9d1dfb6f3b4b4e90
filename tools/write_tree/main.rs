//! Writes the tree file of a program text, or what `lister` must print of it.

#[path = "../compare/keys.rs"]
mod keys;
#[path = "../qasm.rs"]
mod qasm;

mod error;
mod exprs;
mod list;
mod parse;
mod program;
mod statements;
mod tokens;

use qasm::{ast, reader, sema, span, tree, writer};
use std::io::Write;

const USAGE: &str = "usage: write_tree tree | list FILE";

fn main() {
    let words: Vec<String> = std::env::args().skip(1).collect();
    let written = match &words.iter().map(String::as_str).collect::<Vec<&str>>()[..] {
        ["tree", file] => made(file).map(|made| made.bytes),
        ["list", file] => made(file).map(|made| list::printed(&made.program, &made.tree).into()),
        _ => Err(USAGE.to_string()),
    };
    let done = written
        .and_then(|bytes| std::io::stdout().write_all(&bytes).map_err(|error| error.to_string()));
    if let Err(message) = done {
        eprintln!("{message}");
        std::process::exit(1);
    }
}

struct Made {
    program: ast::Program,
    tree: tree::Tree,
    bytes: Vec<u8>,
}

/// Reads a program text and writes its tree; the bytes are judged once more.
fn made(file: &str) -> Result<Made, String> {
    let text = std::fs::read_to_string(file).map_err(|error| format!("{file}: {error}"))?;
    let shown = |error: error::Error| format!("{file}:{}", error.show(&text));
    let program = parse::program(&text).map_err(shown)?;
    let tree = program::tree(&program).map_err(shown)?;
    let bytes = writer::Writer::tree(&tree).bytes;
    match reader::read(&bytes) {
        Ok(()) => Ok(Made { program, tree, bytes }),
        Err(refusal) => Err(format!("{file}: refused {} {}", refusal.number, refusal.place)),
    }
}
