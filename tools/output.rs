//! What a tool writes, and how it ends where it cannot.

use std::io::Write;

/// The bytes after their length in four bytes, the highest first.
pub fn measured(bytes: &[u8]) -> Vec<u8> {
    [&(bytes.len() as u32).to_be_bytes()[..], bytes].concat()
}

pub fn write(tool: &str, bytes: &[u8]) {
    if let Err(error) = std::io::stdout().write_all(bytes) {
        eprintln!("{tool}: {error}");
        std::process::exit(1);
    }
}

pub fn usage(text: &str) -> ! {
    eprintln!("{text}");
    std::process::exit(2)
}
