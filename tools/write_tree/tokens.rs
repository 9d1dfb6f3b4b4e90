//! A program text as tokens.

use crate::error::{error, Error};
use crate::span::Span;

#[derive(Clone, Copy, PartialEq)]
pub enum Kind {
    Word,
    Int,
    Float,
    /// A text in quotes; the quotes belong to the span alone.
    Path,
    Sign,
    End,
}

pub struct Token<'a> {
    pub kind: Kind,
    pub text: &'a str,
    pub span: Span,
}

/// Two bytes before one.
const SIGNS: [&str; 25] = [
    "**", "->", "==", "!=", "<=", ">=", "+=", "-=", ";", ",", ":", "@", "(", ")", "[", "]", "{",
    "}", "=", "+", "-", "*", "/", "<", ">",
];

/// All tokens; the last is the end.
pub fn tokens(text: &str) -> Result<Vec<Token<'_>>, Error> {
    let mut tokens = Vec::new();
    let mut at = 0;
    loop {
        at += blank(&text[at..]);
        let token = token(text, at)?;
        let last = token.kind == Kind::End;
        at = token.span.end;
        tokens.push(token);
        if last {
            return Ok(tokens);
        }
    }
}

/// How many bytes of blanks and comments are in front.
fn blank(text: &str) -> usize {
    let mut rest = text.trim_start();
    while rest.starts_with("//") {
        rest = rest.find('\n').map_or("", |end| rest[end..].trim_start());
    }
    text.len() - rest.len()
}

fn token(text: &str, at: usize) -> Result<Token<'_>, Error> {
    let rest = &text[at..];
    let of = |kind, length| Token { kind, text: &rest[..length], span: at..at + length };
    let Some(first) = rest.chars().next() else {
        return Ok(of(Kind::End, 0));
    };
    if first == '"' {
        return path(rest, at);
    }
    if first.is_ascii_alphabetic() || first == '_' {
        return Ok(of(Kind::Word, run(rest, |b| b.is_ascii_alphanumeric() || b == b'_')));
    }
    if first.is_ascii_digit() || first == '.' && digits(&rest[1..]) > 0 {
        let (kind, length) = number(rest);
        return Ok(of(kind, length));
    }
    match SIGNS.iter().find(|sign| rest.starts_with(**sign)) {
        Some(sign) => Ok(of(Kind::Sign, sign.len())),
        None => error(at, format!("`{first}` is not known here")),
    }
}

fn path(rest: &str, at: usize) -> Result<Token<'_>, Error> {
    let line = rest.lines().next().unwrap_or("");
    match line[1..].find('"') {
        Some(length) => {
            Ok(Token { kind: Kind::Path, text: &line[1..1 + length], span: at..at + length + 2 })
        }
        None => error(at, "the closing quote is missing"),
    }
}

/// How many bytes in front are of a kind.
fn run(text: &str, is: fn(u8) -> bool) -> usize {
    text.bytes().take_while(|byte| is(*byte)).count()
}

fn digits(text: &str) -> usize {
    run(text, |byte| byte.is_ascii_digit())
}

fn number(text: &str) -> (Kind, usize) {
    let whole = digits(text);
    let mut length = whole;
    if text[length..].starts_with('.') {
        length += 1 + digits(&text[length + 1..]);
    }
    length += exponent(&text[length..]);
    (if length == whole { Kind::Int } else { Kind::Float }, length)
}

/// An `e`, a sign or none, digits; else no bytes.
fn exponent(text: &str) -> usize {
    if !text.starts_with(['e', 'E']) {
        return 0;
    }
    let sign = text[1..].starts_with(['+', '-']) as usize;
    match digits(&text[1 + sign..]) {
        0 => 0,
        digits => 1 + sign + digits,
    }
}
