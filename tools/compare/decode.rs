//! A tree file read in one pass: refused as document 01 says, or its values.
//! One text, decoder.rs, serves the tool's tree and src/ast.rs.

use crate::exprs::EXPRESSION_LEVELS;
use crate::reader::Refusal;
use crate::statements::STATEMENT_LEVELS;
use crate::{ast, tree};
use std::collections::HashSet;

const MOST_BYTES: usize = 16_384;
const MOST_TEXTS: u64 = 256;
const MOST_TEXT_BYTES: usize = 64;
const MOST_ITEMS: usize = 16;
/// The bytes of the shortest statement.
const LEAST_STATEMENT: usize = 10;

type Read<T> = Result<T, Refusal>;

/// The tree of a file that is accepted.
pub fn tree(bytes: &[u8]) -> tree::Tree {
    let mut cursor = Cursor::new(bytes);
    let statements = cursor.file(of_tree::statement).expect("an accepted file");
    let texts = cursor.texts.iter().map(|text| text.as_bytes().to_vec()).collect();
    tree::Tree { texts, statements }
}

/// The program of src/ast.rs, or the refusal.
pub fn program(bytes: &[u8]) -> Read<ast::Program> {
    let statements = Cursor::new(bytes).file(of_ast::statement)?;
    Ok(ast::Program { version: String::new(), statements })
}

mod of_tree {
    use super::{Cursor, Read, Spelling};
    use crate::exprs::{BIN_OPS, COMPARE_OPS, CONSTANTS};
    use crate::maker::TYPES;
    use crate::statements::{ASSIGN_OPS, QUALIFIERS};
    use crate::tree::*;

    type Name = Text;

    fn text(c: &mut Cursor, spelling: Spelling) -> Read<Text> {
        Ok(c.text_number(spelling)? as Text)
    }

    fn float(c: &mut Cursor) -> Read<Text> {
        text(c, Spelling::Float)
    }

    fn span(c: &mut Cursor) -> Read<Span> {
        Ok(Span { start: c.number(4)? as u32, end: c.number(4)? as u32 })
    }

    include!("decoder.rs");
}

mod of_ast {
    use super::{Cursor, Read, Spelling};
    use crate::ast::*;
    use crate::convert::{ASSIGN_OPS, BIN_OPS, COMPARE_OPS, CONSTANTS, QUALIFIERS, TYPES};
    use crate::span::Span;

    type Name = String;

    fn text(c: &mut Cursor, spelling: Spelling) -> Read<String> {
        let number = c.text_number(spelling)?;
        Ok(c.texts[number].to_string())
    }

    fn float(c: &mut Cursor) -> Read<f64> {
        let number = c.text_number(Spelling::Float)?;
        Ok(c.texts[number].parse().expect("digits, point, digits"))
    }

    fn span(c: &mut Cursor) -> Read<Span> {
        Ok(c.number(4)? as usize..c.number(4)? as usize)
    }

    include!("decoder.rs");
}

fn refuse<T>(number: u8, place: usize) -> Read<T> {
    Err(Refusal { number, place })
}

#[derive(Clone, Copy, PartialEq)]
enum Spelling {
    Name,
    Float,
    /// Whatever it is: a path.
    Other,
}

/// How a text is spelled.
fn spelling(text: &[u8]) -> Spelling {
    let letter = |b: &u8| b.is_ascii_alphabetic() || *b == b'_';
    if letter(&text[0]) && text.iter().all(|b| letter(b) || b.is_ascii_digit()) {
        return Spelling::Name;
    }
    let digits = |part: &[u8]| !part.is_empty() && part.iter().all(u8::is_ascii_digit);
    match text.iter().position(|b| *b == b'.') {
        Some(i) if digits(&text[..i]) && digits(&text[i + 1..]) => Spelling::Float,
        _ => Spelling::Other,
    }
}

/// Where the reading is, the texts, and the levels that are left.
struct Cursor<'a> {
    bytes: &'a [u8],
    at: usize,
    texts: Vec<&'a str>,
    spellings: Vec<Spelling>,
    statements: usize,
    exprs: usize,
}

impl<'a> Cursor<'a> {
    fn new(bytes: &'a [u8]) -> Self {
        Cursor {
            bytes,
            at: 0,
            texts: Vec::new(),
            spellings: Vec::new(),
            statements: STATEMENT_LEVELS,
            exprs: EXPRESSION_LEVELS,
        }
    }

    fn file<T>(&mut self, statement: impl FnMut(&mut Self) -> Read<T>) -> Read<Vec<T>> {
        if self.bytes.len() > MOST_BYTES {
            return refuse(2, MOST_BYTES);
        }
        self.read_texts()?;
        let statements = self.body(statement)?;
        if self.at < self.bytes.len() {
            return refuse(3, self.at);
        }
        Ok(statements)
    }

    fn read_texts(&mut self) -> Read<()> {
        let place = self.at;
        let count = self.number(2)?;
        if count > MOST_TEXTS {
            return refuse(5, place);
        }
        let mut met = HashSet::with_capacity(count as usize);
        for _ in 0..count {
            let place = self.at;
            let text = self.text()?;
            if !met.insert(text) {
                return refuse(4, place);
            }
            self.texts.push(std::str::from_utf8(text).expect("ASCII"));
            self.spellings.push(spelling(text));
        }
        Ok(())
    }

    fn text(&mut self) -> Read<&'a [u8]> {
        let place = self.at;
        let length = self.number(1)? as usize;
        if length < 1 || length > MOST_TEXT_BYTES {
            return refuse(4, place);
        }
        let text = self.take(length)?;
        match text.iter().position(|b| *b < 33 || *b > 126) {
            Some(i) => refuse(4, place + 1 + i),
            None => Ok(text),
        }
    }

    /// The next bytes, if that many are left.
    fn take(&mut self, count: usize) -> Read<&'a [u8]> {
        if self.bytes.len() - self.at < count {
            return refuse(3, self.bytes.len());
        }
        self.at += count;
        Ok(&self.bytes[self.at - count..self.at])
    }

    fn number(&mut self, width: usize) -> Read<u64> {
        Ok(self.take(width)?.iter().fold(0, |high, byte| high << 8 | *byte as u64))
    }

    fn whole(&mut self) -> Read<u64> {
        self.number(8)
    }

    /// The number of a text that must be spelled so.
    fn text_number(&mut self, spelling: Spelling) -> Read<usize> {
        let place = self.at;
        let number = self.number(2)? as usize;
        match self.spellings.get(number) {
            Some(found) if spelling == Spelling::Other || *found == spelling => Ok(number),
            _ => refuse(4, place),
        }
    }

    fn case(&mut self, cases: usize) -> Read<usize> {
        let place = self.at;
        let case = self.number(1)? as usize;
        if case >= cases {
            return refuse(4, place);
        }
        Ok(case)
    }

    /// One of the values that these cases have.
    fn one_of<T: Copy>(&mut self, values: &[T]) -> Read<T> {
        Ok(values[self.case(values.len())?])
    }

    fn option<T>(&mut self, read: impl FnOnce(&mut Self) -> Read<T>) -> Read<Option<T>> {
        match self.case(2)? {
            0 => Ok(None),
            _ => read(self).map(Some),
        }
    }

    fn list<T>(&mut self, read: impl FnMut(&mut Self) -> Read<T>) -> Read<Vec<T>> {
        let place = self.at;
        let count = self.number(1)? as usize;
        if count > MOST_ITEMS {
            return refuse(5, place);
        }
        self.times(count, count, read)
    }

    fn body<T>(&mut self, statement: impl FnMut(&mut Self) -> Read<T>) -> Read<Vec<T>> {
        let count = self.number(2)? as usize;
        self.times(count, count.min(self.bytes.len() / LEAST_STATEMENT), statement)
    }

    /// So many values, with room for so many at first.
    fn times<T>(
        &mut self,
        count: usize,
        room: usize,
        mut read: impl FnMut(&mut Self) -> Read<T>,
    ) -> Read<Vec<T>> {
        let mut values = Vec::with_capacity(room);
        for _ in 0..count {
            values.push(read(self)?);
        }
        Ok(values)
    }

    /// The value of a case, one level further in.
    fn within<T>(
        &mut self,
        cases: usize,
        left: impl Fn(&mut Self) -> &mut usize,
        read: impl FnOnce(&mut Self, usize) -> Read<T>,
    ) -> Read<T> {
        let place = self.at;
        let case = self.case(cases)?;
        if *left(self) == 0 {
            return refuse(6, place);
        }
        *left(self) -= 1;
        let value = read(self, case)?;
        *left(self) += 1;
        Ok(value)
    }
}
