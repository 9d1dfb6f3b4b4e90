//! A program text as a value of src/ast.rs: how tokens are taken. Statements
//! and expressions are in files of their own.

use crate::ast::{ClassicalType, GateOperand, Program};
use crate::error::{error, Error};
use crate::span::Span;
use crate::tokens::{tokens, Kind, Token};

pub struct Parser<'a> {
    tokens: Vec<Token<'a>>,
    at: usize,
}

/// Words that are no names, also those of which src/ast.rs has nothing.
const RESERVED: &str = "
    OPENQASM include qubit bit const input output int uint float angle bool gate def return
    measure reset barrier delay if else for in while true false pi tau euler ctrl negctrl inv
    pow qreg creg array complex duration stretch let extern box cal defcal defcalgrammar break
    continue end switch case default pragma
";

const TYPES: [(&str, ClassicalType); 5] = [
    ("int", ClassicalType::Int),
    ("uint", ClassicalType::UInt),
    ("float", ClassicalType::Float),
    ("angle", ClassicalType::Angle),
    ("bool", ClassicalType::Bool),
];

pub fn program(text: &str) -> Result<Program, Error> {
    let mut parser = Parser { tokens: tokens(text)?, at: 0 };
    let version = parser.version()?;
    let mut statements = Vec::new();
    while parser.peek().kind != Kind::End {
        statements.push(parser.statement()?);
    }
    Ok(Program { version, statements })
}

impl<'a> Parser<'a> {
    /// `OPENQASM 3.0;` or nothing.
    fn version(&mut self) -> Result<String, Error> {
        if !self.take("OPENQASM") {
            return Ok(String::new());
        }
        let version = match self.peek() {
            Token { kind: Kind::Int | Kind::Float, text, .. } => text.to_string(),
            _ => return self.wrong("a version"),
        };
        self.at += 1;
        self.expect(";")?;
        Ok(version)
    }

    pub fn peek(&self) -> &Token<'a> {
        &self.tokens[self.at]
    }

    /// The next token of a kind.
    pub fn next(&mut self, kind: Kind, wanted: &str) -> Result<&'a str, Error> {
        let token = self.peek();
        if token.kind != kind {
            return self.wrong(wanted);
        }
        let text = token.text;
        self.at += 1;
        Ok(text)
    }

    /// Whether the token after `skip` others is this word or sign.
    pub fn is(&self, skip: usize, text: &str) -> bool {
        let token = self.tokens.get(self.at + skip);
        token.is_some_and(|t| matches!(t.kind, Kind::Word | Kind::Sign) && t.text == text)
    }

    /// Steps over this word or sign if it comes next.
    pub fn take(&mut self, text: &str) -> bool {
        let comes = self.is(0, text);
        self.at += comes as usize;
        comes
    }

    pub fn expect(&mut self, text: &str) -> Result<(), Error> {
        if self.take(text) {
            return Ok(());
        }
        self.wrong(&format!("`{text}`"))
    }

    pub fn wrong<T>(&self, wanted: &str) -> Result<T, Error> {
        let token = self.peek();
        let found = match token.kind {
            Kind::End => "the end".to_string(),
            _ => format!("`{}`", token.text),
        };
        error(token.span.start, format!("expected {wanted}, found {found}"))
    }

    pub fn start(&self) -> usize {
        self.peek().span.start
    }

    /// From a place to the end of the last token taken.
    pub fn since(&self, start: usize) -> Span {
        start..self.tokens[self.at - 1].span.end
    }

    /// One or more, with commas between.
    pub fn commas<T>(&mut self, one: fn(&mut Self) -> Result<T, Error>) -> Result<Vec<T>, Error> {
        let mut all = vec![one(self)?];
        while self.take(",") {
            all.push(one(self)?);
        }
        Ok(all)
    }

    /// In parentheses, none or more.
    pub fn parentheses<T>(
        &mut self,
        one: fn(&mut Self) -> Result<T, Error>,
    ) -> Result<Vec<T>, Error> {
        self.expect("(")?;
        if self.take(")") {
            return Ok(Vec::new());
        }
        let all = self.commas(one)?;
        self.expect(")")?;
        Ok(all)
    }

    pub fn name(&mut self) -> Result<String, Error> {
        if RESERVED.split_whitespace().any(|word| self.is(0, word)) {
            return self.wrong("a name");
        }
        Ok(self.next(Kind::Word, "a name")?.to_string())
    }

    pub fn whole(&mut self) -> Result<u64, Error> {
        let start = self.start();
        let text = self.next(Kind::Int, "a whole number")?;
        text.parse().or_else(|_| error(start, format!("{text} is above 2^64 - 1")))
    }

    /// The type that comes next, if one does.
    pub fn comes_type(&self) -> Option<ClassicalType> {
        TYPES.iter().find(|(word, _)| self.is(0, word)).map(|(_, ty)| *ty)
    }

    pub fn ty(&mut self) -> Result<ClassicalType, Error> {
        let Some(ty) = self.comes_type() else {
            return self.wrong("a type");
        };
        self.at += 1;
        Ok(ty)
    }

    /// q, q[i] or q[a:b].
    pub fn operand(&mut self) -> Result<GateOperand, Error> {
        let start = self.start();
        let name = self.name()?;
        let (mut index, mut slice) = (None, None);
        if self.take("[") {
            let first = self.whole()?;
            if self.take(":") {
                slice = Some((first, self.whole()?));
            } else {
                index = Some(first);
            }
            self.expect("]")?;
        }
        Ok(GateOperand { name, index, slice, span: self.since(start) })
    }
}
