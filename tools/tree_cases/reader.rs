//! A judge of the bytes of a tree file, written from the document's sections
//! on the tree file and the refused calls. The fields of every value stand in
//! tables, in the order of src/ast.rs; one function walks them.

use self::Field::*;

const MOST_BYTES: usize = 16_384;
const MOST_TEXTS: usize = 256;
const MOST_TEXT_BYTES: usize = 64;
const MOST_ITEMS: u8 = 16;
const LAST_STATEMENT_LEVEL: usize = 8;
const LAST_EXPRESSION_LEVEL: usize = 32;

#[derive(Clone, Copy, PartialEq, Debug)]
pub struct Refusal {
    pub number: u8,
    pub place: usize,
}

/// One field of a value.
enum Field {
    Path,
    Name,
    Float,
    U64,
    Span,
    Bool,
    /// An enum whose cases have no fields: how many cases.
    Plain(u8),
    Operand,
    Modifier,
    Expr,
    /// A Vec of statements.
    Body,
    /// An Option.
    Maybe(&'static [Field]),
    /// Any other Vec.
    Many(&'static [Field]),
}

const TYPES: u8 = 5;
const QUALIFIERS: u8 = 3;
const ASSIGN_OPS: u8 = 3;
const BIN_OPS: u8 = 5;
const COMPARE_OPS: u8 = 6;
const CONSTANTS: u8 = 3;

const STATEMENTS: [&[Field]; 15] = [
    /* Include       */ &[Path, Span],
    /* QubitDecl     */ &[Name, Maybe(&[U64]), Span],
    /* BitDecl       */ &[Name, Maybe(&[U64]), Span],
    /* ClassicalDecl */
    &[Maybe(&[Plain(QUALIFIERS)]), Plain(TYPES), Name, Maybe(&[Expr]), Span],
    /* Assignment    */ &[Name, Plain(ASSIGN_OPS), Expr, Span],
    /* GateCall      */ &[Name, Many(&[Modifier]), Many(&[Expr]), Many(&[Operand]), Span],
    /* GateDef       */ &[Name, Many(&[Name]), Many(&[Name]), Body, Span],
    /* FunctionDef   */ &[Name, Many(&[Plain(TYPES), Name]), Plain(TYPES), Expr, Span],
    /* Measure       */ &[Operand, Maybe(&[Operand]), Span],
    /* Reset         */ &[Operand, Span],
    /* Barrier       */ &[Many(&[Operand]), Span],
    /* Delay         */ &[Expr, Many(&[Operand]), Span],
    /* If            */ &[Expr, Body, Maybe(&[Body]), Span],
    /* For           */ &[Name, Plain(TYPES), Expr, Expr, Maybe(&[Expr]), Body, Span],
    /* While         */ &[Expr, Body, Span],
];

const EXPRESSIONS: [&[Field]; 10] = [
    /* IntLit   */ &[U64, Span],
    /* FloatLit */ &[Float, Span],
    /* BoolLit  */ &[Bool, Span],
    /* Ident    */ &[Name, Span],
    /* Index    */ &[Name, U64, Span],
    /* Call     */ &[Name, Many(&[Expr]), Span],
    /* Const    */ &[Plain(CONSTANTS), Span],
    /* Neg      */ &[Expr, Span],
    /* BinOp    */ &[Plain(BIN_OPS), Expr, Expr, Span],
    /* Compare  */ &[Plain(COMPARE_OPS), Expr, Expr, Span],
];

const MODIFIERS: [&[Field]; 4] = [
    /* Ctrl    */ &[Maybe(&[Expr]), Span],
    /* NegCtrl */ &[Maybe(&[Expr]), Span],
    /* Inv     */ &[Span],
    /* Pow     */ &[Expr, Span],
];

const OPERAND: &[Field] = &[Name, Maybe(&[U64]), Maybe(&[U64, U64]), Span];

/// The levels that a statement or an expression among the fields would have.
#[derive(Clone, Copy)]
struct Levels {
    statement: usize,
    expression: usize,
}

struct Reader<'a> {
    bytes: &'a [u8],
    at: usize,
    texts: Vec<&'a [u8]>,
}

/// Accepted, or the first refusal of the numbers 2 to 6.
pub fn read(bytes: &[u8]) -> Result<(), Refusal> {
    if bytes.len() > MOST_BYTES {
        return refuse(2, MOST_BYTES);
    }
    let mut reader = Reader { bytes, at: 0, texts: Vec::new() };
    reader.texts()?;
    reader.body(1)?;
    if reader.at < bytes.len() {
        return refuse(3, reader.at);
    }
    Ok(())
}

fn refuse<T>(number: u8, place: usize) -> Result<T, Refusal> {
    Err(Refusal { number, place })
}

impl<'a> Reader<'a> {
    /// The next bytes, if that many are left.
    fn take(&mut self, count: usize) -> Result<&'a [u8], Refusal> {
        if self.bytes.len() - self.at < count {
            return refuse(3, self.bytes.len());
        }
        let part = &self.bytes[self.at..self.at + count];
        self.at += count;
        Ok(part)
    }

    fn byte(&mut self) -> Result<u8, Refusal> {
        Ok(self.take(1)?[0])
    }

    fn two_bytes(&mut self) -> Result<usize, Refusal> {
        let pair = self.take(2)?;
        Ok(pair[0] as usize * 256 + pair[1] as usize)
    }

    fn texts(&mut self) -> Result<(), Refusal> {
        let place = self.at;
        let count = self.two_bytes()?;
        if count > MOST_TEXTS {
            return refuse(5, place);
        }
        for _ in 0..count {
            let text = self.text()?;
            self.texts.push(text);
        }
        Ok(())
    }

    /// The length byte is judged alone. Then an early end goes before any
    /// byte of the text.
    fn text(&mut self) -> Result<&'a [u8], Refusal> {
        let place = self.at;
        let length = self.byte()? as usize;
        if length < 1 || length > MOST_TEXT_BYTES {
            return refuse(4, place);
        }
        let text = self.take(length)?;
        if let Some(i) = text.iter().position(|b| *b < 33 || *b > 126) {
            return refuse(4, place + 1 + i);
        }
        if self.texts.contains(&text) {
            return refuse(4, place);
        }
        Ok(text)
    }

    /// A text number whose text must be spelled in a certain way.
    fn text_number(&mut self, spelled: fn(&[u8]) -> bool) -> Result<(), Refusal> {
        let place = self.at;
        let number = self.two_bytes()?;
        match self.texts.get(number) {
            Some(text) if spelled(text) => Ok(()),
            _ => refuse(4, place),
        }
    }

    /// A byte below `cases`: of an enum, a Bool or an Option.
    fn case(&mut self, cases: u8) -> Result<u8, Refusal> {
        let place = self.at;
        let case = self.byte()?;
        if case >= cases {
            return refuse(4, place);
        }
        Ok(case)
    }

    fn body(&mut self, level: usize) -> Result<(), Refusal> {
        let count = self.two_bytes()?;
        for _ in 0..count {
            self.statement(level)?;
        }
        Ok(())
    }

    fn statement(&mut self, level: usize) -> Result<(), Refusal> {
        let place = self.at;
        let case = self.case(STATEMENTS.len() as u8)?;
        if level > LAST_STATEMENT_LEVEL {
            return refuse(6, place);
        }
        let inner = Levels { statement: level + 1, expression: 1 };
        self.fields(STATEMENTS[case as usize], inner)
    }

    fn expression(&mut self, levels: Levels) -> Result<(), Refusal> {
        let place = self.at;
        let case = self.case(EXPRESSIONS.len() as u8)?;
        if levels.expression > LAST_EXPRESSION_LEVEL {
            return refuse(6, place);
        }
        let inner = Levels { expression: levels.expression + 1, ..levels };
        self.fields(EXPRESSIONS[case as usize], inner)
    }

    fn modifier(&mut self, levels: Levels) -> Result<(), Refusal> {
        let case = self.case(MODIFIERS.len() as u8)?;
        self.fields(MODIFIERS[case as usize], Levels { expression: 1, ..levels })
    }

    fn many(&mut self, fields: &[Field], levels: Levels) -> Result<(), Refusal> {
        let place = self.at;
        let count = self.byte()?;
        if count > MOST_ITEMS {
            return refuse(5, place);
        }
        for _ in 0..count {
            self.fields(fields, levels)?;
        }
        Ok(())
    }

    fn maybe(&mut self, fields: &[Field], levels: Levels) -> Result<(), Refusal> {
        match self.case(2)? {
            0 => Ok(()),
            _ => self.fields(fields, levels),
        }
    }

    fn fields(&mut self, fields: &[Field], levels: Levels) -> Result<(), Refusal> {
        for field in fields {
            match field {
                Path => self.text_number(|_| true)?,
                Name => self.text_number(is_name)?,
                Float => self.text_number(is_float)?,
                U64 => drop(self.take(8)?),
                Span => {
                    self.take(4)?;
                    self.take(4)?;
                }
                Bool => drop(self.case(2)?),
                Plain(cases) => drop(self.case(*cases)?),
                Operand => self.fields(OPERAND, levels)?,
                Modifier => self.modifier(levels)?,
                Expr => self.expression(levels)?,
                Body => self.body(levels.statement)?,
                Maybe(value) => self.maybe(value, levels)?,
                Many(item) => self.many(item, levels)?,
            }
        }
        Ok(())
    }
}

/// A letter or underscore, then letters, digits, underscores.
fn is_name(text: &[u8]) -> bool {
    let letter = |b: &u8| b.is_ascii_alphabetic() || *b == b'_';
    letter(&text[0]) && text.iter().all(|b| letter(b) || b.is_ascii_digit())
}

/// One or more digits, a point, one or more digits.
fn is_float(text: &[u8]) -> bool {
    let parts: Vec<&[u8]> = text.split(|b| *b == b'.').collect();
    let digits = |part: &[u8]| !part.is_empty() && part.iter().all(u8::is_ascii_digit);
    parts.len() == 2 && digits(parts[0]) && digits(parts[1])
}
