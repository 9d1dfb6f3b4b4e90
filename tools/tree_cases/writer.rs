//! The writer of a tree's bytes. It judges nothing, so that it can also write
//! trees beyond the limits, and it marks what stands at which place.

use crate::tree::*;

/// What begins at a place of the file.
#[derive(Clone, Copy, PartialEq)]
pub enum Role {
    TextCount,
    TextLength,
    TextByte,
    StatementCount,
    /// A case byte: of which enum, and how many cases that has.
    Case(&'static str, u8),
    /// The byte of a Bool or Option: of which field.
    Flag(&'static str),
    Count,
    Name,
    Path,
    Float,
    /// A number or span of 8 bytes, which may be any.
    Number,
}

#[derive(Clone, Copy)]
pub struct Mark {
    pub place: usize,
    pub role: Role,
}

#[derive(Default)]
pub struct Writer {
    pub bytes: Vec<u8>,
    pub marks: Vec<Mark>,
}

/// How one value of a kind is written.
type Write<T> = for<'a> fn(&'a mut Writer, &T) -> &'a mut Writer;

impl Writer {
    pub fn tree(tree: &Tree) -> Writer {
        let mut w = Writer::default();
        w.number(Role::TextCount, tree.texts.len() as u64, 2);
        for text in &tree.texts {
            w.number(Role::TextLength, text.len() as u64, 1);
            for byte in text {
                w.number(Role::TextByte, *byte as u64, 1);
            }
        }
        w.body(&tree.statements);
        w
    }

    /// The low `width` bytes of a value, the highest first.
    fn number(&mut self, role: Role, value: u64, width: usize) -> &mut Self {
        self.marks.push(Mark { place: self.bytes.len(), role });
        self.bytes.extend_from_slice(&value.to_be_bytes()[8 - width..]);
        self
    }

    fn whole(&mut self, value: &u64) -> &mut Self {
        self.number(Role::Number, *value, 8)
    }

    fn pair(&mut self, pair: &(u64, u64)) -> &mut Self {
        self.whole(&pair.0).whole(&pair.1)
    }

    fn span(&mut self, span: &Span) -> &mut Self {
        self.number(Role::Number, (span.start as u64) << 32 | span.end as u64, 8)
    }

    fn name(&mut self, text: &Text) -> &mut Self {
        self.number(Role::Name, *text as u64, 2)
    }

    fn case(&mut self, of: &'static str, cases: u8, case: u8) -> &mut Self {
        self.number(Role::Case(of, cases), case as u64, 1)
    }

    fn ty(&mut self, ty: &ClassicalType) -> &mut Self {
        self.case("type", 5, *ty as u8)
    }

    fn qualifier(&mut self, qualifier: &ClassicalQualifier) -> &mut Self {
        self.case("qualifier kind", 3, *qualifier as u8)
    }

    fn typed_name(&mut self, param: &(ClassicalType, Text)) -> &mut Self {
        self.ty(&param.0).name(&param.1)
    }

    fn flag(&mut self, of: &'static str, yes: bool) -> &mut Self {
        self.number(Role::Flag(of), yes as u64, 1)
    }

    fn option<T>(&mut self, of: &'static str, it: &Option<T>, write: Write<T>) -> &mut Self {
        self.flag(of, it.is_some());
        match it {
            Some(value) => write(self, value),
            None => self,
        }
    }

    fn list<T>(&mut self, items: &[T], write: Write<T>) -> &mut Self {
        self.number(Role::Count, items.len() as u64, 1);
        for item in items {
            write(self, item);
        }
        self
    }

    fn body(&mut self, body: &Vec<Stmt>) -> &mut Self {
        self.number(Role::StatementCount, body.len() as u64, 2);
        for statement in body {
            self.statement(statement);
        }
        self
    }

    fn operand(&mut self, o: &GateOperand) -> &mut Self {
        self.name(&o.name)
            .option("operand index", &o.index, Writer::whole)
            .option("operand slice", &o.slice, Writer::pair)
            .span(&o.span)
    }

    fn modifier(&mut self, modifier: &GateModifier) -> &mut Self {
        let case = |w, case| Writer::case(w, "modifier", 4, case);
        match modifier {
            GateModifier::Ctrl(n, span) => {
                case(self, 0).option("ctrl count", n, Writer::expr).span(span)
            }
            GateModifier::NegCtrl(n, span) => {
                case(self, 1).option("negctrl count", n, Writer::expr).span(span)
            }
            GateModifier::Inv(span) => case(self, 2).span(span),
            GateModifier::Pow(power, span) => case(self, 3).expr(power).span(span),
        }
    }

    fn expr(&mut self, expr: &Expr) -> &mut Self {
        let w = self;
        let case = |w, case| Writer::case(w, "expression", 10, case);
        match expr {
            Expr::IntLit(value, s) => case(w, 0).whole(value).span(s),
            Expr::FloatLit(text, s) => case(w, 1).number(Role::Float, *text as u64, 2).span(s),
            Expr::BoolLit(yes, s) => case(w, 2).flag("bool", *yes).span(s),
            Expr::Ident(name, s) => case(w, 3).name(name).span(s),
            Expr::Index { name, index, span } => case(w, 4).name(name).whole(index).span(span),
            Expr::Call { name, args, span } => {
                case(w, 5).name(name).list(args, Writer::expr).span(span)
            }
            Expr::Const(kind, s) => case(w, 6).case("constant", 3, *kind as u8).span(s),
            Expr::Neg(part, s) => case(w, 7).expr(part).span(s),
            Expr::BinOp { op, lhs, rhs, span } => {
                case(w, 8).case("binary", 5, *op as u8).expr(lhs).expr(rhs).span(span)
            }
            Expr::Compare { op, lhs, rhs, span } => {
                case(w, 9).case("compare", 6, *op as u8).expr(lhs).expr(rhs).span(span)
            }
        }
    }

    fn statement(&mut self, statement: &Stmt) -> &mut Self {
        let w = self;
        let case = |w, case| Writer::case(w, "statement", 15, case);
        match statement {
            Stmt::Include { path, span } => {
                case(w, 0).number(Role::Path, *path as u64, 2).span(span)
            }
            Stmt::QubitDecl { name, size, span } => {
                case(w, 1).name(name).option("qubit size", size, Writer::whole).span(span)
            }
            Stmt::BitDecl { name, size, span } => {
                case(w, 2).name(name).option("bit size", size, Writer::whole).span(span)
            }
            Stmt::ClassicalDecl { qualifier, ty, name, init, span } => case(w, 3)
                .option("qualifier", qualifier, Writer::qualifier)
                .ty(ty)
                .name(name)
                .option("init", init, Writer::expr)
                .span(span),
            Stmt::Assignment { name, op, value, span } => {
                case(w, 4).name(name).case("assign", 3, *op as u8).expr(value).span(span)
            }
            Stmt::Measure { qubit, target, span } => {
                case(w, 8).operand(qubit).option("target", target, Writer::operand).span(span)
            }
            Stmt::Reset { target, span } => case(w, 9).operand(target).span(span),
            Stmt::Barrier { targets, span } => {
                case(w, 10).list(targets, Writer::operand).span(span)
            }
            Stmt::Delay { duration, targets, span } => {
                case(w, 11).expr(duration).list(targets, Writer::operand).span(span)
            }
            longer => w.longer_statement(longer),
        }
    }

    /// Gate calls, definitions, and statements with bodies.
    fn longer_statement(&mut self, statement: &Stmt) -> &mut Self {
        let w = self;
        let case = |w, case| Writer::case(w, "statement", 15, case);
        match statement {
            Stmt::GateCall { name, modifiers, params, args, span } => case(w, 5)
                .name(name)
                .list(modifiers, Writer::modifier)
                .list(params, Writer::expr)
                .list(args, Writer::operand)
                .span(span),
            Stmt::GateDef { name, params, qparams, body, span } => case(w, 6)
                .name(name)
                .list(params, Writer::name)
                .list(qparams, Writer::name)
                .body(body)
                .span(span),
            Stmt::FunctionDef { name, params, return_type, body, span } => case(w, 7)
                .name(name)
                .list(params, Writer::typed_name)
                .ty(return_type)
                .expr(body)
                .span(span),
            Stmt::If { condition, then_body, else_body, span } => case(w, 12)
                .expr(condition)
                .body(then_body)
                .option("else", else_body, Writer::body)
                .span(span),
            Stmt::For { var_name, var_ty, range, body, span } => case(w, 13)
                .name(var_name)
                .ty(var_ty)
                .expr(&range.start)
                .expr(&range.end)
                .option("step", &range.step, Writer::expr)
                .body(body)
                .span(span),
            Stmt::While { condition, body, span } => {
                case(w, 14).expr(condition).body(body).span(span)
            }
            _ => unreachable!("the other cases are in statement"),
        }
    }
}
