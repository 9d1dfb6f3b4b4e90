//! Statements. A span runs from the first byte to the one after the last.

use crate::ast::{
    AssignOp, ClassicalQualifier, ClassicalType, Expr, ForRange, GateModifier, GateOperand, Stmt,
};
use crate::error::Error;
use crate::parse::Parser;
use crate::tokens::Kind;

impl Parser<'_> {
    pub fn statement(&mut self) -> Result<Stmt, Error> {
        let start = self.start();
        match self.peek().text {
            "include" => self.include(start),
            "qubit" | "bit" => self.register(start),
            "const" | "input" | "output" => self.classical(start),
            "gate" => self.gate_def(start),
            "def" => self.function(start),
            "measure" => self.measure(start),
            "reset" => self.reset(start),
            "barrier" => self.barrier(start),
            "delay" => self.delay(start),
            "if" => self.if_else(start),
            "for" => self.for_loop(start),
            "while" => self.while_loop(start),
            _ if self.comes_type().is_some() => self.classical(start),
            _ if self.is(1, "[") || self.is(1, "=") && self.is(2, "measure") => {
                self.measure_into(start)
            }
            _ if self.is(1, "=") || self.is(1, "+=") || self.is(1, "-=") => self.assignment(start),
            _ => self.gate_call(start),
        }
    }

    /// Statements in braces, or one statement.
    fn body(&mut self) -> Result<Vec<Stmt>, Error> {
        if !self.take("{") {
            return Ok(vec![self.statement()?]);
        }
        let mut body = Vec::new();
        while !self.take("}") {
            body.push(self.statement()?);
        }
        Ok(body)
    }

    fn include(&mut self, start: usize) -> Result<Stmt, Error> {
        self.expect("include")?;
        let path = self.next(Kind::Path, "a path in quotes")?.to_string();
        self.expect(";")?;
        Ok(Stmt::Include { path, span: self.since(start) })
    }

    fn register(&mut self, start: usize) -> Result<Stmt, Error> {
        let is_qubit = self.take("qubit");
        if !is_qubit {
            self.expect("bit")?;
        }
        let mut size = None;
        if self.take("[") {
            size = Some(self.whole()?);
            self.expect("]")?;
        }
        let name = self.name()?;
        self.expect(";")?;
        let span = self.since(start);
        Ok(match is_qubit {
            true => Stmt::QubitDecl { name, size, span },
            false => Stmt::BitDecl { name, size, span },
        })
    }

    fn qualifier(&mut self) -> Option<ClassicalQualifier> {
        use ClassicalQualifier::{Const, Input, Output};
        let all = [("const", Const), ("input", Input), ("output", Output)];
        all.into_iter().find(|(word, _)| self.take(word)).map(|(_, qualifier)| qualifier)
    }

    fn classical(&mut self, start: usize) -> Result<Stmt, Error> {
        let qualifier = self.qualifier();
        let ty = self.ty()?;
        let name = self.name()?;
        let init = if self.take("=") { Some(self.expr()?) } else { None };
        self.expect(";")?;
        Ok(Stmt::ClassicalDecl { qualifier, ty, name, init, span: self.since(start) })
    }

    fn assignment(&mut self, start: usize) -> Result<Stmt, Error> {
        let name = self.name()?;
        let op = if self.take("+=") {
            AssignOp::AddAssign
        } else if self.take("-=") {
            AssignOp::SubAssign
        } else {
            self.expect("=")?;
            AssignOp::Assign
        };
        let value = self.expr()?;
        self.expect(";")?;
        Ok(Stmt::Assignment { name, op, value, span: self.since(start) })
    }

    fn gate_call(&mut self, start: usize) -> Result<Stmt, Error> {
        let mut modifiers = Vec::new();
        while let Some(modifier) = self.modifier()? {
            modifiers.push(modifier);
        }
        let name = self.name()?;
        let params = if self.is(0, "(") { self.parentheses(Self::expr)? } else { Vec::new() };
        let args = self.operands()?;
        Ok(Stmt::GateCall { name, modifiers, params, args, span: self.since(start) })
    }

    /// The operands to the end of the statement; there may be none.
    fn operands(&mut self) -> Result<Vec<GateOperand>, Error> {
        if self.take(";") {
            return Ok(Vec::new());
        }
        let operands = self.commas(Self::operand)?;
        self.expect(";")?;
        Ok(operands)
    }

    /// A modifier and its `@`, if one comes next.
    fn modifier(&mut self) -> Result<Option<GateModifier>, Error> {
        let start = self.start();
        let all = ["ctrl", "negctrl", "inv", "pow"];
        let Some(which) = all.iter().position(|word| self.take(word)) else {
            return Ok(None);
        };
        let mut part = None;
        if which == 3 || which != 2 && self.is(0, "(") {
            part = Some(self.enclosed("(", ")")?);
        }
        self.expect("@")?;
        let span = self.since(start);
        Ok(Some(match (which, part) {
            (0, count) => GateModifier::Ctrl(count, span),
            (1, count) => GateModifier::NegCtrl(count, span),
            (_, None) => GateModifier::Inv(span),
            (_, Some(power)) => GateModifier::Pow(power, span),
        }))
    }

    /// An expression between two signs.
    fn enclosed(&mut self, open: &str, close: &str) -> Result<Expr, Error> {
        self.expect(open)?;
        let expr = self.expr()?;
        self.expect(close)?;
        Ok(expr)
    }

    fn gate_def(&mut self, start: usize) -> Result<Stmt, Error> {
        self.expect("gate")?;
        let name = self.name()?;
        let params = if self.is(0, "(") { self.parentheses(Self::name)? } else { Vec::new() };
        let qparams = if self.is(0, "{") { Vec::new() } else { self.commas(Self::name)? };
        if !self.is(0, "{") {
            return self.wrong("`{`");
        }
        let body = self.body()?;
        Ok(Stmt::GateDef { name, params, qparams, body, span: self.since(start) })
    }

    fn function(&mut self, start: usize) -> Result<Stmt, Error> {
        self.expect("def")?;
        let name = self.name()?;
        let params = self.parentheses(Self::typed_name)?;
        self.expect("->")?;
        let return_type = self.ty()?;
        self.expect("{")?;
        self.expect("return")?;
        let body = self.expr()?;
        self.expect(";")?;
        self.expect("}")?;
        Ok(Stmt::FunctionDef { name, params, return_type, body, span: self.since(start) })
    }

    fn typed_name(&mut self) -> Result<(ClassicalType, String), Error> {
        Ok((self.ty()?, self.name()?))
    }

    /// measure q; or measure q -> c;
    fn measure(&mut self, start: usize) -> Result<Stmt, Error> {
        self.expect("measure")?;
        let qubit = self.operand()?;
        let target = if self.take("->") { Some(self.operand()?) } else { None };
        self.expect(";")?;
        Ok(Stmt::Measure { qubit, target, span: self.since(start) })
    }

    /// c = measure q;
    fn measure_into(&mut self, start: usize) -> Result<Stmt, Error> {
        let target = Some(self.operand()?);
        self.expect("=")?;
        self.expect("measure")?;
        let qubit = self.operand()?;
        self.expect(";")?;
        Ok(Stmt::Measure { qubit, target, span: self.since(start) })
    }

    fn reset(&mut self, start: usize) -> Result<Stmt, Error> {
        self.expect("reset")?;
        let target = self.operand()?;
        self.expect(";")?;
        Ok(Stmt::Reset { target, span: self.since(start) })
    }

    fn barrier(&mut self, start: usize) -> Result<Stmt, Error> {
        self.expect("barrier")?;
        let targets = self.operands()?;
        Ok(Stmt::Barrier { targets, span: self.since(start) })
    }

    fn delay(&mut self, start: usize) -> Result<Stmt, Error> {
        self.expect("delay")?;
        let duration = self.enclosed("[", "]")?;
        let targets = self.operands()?;
        Ok(Stmt::Delay { duration, targets, span: self.since(start) })
    }

    fn if_else(&mut self, start: usize) -> Result<Stmt, Error> {
        self.expect("if")?;
        let condition = self.enclosed("(", ")")?;
        let then_body = self.body()?;
        let else_body = if self.take("else") { Some(self.body()?) } else { None };
        Ok(Stmt::If { condition, then_body, else_body, span: self.since(start) })
    }

    fn for_loop(&mut self, start: usize) -> Result<Stmt, Error> {
        self.expect("for")?;
        let var_ty = self.ty()?;
        let var_name = self.name()?;
        self.expect("in")?;
        let range = self.range()?;
        let body = self.body()?;
        Ok(Stmt::For { var_name, var_ty, range, body, span: self.since(start) })
    }

    /// [start:end] or [start:step:end].
    fn range(&mut self) -> Result<ForRange, Error> {
        self.expect("[")?;
        let start = self.expr()?;
        self.expect(":")?;
        let mut end = self.expr()?;
        let mut step = None;
        if self.take(":") {
            step = Some(end);
            end = self.expr()?;
        }
        self.expect("]")?;
        Ok(ForRange { start, end, step })
    }

    fn while_loop(&mut self, start: usize) -> Result<Stmt, Error> {
        self.expect("while")?;
        let condition = self.enclosed("(", ")")?;
        let body = self.body()?;
        Ok(Stmt::While { condition, body, span: self.since(start) })
    }
}
