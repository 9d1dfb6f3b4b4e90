//! A tree as program text, for reading alone.

use crate::tree::*;

const TYPES: [&str; 5] = ["int", "uint", "float", "angle", "bool"];
const BIN_OPS: [&str; 5] = ["+", "-", "*", "/", "**"];
const COMPARE_OPS: [&str; 6] = ["==", "!=", "<", "<=", ">", ">="];

pub fn program(tree: &Tree) -> String {
    Show(&tree.texts).body(&tree.statements, 0)
}

struct Show<'a>(&'a [Vec<u8>]);

fn span(s: &Span) -> String {
    format!(" // {} {}\n", s.start, s.end)
}

fn joined(parts: Vec<String>) -> String {
    parts.join(", ")
}

impl Show<'_> {
    fn text(&self, number: &Text) -> String {
        String::from_utf8_lossy(&self.0[*number as usize]).into_owned()
    }

    fn body(&self, body: &[Stmt], depth: usize) -> String {
        let line = |s: &Stmt| "  ".repeat(depth) + &self.statement(s, depth);
        body.iter().map(line).collect()
    }

    fn block(&self, body: &[Stmt], depth: usize) -> String {
        format!("{{\n{}{}}}", self.body(body, depth + 1), "  ".repeat(depth))
    }

    fn names(&self, names: &[Text]) -> String {
        joined(names.iter().map(|name| self.text(name)).collect())
    }

    fn register(&self, word: &str, name: &Text, size: &Option<u64>) -> String {
        let size = size.map_or(String::new(), |size| format!("[{size}]"));
        format!("{word}{size} {};", self.text(name))
    }

    fn operand(&self, o: &GateOperand) -> String {
        let index = o.index.map_or(String::new(), |i| format!("[{i}]"));
        let slice = o.slice.map_or(String::new(), |(a, b)| format!("[{a}:{b}]"));
        format!("{}{index}{slice}", self.text(&o.name))
    }

    fn operands(&self, operands: &[GateOperand]) -> String {
        joined(operands.iter().map(|o| self.operand(o)).collect())
    }

    fn exprs(&self, exprs: &[Expr]) -> String {
        joined(exprs.iter().map(|e| self.expr(e)).collect())
    }

    fn expr(&self, expr: &Expr) -> String {
        match expr {
            Expr::IntLit(value, _) => value.to_string(),
            Expr::FloatLit(text, _) => self.text(text),
            Expr::BoolLit(yes, _) => yes.to_string(),
            Expr::Ident(name, _) => self.text(name),
            Expr::Index { name, index, .. } => format!("{}[{index}]", self.text(name)),
            Expr::Call { name, args, .. } => format!("{}({})", self.text(name), self.exprs(args)),
            Expr::Const(kind, _) => ["pi", "tau", "euler"][*kind as usize].to_string(),
            Expr::Neg(part, _) => format!("-({})", self.expr(part)),
            Expr::BinOp { op, lhs, rhs, .. } => {
                format!("({} {} {})", self.expr(lhs), BIN_OPS[*op as usize], self.expr(rhs))
            }
            Expr::Compare { op, lhs, rhs, .. } => {
                format!("({} {} {})", self.expr(lhs), COMPARE_OPS[*op as usize], self.expr(rhs))
            }
        }
    }

    fn modifier(&self, modifier: &GateModifier) -> String {
        let count =
            |n: &Option<Expr>| n.as_ref().map_or(String::new(), |n| format!("({})", self.expr(n)));
        match modifier {
            GateModifier::Ctrl(n, _) => format!("ctrl{} @ ", count(n)),
            GateModifier::NegCtrl(n, _) => format!("negctrl{} @ ", count(n)),
            GateModifier::Inv(_) => "inv @ ".to_string(),
            GateModifier::Pow(power, _) => format!("pow({}) @ ", self.expr(power)),
        }
    }

    fn statement(&self, statement: &Stmt, depth: usize) -> String {
        match statement {
            Stmt::Include { path, span: s } => {
                format!("include \"{}\";", self.text(path)) + &span(s)
            }
            Stmt::QubitDecl { name, size, span: s } => {
                self.register("qubit", name, size) + &span(s)
            }
            Stmt::BitDecl { name, size, span: s } => self.register("bit", name, size) + &span(s),
            Stmt::ClassicalDecl { qualifier, ty, name, init, span: s } => {
                let words = qualifier.map_or("", |q| ["const ", "input ", "output "][q as usize]);
                let init = init.as_ref().map_or(String::new(), |e| format!(" = {}", self.expr(e)));
                format!("{words}{} {}{init};", TYPES[*ty as usize], self.text(name)) + &span(s)
            }
            Stmt::Assignment { name, op, value, span: s } => {
                let op = ["=", "+=", "-="][*op as usize];
                format!("{} {op} {};", self.text(name), self.expr(value)) + &span(s)
            }
            Stmt::Measure { qubit, target, span: s } => {
                let to =
                    target.as_ref().map_or(String::new(), |t| format!(" -> {}", self.operand(t)));
                format!("measure {}{to};", self.operand(qubit)) + &span(s)
            }
            Stmt::Reset { target, span: s } => {
                format!("reset {};", self.operand(target)) + &span(s)
            }
            Stmt::Barrier { targets, span: s } => {
                format!("barrier {};", self.operands(targets)) + &span(s)
            }
            Stmt::Delay { duration, targets, span: s } => {
                format!("delay[{}] {};", self.expr(duration), self.operands(targets)) + &span(s)
            }
            longer => self.longer_statement(longer, depth),
        }
    }

    /// Gate calls, definitions, and statements with bodies.
    fn longer_statement(&self, statement: &Stmt, depth: usize) -> String {
        match statement {
            Stmt::GateCall { name, modifiers, params, args, span: s } => {
                let before: String = modifiers.iter().map(|m| self.modifier(m)).collect();
                let (name, params) = (self.text(name), self.exprs(params));
                format!("{before}{name}({params}) {};", self.operands(args)) + &span(s)
            }
            Stmt::GateDef { name, params, qparams, body, span: s } => {
                let (name, params, qubits) =
                    (self.text(name), self.names(params), self.names(qparams));
                format!("gate {name}({params}) {qubits} {}", self.block(body, depth)) + &span(s)
            }
            Stmt::FunctionDef { name, params, return_type, body, span: s } => {
                let param = |(ty, name): &(ClassicalType, Text)| {
                    format!("{} {}", TYPES[*ty as usize], self.text(name))
                };
                let params = joined(params.iter().map(param).collect());
                let (name, ty) = (self.text(name), TYPES[*return_type as usize]);
                format!("def {name}({params}) -> {ty} {{ return {}; }}", self.expr(body)) + &span(s)
            }
            Stmt::If { condition, then_body, else_body, span: s } => {
                let other = else_body
                    .as_ref()
                    .map_or(String::new(), |b| format!(" else {}", self.block(b, depth)));
                format!("if ({}) {}{other}", self.expr(condition), self.block(then_body, depth))
                    + &span(s)
            }
            Stmt::For { var_name, var_ty, range, body, span: s } => {
                let (ty, name) = (TYPES[*var_ty as usize], self.text(var_name));
                let step =
                    range.step.as_ref().map_or(String::new(), |e| format!("{}:", self.expr(e)));
                let range =
                    format!("[{}:{step}{}]", self.expr(&range.start), self.expr(&range.end));
                format!("for {ty} {name} in {range} {}", self.block(body, depth)) + &span(s)
            }
            Stmt::While { condition, body, span: s } => {
                format!("while ({}) {}", self.expr(condition), self.block(body, depth)) + &span(s)
            }
            _ => unreachable!("the other cases are in statement"),
        }
    }
}
