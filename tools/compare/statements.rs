//! Random statements.

use crate::maker::Maker;
use crate::tree::*;

pub const QUALIFIERS: [ClassicalQualifier; 3] =
    [ClassicalQualifier::Const, ClassicalQualifier::Input, ClassicalQualifier::Output];
pub const ASSIGN_OPS: [AssignOp; 3] = [AssignOp::Assign, AssignOp::AddAssign, AssignOp::SubAssign];
pub const STATEMENT_LEVELS: usize = 8;

/// How often each statement comes, in the order of src/ast.rs.
pub type Weights = [usize; 15];
pub const ANY: Weights = [1, 6, 4, 8, 8, 14, 5, 6, 10, 5, 6, 6, 6, 5, 4];
pub const MARKS: Weights = [0, 1, 1, 0, 0, 14, 2, 0, 20, 9, 6, 3, 9, 4, 4];
pub const TYPED: Weights = [0, 1, 2, 16, 20, 5, 1, 12, 1, 0, 0, 4, 4, 4, 3];
pub const CALLS: Weights = [0, 2, 0, 2, 0, 40, 10, 0, 4, 2, 1, 1, 1, 1, 1];

impl Maker {
    pub fn modifier(&mut self) -> GateModifier {
        match self.draws.below(8) {
            0..=3 => GateModifier::Ctrl(self.maybe(65, Self::count), self.span()),
            4..=5 => GateModifier::NegCtrl(self.maybe(65, Self::count), self.span()),
            6 => GateModifier::Inv(self.span()),
            _ => GateModifier::Pow(self.expr(2), self.span()),
        }
    }

    /// About as many parameters and qubits as the gate may have.
    fn gate_call(&mut self) -> Stmt {
        let name = self.draws.of(&self.gates);
        let modifiers = if self.draws.one_in(3) { self.list(4, Self::modifier) } else { vec![] };
        let (params, qubits) = guess(&self.texts[name as usize]);
        let params = if self.draws.one_in(4) { self.draws.below(4) } else { params };
        let qubits =
            if self.draws.one_in(4) { self.draws.below(5) } else { qubits + modifiers.len() };
        let params = self.many(params, |m| m.typed(ClassicalType::Float));
        let args = self.many(qubits, Self::operand);
        Stmt::GateCall { name, modifiers, params, args, span: self.span() }
    }

    fn declaration(&mut self) -> Stmt {
        let qualifier = self.maybe(50, |m| m.draws.of(&QUALIFIERS));
        let (ty, name) = (self.ty(), self.variable());
        let init = self.maybe(70, |m| m.typed(ty));
        Stmt::ClassicalDecl { qualifier, ty, name, init, span: self.span() }
    }

    /// A body of statements with `levels` left for them.
    pub fn body(&mut self, weights: &Weights, levels: usize) -> Vec<Stmt> {
        if levels == 0 {
            return vec![];
        }
        let count = self.draws.of(&[0, 1, 1, 1, 2, 2, 3, 4]);
        self.many(count, |m| m.statement(weights, levels))
    }

    /// A statement; it and its bodies have `levels`.
    pub fn statement(&mut self, weights: &Weights, levels: usize) -> Stmt {
        match self.draws.weighted(weights) {
            0 => Stmt::Include { path: self.draws.of(&self.paths), span: self.span() },
            1 => Stmt::QubitDecl { name: self.variable(), size: self.size(), span: self.span() },
            2 => Stmt::BitDecl { name: self.variable(), size: self.size(), span: self.span() },
            3 => self.declaration(),
            4 => {
                let op = self.draws.of(&ASSIGN_OPS);
                let (name, ty) = (self.variable(), self.ty());
                Stmt::Assignment { name, op, value: self.typed(ty), span: self.span() }
            }
            5 => self.gate_call(),
            8 => {
                let (qubit, target) = (self.operand(), self.maybe(40, Self::operand));
                Stmt::Measure { qubit, target, span: self.span() }
            }
            9 => Stmt::Reset { target: self.operand(), span: self.span() },
            10 => Stmt::Barrier { targets: self.list(4, Self::operand), span: self.span() },
            11 => {
                let (duration, targets) =
                    (self.typed(ClassicalType::Float), self.list(3, Self::operand));
                Stmt::Delay { duration, targets, span: self.span() }
            }
            case => self.longer_statement(case, weights, levels),
        }
    }

    /// Definitions and statements with bodies.
    fn longer_statement(&mut self, case: usize, weights: &Weights, levels: usize) -> Stmt {
        match case {
            6 => {
                let name = self.draws.of(&self.gates);
                let (params, qparams) =
                    (self.list(3, Self::variable), self.list(4, Self::variable));
                let body = self.body(weights, levels - 1);
                Stmt::GateDef { name, params, qparams, body, span: self.span() }
            }
            7 => {
                let name = self.draws.of(&self.functions);
                let params = self.list(4, |m| (m.ty(), m.variable()));
                let return_type = self.ty();
                Stmt::FunctionDef {
                    name,
                    params,
                    return_type,
                    body: self.typed(return_type),
                    span: self.span(),
                }
            }
            12 => self.branch(weights, levels),
            13 => {
                let (var_name, any) = (self.variable(), self.ty());
                let var_ty = if self.draws.one_in(3) { any } else { ClassicalType::Int };
                let (start, end) = (self.typed(ClassicalType::Int), self.typed(ClassicalType::Int));
                let step = self.maybe(40, |m| m.typed(ClassicalType::Int));
                let body = self.body(weights, levels - 1);
                let range = ForRange { start, end, step };
                Stmt::For { var_name, var_ty, range, body, span: self.span() }
            }
            _ => {
                let condition = self.typed(ClassicalType::Bool);
                let body = self.body(weights, levels - 1);
                Stmt::While { condition, body, span: self.span() }
            }
        }
    }

    fn branch(&mut self, weights: &Weights, levels: usize) -> Stmt {
        let condition = self.typed(ClassicalType::Bool);
        let then_body = self.body(weights, levels - 1);
        let else_body = self.maybe(55, |m| m.body(weights, levels - 1));
        Stmt::If { condition, then_body, else_body, span: self.span() }
    }

    /// Declarations for most of the names.
    pub fn declarations(&mut self, qubits: usize) -> Vec<Stmt> {
        let mut all = vec![];
        for name in self.variables.clone() {
            if self.draws.one_in(6) {
                continue;
            }
            if self.draws.percent(qubits) {
                all.push(Stmt::QubitDecl { name, size: self.size(), span: self.span() });
            } else if self.draws.one_in(3) {
                all.push(Stmt::BitDecl { name, size: self.size(), span: self.span() });
            } else {
                let (ty, qualifier) = (self.ty(), self.maybe(50, |m| m.draws.of(&QUALIFIERS)));
                let init = self.maybe(50, |m| m.typed(ty));
                all.push(Stmt::ClassicalDecl { qualifier, ty, name, init, span: self.span() });
            }
        }
        all
    }
}

/// Parameters and qubits that the name suggests.
fn guess(name: &[u8]) -> (usize, usize) {
    let lower = name.to_ascii_lowercase();
    let params = match &lower[..] {
        b"u" => 3,
        b"gphase" | b"p" | b"cp" => 1,
        _ if lower.starts_with(b"r") || lower.starts_with(b"cr") => 1,
        _ => 0,
    };
    let qubits = match &lower[..] {
        b"gphase" => 0,
        b"ccx" | b"cswap" => 3,
        b"swap" => 2,
        _ if lower.starts_with(b"c") => 2,
        _ => 1,
    };
    (params, qubits)
}
