//! The tree as src/ast.rs has it, with text numbers in place of strings.

/// The number of a text.
pub type Text = u16;

#[derive(Clone, Copy)]
pub struct Span {
    pub start: u32,
    pub end: u32,
}

pub struct Tree {
    pub texts: Vec<Vec<u8>>,
    pub statements: Vec<Stmt>,
}

#[derive(Clone)]
pub enum Stmt {
    Include {
        path: Text,
        span: Span,
    },
    QubitDecl {
        name: Text,
        size: Option<u64>,
        span: Span,
    },
    BitDecl {
        name: Text,
        size: Option<u64>,
        span: Span,
    },
    ClassicalDecl {
        qualifier: Option<ClassicalQualifier>,
        ty: ClassicalType,
        name: Text,
        init: Option<Expr>,
        span: Span,
    },
    Assignment {
        name: Text,
        op: AssignOp,
        value: Expr,
        span: Span,
    },
    GateCall {
        name: Text,
        modifiers: Vec<GateModifier>,
        params: Vec<Expr>,
        args: Vec<GateOperand>,
        span: Span,
    },
    GateDef {
        name: Text,
        params: Vec<Text>,
        qparams: Vec<Text>,
        body: Vec<Stmt>,
        span: Span,
    },
    FunctionDef {
        name: Text,
        params: Vec<(ClassicalType, Text)>,
        return_type: ClassicalType,
        body: Expr,
        span: Span,
    },
    Measure {
        qubit: GateOperand,
        target: Option<GateOperand>,
        span: Span,
    },
    Reset {
        target: GateOperand,
        span: Span,
    },
    Barrier {
        targets: Vec<GateOperand>,
        span: Span,
    },
    Delay {
        duration: Expr,
        targets: Vec<GateOperand>,
        span: Span,
    },
    If {
        condition: Expr,
        then_body: Vec<Stmt>,
        else_body: Option<Vec<Stmt>>,
        span: Span,
    },
    For {
        var_name: Text,
        var_ty: ClassicalType,
        range: ForRange,
        body: Vec<Stmt>,
        span: Span,
    },
    While {
        condition: Expr,
        body: Vec<Stmt>,
        span: Span,
    },
}

#[derive(Clone, Copy)]
pub enum ClassicalType {
    Int,
    UInt,
    Float,
    Angle,
    Bool,
}

#[derive(Clone, Copy)]
pub enum ClassicalQualifier {
    Const,
    Input,
    Output,
}

#[derive(Clone, Copy)]
pub enum AssignOp {
    Assign,
    AddAssign,
    SubAssign,
}

#[derive(Clone)]
pub struct ForRange {
    pub start: Expr,
    pub end: Expr,
    pub step: Option<Expr>,
}

#[derive(Clone)]
pub enum GateModifier {
    Ctrl(Option<Expr>, Span),
    NegCtrl(Option<Expr>, Span),
    Inv(Span),
    Pow(Expr, Span),
}

#[derive(Clone)]
pub enum Expr {
    IntLit(u64, Span),
    FloatLit(Text, Span),
    BoolLit(bool, Span),
    Ident(Text, Span),
    Index { name: Text, index: u64, span: Span },
    Call { name: Text, args: Vec<Expr>, span: Span },
    Const(ConstKind, Span),
    Neg(Box<Expr>, Span),
    BinOp { op: BinOp, lhs: Box<Expr>, rhs: Box<Expr>, span: Span },
    Compare { op: CompareOp, lhs: Box<Expr>, rhs: Box<Expr>, span: Span },
}

#[derive(Clone, Copy)]
pub enum BinOp {
    Add,
    Sub,
    Mul,
    Div,
    Pow,
}

#[derive(Clone, Copy)]
pub enum CompareOp {
    Eq,
    Ne,
    Lt,
    Le,
    Gt,
    Ge,
}

#[derive(Clone, Copy)]
pub enum ConstKind {
    Pi,
    Tau,
    Euler,
}

#[derive(Clone)]
pub struct GateOperand {
    pub name: Text,
    pub index: Option<u64>,
    pub slice: Option<(u64, u64)>,
    pub span: Span,
}
