//! Whether a tree has slices too long for sema.rs, and how deep it is.

use crate::tree::*;
use crate::wide::is_long;

pub fn has_long(tree: &Tree) -> bool {
    any(&tree.statements, &|statement| operands(statement).iter().any(|o| long(o)))
}

fn long(operand: &GateOperand) -> bool {
    operand.slice.is_some_and(|(start, end)| is_long(start, end))
}

fn operands(statement: &Stmt) -> Vec<&GateOperand> {
    match statement {
        Stmt::GateCall { args, .. } => args.iter().collect(),
        Stmt::Barrier { targets, .. } | Stmt::Delay { targets, .. } => targets.iter().collect(),
        Stmt::Measure { qubit, target, .. } => {
            [Some(qubit), target.as_ref()].into_iter().flatten().collect()
        }
        Stmt::Reset { target, .. } => vec![target],
        _ => vec![],
    }
}

fn any(body: &[Stmt], is: &dyn Fn(&Stmt) -> bool) -> bool {
    body.iter().any(|s| is(s) || bodies(s).iter().any(|b| any(b, is)))
}

fn bodies(statement: &Stmt) -> Vec<&[Stmt]> {
    match statement {
        Stmt::GateDef { body, .. } | Stmt::For { body, .. } | Stmt::While { body, .. } => {
            vec![body]
        }
        Stmt::If { then_body, else_body, .. } => {
            vec![then_body, else_body.as_deref().unwrap_or(&[])]
        }
        _ => vec![],
    }
}

/// The highest level of a statement.
pub fn depth(body: &[Stmt]) -> usize {
    let below = |s: &Stmt| bodies(s).iter().map(|b| depth(b)).max().unwrap_or(0);
    body.iter().map(|s| 1 + below(s)).max().unwrap_or(0)
}

/// The highest level of an expression.
pub fn expression_depth(body: &[Stmt]) -> usize {
    let of = |s: &Stmt| exprs(s).into_iter().map(levels).max().unwrap_or(0);
    let below = |s: &Stmt| bodies(s).iter().map(|b| expression_depth(b)).max().unwrap_or(0);
    body.iter().map(|s| of(s).max(below(s))).max().unwrap_or(0)
}

fn exprs(statement: &Stmt) -> Vec<&Expr> {
    match statement {
        Stmt::ClassicalDecl { init: Some(expr), .. } => vec![expr],
        Stmt::Assignment { value: expr, .. }
        | Stmt::FunctionDef { body: expr, .. }
        | Stmt::Delay { duration: expr, .. }
        | Stmt::If { condition: expr, .. }
        | Stmt::While { condition: expr, .. } => vec![expr],
        Stmt::GateCall { modifiers, params, .. } => {
            modifiers.iter().filter_map(held).chain(params).collect()
        }
        Stmt::For { range, .. } => [Some(&range.start), Some(&range.end), range.step.as_ref()]
            .into_iter()
            .flatten()
            .collect(),
        _ => vec![],
    }
}

fn held(modifier: &GateModifier) -> Option<&Expr> {
    match modifier {
        GateModifier::Ctrl(expr, _) | GateModifier::NegCtrl(expr, _) => expr.as_ref(),
        GateModifier::Inv(_) => None,
        GateModifier::Pow(expr, _) => Some(expr),
    }
}

fn levels(expr: &Expr) -> usize {
    1 + match expr {
        Expr::Neg(part, _) => levels(part),
        Expr::BinOp { lhs, rhs, .. } | Expr::Compare { lhs, rhs, .. } => {
            levels(lhs).max(levels(rhs))
        }
        Expr::Call { args, .. } => args.iter().map(levels).max().unwrap_or(0),
        _ => 0,
    }
}
