// Included twice by decode.rs: for the values of tree.rs, and for those of src/ast.rs.

fn name(c: &mut Cursor) -> Read<Name> {
    text(c, Spelling::Name)
}

fn ty(c: &mut Cursor) -> Read<ClassicalType> {
    c.one_of(&TYPES)
}

fn operand(c: &mut Cursor) -> Read<GateOperand> {
    Ok(GateOperand {
        name: name(c)?,
        index: c.option(Cursor::whole)?,
        slice: c.option(|c| Ok((c.whole()?, c.whole()?)))?,
        span: span(c)?,
    })
}

fn modifier(c: &mut Cursor) -> Read<GateModifier> {
    Ok(match c.case(4)? {
        0 => GateModifier::Ctrl(c.option(expr)?, span(c)?),
        1 => GateModifier::NegCtrl(c.option(expr)?, span(c)?),
        2 => GateModifier::Inv(span(c)?),
        _ => GateModifier::Pow(expr(c)?, span(c)?),
    })
}

fn expr(c: &mut Cursor) -> Read<Expr> {
    c.within(10, |c| &mut c.exprs, expr_of)
}

fn part(c: &mut Cursor) -> Read<Box<Expr>> {
    expr(c).map(Box::new)
}

fn expr_of(c: &mut Cursor, case: usize) -> Read<Expr> {
    Ok(match case {
        0 => Expr::IntLit(c.whole()?, span(c)?),
        1 => Expr::FloatLit(float(c)?, span(c)?),
        2 => Expr::BoolLit(c.case(2)? == 1, span(c)?),
        3 => Expr::Ident(name(c)?, span(c)?),
        4 => Expr::Index { name: name(c)?, index: c.whole()?, span: span(c)? },
        5 => Expr::Call { name: name(c)?, args: c.list(expr)?, span: span(c)? },
        6 => Expr::Const(c.one_of(&CONSTANTS)?, span(c)?),
        7 => Expr::Neg(part(c)?, span(c)?),
        8 => {
            let op = c.one_of(&BIN_OPS)?;
            Expr::BinOp { op, lhs: part(c)?, rhs: part(c)?, span: span(c)? }
        }
        _ => {
            let op = c.one_of(&COMPARE_OPS)?;
            Expr::Compare { op, lhs: part(c)?, rhs: part(c)?, span: span(c)? }
        }
    })
}

pub fn statement(c: &mut Cursor) -> Read<Stmt> {
    c.within(15, |c| &mut c.statements, statement_of)
}

fn statement_of(c: &mut Cursor, case: usize) -> Read<Stmt> {
    Ok(match case {
        0 => Stmt::Include { path: text(c, Spelling::Other)?, span: span(c)? },
        1 => Stmt::QubitDecl { name: name(c)?, size: c.option(Cursor::whole)?, span: span(c)? },
        2 => Stmt::BitDecl { name: name(c)?, size: c.option(Cursor::whole)?, span: span(c)? },
        3 => Stmt::ClassicalDecl {
            qualifier: c.option(|c| c.one_of(&QUALIFIERS))?,
            ty: ty(c)?,
            name: name(c)?,
            init: c.option(expr)?,
            span: span(c)?,
        },
        4 => Stmt::Assignment {
            name: name(c)?,
            op: c.one_of(&ASSIGN_OPS)?,
            value: expr(c)?,
            span: span(c)?,
        },
        8 => Stmt::Measure { qubit: operand(c)?, target: c.option(operand)?, span: span(c)? },
        9 => Stmt::Reset { target: operand(c)?, span: span(c)? },
        10 => Stmt::Barrier { targets: c.list(operand)?, span: span(c)? },
        11 => Stmt::Delay { duration: expr(c)?, targets: c.list(operand)?, span: span(c)? },
        _ => longer_statement(c, case)?,
    })
}

/// Gate calls, definitions, and statements with bodies.
fn longer_statement(c: &mut Cursor, case: usize) -> Read<Stmt> {
    Ok(match case {
        5 => Stmt::GateCall {
            name: name(c)?,
            modifiers: c.list(modifier)?,
            params: c.list(expr)?,
            args: c.list(operand)?,
            span: span(c)?,
        },
        6 => Stmt::GateDef {
            name: name(c)?,
            params: c.list(name)?,
            qparams: c.list(name)?,
            body: c.body(statement)?,
            span: span(c)?,
        },
        7 => Stmt::FunctionDef {
            name: name(c)?,
            params: c.list(|c| Ok((ty(c)?, name(c)?)))?,
            return_type: ty(c)?,
            body: expr(c)?,
            span: span(c)?,
        },
        12 => Stmt::If {
            condition: expr(c)?,
            then_body: c.body(statement)?,
            else_body: c.option(|c| c.body(statement))?,
            span: span(c)?,
        },
        13 => Stmt::For {
            var_name: name(c)?,
            var_ty: ty(c)?,
            range: ForRange { start: expr(c)?, end: expr(c)?, step: c.option(expr)? },
            body: c.body(statement)?,
            span: span(c)?,
        },
        _ => Stmt::While { condition: expr(c)?, body: c.body(statement)?, span: span(c)? },
    })
}
