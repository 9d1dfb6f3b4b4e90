//! Small trees for single rules of document 01.

use crate::edges::{branch, gate, measure, operand, qubit, truth};
use crate::maker::{Maker, TYPES};
use crate::statements::MARKS;
use crate::tree::*;
use crate::values;

type Known = fn(&mut Maker) -> Vec<Stmt>;

pub const KNOWN: [(&str, Known); 15] = [
    ("no statements", |_| vec![]),
    ("the example", example),
    ("one of several", one_of_several),
    ("backward slice", backward_slice),
    ("size 0", size_zero),
    ("one arm", one_arm),
    ("loop", looped),
    ("control counts", control_counts),
    ("sums beyond 2^64 - 1", sums),
    ("long slices", long_slices),
    ("pairs of types", type_pairs),
    ("types at places", type_places),
    ("kinds of operands", operand_kinds),
    ("limits of values", values::limit_values),
    ("widths", widths),
];

fn whole(m: &mut Maker) -> GateOperand {
    let name = m.text("q");
    operand(m, name, None, None)
}

fn measured(m: &mut Maker) -> Stmt {
    let whole = whole(m);
    measure(m, whole)
}

fn used(m: &mut Maker) -> Stmt {
    let whole = whole(m);
    gate(m, "h", vec![whole])
}

fn declared(m: &mut Maker, size: Option<u64>) -> Stmt {
    let name = m.text("q");
    qubit(m, name, size)
}

fn example(m: &mut Maker) -> Vec<Stmt> {
    let name = m.text("q");
    let target = operand(m, name, Some(0), None);
    let slice = operand(m, name, None, Some((0, 1)));
    let reset = Stmt::Reset { target, span: m.span() };
    vec![declared(m, Some(2)), measured(m), reset, gate(m, "h", vec![slice])]
}

fn one_of_several(m: &mut Maker) -> Vec<Stmt> {
    let name = m.text("q");
    let one = operand(m, name, Some(0), None);
    vec![declared(m, Some(2)), measure(m, one), used(m)]
}

fn backward_slice(m: &mut Maker) -> Vec<Stmt> {
    let name = m.text("q");
    let mut all = vec![declared(m, Some(2))];
    let back = operand(m, name, None, Some((1, 0)));
    all.push(measure(m, back));
    for slice in [(0, 1), (1, 0)] {
        let slice = operand(m, name, None, Some(slice));
        all.push(gate(m, "h", vec![slice]));
    }
    all.push(measured(m));
    let back = operand(m, name, Some(7), Some((1, 0)));
    all.push(gate(m, "h", vec![back]));
    all
}

fn size_zero(m: &mut Maker) -> Vec<Stmt> {
    let name = m.text("q");
    let first = operand(m, name, Some(0), None);
    let target = operand(m, name, Some(0), None);
    let reset = Stmt::Reset { target, span: m.span() };
    vec![declared(m, Some(0)), measured(m), reset, gate(m, "h", vec![first]), used(m)]
}

fn one_arm(m: &mut Maker) -> Vec<Stmt> {
    let inner = measured(m);
    let target = whole(m);
    let reset = Stmt::Reset { target, span: m.span() };
    let arm = branch(m, vec![inner], None);
    let cleared = branch(m, vec![reset], None);
    vec![declared(m, None), arm, used(m), cleared, used(m)]
}

fn looped(m: &mut Maker) -> Vec<Stmt> {
    let body = vec![used(m), measured(m)];
    let condition = truth(m);
    vec![declared(m, None), Stmt::While { condition, body, span: m.span() }, used(m)]
}

fn controlled(m: &mut Maker, name: &str, counts: Vec<Expr>) -> Stmt {
    let name = m.text(name);
    let mut modifiers = vec![];
    for count in counts {
        modifiers.push(GateModifier::Ctrl(Some(count), m.span()));
    }
    let args = vec![whole(m)];
    Stmt::GateCall { name, modifiers, params: vec![], args, span: m.span() }
}

/// Counts near their limits, so that the total shows in the message.
fn control_counts(m: &mut Maker) -> Vec<Stmt> {
    let mut all = vec![declared(m, None)];
    for _ in 0..30 {
        let many = 1 + m.draws.below(2);
        let counts = m.many(many, Maker::count);
        all.push(controlled(m, "X", counts));
    }
    all
}

/// Gate qubits and control total near 2^64.
fn sums(m: &mut Maker) -> Vec<Stmt> {
    let own = m.text("mine");
    let (params, qparams) = (vec![], m.many(16, Maker::variable));
    let mut all = vec![Stmt::GateDef { name: own, params, qparams, body: vec![], span: m.span() }];
    for name in ["gphase", "x", "cx", "CSwap", "mine", "none"] {
        for less in [0, 1, 2, 15, 16, 17] {
            let first = m.int(u64::MAX - less);
            all.push(controlled(m, name, vec![first]));
        }
        let (first, second) = (m.int(u64::MAX - 1), m.int(1 + m.at as u64 % 2));
        all.push(controlled(m, name, vec![first, second]));
    }
    all
}

/// Marks beside slices of any length.
fn long_slices(m: &mut Maker) -> Vec<Stmt> {
    let mut all = m.declarations(85);
    for _ in 0..12 {
        let next = match m.draws.below(7) {
            0 => Stmt::Reset { target: m.long_operand(), span: m.span() },
            1 => Stmt::Barrier { targets: m.list(3, Maker::long_operand), span: m.span() },
            2 => {
                let args = m.many(2, Maker::long_operand);
                gate(m, "cx", args)
            }
            3 => {
                let qubit = if m.draws.one_in(9) { m.long_operand() } else { m.operand() };
                let target = Some(m.long_operand());
                Stmt::Measure { qubit, target, span: m.span() }
            }
            _ => m.statement(&MARKS, 2),
        };
        all.push(next);
    }
    all
}

/// A variable of each type, in the order of the types.
fn typed_names(m: &mut Maker) -> (Vec<Text>, Vec<Stmt>) {
    let names: Vec<Text> = ["i", "u", "f", "a", "b"].iter().map(|name| m.text(name)).collect();
    let mut all = vec![];
    for (ty, name) in TYPES.iter().zip(&names) {
        let qualifier =
            m.maybe(30, |m| m.draws.of(&[ClassicalQualifier::Input, ClassicalQualifier::Output]));
        all.push(Stmt::ClassicalDecl {
            qualifier,
            ty: *ty,
            name: *name,
            init: None,
            span: m.span(),
        });
    }
    (names, all)
}

/// Each type where each is expected: start values, values, arguments, results.
fn type_pairs(m: &mut Maker) -> Vec<Stmt> {
    let (names, mut all) = typed_names(m);
    let functions: Vec<Text> = (0..5).map(|i| m.text(&format!("takes{i}"))).collect();
    let other = m.text("other");
    for (e, ty) in TYPES.iter().enumerate() {
        let params = vec![(*ty, other)];
        let body = Expr::Ident(other, m.span());
        all.push(Stmt::FunctionDef {
            name: functions[e],
            params,
            return_type: *ty,
            body,
            span: m.span(),
        });
        for actual in &names {
            let new = m.text(&format!("n{}", all.len()));
            let init = Some(Expr::Ident(*actual, m.span()));
            all.push(Stmt::ClassicalDecl {
                qualifier: None,
                ty: *ty,
                name: new,
                init,
                span: m.span(),
            });
            let op = m.draws.of(&[AssignOp::Assign, AssignOp::AddAssign, AssignOp::SubAssign]);
            let value = Expr::Ident(*actual, m.span());
            all.push(Stmt::Assignment { name: names[e], op, value, span: m.span() });
            let body = Expr::Ident(*actual, m.span());
            all.push(Stmt::FunctionDef {
                name: new,
                params: vec![],
                return_type: *ty,
                body,
                span: m.span(),
            });
            let args = vec![Expr::Ident(*actual, m.span())];
            let duration = Expr::Call { name: functions[e], args, span: m.span() };
            all.push(Stmt::Delay { duration, targets: vec![], span: m.span() });
        }
    }
    all
}

/// Each type where a statement wants a certain one, and each pair of operands.
fn type_places(m: &mut Maker) -> Vec<Stmt> {
    let (names, mut all) = typed_names(m);
    let x = m.text("x");
    for name in &names {
        let value = |m: &mut Maker| Expr::Ident(*name, m.span());
        all.push(Stmt::If {
            condition: value(m),
            then_body: vec![],
            else_body: None,
            span: m.span(),
        });
        all.push(Stmt::While { condition: value(m), body: vec![], span: m.span() });
        let range = ForRange { start: value(m), end: value(m), step: Some(value(m)) };
        let var_ty = m.ty();
        all.push(Stmt::For { var_name: x, var_ty, range, body: vec![], span: m.span() });
        let modifiers = vec![
            GateModifier::NegCtrl(Some(value(m)), m.span()),
            GateModifier::Pow(value(m), m.span()),
        ];
        let params = vec![value(m)];
        all.push(Stmt::GateCall { name: x, modifiers, params, args: vec![], span: m.span() });
        all.push(Stmt::Delay {
            duration: Expr::Neg(Box::new(value(m)), m.span()),
            targets: vec![],
            span: m.span(),
        });
        for other in &names {
            all.extend(operators(m, &names, *name, *other));
        }
    }
    all
}

/// A sum and a comparison of two names, given to a bool and to an int.
fn operators(m: &mut Maker, names: &[Text], left: Text, right: Text) -> [Stmt; 2] {
    let (lhs, rhs) =
        (Box::new(Expr::Ident(left, m.span())), Box::new(Expr::Ident(right, m.span())));
    let (l, r) = (lhs.clone(), rhs.clone());
    let sum = Expr::BinOp { op: BinOp::Add, lhs: l, rhs: r, span: m.span() };
    let same = Expr::Compare { op: CompareOp::Eq, lhs, rhs, span: m.span() };
    let op = AssignOp::Assign;
    let to_bool = Stmt::Assignment { name: names[4], op, value: sum, span: m.span() };
    [to_bool, Stmt::Assignment { name: names[0], op, value: same, span: m.span() }]
}

/// Names of every kind as source and as target of a measurement.
fn operand_kinds(m: &mut Maker) -> Vec<Stmt> {
    let (mut names, mut all) = typed_names(m);
    for (i, ty) in TYPES.iter().enumerate() {
        let name = m.text(&format!("c{i}"));
        let (qualifier, init) = (Some(ClassicalQualifier::Const), None);
        all.push(Stmt::ClassicalDecl { qualifier, ty: *ty, name, init, span: m.span() });
        names.push(name);
    }
    let (bits, param, wire) = (m.text("bits"), m.text("p"), m.text("w"));
    all.push(Stmt::BitDecl { name: bits, size: m.size(), span: m.span() });
    all.push(declared(m, Some(2)));
    names.extend([bits, param, wire, m.text("q"), m.text("none")]);
    let mut body = vec![];
    for name in names {
        let mut any = m.operand();
        any.name = name;
        let qubit = operand(m, name, None, None);
        body.push(Stmt::Measure { qubit, target: Some(any), span: m.span() });
        body.push(Stmt::Assignment { name, op: AssignOp::Assign, value: m.int(1), span: m.span() });
        let index = Expr::Index { name, index: m.index(), span: m.span() };
        body.push(Stmt::Delay { duration: index, targets: vec![], span: m.span() });
        body.push(Stmt::Delay {
            duration: Expr::Ident(name, m.span()),
            targets: vec![],
            span: m.span(),
        });
    }
    let name = m.text("g");
    all.push(Stmt::GateDef {
        name,
        params: vec![param],
        qparams: vec![wire],
        body,
        span: m.span(),
    });
    all
}

/// Slices of every width as targets and beside a register of 2.
fn widths(m: &mut Maker) -> Vec<Stmt> {
    let (q, r, c) = (m.text("q"), m.text("r"), m.text("c"));
    let mut all = vec![declared(m, Some(u64::MAX)), qubit(m, r, Some(2))];
    all.push(Stmt::BitDecl { name: c, size: Some(u64::MAX), span: m.span() });
    let last = u64::MAX;
    let slices =
        [(0, last), (1, last), (0, last - 1), (last, last), (last, 0), (5, 6), (1, 0), (7, 7)];
    for slice in slices {
        for name in [q, r] {
            let args = vec![operand(m, r, None, None), operand(m, name, None, Some(slice))];
            all.push(gate(m, "CX", args));
        }
        for source in [None, Some(0)] {
            let target = Some(operand(m, c, None, Some(slice)));
            let qubit = operand(m, r, source, None);
            all.push(Stmt::Measure { qubit, target, span: m.span() });
        }
        let target = operand(m, r, None, None);
        all.push(Stmt::Reset { target, span: m.span() });
    }
    all
}
