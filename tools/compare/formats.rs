//! Every message and note of sema.rs that a tree can bring about.

const TYPES: [&str; 5] = ["int", "uint", "float", "angle", "bool"];
const MEASURED: &str = "qubit was measured here";
const COLLAPSED: &str = "after measurement — qubit state has collapsed and cannot be used in a \
                         gate without an explicit `reset`";

/// Messages without types: letter, message, note or nothing.
const PLAIN: [(&str, &str, &str); 46] = [
    ("E", "`q` is already declared in this scope", "`q` first declared here"),
    ("E", "`q` is not declared", ""),
    ("E", "cannot index gate qubit `q` — gate qubits are single wires", ""),
    ("E", "index 1 is out of bounds for `q` (size 1)", "`q` declared with size 1 here"),
    ("E", "index 1 is out of bounds for `q` (size 1)", ""),
    (
        "E",
        "cannot index `q` — it is a single qubit/bit, not a register",
        "`q` declared without a size here",
    ),
    ("E", "slice 1:1 is out of bounds for `q` (size 1)", "`q` declared with size 1 here"),
    ("E", "cannot slice scalar `q`", ""),
    ("E", "use of qubit `q[1]` after measurement", MEASURED),
    ("E", "use of qubit `q[1]` ...", MEASURED),
    ("E", "use of qubit `q` ...", MEASURED),
    ("E", "const `n` requires an initializer", ""),
    ("E", "input `n` cannot have an initializer", ""),
    ("E", "compound assignment requires numeric operands", ""),
    ("E", "cannot assign to const `n`", ""),
    ("E", "`n` is not an assignable classical variable", ""),
    ("E", "gate `g` expects 1 parameter(s), got 1", "`g` defined here"),
    ("E", "gate `g` expects 1 parameter(s), got 1", ""),
    ("E", "gate `g` expects 1 qubit(s) after modifiers, got 1", "`g` defined here"),
    ("E", "gate `g` expects 1 qubit(s) after modifiers, got 1", ""),
    ("E", "gate `g` is not defined", ""),
    ("E", "gate parameters must be numeric", ""),
    ("E", "gate register operands must have the same length for broadcasting", ""),
    ("E", "gate `g` is already defined", ""),
    ("E", "function `f` is already defined", "first defined here"),
    (
        "E",
        "measurement source has 1 qubit(s), but target has 1 bit(s)",
        "measurement target declared here",
    ),
    ("W", "qubit `q` has already been measured", ""),
    ("W", "qubit `q[1]` has already been measured", ""),
    ("W", "qubit `q[1:1]` has already been measured", ""),
    ("E", "delay duration must be numeric", ""),
    ("E", "for-loop variable must have type int", ""),
    ("E", "control count must be a positive compile-time integer", ""),
    ("E", "power modifier argument must be numeric", ""),
    ("E", "`q` cannot be used as a classical expression", ""),
    ("E", "cannot index scalar bit `c`", ""),
    ("E", "`n` is not an indexable classical register", ""),
    ("E", "function `f` is not defined", ""),
    ("E", "function `f` expects 1 argument(s), got 1", "function defined here"),
    ("E", "unary negation requires a numeric operand", ""),
    ("E", "arithmetic operators require numeric operands", ""),
    ("E", "comparison operands have incompatible types", ""),
    ("E", "expected qubit, but `q` is a bit", "`q` declared as bit here"),
    ("E", "expected qubit, but `q` is a gate parameter", "`q` declared as gate parameter here"),
    ("E", "expected bit, but `q` is a qubit", "`q` declared as qubit here"),
    ("E", "expected bit, but `q` is a gate parameter", "`q` declared as gate parameter here"),
    ("E", "expected bit, but `q` is a gate qubit", "`q` declared as gate qubit here"),
];

/// The form of a diagnostic: names and numbers left out.
pub fn form(letter: &str, message: &str, note: &str) -> String {
    let note = if note.is_empty() { String::new() } else { format!(" / {}", bare(note)) };
    format!("{letter} {}{note}", bare(message))
}

/// Names become `x`, numbers 1, the long ending of one message `...`.
fn bare(text: &str) -> String {
    let text = text.replace(COLLAPSED, "...");
    let mut out = String::new();
    for (i, part) in text.split('`').enumerate() {
        if i % 2 == 0 {
            out += &numbers(part);
        } else {
            let rest = part.find('[').map_or("", |at| &part[at..]);
            out += &format!("`x{}`", numbers(rest));
        }
    }
    out
}

/// Each number becomes 1.
fn numbers(text: &str) -> String {
    let mut out = String::new();
    for c in text.chars() {
        if !c.is_ascii_digit() {
            out.push(c);
        } else if !out.ends_with('1') {
            out.push('1');
        }
    }
    out
}

/// All forms that must occur.
pub fn all() -> Vec<String> {
    let mut all: Vec<String> = PLAIN.iter().map(|(l, m, n)| form(l, m, n)).collect();
    for found in TYPES.iter().flat_map(|ty| [ty.to_string(), format!("const {ty}")]) {
        for expected in ["qubit", "bit"] {
            let message = format!("expected {expected}, but `q` is a {found}");
            all.push(form("E", &message, &format!("`q` declared as {found} here")));
        }
    }
    for (expected, actual) in unlike() {
        for message in [
            format!("cannot initialize {expected} `n` with {actual} expression"),
            format!("cannot assign {actual} expression to {expected} `n`"),
            format!("function `f` returns {expected}, but its body has type {actual}"),
            format!("argument 1 to `f` must be {expected}, found {actual}"),
        ] {
            all.push(form("E", &message, ""));
        }
    }
    for actual in ["uint", "float", "angle", "bool"] {
        for place in ["for-loop range bound", "for-loop range step", "control modifier argument"] {
            all.push(form("E", &format!("{place} must have type int, found {actual}"), ""));
        }
    }
    for actual in ["int", "uint", "float", "angle"] {
        for place in ["if condition", "while condition"] {
            all.push(form("E", &format!("{place} must have type bool, found {actual}"), ""));
        }
    }
    all.sort();
    all.dedup();
    all
}

/// The 14 pairs, expected first, that are not assignable.
fn unlike() -> Vec<(&'static str, &'static str)> {
    let takes: [&[&str]; 5] = [
        &["int"],
        &["uint", "int"],
        &["float", "int", "uint"],
        &["angle", "float", "int", "uint"],
        &["bool"],
    ];
    let rows = TYPES.iter().zip(takes);
    rows.flat_map(|(expected, takes)| {
        let others = TYPES.iter().filter(move |actual| !takes.contains(actual));
        others.map(|actual| (*expected, *actual))
    })
    .collect()
}
