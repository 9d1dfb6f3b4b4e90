//! Demand 3 by walking every path of a small tree.

use crate::tree::*;
use std::collections::{BTreeMap, BTreeSet, HashMap};

const MOST_PATHS: usize = 512;

/// A text number, and an index or the whole key.
type Key = (Text, Option<u64>);
type Marks = BTreeSet<Key>;

/// What a statement does to marks or asks of them.
enum Event {
    /// The operand, and the size of the name that is visible there.
    Measure(GateOperand, Option<u64>),
    Reset(GateOperand),
    /// The number of the operand place, its operand, the span of its error.
    Use(usize, GateOperand, Span),
}

enum Step {
    Event(Event),
    /// One of the lists comes.
    OneOf(Vec<Vec<Step>>),
}

/// A tree as steps; sizes go by where a statement stands.
#[derive(Default)]
struct Steps {
    scopes: Vec<HashMap<Text, Option<u64>>>,
    places: usize,
}

impl Steps {
    fn list(&mut self, names: &[Text], body: &[Stmt]) -> Vec<Step> {
        self.scopes.push(names.iter().map(|name| (*name, None)).collect());
        let steps = body.iter().flat_map(|statement| self.statement(statement)).collect();
        self.scopes.pop();
        steps
    }

    fn declare(&mut self, name: Text, size: Option<u64>) -> Vec<Step> {
        if let Some(scope) = self.scopes.last_mut() {
            scope.entry(name).or_insert(size);
        }
        vec![]
    }

    fn size(&self, name: Text) -> Option<u64> {
        self.scopes.iter().rev().find_map(|scope| scope.get(&name)).copied().flatten()
    }

    fn uses(&mut self, operands: &[GateOperand], span: &Span) -> Vec<Step> {
        let place = self.places;
        self.places += operands.len();
        let one =
            |(i, o): (usize, &GateOperand)| Step::Event(Event::Use(place + i, o.clone(), *span));
        operands.iter().enumerate().map(one).collect()
    }

    fn statement(&mut self, statement: &Stmt) -> Vec<Step> {
        match statement {
            Stmt::QubitDecl { name, size, .. } | Stmt::BitDecl { name, size, .. } => {
                self.declare(*name, *size)
            }
            Stmt::ClassicalDecl { name, .. } => self.declare(*name, None),
            Stmt::Measure { qubit, .. } => {
                vec![Step::Event(Event::Measure(qubit.clone(), self.size(qubit.name)))]
            }
            Stmt::Reset { target, .. } => vec![Step::Event(Event::Reset(target.clone()))],
            Stmt::GateCall { args, span, .. } => self.uses(args, span),
            Stmt::Barrier { targets, span } | Stmt::Delay { targets, span, .. } => {
                self.uses(targets, span)
            }
            Stmt::GateDef { params, qparams, body, .. } => {
                self.list(&[&params[..], &qparams[..]].concat(), body)
            }
            Stmt::If { then_body, else_body, .. } => {
                let then = self.list(&[], then_body);
                let other = self.list(&[], else_body.as_deref().unwrap_or(&[]));
                vec![Step::OneOf(vec![then, other])]
            }
            Stmt::For { var_name, body, .. } => {
                vec![Step::OneOf(vec![self.list(&[*var_name], body), vec![]])]
            }
            Stmt::While { body, .. } => vec![Step::OneOf(vec![self.list(&[], body), vec![]])],
            _ => vec![],
        }
    }
}

/// How many paths there are, or one more than the limit.
fn count(steps: &[Step]) -> usize {
    let of = |step: &Step| match step {
        Step::Event(_) => 1,
        Step::OneOf(lists) => lists.iter().map(|list| count(list)).sum(),
    };
    steps.iter().map(of).fold(1, |all, one| (all * one).min(MOST_PATHS + 1))
}

/// Every path, as the events that come.
fn paths(steps: &[Step]) -> Vec<Vec<&Event>> {
    let mut all = vec![vec![]];
    for step in steps {
        let next: Vec<Vec<&Event>> = match step {
            Step::Event(event) => vec![vec![event]],
            Step::OneOf(lists) => lists.iter().flat_map(|list| paths(list)).collect(),
        };
        let mut longer = vec![];
        for path in &all {
            longer.extend(next.iter().map(|more| [&path[..], &more[..]].concat()));
        }
        all = longer;
    }
    all
}

fn between(marks: &Marks, name: Text, start: u64, end: u64) -> Vec<u64> {
    let within = |(text, index): &Key| match index {
        Some(i) if *text == name && start <= *i && *i <= end => Some(*i),
        _ => None,
    };
    marks.iter().filter_map(within).collect()
}

fn measure(marks: &mut Marks, operand: &GateOperand, size: Option<u64>) {
    match operand.slice {
        Some((start, end)) => marks.extend((start..=end).map(|i| (operand.name, Some(i)))),
        None => {
            marks.insert((operand.name, operand.index));
            if operand.index.is_none() {
                marks.extend((0..size.unwrap_or(0)).map(|i| (operand.name, Some(i))));
            }
        }
    }
}

fn reset(marks: &mut Marks, operand: &GateOperand) {
    let cleared = |(name, index): &Key| match (operand.slice, operand.index) {
        _ if *name != operand.name => false,
        (Some((start, end)), _) => index.is_some_and(|i| start <= i && i <= end),
        (None, Some(one)) => *index == Some(one),
        (None, None) => true,
    };
    marks.retain(|key| !cleared(key));
}

/// Whether a mark covers the operand, and by which index it is then named.
fn covered(marks: &Marks, operand: &GateOperand) -> Option<Option<u64>> {
    let whole = marks.contains(&(operand.name, None));
    if let Some((start, end)) = operand.slice {
        if start > end {
            return None;
        }
        let first = between(marks, operand.name, start, end).into_iter().min();
        return if whole { Some(Some(start)) } else { first.map(Some) };
    }
    let own = marks.contains(&(operand.name, operand.index));
    (whole || own).then_some(operand.index)
}

/// The lines of the errors that demand 3 counts, sorted, and how many paths
/// were walked; none if there are too many.
pub fn lines(tree: &Tree) -> Option<(Vec<String>, usize)> {
    let mut maker = Steps::default();
    let steps = maker.list(&[], &tree.statements);
    if count(&steps) > MOST_PATHS {
        return None;
    }
    let all = paths(&steps);
    let mut reached: BTreeMap<usize, (&GateOperand, Span, Option<u64>)> = BTreeMap::new();
    for path in &all {
        let mut marks = Marks::new();
        for event in path {
            match event {
                Event::Measure(operand, size) => measure(&mut marks, operand, *size),
                Event::Reset(operand) => reset(&mut marks, operand),
                Event::Use(place, operand, span) => {
                    if let Some(index) = covered(&marks, operand) {
                        let entry = reached.entry(*place).or_insert((operand, *span, index));
                        entry.2 = entry.2.min(index);
                    }
                }
            }
        }
    }
    let line = |(operand, span, index): &(&GateOperand, Span, Option<u64>)| {
        let name = String::from_utf8_lossy(&tree.texts[operand.name as usize]).into_owned();
        let name = index.map_or(name.clone(), |i| format!("{name}[{i}]"));
        let more = if operand.slice.is_some() { "" } else { COLLAPSED };
        format!("E {} {} use of qubit `{name}` after measurement{more}", span.start, span.end)
    };
    let mut lines: Vec<String> = reached.values().map(line).collect();
    lines.sort();
    Some((lines, all.len()))
}

const COLLAPSED: &str = " — qubit state has collapsed and cannot be used in a gate without an \
                         explicit `reset`";

/// The same lines of a listing, sorted.
pub fn listed(listing: &[u8]) -> Vec<String> {
    let text = String::from_utf8_lossy(listing);
    let paid = |line: &&str| line.starts_with("E ") && line.contains(" use of qubit `");
    let mut lines: Vec<String> = text.lines().filter(paid).map(String::from).collect();
    lines.sort();
    lines
}
