//! Counts the different keys that the measure statements of a whole tree set,
//! with scopes as sema.rs has them.

use crate::tree::*;
use std::collections::{BTreeSet, HashMap};

pub const MOST_KEYS: usize = 256;

/// A text number, and an index or the whole key.
type Key = (Text, Option<u64>);

struct Counter {
    /// The size of each name, for each open scope.
    scopes: Vec<HashMap<Text, Option<u64>>>,
    keys: BTreeSet<Key>,
}

/// How many keys there are; counting ends at one above the limit.
pub fn count(tree: &Tree) -> usize {
    let mut counter = Counter { scopes: vec![HashMap::new()], keys: BTreeSet::new() };
    counter.list(&tree.statements);
    counter.keys.len()
}

impl Counter {
    fn list(&mut self, statements: &[Stmt]) {
        for statement in statements {
            self.statement(statement);
        }
    }

    /// The first declaration in a scope stays.
    fn declare(&mut self, name: Text, size: Option<u64>) {
        self.scopes.last_mut().unwrap().entry(name).or_insert(size);
    }

    fn scope(&mut self, names: &[Text], body: &[Stmt]) {
        self.scopes.push(names.iter().map(|name| (*name, None)).collect());
        self.list(body);
        self.scopes.pop();
    }

    fn size(&self, name: Text) -> Option<u64> {
        let visible = self.scopes.iter().rev().find_map(|scope| scope.get(&name));
        visible.copied().flatten()
    }

    fn add(&mut self, key: Key) {
        if self.keys.len() <= MOST_KEYS {
            self.keys.insert(key);
        }
    }

    /// At most one more than the limit of them, which is too many already.
    fn add_indices(&mut self, name: Text, start: u64, end: u64) {
        for i in (start..=end).take(MOST_KEYS + 1) {
            self.add((name, Some(i)));
        }
    }

    fn measure(&mut self, qubit: &GateOperand) {
        if let Some((start, end)) = qubit.slice {
            return self.add_indices(qubit.name, start, end);
        }
        self.add((qubit.name, qubit.index));
        if qubit.index.is_none() {
            match self.size(qubit.name) {
                None | Some(0) => (),
                Some(size) => self.add_indices(qubit.name, 0, size - 1),
            }
        }
    }

    fn statement(&mut self, statement: &Stmt) {
        match statement {
            Stmt::QubitDecl { name, size, .. } | Stmt::BitDecl { name, size, .. } => {
                self.declare(*name, *size)
            }
            Stmt::ClassicalDecl { name, .. } => self.declare(*name, None),
            Stmt::Measure { qubit, .. } => self.measure(qubit),
            Stmt::GateDef { params, qparams, body, .. } => {
                self.scope(&[&params[..], &qparams[..]].concat(), body)
            }
            Stmt::If { then_body, else_body, .. } => {
                self.scope(&[], then_body);
                self.scope(&[], else_body.as_deref().unwrap_or(&[]));
            }
            Stmt::For { var_name, body, .. } => self.scope(&[*var_name], body),
            Stmt::While { body, .. } => self.scope(&[], body),
            _ => (),
        }
    }
}
