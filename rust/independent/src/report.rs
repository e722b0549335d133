//! The report on a table: which rules may be empty, which are left-recursive,
//! and whether the grammar is free.

use crate::empty::nodes_that_may_be_empty;
use crate::table::{open, Node, Table};
use crate::READ;

#[derive(Clone, Copy, Debug, PartialEq, Eq)]
pub struct Report {
    pub code: u64,
    pub place: u64,
    /// Bit i is set if the root of rule i may be empty.
    pub may_be_empty: u64,
    /// Bit i is set if rule i is left-recursive.
    pub left_recursive: u64,
    /// How many bits are set in `left_recursive`.
    pub how_many: u64,
    /// The lowest rule set in `left_recursive`, 64 if none.
    pub lowest: u64,
    /// Whether no rule that rule 0 reaches is left-recursive; not on a refusal.
    pub free: bool,
}

impl Report {
    /// In the order of the rules; free is 1 or 0.
    pub fn numbers(self) -> [u64; 7] {
        [
            self.code,
            self.place,
            self.may_be_empty,
            self.left_recursive,
            self.how_many,
            self.lowest,
            self.free.into(),
        ]
    }
}

pub fn report(table: &[u8]) -> Report {
    match open(table) {
        Err(refusal) => Report {
            code: refusal.code,
            place: refusal.place,
            may_be_empty: 0,
            left_recursive: 0,
            how_many: 0,
            lowest: 64,
            free: false,
        },
        Ok(table) => report_on(&table),
    }
}

/// A grammar is free if no rule that rule 0 reaches is left-recursive.
pub(crate) fn report_on(table: &Table) -> Report {
    let empty = nodes_that_may_be_empty(table);
    let reached = reached_rules(table);
    let mut report = Report {
        code: READ,
        place: 0,
        may_be_empty: 0,
        left_recursive: 0,
        how_many: 0,
        lowest: 64,
        free: true,
    };
    for rule in 0..table.roots.len() {
        if empty[table.roots[rule]] {
            report.may_be_empty |= 1 << rule;
        }
        if is_left_recursive(table, &empty, rule) {
            report.left_recursive |= 1 << rule;
            report.how_many += 1;
            report.lowest = report.lowest.min(rule as u64);
            if reached[rule] {
                report.free = false;
            }
        }
    }
    report
}

/// The nodes this node starts with.
fn starts_with(table: &Table, empty: &[bool], number: usize) -> Vec<usize> {
    match table.nodes[number] {
        Node::Empty | Node::Range { .. } => vec![],
        Node::Rule(rule) => vec![table.roots[rule]],
        Node::Not(child) | Node::Repetition(child) => vec![child],
        Node::Choice(first, second) => vec![first, second],
        Node::Sequence(first, second) if empty[first] => vec![first, second],
        Node::Sequence(first, _) => vec![first],
    }
}

/// Whether a chain of one or more steps leads from the rule's root to a use
/// of the same rule.
fn is_left_recursive(table: &Table, empty: &[bool], rule: usize) -> bool {
    let mut reached = vec![false; table.nodes.len()];
    let mut to_follow = vec![table.roots[rule]];
    while let Some(number) = to_follow.pop() {
        for next in starts_with(table, empty, number) {
            if !reached[next] {
                reached[next] = true;
                to_follow.push(next);
            }
        }
    }
    (0..table.nodes.len()).any(|number| reached[number] && table.nodes[number] == Node::Rule(rule))
}

/// The children of a node, of any kind, whether or not they can be empty.
fn children(node: Node) -> Vec<usize> {
    match node {
        Node::Empty | Node::Range { .. } | Node::Rule(_) => vec![],
        Node::Not(child) | Node::Repetition(child) => vec![child],
        Node::Sequence(first, second) | Node::Choice(first, second) => vec![first, second],
    }
}

/// Rule 0, and each rule used by a node below the root of a rule that is reached.
fn reached_rules(table: &Table) -> Vec<bool> {
    let mut rules = vec![false; table.roots.len()];
    rules[0] = true;
    let mut seen = vec![false; table.nodes.len()];
    let mut to_follow = vec![table.roots[0]];
    while let Some(number) = to_follow.pop() {
        if seen[number] {
            continue;
        }
        seen[number] = true;
        if let Node::Rule(rule) = table.nodes[number] {
            rules[rule] = true;
            to_follow.push(table.roots[rule]);
        }
        to_follow.extend(children(table.nodes[number]));
    }
    rules
}
