//! The table of a sheet: its check and its opened form.

use crate::empty::nodes_that_may_be_empty;
use crate::{Refusal, COUNT, FIELD, KIND, LENGTH, LOOP, READ, ROOT, SHORT, VERSION};

/// One node of a checked table. Children are node numbers, below their
/// parent's; a rule number is below the rule count.
#[derive(Clone, Copy, Debug, PartialEq, Eq)]
pub(crate) enum Node {
    Empty,
    Range { lowest: u16, highest: u16 },
    Rule(usize),
    Sequence(usize, usize),
    Choice(usize, usize),
    Not(usize),
    Repetition(usize),
}

/// A table that passed the check.
#[derive(Clone, Debug, PartialEq, Eq)]
pub(crate) struct Table {
    /// The root node of each rule; rule 0 is the start.
    pub roots: Vec<usize>,
    pub nodes: Vec<Node>,
}

/// The table check: code and place.
pub fn check(table: &[u8]) -> (u64, u64) {
    match open(table) {
        Ok(_) => (READ, 0),
        Err(refusal) => (refusal.code, refusal.place),
    }
}

/// Checks the table in the order of the codes, LOOP last, and opens it.
pub(crate) fn open(table: &[u8]) -> Result<Table, Refusal> {
    if table.len() < 7 {
        return refuse(SHORT, 0);
    }
    if table[0] != 1 {
        return refuse(VERSION, 0);
    }
    let written_length = two_bytes(table, 1);
    let n = two_bytes(table, 3);
    let r = two_bytes(table, 5);
    if !(1..=512).contains(&n) || !(1..=64).contains(&r) {
        return refuse(COUNT, 0);
    }
    let formula = 7 + 2 * r + 5 * n;
    if table.len() != written_length || written_length != formula {
        return refuse(LENGTH, 0);
    }

    let mut roots = Vec::new();
    for rule in 0..r {
        let root = two_bytes(table, 7 + 2 * rule);
        if root >= n {
            return refuse(ROOT, rule);
        }
        roots.push(root);
    }

    let mut nodes = Vec::new();
    for number in 0..n {
        let at = 7 + 2 * r + 5 * number;
        let kind = table[at];
        let a = two_bytes(table, at + 1);
        let b = two_bytes(table, at + 3);
        if kind > 6 {
            return refuse(KIND, number);
        }
        match node(kind, a, b, number, r) {
            Some(node) => nodes.push(node),
            None => return refuse(FIELD, number),
        }
    }
    let table = Table { roots, nodes };
    match repetition_of_nothing(&table) {
        Some(number) => refuse(LOOP, number),
        None => Ok(table),
    }
}

/// The first repetition whose child may be empty, whether or not a rule leads
/// to it.
fn repetition_of_nothing(table: &Table) -> Option<usize> {
    let empty = nodes_that_may_be_empty(table);
    let repeats_nothing = |node: &Node| match *node {
        Node::Repetition(child) => empty[child],
        _ => false,
    };
    table.nodes.iter().position(repeats_nothing)
}

/// The node with these fields, `None` if a field is against its kind.
fn node(kind: u8, a: usize, b: usize, number: usize, r: usize) -> Option<Node> {
    let is_child = |field: usize| field < number;
    match kind {
        0 if a == 0 && b == 0 => Some(Node::Empty),
        1 if a <= b && b <= 255 => Some(Node::Range {
            lowest: a as u16,
            highest: b as u16,
        }),
        2 if a < r && b == 0 => Some(Node::Rule(a)),
        3 if is_child(a) && is_child(b) => Some(Node::Sequence(a, b)),
        4 if is_child(a) && is_child(b) => Some(Node::Choice(a, b)),
        5 if is_child(a) && b == 0 => Some(Node::Not(a)),
        6 if is_child(a) && b == 0 => Some(Node::Repetition(a)),
        _ => None,
    }
}

fn two_bytes(table: &[u8], at: usize) -> usize {
    usize::from(table[at]) * 256 + usize::from(table[at + 1])
}

fn refuse<T>(code: u64, place: usize) -> Result<T, Refusal> {
    Err(Refusal {
        code,
        place: place as u64,
    })
}
