//! What a person can get wrong in a sheet, in words.

use std::error::Error;
use std::fmt;

use crate::sheet::{Node, Sheet};
use crate::{MOST_NODES, MOST_RULES};

/// Why a sheet has no table. Nodes and rules are named by their numbers.
#[derive(Clone, Copy, Debug, PartialEq, Eq)]
pub enum Fault {
    /// `root` was never called.
    NoRule,
    /// `root` was called so often.
    TooManyRules(usize),
    /// So many nodes were made.
    TooManyNodes(usize),
    /// The root of a rule is no node.
    NoSuchRoot { rule: usize, root: u16 },
    /// A node uses a rule, and only so many have a root.
    NoRoot {
        node: usize,
        rule: u16,
        rules: usize,
    },
    /// A child was not made before its parent: it is another sheet's.
    Child { node: usize, child: u16 },
    /// A range ends before it begins, or beyond 255.
    Range {
        node: usize,
        lowest: u16,
        highest: u16,
    },
    /// The kind is above 6, or a field is set that the kind does not have.
    NoNode { node: usize, given: Node },
    /// A repetition's child may match nothing.
    RepetitionOfNothing { node: usize, child: u16 },
}

impl fmt::Display for Fault {
    fn fmt(&self, f: &mut fmt::Formatter) -> fmt::Result {
        match *self {
            Fault::NoRule => write!(f, "no rule: root() was never called"),
            Fault::TooManyRules(rules) => {
                write!(f, "{rules} rules: a sheet has at most {MOST_RULES}")
            }
            Fault::TooManyNodes(nodes) => {
                write!(f, "{nodes} nodes: a sheet has at most {MOST_NODES}")
            }
            Fault::NoSuchRoot { rule, root } => {
                write!(
                    f,
                    "rule {rule} has the root {root}, and there is no such node"
                )
            }
            Fault::NoRoot { node, rule, rules } => {
                let last = rules - 1;
                write!(
                    f,
                    "node {node} uses rule {rule}, and the last rule with a root is rule {last}"
                )
            }
            Fault::Child { node, child } => {
                write!(
                    f,
                    "node {node} has the child {child}, which was not made before it"
                )
            }
            Fault::Range {
                node,
                lowest,
                highest,
            } => write!(f, "node {node} is no range of bytes: {lowest} to {highest}"),
            Fault::NoNode { node, given } => write!(f, "node {node} is none: {given:?}"),
            Fault::RepetitionOfNothing { node, child } => {
                write!(
                    f,
                    "node {node} repeats node {child}, which may match nothing"
                )
            }
        }
    }
}

impl Error for Fault {}

/// The first fault of a sheet; none exactly if its table passes the check.
pub fn fault(sheet: &Sheet) -> Option<Fault> {
    let (nodes, rules) = (sheet.nodes.len(), sheet.roots.len());
    if rules == 0 {
        return Some(Fault::NoRule);
    }
    if rules > MOST_RULES {
        return Some(Fault::TooManyRules(rules));
    }
    if nodes > MOST_NODES {
        return Some(Fault::TooManyNodes(nodes));
    }
    let mut roots = sheet.roots.iter().enumerate();
    if let Some((rule, &root)) = roots.find(|(_, &root)| usize::from(root) >= nodes) {
        return Some(Fault::NoSuchRoot { rule, root });
    }
    let mut all = sheet.nodes.iter().enumerate();
    all.find_map(|(node, &given)| fault_of_node(node, given, rules))
        .or_else(|| repetition_of_nothing(sheet))
}

/// No single node shows this one, so the check itself is asked.
fn repetition_of_nothing(sheet: &Sheet) -> Option<Fault> {
    let (code, place) = independent::check(&sheet.bytes());
    let node = place as usize;
    (code == independent::LOOP).then(|| Fault::RepetitionOfNothing {
        node,
        child: sheet.nodes[node].1,
    })
}

fn fault_of_node(node: usize, given: Node, rules: usize) -> Option<Fault> {
    let child = |child: u16| (usize::from(child) >= node).then_some(Fault::Child { node, child });
    let none = Some(Fault::NoNode { node, given });
    match given {
        (0, 0, 0) => None,
        (1, lowest, highest) => (lowest > highest || highest > 255).then_some(Fault::Range {
            node,
            lowest,
            highest,
        }),
        (2, rule, 0) => (usize::from(rule) >= rules).then_some(Fault::NoRoot { node, rule, rules }),
        (3 | 4, first, second) => child(first).or(child(second)),
        (5 | 6, only, 0) => child(only),
        _ => none,
    }
}

#[cfg(test)]
mod tests {
    use super::*;

    /// What is said of a sheet that `change` has spoilt.
    fn said<T>(change: fn(&mut Sheet) -> T) -> String {
        let mut sheet = crate::sheet_b();
        change(&mut sheet);
        sheet.table().unwrap_err().to_string()
    }

    #[test]
    fn limits() {
        assert_eq!(
            said(|sheet| (2..65).for_each(|_| sheet.root(0))),
            "65 rules: a sheet has at most 64"
        );
        assert_eq!(
            said(|sheet| while sheet.empty() < 512 {}),
            "513 nodes: a sheet has at most 512"
        );
        let mut full = crate::sheet_b();
        while full.empty() < 511 {}
        (2..64).for_each(|_| full.root(0));
        assert_eq!(full.table().map(|table| table.len()), Ok(2_695));
    }

    #[test]
    fn rules_and_roots() {
        assert_eq!(
            said(|sheet| sheet.roots.clear()),
            "no rule: root() was never called"
        );
        assert_eq!(
            said(|sheet| sheet.root(9)),
            "rule 2 has the root 9, and there is no such node"
        );
        assert_eq!(
            said(|sheet| sheet.roots.pop()),
            "node 0 uses rule 1, and the last rule with a root is rule 0"
        );
    }

    #[test]
    fn nodes() {
        assert_eq!(
            said(|sheet| sheet.not(8)),
            "node 6 has the child 8, which was not made before it"
        );
        assert_eq!(
            said(|sheet| sheet.sequence(0, 6)),
            "node 6 has the child 6, which was not made before it"
        );
        assert_eq!(
            said(|sheet| sheet.range(b'9', b'0')),
            "node 6 is no range of bytes: 57 to 48"
        );
        assert_eq!(
            said(|sheet| sheet.add((7, 0, 0))),
            "node 6 is none: (7, 0, 0)"
        );
        assert_eq!(
            said(|sheet| sheet.add((5, 0, 1))),
            "node 6 is none: (5, 0, 1)"
        );
    }

    #[test]
    fn repetitions() {
        // ('kW'?)*
        let optional = |sheet: &mut Sheet| {
            let word = sheet.word("kW");
            let maybe = sheet.optional(word);
            sheet.repetition(maybe)
        };
        assert_eq!(
            said(optional),
            "node 11 repeats node 10, which may match nothing"
        );
        // The digit of rule 1 is made optional, and rule 1 is repeated.
        let by_a_rule = |sheet: &mut Sheet| {
            sheet.roots[1] = sheet.optional(5);
            sheet.repetition(0)
        };
        assert_eq!(
            said(by_a_rule),
            "node 8 repeats node 0, which may match nothing"
        );
        let mut sheet = crate::sheet_b();
        let word = sheet.word("kW");
        sheet.repetition(word);
        assert!(sheet.table().is_ok());
    }
}
