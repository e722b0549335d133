//! Which nodes may be empty: the check asks it of a repetition's child, the
//! report of every rule's root and of what a sequence begins with.

use crate::table::{Node, Table};

/// The least reading: start from "none" and add nodes until nothing changes.
pub(crate) fn nodes_that_may_be_empty(table: &Table) -> Vec<bool> {
    let mut empty = vec![false; table.nodes.len()];
    loop {
        let mut changed = false;
        for (number, node) in table.nodes.iter().enumerate() {
            let now = match *node {
                Node::Empty | Node::Not(_) | Node::Repetition(_) => true,
                Node::Range { .. } => false,
                Node::Rule(rule) => empty[table.roots[rule]],
                Node::Sequence(first, second) => empty[first] && empty[second],
                Node::Choice(first, second) => empty[first] || empty[second],
            };
            if now && !empty[number] {
                empty[number] = true;
                changed = true;
            }
        }
        if !changed {
            return empty;
        }
    }
}
