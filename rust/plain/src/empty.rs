//! Which nodes may be empty, for the check and the report.

use crate::sheet::{Node, Sheet, CHOICE, MOST_NODES, RANGE, RULE, SEQUENCE};

const WORDS: usize = MOST_NODES / 64;

/// A bit for each node.
#[derive(Clone, Copy)]
pub(crate) struct Marks([u64; WORDS]);

impl Marks {
    pub const NONE: Marks = Marks([0; WORDS]);

    #[inline]
    pub fn has(&self, node: u32) -> bool {
        self.0[node as usize / 64 % WORDS] >> (node % 64) & 1 == 1
    }

    #[inline]
    fn add(&mut self, node: usize) {
        self.0[node / 64 % WORDS] |= 1 << (node % 64);
    }
}

/// The nodes that may be empty, and the rules whose root is one of them.
#[derive(Clone, Copy)]
pub(crate) struct Empties {
    pub nodes: Marks,
    pub rules: u64,
}

impl Empties {
    pub const NONE: Empties = Empties {
        nodes: Marks::NONE,
        rules: 0,
    };
}

/// Goes over the nodes as long as that adds a rule to those that may be empty.
/// The last pass has the right marks.
pub(crate) fn empties(sheet: &Sheet) -> Empties {
    let mut rules = 0;
    loop {
        let nodes = pass(sheet, rules);
        let found = marked_rules(sheet, &nodes);
        if found == rules {
            return Empties { nodes, rules };
        }
        rules = found;
    }
}

/// In rising order, children first, where these rules are known to be empty.
fn pass(sheet: &Sheet, known: u64) -> Marks {
    let mut marks = Marks::NONE;
    for (number, node) in sheet.nodes.iter().enumerate() {
        let node = Node::pack(node);
        let may_be_empty = match node.kind() {
            RANGE => false,
            RULE => known >> node.a() & 1 == 1,
            SEQUENCE => marks.has(node.a()) && marks.has(node.b()),
            CHOICE => marks.has(node.a()) || marks.has(node.b()),
            // Empty, not and repetition.
            _ => true,
        };
        if may_be_empty {
            marks.add(number);
        }
    }
    marks
}

fn marked_rules(sheet: &Sheet, marks: &Marks) -> u64 {
    let mut rules = 0;
    for rule in 0..sheet.rules() {
        rules |= u64::from(marks.has(sheet.root(rule))) << rule;
    }
    rules
}
