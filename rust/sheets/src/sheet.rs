//! Putting a sheet together and writing its table.

use std::fs;
use std::io;
use std::path::Path;

use crate::fault::{fault, Fault};

/// Kind, field a, field b.
pub type Node = (u8, u16, u16);

/// A sheet under construction.
///
/// Each maker method adds one node and gives its number. A node is made from
/// the numbers of nodes that are there already, so children are numbered
/// below their parents by themselves. A node may be used as often as one likes.
///
/// A rule is used by its number, 0 for the first, and may be used before it has
/// a root. [`root`](Sheet::root) is called once for each rule, in their order.
/// Reading starts with rule 0. A sheet has at most [512 nodes](crate::MOST_NODES)
/// and [64 rules](crate::MOST_RULES).
///
/// # Example
///
/// A list of digits, `7+2`, that groups from the left:
///
/// ```text
/// 0  List  <- List '+' Digit / Digit
/// 1  Digit <- [0-9]
/// ```
///
/// ```
/// use sheets::Sheet;
///
/// let mut sheet = Sheet::new();
/// let (list, digit) = (sheet.rule(0), sheet.rule(1));
/// let plus = sheet.byte(b'+');
/// let longer = sheet.in_order(&[list, plus, digit]);
/// let list_root = sheet.choice(longer, digit);
/// let digit_root = sheet.range(b'0', b'9');
/// sheet.root(list_root);
/// sheet.root(digit_root);
///
/// let table = sheet.table().unwrap();
/// assert_eq!(table.len(), 7 + 2 * 2 + 5 * 7);
///
/// sheet.rule(2);
/// let fault = sheet.table().unwrap_err().to_string();
/// assert_eq!(fault, "node 7 uses rule 2, and the last rule with a root is rule 1");
/// ```
#[derive(Clone, Debug, Default, PartialEq, Eq)]
pub struct Sheet {
    /// The root of each rule.
    pub roots: Vec<u16>,
    /// Each node at its number.
    pub nodes: Vec<Node>,
}

impl Sheet {
    /// No nodes, no rules.
    pub fn new() -> Sheet {
        Sheet::default()
    }

    /// Any node, fitting or not.
    pub fn add(&mut self, node: Node) -> u16 {
        self.nodes.push(node);
        (self.nodes.len() - 1) as u16
    }

    /// Matches nothing, everywhere.
    pub fn empty(&mut self) -> u16 {
        self.add((0, 0, 0))
    }

    /// `[0-9]`: one byte from the lowest to the highest.
    pub fn range(&mut self, lowest: u8, highest: u8) -> u16 {
        self.add((1, lowest.into(), highest.into()))
    }

    /// `'+'`: this byte.
    pub fn byte(&mut self, byte: u8) -> u16 {
        self.range(byte, byte)
    }

    /// `'kW'`: these bytes, one after the other; at least one.
    pub fn word(&mut self, word: &str) -> u16 {
        let bytes: Vec<u16> = word.bytes().map(|byte| self.byte(byte)).collect();
        self.in_order(&bytes)
    }

    /// `Digit`: a use of the rule with this number.
    pub fn rule(&mut self, rule: u16) -> u16 {
        self.add((2, rule, 0))
    }

    /// `first second`: the second where the first ended.
    pub fn sequence(&mut self, first: u16, second: u16) -> u16 {
        self.add((3, first, second))
    }

    /// `first / second`: the second only if the first fails.
    pub fn choice(&mut self, first: u16, second: u16) -> u16 {
        self.add((4, first, second))
    }

    /// `!child`: matches nothing, and only where the child fails.
    pub fn not(&mut self, child: u16) -> u16 {
        self.add((5, child, 0))
    }

    /// `child*`: as many as there are, or none. A child that may match nothing
    /// is a fault: write `'kW'*`, not `('kW'?)*`.
    pub fn repetition(&mut self, child: u16) -> u16 {
        self.add((6, child, 0))
    }

    /// `child child*`: as many as there are, and at least one.
    pub fn one_or_more(&mut self, child: u16) -> u16 {
        let more = self.repetition(child);
        self.sequence(child, more)
    }

    /// `child?`: the child if it is there.
    pub fn optional(&mut self, child: u16) -> u16 {
        let nothing = self.empty();
        self.choice(child, nothing)
    }

    /// `a b c`: the children one after the other, as sequences nested to the
    /// right; at least one child.
    pub fn in_order(&mut self, children: &[u16]) -> u16 {
        self.nested(children, 3)
    }

    /// `a / b / c`: the first of the children that matches; at least one child.
    pub fn first_of(&mut self, children: &[u16]) -> u16 {
        self.nested(children, 4)
    }

    fn nested(&mut self, children: &[u16], kind: u8) -> u16 {
        let (&last, before) = children.split_last().expect("at least one child");
        before
            .iter()
            .rev()
            .fold(last, |rest, &child| self.add((kind, child, rest)))
    }

    /// Makes `node` the root of the next rule: of rule 0 first, then of rule 1.
    pub fn root(&mut self, node: u16) {
        self.roots.push(node);
    }

    /// The table of the sheet, or what is wrong with the sheet. What it gives
    /// passes the check.
    pub fn table(&self) -> Result<Vec<u8>, Fault> {
        match fault(self) {
            None => Ok(self.bytes()),
            Some(fault) => Err(fault),
        }
    }

    /// Writes the table into a file, `class.gram` for the classroom program. A
    /// sheet with a fault writes nothing.
    pub fn write(&self, path: impl AsRef<Path>) -> io::Result<()> {
        let path = path.as_ref();
        let written = match self.table() {
            Ok(table) => fs::write(path, table),
            Err(fault) => Err(io::Error::new(io::ErrorKind::InvalidData, fault)),
        };
        let with_path =
            |error: io::Error| io::Error::new(error.kind(), format!("{}: {error}", path.display()));
        written.map_err(with_path)
    }

    /// The table as it stands, with all its faults: for those who want to see a
    /// damaged table refused.
    pub fn bytes(&self) -> Vec<u8> {
        let length = 7 + 2 * self.roots.len() + 5 * self.nodes.len();
        let mut table = vec![1];
        table.extend((length as u16).to_be_bytes());
        table.extend((self.nodes.len() as u16).to_be_bytes());
        table.extend((self.roots.len() as u16).to_be_bytes());
        for root in &self.roots {
            table.extend(root.to_be_bytes());
        }
        for (kind, a, b) in &self.nodes {
            table.push(*kind);
            table.extend(a.to_be_bytes());
            table.extend(b.to_be_bytes());
        }
        table
    }
}
