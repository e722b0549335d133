//! The table check, and nodes packed into one number each.

use crate::empty::{empties, Empties};
use crate::{COUNT, FIELD, KIND, LENGTH, LOOP, READ, ROOT, SHORT, VERSION};

pub(crate) const MOST_NODES: usize = 512;
pub(crate) const MOST_RULES: usize = 64;

pub(crate) const EMPTY: u32 = 0;
pub(crate) const RANGE: u32 = 1;
pub(crate) const RULE: u32 = 2;
pub(crate) const SEQUENCE: u32 = 3;
pub(crate) const CHOICE: u32 = 4;
pub(crate) const NOT: u32 = 5;
pub(crate) const REPETITION: u32 = 6;

/// A checked node in one number: the kind in the lowest eight bits, then
/// twelve bits for each field.
#[derive(Clone, Copy)]
pub(crate) struct Node(pub u32);

impl Node {
    #[inline]
    pub fn pack(node: &[u8; 5]) -> Node {
        let a = u32::from(two(node[1], node[2]));
        let b = u32::from(two(node[3], node[4]));
        Node(u32::from(node[0]) | a << 8 | b << 20)
    }

    #[inline]
    pub fn kind(self) -> u32 {
        self.0 & 0xFF
    }

    #[inline]
    pub fn a(self) -> u32 {
        self.0 >> 8 & 0xFFF
    }

    #[inline]
    pub fn b(self) -> u32 {
        self.0 >> 20
    }
}

/// A checked table.
#[derive(Clone, Copy)]
pub(crate) struct Sheet<'a> {
    roots: &'a [[u8; 2]],
    pub nodes: &'a [[u8; 5]],
}

impl Sheet<'_> {
    #[inline]
    pub fn rules(&self) -> usize {
        self.roots.len()
    }

    #[inline]
    pub fn root(&self, rule: usize) -> u32 {
        let [high, low] = self.roots[rule];
        two(high, low).into()
    }
}

/// Code and place.
pub fn check(table: &[u8]) -> (u64, u64) {
    match open(table) {
        Ok(_) => (READ, 0),
        Err(refusal) => refusal,
    }
}

/// A checked table, with what was found out on the way.
pub(crate) struct Opened<'a> {
    pub sheet: Sheet<'a>,
    empties: Known,
}

/// What the check found out of the nodes that may be empty.
enum Known {
    NoNode,
    Nodes(Empties),
    /// It did not have to.
    NotYet,
}

impl Opened<'_> {
    #[inline]
    pub fn empties(&self) -> Empties {
        match self.empties {
            Known::NoNode => Empties::NONE,
            Known::Nodes(empties) => empties,
            Known::NotYet => empties(&self.sheet),
        }
    }
}

/// What the pass over the nodes saw.
#[derive(Default)]
struct Seen {
    /// A node that may be empty by itself. Without one none may be.
    empty: bool,
    /// A repetition whose child is no range. Without one there is no LOOP.
    repeated: bool,
}

pub(crate) fn open(table: &[u8]) -> Result<Opened<'_>, (u64, u64)> {
    let Some((head, body)) = table.split_first_chunk::<7>() else {
        return Err((SHORT, 0));
    };
    if head[0] != 1 {
        return Err((VERSION, 0));
    }
    let written = usize::from(two(head[1], head[2]));
    let n = usize::from(two(head[3], head[4]));
    let r = usize::from(two(head[5], head[6]));
    if n == 0 || n > MOST_NODES || r == 0 || r > MOST_RULES {
        return Err((COUNT, 0));
    }
    if table.len() != written || written != 7 + 2 * r + 5 * n {
        return Err((LENGTH, 0));
    }
    let (roots, nodes) = body.split_at(2 * r);
    let roots = roots.as_chunks().0;
    let nodes = nodes.as_chunks().0;
    for (rule, &[high, low]) in roots.iter().enumerate() {
        if usize::from(two(high, low)) >= n {
            return Err((ROOT, rule as u64));
        }
    }
    let mut seen = Seen::default();
    for (number, node) in nodes.iter().enumerate() {
        if let Some(code) = against(nodes, node, number as u16, r as u16, &mut seen) {
            return Err((code, number as u64));
        }
    }
    let sheet = Sheet { roots, nodes };
    let empties = if seen.repeated {
        Known::Nodes(without_loop(&sheet)?)
    } else if seen.empty {
        Known::NotYet
    } else {
        Known::NoNode
    };
    Ok(Opened { sheet, empties })
}

/// Which nodes may be empty, unless a repetition's child is one of them.
fn without_loop(sheet: &Sheet) -> Result<Empties, (u64, u64)> {
    let empties = empties(sheet);
    let repeats_nothing = |node: &[u8; 5]| {
        let node = Node::pack(node);
        node.kind() == REPETITION && empties.nodes.has(node.a())
    };
    match sheet.nodes.iter().position(repeats_nothing) {
        Some(number) => Err((LOOP, number as u64)),
        None => Ok(empties),
    }
}

/// The code a node is refused with, if it is.
#[inline]
fn against(nodes: &[[u8; 5]], node: &[u8; 5], number: u16, r: u16, seen: &mut Seen) -> Option<u64> {
    let a = two(node[1], node[2]);
    let b = two(node[3], node[4]);
    let allowed = match node[0] {
        0 => {
            seen.empty = true;
            a == 0 && b == 0
        }
        1 => a <= b && b <= 255,
        2 => a < r && b == 0,
        3 | 4 => a < number && b < number,
        5 => {
            seen.empty = true;
            a < number && b == 0
        }
        6 => {
            seen.empty = true;
            seen.repeated |= !is_range(nodes, a);
            a < number && b == 0
        }
        _ => return Some(KIND),
    };
    if allowed {
        None
    } else {
        Some(FIELD)
    }
}

/// A range is never empty, so that a repetition of it needs no marks.
#[inline]
fn is_range(nodes: &[[u8; 5]], number: u16) -> bool {
    matches!(nodes.get(usize::from(number)), Some([1, ..]))
}

#[inline]
fn two(high: u8, low: u8) -> u16 {
    u16::from_be_bytes([high, low])
}
