//! The report, by bit masks over the rules.

use crate::empty::Marks;
use crate::sheet::{
    open, Node, Opened, Sheet, CHOICE, EMPTY, MOST_NODES, MOST_RULES, RANGE, RULE, SEQUENCE,
};
use crate::READ;

#[derive(Clone, Copy, Debug, PartialEq, Eq)]
pub struct Report {
    pub code: u64,
    pub place: u64,
    pub may_be_empty: u64,
    pub left_recursive: u64,
    pub how_many: u64,
    pub lowest: u64,
    pub free: bool,
}

impl Report {
    /// In the order of the rules.
    pub fn numbers(self) -> [u64; 7] {
        [
            self.code,
            self.place,
            self.may_be_empty,
            self.left_recursive,
            self.how_many,
            self.lowest,
            self.free.into(),
        ]
    }
}

pub fn report(table: &[u8]) -> Report {
    let (code, place, masks) = match open(table) {
        Ok(opened) => (READ, 0, masks(&opened)),
        Err((code, place)) => (code, place, Masks::default()),
    };
    Report {
        code,
        place,
        may_be_empty: masks.may_be_empty,
        left_recursive: masks.left_recursive,
        how_many: masks.left_recursive.count_ones().into(),
        lowest: masks.left_recursive.trailing_zeros().into(),
        free: masks.free,
    }
}

#[derive(Default)]
pub(crate) struct Masks {
    pub may_be_empty: u64,
    pub left_recursive: u64,
    /// No rule that rule 0 reaches is left-recursive.
    pub free: bool,
}

/// Sheets up to this size get by with scratch that costs little to set up.
const FEW_NODES: usize = 32;

pub(crate) fn masks(opened: &Opened) -> Masks {
    if opened.sheet.nodes.len() <= FEW_NODES {
        masks_with(opened, &mut [0; FEW_NODES])
    } else {
        masks_with(opened, &mut [0; MOST_NODES])
    }
}

/// `uses` has place for the rules that each node uses.
fn masks_with(opened: &Opened, uses: &mut [u64]) -> Masks {
    let (sheet, empties) = (&opened.sheet, opened.empties());
    use_at_start(sheet, &empties.nodes, uses);
    let left_recursive = left_recursive(sheet, uses);
    Masks {
        may_be_empty: empties.rules,
        left_recursive,
        free: is_free(sheet, uses, left_recursive),
    }
}

/// The rules that each node uses, in rising order, children first. What stands
/// second in a sequence counts where the first one `lets_through`.
#[inline(always)]
fn find_uses(sheet: &Sheet, uses: &mut [u64], lets_through: impl Fn(u32) -> bool) {
    for (number, node) in sheet.nodes.iter().enumerate() {
        let node = Node::pack(node);
        let of = |child: u32| uses[child as usize];
        uses[number] = match node.kind() {
            EMPTY | RANGE => 0,
            RULE => 1 << node.a(),
            SEQUENCE if lets_through(node.a()) => of(node.a()) | of(node.b()),
            CHOICE => of(node.a()) | of(node.b()),
            // The first of a sequence, the child of not and repetition.
            _ => of(node.a()),
        };
    }
}

/// The rules that each node uses before anything is matched.
fn use_at_start(sheet: &Sheet, empties: &Marks, uses: &mut [u64]) {
    find_uses(sheet, uses, |first| empties.has(first));
}

/// The rules that each node uses at all, it or a node below it.
fn use_anywhere(sheet: &Sheet, uses: &mut [u64]) {
    find_uses(sheet, uses, |_| true);
}

/// The rules that reach themselves: the closure over "starts with a use of".
fn left_recursive(sheet: &Sheet, uses: &[u64]) -> u64 {
    let mut reached = [0_u64; MOST_RULES];
    let reached = &mut reached[..sheet.rules()];
    for (rule, into) in reached.iter_mut().enumerate() {
        *into = uses[sheet.root(rule) as usize];
    }
    for through in 0..reached.len() {
        let further = reached[through];
        for from in reached.iter_mut() {
            if *from >> through & 1 == 1 {
                *from |= further;
            }
        }
    }
    let own = |(rule, reached): (usize, &u64)| (reached >> rule & 1) << rule;
    reached
        .iter()
        .enumerate()
        .map(own)
        .fold(0, |mask, bit| mask | bit)
}

/// By what rule 0 reaches, where that matters; the uses are then written over.
#[inline]
fn is_free(sheet: &Sheet, uses: &mut [u64], left_recursive: u64) -> bool {
    if left_recursive == 0 {
        return true;
    }
    if left_recursive & 1 == 1 {
        return false;
    }
    use_anywhere(sheet, uses);
    !reaches_any(sheet, uses, left_recursive)
}

/// Whether rule 0 reaches a rule of the mask, by the uses of `use_anywhere`.
fn reaches_any(sheet: &Sheet, uses: &[u64], mask: u64) -> bool {
    let mut reached = 1_u64;
    let mut waiting = 1_u64;
    while waiting != 0 {
        let rule = waiting.trailing_zeros() as usize;
        let found = uses[sheet.root(rule) as usize] & !reached;
        if found & mask != 0 {
            return true;
        }
        reached |= found;
        waiting = waiting & (waiting - 1) | found;
    }
    false
}
