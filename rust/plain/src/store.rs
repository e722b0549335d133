//! Writing the stored reading.

use crate::reading::{Cell, JOIN, NONE};

/// Version, total length and record count.
const HEAD: usize = 5;

/// The longest line whose positions are stored in one byte each.
const MOST_BY_ONE_BYTE: usize = 255;

/// The version by the line's length, however much of it is matched. It is also
/// how many bytes a position takes.
#[inline]
pub(crate) fn version(line: usize) -> u8 {
    if line <= MOST_BY_ONE_BYTE {
        1
    } else {
        2
    }
}

/// A record is a rule, two positions and two bytes for the number of children.
#[inline]
pub(crate) fn stored_length(version: u8, records: u32) -> usize {
    HEAD + (3 + 2 * usize::from(version)) * records as usize
}

/// Writes the tree into `room`, which is as long as the stored reading. Not
/// inlined: by itself it keeps more in registers.
#[inline(never)]
pub(crate) fn store(
    version: u8,
    cells: &[Cell],
    tree: u32,
    records: u32,
    stack: &mut [u32],
    room: &mut [u8],
) {
    let length = stored_length(version, records) as u16;
    let (head, body) = room.split_at_mut(HEAD);
    head[0] = version;
    head[1..3].copy_from_slice(&length.to_be_bytes());
    head[3..5].copy_from_slice(&(records as u16).to_be_bytes());
    if version == 1 {
        store_records(cells, tree, stack, body, |rule, span, [high, low]| {
            let [_, start, _, end] = span;
            [rule, start, end, high, low]
        });
    } else {
        store_records(cells, tree, stack, body, |rule, span, [high, low]| {
            let [a, b, c, d] = span;
            [rule, a, b, c, d, high, low]
        });
    }
}

/// From the last record to the first: a parent comes after its children, so
/// backwards it is met first and then its children from right to left. The
/// lists still to be written wait on a stack; each holds a record at least,
/// so a thousand numbers are enough.
///
/// `record` puts rule, span and number of children into a record's bytes.
#[inline(always)]
fn store_records<const SIZE: usize>(
    cells: &[Cell],
    tree: u32,
    stack: &mut [u32],
    body: &mut [u8],
    record: impl Fn(u8, [u8; 4], [u8; 2]) -> [u8; SIZE],
) {
    let mut waiting = 0;
    let mut next = tree;
    for into in body.as_chunks_mut::<SIZE>().0.iter_mut().rev() {
        if next == NONE {
            waiting -= 1;
            next = stack[waiting];
        }
        let mut cell = &cells[next as usize - 1];
        while cell[0] == JOIN {
            stack[waiting] = cell[1];
            waiting += 1;
            cell = &cells[cell[2] as usize - 1];
        }
        let [rule, children, span, _] = *cell;
        let count = match children {
            NONE => 0,
            _ => cells[children as usize - 1][3] as u16,
        };
        *into = record(rule as u8, span.to_be_bytes(), count.to_be_bytes());
        next = children;
    }
}
