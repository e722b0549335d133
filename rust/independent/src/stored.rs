//! The stored reading: how it is written and when it is well formed.

use crate::reading::Tree;
use crate::LONGEST_LINE;

/// Version, total length and record count come before the records.
const HEAD: usize = 5;

/// The longest line whose positions fit in one byte.
const LONGEST_OF_VERSION_1: u64 = 255;

/// The version of every stored reading of a line of that length.
pub fn version(line_length: u64) -> u64 {
    if line_length <= LONGEST_OF_VERSION_1 {
        1
    } else {
        2
    }
}

/// A position takes one byte in version 1 and two in version 2.
fn width(version: u64) -> usize {
    version as usize
}

/// Rule, start, end and number of children.
fn record_length(version: u64) -> usize {
    1 + 2 * width(version) + 2
}

/// The length of a stored reading with so many records.
pub(crate) fn stored_length(version: u64, records: u64) -> u64 {
    HEAD as u64 + record_length(version) as u64 * records
}

/// Writes the stored reading of `tree` at the front of the room, which is
/// long enough; the rest of the room is not touched.
pub(crate) fn store(version: u64, tree: &Tree, room: &mut [u8]) {
    let records = tree.records;
    let length = stored_length(version, records);
    let mut bytes = vec![version as u8];
    write_number(length, 2, &mut bytes);
    write_number(records, 2, &mut bytes);
    write_records(tree, width(version), &mut bytes);
    room[..bytes.len()].copy_from_slice(&bytes);
}

/// Children come before their parent, in order; a position takes `width` bytes.
///
/// A tree that is stored has at most 1,000 records, so it is at most that
/// deep and plain recursion is safe.
fn write_records(tree: &Tree, width: usize, bytes: &mut Vec<u8>) {
    for child in &tree.children {
        write_records(child, width, bytes);
    }
    write_number(tree.rule as u64, 1, bytes);
    write_number(tree.start as u64, width, bytes);
    write_number(tree.end as u64, width, bytes);
    write_number(tree.children.len() as u64, 2, bytes);
}

/// A number in its lowest `width` bytes, the highest of them first.
fn write_number(number: u64, width: usize, bytes: &mut Vec<u8>) {
    let all = number.to_be_bytes();
    bytes.extend(&all[all.len() - width..]);
}

/// The number in these bytes, the highest first.
fn number_in(bytes: &[u8]) -> u64 {
    let append = |number, &byte| number * 256 + u64::from(byte);
    bytes.iter().fold(0, append)
}

/// Whether `stored` is a well formed stored reading for so many rules and a
/// line of that length.
pub fn well_formed(stored: &[u8], rules: u64, line_length: u64) -> bool {
    if line_length > LONGEST_LINE as u64 {
        return false;
    }
    let version = version(line_length);
    if stored.len() < HEAD || u64::from(stored[0]) != version {
        return false;
    }
    let written_length = number_in(&stored[1..3]);
    let records = number_in(&stored[3..HEAD]);
    if stored.len() as u64 != written_length || written_length != stored_length(version, records) {
        return false;
    }
    if records == 0 {
        return false;
    }

    // The spans of the records not yet taken, the newest last.
    let mut untaken: Vec<(u64, u64)> = Vec::new();
    for record in stored[HEAD..].chunks(record_length(version)) {
        let [rule, start, end, children] = fields(record, width(version));
        if rule >= rules || start > end || end > line_length {
            return false;
        }
        if children > untaken.len() as u64 {
            return false;
        }
        let taken = untaken.split_off(untaken.len() - children as usize);
        if !in_order_inside(&taken, start, end) {
            return false;
        }
        untaken.push((start, end));
    }
    untaken.len() == 1
}

/// Rule, start, end and number of children of a record.
fn fields(record: &[u8], width: usize) -> [u64; 4] {
    let (rule, rest) = record.split_at(1);
    let (start, rest) = rest.split_at(width);
    let (end, children) = rest.split_at(width);
    [rule, start, end, children].map(number_in)
}

/// Whether the spans lie in order inside `start`..`end` without overlap.
fn in_order_inside(spans: &[(u64, u64)], start: u64, end: u64) -> bool {
    let mut free_from = start;
    for &(child_start, child_end) in spans {
        if child_start < free_from {
            return false;
        }
        free_from = child_end;
    }
    free_from <= end
}
