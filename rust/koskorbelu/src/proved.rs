//! The proved functions with answers of Rust's kind.

use crate::answer::{Answer, Refusal, Report};
use crate::code::Code;
use crate::face;
use crate::reading::{stored_length, Reading};
use crate::{work_needed, MOST_ALLOWANCE, MOST_LINE, MOST_NODES, MOST_STORED};

/// Whether the table is a sheet, and if not, why.
pub fn check(table: &[u8]) -> Result<(), Refusal> {
    let [code, place] = face::check(table);
    accepted(code, place)
}

/// The report on a sheet.
pub fn report(table: &[u8]) -> Result<Report, Refusal> {
    let [code, place, may_be_empty, left_recursive, how_many, lowest, free] = face::report(table);
    accepted(code, place)?;
    Ok(Report {
        may_be_empty,
        left_recursive,
        how_many: how_many as usize,
        lowest: (lowest < 64).then_some(lowest as usize),
        free: free == 1,
    })
}

/// How far the sheet matches from the line's beginning.
///
/// It lends as many working numbers as are [needed](work_needed), four bytes each:
/// with the largest allowance that is 80 MB and more.
pub fn read_prefix(table: &[u8], line: &[u8], allowance: u64) -> Answer<Vec<u8>> {
    read_alone(table, line, allowance, false)
}

/// The same, where the whole line has to match.
pub fn read_whole(table: &[u8], line: &[u8], allowance: u64) -> Answer<Vec<u8>> {
    read_alone(table, line, allowance, true)
}

/// [`read_prefix`] with lent working numbers and room.
///
/// Where [the line was read](Code::line_was_read), the first [`work_needed`]
/// numbers are zero afterwards. Only `Read` writes the room, at its front. All
/// else is left as found. With fewer numbers or less room than is needed the
/// answer is `Work` or `Room`.
pub fn read_prefix_with<'room>(
    table: &[u8],
    line: &[u8],
    allowance: u64,
    work: &mut [u32],
    room: &'room mut [u8],
) -> Answer<&'room [u8]> {
    let numbers = face::read(table, line, allowance, work, room, false);
    answer(numbers, line, |length| &room[..length])
}

/// [`read_whole`] with lent working numbers and room, as [`read_prefix_with`].
pub fn read_whole_with<'room>(
    table: &[u8],
    line: &[u8],
    allowance: u64,
    work: &mut [u32],
    room: &'room mut [u8],
) -> Answer<&'room [u8]> {
    let numbers = face::read(table, line, allowance, work, room, true);
    answer(numbers, line, |length| &room[..length])
}

/// A reading with buffers of its own.
fn read_alone(table: &[u8], line: &[u8], allowance: u64, whole: bool) -> Answer<Vec<u8>> {
    let mut work = vec![0; enough(table, line, allowance)];
    let mut room = vec![0; MOST_STORED];
    let numbers = face::read(table, line, allowance, &mut work, &mut room, whole);
    answer(numbers, line, |length| {
        room.truncate(length);
        room
    })
}

/// Working numbers that are never too few. What is out of range is refused
/// before they are counted, so it is cut down to its limit.
fn enough(table: &[u8], line: &[u8], allowance: u64) -> usize {
    let nodes = match table {
        [_, _, _, high, low, ..] => u16::from_be_bytes([*high, *low]).into(),
        _ => 0,
    };
    let needed = work_needed(
        allowance.min(MOST_ALLOWANCE),
        nodes.min(MOST_NODES),
        line.len().min(MOST_LINE),
    );
    needed as usize
}

fn accepted(code: u64, place: u64) -> Result<(), Refusal> {
    match named(code) {
        Code::Read => Ok(()),
        code => Err(Refusal {
            code,
            place: place as usize,
        }),
    }
}

/// Unpacks the numbers of a reading of the line; `front` gives that much of the
/// room.
fn answer<Bytes: AsRef<[u8]>>(
    [code, place, matched, visits, records, furthest]: [u64; 6],
    line: &[u8],
    front: impl FnOnce(usize) -> Bytes,
) -> Answer<Bytes> {
    let (matched, records) = (matched as usize, records as usize);
    let furthest = furthest as usize;
    match named(code) {
        Code::Read => Answer::Read {
            matched,
            visits,
            furthest,
            reading: Reading::new(front(stored_length(records, line.len()))),
        },
        code => Answer::Refused {
            code,
            place: place as usize,
            matched,
            visits,
            records,
            furthest,
        },
    }
}

fn named(code: u64) -> Code {
    Code::with_number(code).expect("every call ends with a named answer")
}
