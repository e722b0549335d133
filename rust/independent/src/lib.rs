//! The independent reader.
//!
//! Written from the exact rules alone, in the plainest way: recursion, hash
//! maps and lists. It shares nothing with the proved reader, so that a slip
//! in the one is not repeated in the other. Nothing here is meant to be fast.

mod empty;
mod reading;
mod report;
mod searches;
mod stored;
mod table;
mod text;
mod ways;

pub use reading::{read, read_with, searches, Answer};
pub use report::{report, Report};
pub use searches::Searches;
pub use stored::{version, well_formed};
pub use table::check;
pub use text::{tabulate, Tabulated, LONGEST_TEXT};
pub use ways::{Live, Turns, Ways};

/// A longer line is refused with LINE.
pub const LONGEST_LINE: usize = 4_000;
/// An allowance of 0 or over this is refused with ALLOW.
pub const MOST_ALLOWANCE: u64 = 5_000_000;

pub const READ: u64 = 0;
pub const SHORT: u64 = 1;
pub const VERSION: u64 = 2;
pub const COUNT: u64 = 3;
pub const LENGTH: u64 = 4;
pub const ROOT: u64 = 5;
pub const KIND: u64 = 6;
pub const FIELD: u64 = 7;
pub const LINE: u64 = 8;
pub const ALLOW: u64 = 9;
pub const WORK: u64 = 10;
pub const EFFORT: u64 = 11;
pub const DEEP: u64 = 12;
pub const FAIL: u64 = 13;
pub const REST: u64 = 14;
pub const RECORDS: u64 = 15;
pub const ROOM: u64 = 16;
/// Given before LINE, though its number is above.
pub const LOOP: u64 = 17;

/// These four are given for texts alone.
pub const LONG: u64 = 18;
pub const TEXT: u64 = 19;
pub const NAME: u64 = 20;
pub const BIG: u64 = 21;

/// How many codes a table or a line can have; they run from 0 to one below this.
pub const CODES: usize = 18;

/// The name of such a code, `None` for any other number.
pub fn names(code: u64) -> Option<&'static str> {
    const NAMES: [&str; CODES] = [
        "READ", "SHORT", "VERSION", "COUNT", "LENGTH", "ROOT", "KIND", "FIELD", "LINE", "ALLOW",
        "WORK", "EFFORT", "DEEP", "FAIL", "REST", "RECORDS", "ROOM", "LOOP",
    ];
    let index = usize::try_from(code).ok()?;
    NAMES.get(index).copied()
}

/// Why a table is refused, or why a reading stopped: a code and its place.
#[derive(Clone, Copy, Debug, PartialEq, Eq)]
struct Refusal {
    code: u64,
    place: u64,
}
