//! The proved reader for Rust: a safe face over its C functions.
//!
//! A sheet is a table of bytes. `check` says whether it is one, `report` which
//! of its rules are left-recursive and whether it is free of those that rule 0
//! can reach, `read_prefix` and `read_whole` read a line by it, and with `_with`
//! they take the caller's buffers. They ask nothing of their arguments: each
//! call ends with one of the named [`Code`]s, and [`Answer::marked`] shows where
//! a line went wrong. Nothing here is `unsafe` to use, and nothing panics on a
//! damaged table or line.
//!
//! What is proved is proved of the C functions. This crate only lends them
//! their buffers and unpacks their answers.
//!
//! The functions need the archive of the proved library, hence the feature
//! `proved`. Without it only the types are there.
//!
//! # Example
//!
//! Sheet B, `N <- D ',' D / D; D <- [0-9]`, on the line `1,5`:
//!
#![cfg_attr(feature = "proved", doc = "```")]
#![cfg_attr(not(feature = "proved"), doc = "```ignore")]
//! use koskorbelu::{read_whole, Answer, Code};
//!
//! let sheet_b = [
//!     1, 0, 41, 0, 6, 0, 2, // version, length, six nodes, two rules
//!     0, 4, 0, 5, // their roots
//!     2, 0, 1, 0, 0, // node 0: rule 1
//!     1, 0, 44, 0, 44, // node 1: a comma
//!     3, 0, 1, 0, 0, // node 2: 1, then 0
//!     3, 0, 0, 0, 2, // node 3: 0, then 2
//!     4, 0, 3, 0, 0, // node 4: 3, or else 0
//!     1, 0, 48, 0, 57, // node 5: a digit
//! ];
//! let line = b"1,5";
//!
//! let answer = read_whole(&sheet_b, line, 2_500);
//! let Answer::Read { matched, visits, furthest, reading } = answer else {
//!     panic!("sheet B reads it");
//! };
//! assert_eq!((matched, visits, furthest), (3, 8, 2));
//!
//! let spans: Vec<_> = reading.records().map(|r| (r.rule, r.start, r.end)).collect();
//! assert_eq!(spans, [(1, 0, 1), (1, 2, 3), (0, 0, 3)]);
//!
//! let number = reading.tree();
//! assert_eq!(number.children[0].part(line), b"1");
//! assert_eq!(number.children[1].part(line), b"5");
//!
//! let refused = read_whole(&sheet_b, b"1.5", 2_500);
//! assert_eq!(refused.code(), Code::Rest);
//! assert_eq!(refused.to_string(), "REST 1 7");
//! assert_eq!(refused.furthest(), 1);
//! assert_eq!(refused.marked(b"1.5").to_string(), "1.5\n ^");
//! ```

#![deny(unsafe_code)]

mod answer;
mod code;
#[cfg(feature = "proved")]
#[allow(unsafe_code)]
pub mod face;
mod marked;
#[cfg(feature = "proved")]
mod proved;
mod reading;

pub use answer::{Answer, Refusal, Report};
pub use code::Code;
pub use marked::Marked;
#[cfg(feature = "proved")]
pub use proved::{check, read_prefix, read_prefix_with, read_whole, read_whole_with, report};
pub use reading::{stored_length, stored_version, Reading, Record, Tree};

/// The most nodes of a table.
pub const MOST_NODES: usize = 512;
/// The most rules of a table.
pub const MOST_RULES: usize = 64;
/// The longest line.
pub const MOST_LINE: usize = 4_000;
/// The longest line whose stored reading is of version 1.
pub const MOST_LINE_OF_VERSION_1: usize = 255;
/// The largest allowance.
pub const MOST_ALLOWANCE: u64 = 5_000_000;
/// The most records of a stored reading.
pub const MOST_RECORDS: usize = 1_000;
/// Room for every stored reading.
pub const MOST_STORED: usize = stored_length(MOST_RECORDS, MOST_LINE);

/// The working numbers that a reading asks for, with a table of so many nodes.
pub const fn work_needed(allowance: u64, nodes: usize, line_length: usize) -> u64 {
    2_048 + 4 * allowance + 2 * nodes as u64 * (line_length as u64 + 1)
}
