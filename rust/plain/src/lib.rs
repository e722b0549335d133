//! The plain Rust baseline for benchmarks.
//!
//! The same rules, the same kept answers, the same check, report, clearing
//! and storing as the proved reader, written the way one would for speed:
//! nodes decoded once, results in two registers, trees in an arena of the
//! lent working numbers, nothing allocated.

#![forbid(unsafe_code)]

mod empty;
mod reading;
mod report;
mod sheet;
mod store;

pub use reading::{read, Answer};
pub use report::{report, Report};
pub use sheet::check;

const READ: u64 = 0;
const SHORT: u64 = 1;
const VERSION: u64 = 2;
const COUNT: u64 = 3;
const LENGTH: u64 = 4;
const ROOT: u64 = 5;
const KIND: u64 = 6;
const FIELD: u64 = 7;
const LINE: u64 = 8;
const ALLOW: u64 = 9;
const WORK: u64 = 10;
const EFFORT: u64 = 11;
const DEEP: u64 = 12;
const FAIL: u64 = 13;
const REST: u64 = 14;
const RECORDS: u64 = 15;
const ROOM: u64 = 16;
const LOOP: u64 = 17;
