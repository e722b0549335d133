//! The two versions of a stored reading: which lines they are for, and how long
//! they are.

pub use independent::version;

/// The longest line of version 1, whose positions take one byte each.
pub const LONGEST_OF_VERSION_1: usize = 255;

/// Lines about as long as that.
pub const AROUND_VERSION_1: [usize; 4] = [254, LONGEST_OF_VERSION_1, 256, 300];

/// The most records of a tree that is stored.
pub const MOST_RECORDS: u64 = 1_000;

/// Version, length and number of records come first.
pub const HEAD: u64 = 5;

/// Room for the largest stored reading.
pub const FULL_ROOM: usize = stored_length(2, MOST_RECORDS) as usize;

/// Rule, start, end and number of children: a position takes one byte in version 1
/// and two in version 2.
pub const fn record_length(version: u64) -> u64 {
    1 + 2 * version + 2
}

/// The length of a stored reading of so many records.
pub const fn stored_length(version: u64, records: u64) -> u64 {
    HEAD + record_length(version) * records
}

#[cfg(test)]
mod tests {
    use super::*;

    #[test]
    fn lengths_of_a_thousand_records() {
        assert_eq!((stored_length(1, 1_000), FULL_ROOM), (5_005, 7_005));
    }

    #[test]
    fn version_1_ends_at_255_bytes() {
        let longest = LONGEST_OF_VERSION_1 as u64;
        assert_eq!((version(longest), version(longest + 1)), (1, 2));
    }
}
