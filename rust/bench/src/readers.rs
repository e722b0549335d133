//! The readers under the clock, as plain function pointers.

use cases::Read;

/// What is asked about a table alone, and answered by so many numbers.
pub type Question<const NUMBERS: usize> = fn(&[u8]) -> [u64; NUMBERS];

pub struct Reader {
    pub name: &'static str,
    /// Code and place.
    pub check: Question<2>,
    /// Code, place, may be empty, left-recursive, how many, lowest, free.
    pub report: Question<7>,
    pub read: Read,
}

/// Both Rust readers have functions of the same names.
macro_rules! rust_reader {
    ($name:ident) => {
        Reader {
            name: stringify!($name),
            check: |table| $name::check(table).into(),
            report: |table| $name::report(table).numbers(),
            read: |table, line, allowance, work, room, whole| {
                $name::read(table, line, allowance, work, room, whole).numbers()
            },
        }
    };
}

/// The baseline, which all others are compared with, comes first.
pub fn readers() -> Vec<Reader> {
    vec![
        rust_reader!(plain),
        #[cfg(feature = "proved")]
        Reader {
            name: "proved",
            check: koskorbelu::face::check,
            report: koskorbelu::face::report,
            read: koskorbelu::face::read,
        },
        rust_reader!(independent),
    ]
}
