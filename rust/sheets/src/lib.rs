//! The builder of sheets, and the sheets of `examples/`.
//!
//! To write a sheet of your own, copy `examples/own.rs` of this package, or
//! begin with the example of [`Sheet`].

mod class;
mod fault;
mod log;
mod sheet;

pub use class::{decimal_comma, kilowatts, meter_log, sheet_a, sheet_b, sum, thousands};
pub use fault::Fault;
pub use log::{log_of_length, meter_lines, READING, READINGS_OF_A_DAY};
pub use sheet::{Node, Sheet};

/// The most nodes of a sheet.
pub const MOST_NODES: usize = 512;
/// The most rules of a sheet.
pub const MOST_RULES: usize = 64;

/// The folder of `examples/` whose lines are long.
pub const METER_LOG: &str = "meter-log";

/// Each folder of `examples/` with its sheet.
pub fn all() -> Vec<(&'static str, Sheet)> {
    class().into_iter().chain(logs()).collect()
}

/// Those whose lines the classroom program reads, with what it lends.
pub fn class() -> [(&'static str, Sheet); 5] {
    [
        ("one-digit", sheet_b()),
        ("decimal-comma", decimal_comma()),
        ("thousands", thousands()),
        ("kilowatts", kilowatts()),
        ("sum", sum()),
    ]
}

/// Those whose lines are long, and are lent what they need: the example
/// `read_lines` of `rust/koskorbelu` reads them.
pub fn logs() -> [(&'static str, Sheet); 1] {
    [(METER_LOG, meter_log())]
}
