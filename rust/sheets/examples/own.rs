//! A sheet of one's own. Here it is a clock time, as 7:45. Change `sheet`, and
//!
//!     cargo run -p sheets --example own -- class.gram
//!
//! writes the table file that the classroom program reads lines by.

use std::process::ExitCode;

use sheets::Sheet;

/// ```text
/// 0  Time   <- Hour ':' Minute
/// 1  Hour   <- '2' [0-3] / [0-1] [0-9] / [0-9]
/// 2  Minute <- [0-5] [0-9]
/// ```
pub fn sheet() -> Sheet {
    let mut sheet = Sheet::new();
    // A rule is used by its number, here before it is written.
    let (hour, minute) = (sheet.rule(1), sheet.rule(2));

    let colon = sheet.byte(b':');
    let time = sheet.in_order(&[hour, colon, minute]);

    let digit = sheet.range(b'0', b'9');
    let two = sheet.byte(b'2');
    let to_three = sheet.range(b'0', b'3');
    let late = sheet.sequence(two, to_three);
    let to_one = sheet.range(b'0', b'1');
    let early = sheet.sequence(to_one, digit);
    // One digit comes last: what stands first is taken if it matches.
    let hour_root = sheet.first_of(&[late, early, digit]);

    let to_five = sheet.range(b'0', b'5');
    let minute_root = sheet.sequence(to_five, digit);

    // The roots of rules 0, 1 and 2, in this order.
    sheet.root(time);
    sheet.root(hour_root);
    sheet.root(minute_root);
    sheet
}

fn main() -> ExitCode {
    let Some(path) = std::env::args().nth(1) else {
        eprintln!("usage: own FILE");
        return ExitCode::FAILURE;
    };
    match sheet().write(path) {
        Ok(()) => ExitCode::SUCCESS,
        Err(error) => {
            eprintln!("{error}");
            ExitCode::FAILURE
        }
    }
}
