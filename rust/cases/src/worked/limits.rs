//! The limits of a reading, and the order in which they are tested.

use independent::{LONGEST_LINE, MOST_ALLOWANCE};
use sheets::sheet_a;

use super::long_lines::lent_more;
use super::{nothing_lent, prefix, Asked, Page};
use crate::deep::right_recursive;
use crate::furthest::all;

/// 8,002 visits are just enough for the longest line.
pub(super) fn line_length(page: &mut Page) {
    for length in [LONGEST_LINE, LONGEST_LINE + 1] {
        let name = format!("S <- 'a'* on {length} bytes");
        let line = vec![b'a'; length];
        page.reading(&name, &all().bytes(), &line, lent_more(8_002));
    }
}

/// A on 7+2 makes 19 visits and stores 25 bytes; the formula then gives
/// 2,180 working numbers.
fn exact() -> Asked {
    Asked {
        numbers: 2_180,
        room: 25,
        ..prefix(19)
    }
}

pub(super) fn room(page: &mut Page) {
    let a = sheet_a().bytes();
    for (name, room) in [("room 25", 25), ("room 24", 24), ("no room", 0)] {
        let asked = Asked { room, ..exact() };
        page.reading(&format!("A on 7+2, {name}"), &a, b"7+2", asked);
    }
}

pub(super) fn working_numbers(page: &mut Page) {
    let a = sheet_a().bytes();
    for (name, numbers) in [
        ("working numbers 2180", 2_180),
        ("working numbers 2179", 2_179),
        ("no working numbers", 0),
    ] {
        let asked = Asked { numbers, ..exact() };
        page.reading(&format!("A on 7+2, {name}"), &a, b"7+2", asked);
    }
}

pub(super) fn allowance(page: &mut Page) {
    let a = sheet_a().bytes();
    for allowance in [0, 1, MOST_ALLOWANCE, MOST_ALLOWANCE + 1] {
        let name = format!("A on 7, allowance {allowance}");
        page.reading(&name, &a, b"7", prefix(allowance));
    }
    page.reading("A on 7, allowance 2^64 - 1", &a, b"7", prefix(u64::MAX));
    let asked = Asked {
        numbers: 402_104,
        ..prefix(100_000)
    };
    page.reading("A on 7+2, allowance 100000", &a, b"7+2", asked);
}

/// S <- pads T; T <- 'a' T / empty. On 169 bytes the most visits are open when the
/// range fails at the line's end: 511 and the pads. Before that one 679 are made,
/// and two with each pad.
pub(super) fn open_visits(page: &mut Page) {
    let line = [b'a'; 169];
    for pads in [0, 1, 2] {
        let name = format!("{} open visits", 511 + pads);
        page.reading(&name, &right_recursive(pads).bytes(), &line, prefix(2_500));
    }
    page.reading(
        "513 open visits, allowance 683",
        &right_recursive(2).bytes(),
        &line,
        prefix(683),
    );
}

pub(super) fn order_of_a_reading(page: &mut Page) {
    let a = sheet_a().bytes();
    let too_long = [b'7'; LONGEST_LINE + 1];
    for (name, line, allowance) in [
        ("4001 bytes, allowance 0", too_long.as_slice(), 0),
        ("7, allowance 0", b"7", 0),
        ("7, allowance 1", b"7", 1),
    ] {
        let name = format!("A on {name}, nothing lent");
        page.reading(&name, &a, line, nothing_lent(allowance));
    }
}
