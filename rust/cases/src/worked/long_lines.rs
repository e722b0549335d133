//! Lines over 255 bytes: the version goes by the line, and so does the room.

use sheets::sheet_a;

use super::{sheet, Asked, Page};
use crate::long_lines::over_and_over;
use crate::version::FULL_ROOM;

/// More working numbers than the program lends: enough for all of these lines.
const NUMBERS: usize = 65_536;

/// A whole-line reading that is lent more than the program lends.
pub(super) fn lent_more(allowance: u64) -> Asked {
    Asked {
        whole: true,
        allowance,
        numbers: NUMBERS,
        room: FULL_ROOM,
    }
}

/// The same with this room.
fn with_room(allowance: u64, room: usize) -> Asked {
    Asked {
        room,
        ..lent_more(allowance)
    }
}

/// The same as a prefix reading.
fn prefix_with_room(allowance: u64, room: usize) -> Asked {
    Asked {
        whole: false,
        ..with_room(allowance, room)
    }
}

pub(super) fn long_lines(page: &mut Page) {
    one_record(page);
    short_match(page);
    a_thousand_records(page);
    looking_to_the_end(page);
}

/// The first line of version 2 takes two bytes more, and the longest as many.
fn one_record(page: &mut Page) {
    let table = sheet(&[1], &[(1, 48, 57), (6, 0, 0)]).bytes();
    for (digits, room) in [(255, 10), (256, 12), (256, 11)] {
        let name = format!("S <- [0-9]* on {digits} digits, room {room}");
        page.reading(&name, &table, &vec![b'7'; digits], with_room(8_002, room));
    }
    for allowance in [8_002, 8_001] {
        let name = format!("S <- [0-9]* on 4000 digits, allowance {allowance}");
        page.reading(&name, &table, &[b'7'; 4_000], lent_more(allowance));
    }
}

/// Three bytes are matched, and stored as the line of 300 has it.
fn short_match(page: &mut Page) {
    let a = sheet_a().bytes();
    let mut line = b"7+2".to_vec();
    line.resize(300, b' ');
    let name = "A on 7+2 and 297 blanks";
    for room in [33, 32] {
        let asked = prefix_with_room(8_002, room);
        page.reading(&format!("{name}, room {room}"), &a, &line, asked);
    }
    page.reading(&format!("{name}, whole"), &a, &line, lent_more(8_002));
}

/// Two records for each digit: a thousand just fit, and two more are too many.
fn a_thousand_records(page: &mut Page) {
    let a = sheet_a().bytes();
    let line = over_and_over("7+", 1_001);
    for (length, room) in [(999, FULL_ROOM), (999, FULL_ROOM - 1), (1_001, FULL_ROOM)] {
        let name = format!("A on {length} bytes, room {room}");
        page.reading(&name, &a, &line[..length], with_room(8_002, room));
    }
}

/// The line's end is looked at before the reading gets too deep.
fn looking_to_the_end(page: &mut Page) {
    let name = "S <- !('a'* 'b') 'a' S on 300 bytes";
    let table = super::furthest::looking_on().bytes();
    page.reading(name, &table, &[b'a'; 300], prefix_with_room(8_002, 12));
}
