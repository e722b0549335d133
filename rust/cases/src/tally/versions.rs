//! Readings and stored readings by version.

use independent::{DEEP, EFFORT, FAIL, LONGEST_LINE, READ, RECORDS, REST, ROOM};

use crate::command::Lending;
use crate::version::{stored_length, version, LONGEST_OF_VERSION_1};

/// How many readings there are of each sort, of lines that give version 2.
#[derive(Clone, Default)]
pub struct LongLines {
    /// READ, all of them.
    pub read: u64,
    /// READ, and the match ends within 255 bytes.
    pub short_match: u64,
    /// READ, and it ends behind them: positions pass 255.
    pub long_match: u64,
    /// ROOM, all of them.
    pub room: u64,
    /// ROOM, where version 1 would have had room.
    pub room_for_version_1: u64,
    /// FAIL, and a range was visited above 255.
    pub fail_above_255: u64,
    /// REST at a place above 255.
    pub rest_above_255: u64,
    /// EFFORT, the same.
    pub effort_above_255: u64,
    /// DEEP, the same.
    pub deep_above_255: u64,
    /// RECORDS, the same.
    pub records_above_255: u64,
}

impl LongLines {
    pub(crate) fn count(&mut self, numbers: &[u64], lending: &Lending, line_length: usize) {
        if line_length <= LONGEST_OF_VERSION_1 {
            return;
        }
        let [code, place, matched, _, records, furthest] = numbers[..6] else {
            return;
        };
        let above = |position| u64::from(position > LONGEST_OF_VERSION_1 as u64);
        match code {
            READ => {
                self.read += 1;
                self.short_match += 1 - above(matched);
                self.long_match += above(matched);
            }
            ROOM => {
                self.room += 1;
                let in_version_1 = stored_length(1, records) <= lending.room.into();
                self.room_for_version_1 += u64::from(in_version_1);
            }
            FAIL => self.fail_above_255 += above(furthest),
            REST => self.rest_above_255 += above(place),
            EFFORT => self.effort_above_255 += above(place),
            DEEP => self.deep_above_255 += above(place),
            RECORDS => self.records_above_255 += above(place),
            _ => {}
        }
    }
}

/// Lines by the version they give: 1, 2, or none, since they are too long.
const LINES: usize = 3;

/// How many stored readings there are of each sort. Those that begin with no
/// version's number count only among all.
#[derive(Clone, Default)]
pub struct Formed {
    /// Well formed, all of them.
    pub is: u64,
    /// Not well formed, all of them.
    pub is_not: u64,
    /// Not well formed, by version and by line.
    pub not_by_line: [[u64; LINES]; 2],
    /// Well formed, by version; the lines are its own.
    pub by_version: [u64; 2],
    /// Not well formed, by version and by line, and well formed for one of the
    /// version's own lines.
    pub but_for_the_line: [[u64; LINES]; 2],
}

impl Formed {
    pub(crate) fn count(&mut self, stored: &[u8], rules: u16, line_length: u16, is: bool) {
        *(if is { &mut self.is } else { &mut self.is_not }) += 1;
        let Some(own @ (1 | 2)) = stored.first().map(|&byte| usize::from(byte)) else {
            return;
        };
        if is {
            self.by_version[own - 1] += 1;
            return;
        }
        let line = usize::from(line_length);
        let kind = match line {
            too_long if too_long > LONGEST_LINE => LINES - 1,
            _ => version(line as u64) as usize - 1,
        };
        self.not_by_line[own - 1][kind] += 1;
        let longest = [LONGEST_OF_VERSION_1, LONGEST_LINE][own - 1] as u64;
        let fits = kind + 1 != own && independent::well_formed(stored, rules.into(), longest);
        self.but_for_the_line[own - 1][kind] += u64::from(fits);
    }
}
