//! The baseline and the independent reader, asked the same.

use cases::Readers;

pub fn plain_readers() -> Readers {
    Readers {
        check: plain::check,
        report: |table| plain::report(table).numbers(),
        read: |table, line, allowance, work, room, whole| {
            plain::read(table, line, allowance, work, room, whole).numbers()
        },
        // The baseline has no such function of its own.
        well_formed: Readers::independent().well_formed,
    }
}

/// What a reading is asked for and lent.
#[derive(Clone, Copy)]
pub struct Asked<'a> {
    pub table: &'a [u8],
    pub line: &'a [u8],
    pub allowance: u64,
    /// How many working numbers are lent.
    pub work: usize,
    /// How many bytes of room are lent.
    pub room: usize,
    pub whole: bool,
}

/// An answer with what is left in the working numbers and the room.
pub struct Left {
    /// Code, place, matched, visits, records, furthest.
    pub answer: [u64; 6],
    work: Vec<u32>,
    pub room: Vec<u8>,
}

/// So many more working numbers are lent than needed; they stay as found.
const SPARE: usize = 3;

/// Room for the longest stored reading, and bytes that stay as found.
pub const ROOM: usize = 7_010;

impl<'a> Asked<'a> {
    /// For the whole line, with all it needs.
    pub fn of(table: &'a [u8], line: &'a [u8], allowance: u64) -> Asked<'a> {
        Asked {
            table,
            line,
            allowance,
            work: needed(table, line, allowance) + SPARE,
            room: ROOM,
            whole: true,
        }
    }

    pub fn prefix(self) -> Asked<'a> {
        Asked {
            whole: false,
            ..self
        }
    }

    pub fn with_room(self, room: usize) -> Asked<'a> {
        Asked { room, ..self }
    }

    /// Both answer the same and leave the same.
    pub fn both(self) -> Left {
        let given = self.left_by(plain_readers());
        let expected = self.left_by(Readers::independent());
        let about = || {
            let start = String::from_utf8_lossy(&self.line[..self.line.len().min(40)]);
            let (length, whole) = (self.line.len(), self.whole);
            format!(
                "{start}.. of {length} bytes, {} {whole} {}",
                self.allowance, self.room
            )
        };
        assert_eq!(given.answer, expected.answer, "{}", about());
        assert!(given.room == expected.room, "room: {}", about());
        assert!(given.work == expected.work, "work: {}", about());
        given
    }

    fn left_by(&self, readers: Readers) -> Left {
        let mut work = vec![7; self.work];
        let mut room = vec![7; self.room];
        let answer = (readers.read)(
            self.table,
            self.line,
            self.allowance,
            &mut work,
            &mut room,
            self.whole,
        );
        Left { answer, work, room }
    }
}

/// The working numbers that a reading needs.
pub fn needed(table: &[u8], line: &[u8], allowance: u64) -> usize {
    let nodes = usize::from(u16::from_be_bytes([table[3], table[4]]));
    2_048 + 4 * allowance as usize + 2 * nodes * (line.len() + 1)
}
