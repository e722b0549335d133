//! Answering commands with a given set of reader functions.

use crate::command::{decode, Command, Lending};

/// A reading: table, line, allowance, working numbers, room, whole; gives
/// code, place, matched, visits, records, furthest.
pub type Read = fn(&[u8], &[u8], u64, &mut [u32], &mut [u8], bool) -> [u64; 6];

/// The functions under comparison.
#[derive(Clone, Copy)]
pub struct Readers {
    /// Code and place.
    pub check: fn(&[u8]) -> (u64, u64),
    /// Code, place, may be empty, left-recursive, how many, lowest, free.
    pub report: fn(&[u8]) -> [u64; 7],
    pub read: Read,
    /// Stored bytes, rules, line length.
    pub well_formed: fn(&[u8], u64, u64) -> bool,
}

impl Readers {
    /// The independent reader's functions.
    pub fn independent() -> Readers {
        Readers {
            check: independent::check,
            report: |table| independent::report(table).numbers(),
            read: |table, line, allowance, work, room, whole| {
                independent::read(table, line, allowance, work, room, whole).numbers()
            },
            well_formed: independent::well_formed,
        }
    }
}

/// The current table and line, and the functions that answer.
pub struct Desk {
    readers: Readers,
    table: Vec<u8>,
    line: Vec<u8>,
}

impl Desk {
    pub fn new(readers: Readers) -> Desk {
        Desk {
            readers,
            table: Vec::new(),
            line: Vec::new(),
        }
    }

    pub fn table(&self) -> &[u8] {
        &self.table
    }

    pub fn line(&self) -> &[u8] {
        &self.line
    }

    /// The numbers the command prints; none if it only sets something.
    pub fn answer(&mut self, command: &Command) -> Option<Vec<u64>> {
        match command {
            Command::Table(table) => {
                self.table.clone_from(table);
                None
            }
            Command::Line(line) => {
                self.line.clone_from(line);
                None
            }
            Command::Check => {
                let (code, place) = (self.readers.check)(&self.table);
                Some(vec![code, place])
            }
            Command::Report => Some((self.readers.report)(&self.table).to_vec()),
            Command::Read(lending) => Some(self.read(lending)),
            Command::WellFormed {
                rules,
                line_length,
                stored,
            } => {
                let is = (self.readers.well_formed)(stored, (*rules).into(), (*line_length).into());
                Some(vec![is.into()])
            }
        }
    }

    fn read(&self, lending: &Lending) -> Vec<u64> {
        let mut work = lending.work();
        let mut room = lending.room();
        let answer = (self.readers.read)(
            &self.table,
            &self.line,
            lending.allowance,
            &mut work,
            &mut room,
            lending.whole,
        );
        let mut numbers = answer.to_vec();
        numbers.push(digest(room.iter().map(|&byte| byte.into())));
        numbers.push(digest(work.iter().map(|&number| number.into())));
        numbers
    }
}

fn digest(elements: impl Iterator<Item = u64>) -> u64 {
    elements.fold(7, |h, v| (h * 65_599 + v + 1) % 4_294_967_291)
}

/// One printed line: decimal numbers with one blank between them, and LF.
pub(crate) fn print(numbers: &[u64], out: &mut Vec<u8>) {
    let words: Vec<String> = numbers.iter().map(u64::to_string).collect();
    out.extend(words.join(" ").bytes());
    out.push(b'\n');
}

/// Everything a stream of commands prints.
pub fn run(stream: &[u8], readers: Readers) -> Vec<u8> {
    let mut desk = Desk::new(readers);
    let mut out = Vec::new();
    for command in decode(stream) {
        if let Some(numbers) = desk.answer(&command) {
            print(&numbers, &mut out);
        }
    }
    out
}
