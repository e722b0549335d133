//! Every worked line and every limit of the exact rules, with the independent
//! reader's answers: the text that the program `worked` prints.

mod furthest;
mod growing;
mod limits;
mod lines;
mod long_lines;
mod loops;
mod rows;
mod tables;

use std::fmt::Write;

use sheets::{Node, Sheet};

use crate::program::{NUMBERS, ROOM_LENGTH};
use crate::version::{stored_length, version};

/// What a reading is asked for, and lent.
#[derive(Clone, Copy)]
struct Asked {
    whole: bool,
    allowance: u64,
    numbers: usize,
    room: usize,
}

/// A prefix reading with the program's lendings.
fn prefix(allowance: u64) -> Asked {
    Asked {
        whole: false,
        allowance,
        numbers: NUMBERS,
        room: ROOM_LENGTH,
    }
}

/// A whole-line reading with the program's lendings.
fn whole(allowance: u64) -> Asked {
    Asked {
        whole: true,
        ..prefix(allowance)
    }
}

/// A prefix reading with no working numbers and no room.
fn nothing_lent(allowance: u64) -> Asked {
    Asked {
        numbers: 0,
        room: 0,
        ..prefix(allowance)
    }
}

/// One line for each case: its name, then the numbers of its answer, and a
/// stored reading's bytes.
struct Page(String);

impl Page {
    fn say(&mut self, name: &str, numbers: &[u64], stored: &[u8]) {
        write!(self.0, "{name}:").unwrap();
        for number in numbers {
            write!(self.0, " {number}").unwrap();
        }
        if !stored.is_empty() {
            self.0.push(' ');
        }
        for byte in stored {
            write!(self.0, "{byte:02x}").unwrap();
        }
        self.0.push('\n');
    }

    fn check(&mut self, name: &str, table: &[u8]) {
        let (code, place) = independent::check(table);
        self.say(name, &[code, place], &[]);
    }

    fn report(&mut self, name: &str, table: &[u8]) {
        self.say(name, &independent::report(table).numbers(), &[]);
    }

    fn reading(&mut self, name: &str, table: &[u8], line: &[u8], asked: Asked) {
        let mut work = vec![7; asked.numbers];
        let mut room = vec![7; asked.room];
        let answer = independent::read(
            table,
            line,
            asked.allowance,
            &mut work,
            &mut room,
            asked.whole,
        );
        let stored = match answer.code {
            independent::READ => stored_length(version(line.len() as u64), answer.records),
            _ => 0,
        };
        self.say(name, &answer.numbers(), &room[..stored as usize]);
    }
}

/// All cases in the program's order.
pub fn text() -> String {
    let mut page = Page(String::new());
    lines::lines_of_a(&mut page);
    lines::lines_of_b(&mut page);
    lines::unused_rules(&mut page);
    lines::other_sheets(&mut page);
    growing::growing_rules(&mut page);
    lines::doubling_rules(&mut page);
    furthest::furthest(&mut page);
    limits::line_length(&mut page);
    limits::room(&mut page);
    limits::working_numbers(&mut page);
    limits::allowance(&mut page);
    limits::open_visits(&mut page);
    limits::order_of_a_reading(&mut page);
    rows::rows(&mut page);
    long_lines::long_lines(&mut page);
    tables::counts(&mut page);
    tables::cuts(&mut page);
    tables::roots(&mut page);
    tables::kinds(&mut page);
    tables::fields(&mut page);
    tables::order_of_the_check(&mut page);
    loops::loops(&mut page);
    page.0
}

fn sheet(roots: &[u16], nodes: &[Node]) -> Sheet {
    Sheet {
        roots: roots.to_vec(),
        nodes: nodes.to_vec(),
    }
}
