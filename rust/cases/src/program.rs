//! The classroom program over many small cases: what stands at `class.gram`
//! and on standard input, and what the independent reader says of it.

mod made;
mod run;

pub use made::all;
pub use run::{run, Ran};

use std::collections::{BTreeSet, HashMap};

use independent::{ALLOW, CODES, READ};

/// What the program lends for each line.
pub const ALLOWANCE: u64 = 2_500;
pub const NUMBERS: usize = 16_384;
pub const ROOM_LENGTH: usize = 5_005;

/// What the program never answers: its allowance is in range.
const NEVER: [u64; 1] = [ALLOW];

/// What is printed where there is no table to read.
const NO_TABLE: &str = "GRAMMAR";

const LF: u8 = b'\n';

/// What stands at `class.gram`.
#[derive(Clone, Debug)]
pub enum Grammar {
    Table(Vec<u8>),
    Missing,
    Folder,
}

/// What stands on standard input.
#[derive(Clone, Debug)]
pub enum Input {
    /// A file.
    File(Vec<u8>),
    /// A pipe, into which so many bytes are put at a time.
    Pipe(Vec<u8>, usize),
    Folder,
}

#[derive(Clone, Debug)]
pub struct Case {
    pub name: String,
    pub grammar: Grammar,
    pub input: Input,
    /// Standard output takes nothing: a full device.
    pub is_full: bool,
}

/// How the program ends.
#[derive(Clone, Copy, Debug, PartialEq, Eq)]
pub enum Ending {
    /// All lines are answered.
    Done = 0,
    /// The table is refused, or its file can't be opened.
    Refused = 1,
    /// Something can't be read or written.
    Failed = 2,
}

/// What the program is held to.
#[derive(Clone, Debug, PartialEq, Eq)]
pub struct Expected {
    pub printed: Vec<u8>,
    pub ending: Ending,
    /// What can't be read or written: one line on standard error names each.
    pub failed: Vec<&'static str>,
}

impl Case {
    pub fn expected(&self) -> Expected {
        let (printed, ending, mut failed) = match &self.grammar {
            Grammar::Missing => (format!("{NO_TABLE}\n"), Ending::Refused, vec![]),
            Grammar::Folder => (format!("{NO_TABLE}\n"), Ending::Failed, vec!["class.gram"]),
            Grammar::Table(table) => match independent::check(table) {
                (READ, _) => self.answered(table),
                (code, place) => {
                    let refusal = format!("{} {place} 0\n", name(code));
                    (refusal, Ending::Refused, vec![])
                }
            },
        };
        if self.is_full && !printed.is_empty() {
            failed.push("standard output");
        }
        Expected {
            printed: printed.into_bytes(),
            ending: if failed.is_empty() {
                ending
            } else {
                Ending::Failed
            },
            failed,
        }
    }

    /// An accepted table: one answer for each line.
    fn answered(&self, table: &[u8]) -> (String, Ending, Vec<&'static str>) {
        let bytes = match &self.input {
            Input::File(bytes) | Input::Pipe(bytes, _) => bytes,
            Input::Folder => return (String::new(), Ending::Failed, vec!["standard input"]),
        };
        // Many inputs have the same line over and over.
        let mut known = HashMap::new();
        let mut printed = String::new();
        for line in lines(bytes) {
            let answer = known.entry(line).or_insert_with(|| answer(table, line));
            printed.push_str(answer);
        }
        (printed, Ending::Done, vec![])
    }
}

/// A line ends at LF; what follows the last one counts if it has a byte.
fn lines(input: &[u8]) -> Vec<&[u8]> {
    let mut lines: Vec<&[u8]> = input.split(|&byte| byte == LF).collect();
    if lines.last().is_some_and(|last| last.is_empty()) {
        lines.pop();
    }
    lines
}

fn answer(table: &[u8], line: &[u8]) -> String {
    let (mut work, mut room) = (vec![0; NUMBERS], vec![0; ROOM_LENGTH]);
    let answer = independent::read(table, line, ALLOWANCE, &mut work, &mut room, true);
    format!("{answer}\n")
}

fn name(code: u64) -> &'static str {
    independent::names(code).expect("a code has a name")
}

/// Every name that the program can print.
fn names() -> BTreeSet<&'static str> {
    let codes = (0..CODES as u64).filter(|code| !NEVER.contains(code));
    codes.map(name).chain([NO_TABLE]).collect()
}

/// Which names were printed.
#[derive(Default)]
pub struct Seen(BTreeSet<String>);

impl Seen {
    pub fn note(&mut self, printed: &[u8]) {
        let printed = String::from_utf8_lossy(printed);
        let first_words = printed.lines().filter_map(|line| line.split(' ').next());
        self.0.extend(first_words.map(str::to_string));
    }

    /// The names that the program can print and did not.
    pub fn missing(&self) -> Vec<&'static str> {
        let names = names().into_iter();
        names.filter(|&name| !self.0.contains(name)).collect()
    }
}

#[cfg(test)]
mod tests {
    use super::*;

    fn case(grammar: Grammar, input: &[u8]) -> Case {
        Case {
            name: String::new(),
            grammar,
            input: Input::File(input.to_vec()),
            is_full: false,
        }
    }

    fn by_b(input: &[u8]) -> Case {
        case(Grammar::Table(sheets::sheet_b().bytes()), input)
    }

    fn expected(case: &Case) -> (String, Ending) {
        let expected = case.expected();
        (
            String::from_utf8(expected.printed).unwrap(),
            expected.ending,
        )
    }

    fn is(case: &Case, printed: &str, ending: Ending) {
        assert_eq!(expected(case), (printed.to_string(), ending));
    }

    /// The worked lines of the program.
    #[test]
    fn the_worked_lines() {
        let printed = "READ 3 8 3\nREST 1 7\nFAIL 0 5\n";
        is(&by_b(b"1,5\n1.5\n,5\n"), printed, Ending::Done);
        is(&by_b(b"1,5\n1.5\n,5"), printed, Ending::Done);
    }

    #[test]
    fn where_a_line_ends() {
        let three: [&[u8]; 3] = [b"1", b"", b"2\r"];
        assert_eq!(lines(b"1\n\n2\r\n"), three);
        assert_eq!(lines(b"1\n\n2\r"), three);
        assert_eq!(lines(b""), [b""; 0]);
        assert_eq!(lines(b"\n"), [b""]);
    }

    #[test]
    fn endings() {
        is(
            &case(Grammar::Missing, b"1\n"),
            "GRAMMAR\n",
            Ending::Refused,
        );
        is(&case(Grammar::Folder, b""), "GRAMMAR\n", Ending::Failed);
        let short = case(Grammar::Table(vec![1, 0, 41]), b"1\n");
        is(&short, "SHORT 0 0\n", Ending::Refused);
        let mut repeating = sheets::sheet_b();
        let maybe = repeating.optional(0);
        repeating.repetition(maybe);
        let repeating = case(Grammar::Table(repeating.bytes()), b"1\n");
        is(&repeating, "LOOP 8 0\n", Ending::Refused);
        is(&by_b(b""), "", Ending::Done);
        let from_folder = Case {
            input: Input::Folder,
            ..by_b(b"")
        };
        is(&from_folder, "", Ending::Failed);
        for (input, ending) in [("1\n", Ending::Failed), ("", Ending::Done)] {
            let mut full = by_b(input.as_bytes());
            full.is_full = true;
            assert_eq!(full.expected().ending, ending);
        }
    }

    #[test]
    fn every_name_is_printed_by_some_case() {
        let mut seen = Seen::default();
        assert_eq!(seen.missing().len(), CODES - NEVER.len() + 1);
        for case in all() {
            seen.note(&case.expected().printed);
        }
        assert!(seen.missing().is_empty(), "{:?}", seen.missing());
        // What can't be printed is not.
        assert!(NEVER.iter().all(|&code| !seen.0.contains(name(code))));
    }
}
