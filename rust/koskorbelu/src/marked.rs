//! A line with marks under it, for a person to see where it went wrong.

use std::fmt;
use std::iter;

/// Under the furthest position at which a range was visited.
const FURTHEST: char = '^';
/// Under the first byte that is left over.
const LEFT_OVER: char = '|';

/// A line, and below it a row with marks: see [`Answer::marked`].
///
/// [`Answer::marked`]: crate::Answer::marked
#[derive(Clone, Copy, Debug, PartialEq, Eq)]
pub struct Marked<'line> {
    line: &'line [u8],
    furthest: Option<usize>,
    left_over: Option<usize>,
}

impl<'line> Marked<'line> {
    /// The positions that are to be marked; none of them, and there is no row
    /// below the line.
    pub(crate) fn new(
        line: &'line [u8],
        furthest: Option<usize>,
        left_over: Option<usize>,
    ) -> Marked<'line> {
        Marked {
            line,
            furthest,
            left_over,
        }
    }

    /// The column of a position: past the line's end, that after the last one.
    fn column(&self, position: usize) -> usize {
        let ends = shown(self.line).scan(0, |end, (_, bytes)| {
            *end += bytes;
            Some(*end)
        });
        ends.take_while(|&end| end <= position).count()
    }

    /// The marks with their columns, from left to right and one in a column.
    fn marks(&self) -> Vec<(usize, char)> {
        let furthest = self.furthest.map(|at| (self.column(at), FURTHEST));
        let left_over = self.left_over.map(|at| (self.column(at), LEFT_OVER));
        let mut marks: Vec<(usize, char)> = furthest.into_iter().chain(left_over).collect();
        // In the order of the columns; of two in one column the first stays.
        marks.sort_by_key(|&(column, _)| column);
        marks.dedup_by_key(|&mut (column, _)| column);
        marks
    }
}

/// What is shown of a line: each character, and how many bytes it stands for.
fn shown(line: &[u8]) -> impl Iterator<Item = (char, usize)> + '_ {
    line.utf8_chunks().flat_map(|chunk| {
        let text = chunk.valid().chars();
        let text = text.map(|character| (visible(character), character.len_utf8()));
        let others = iter::repeat_n((char::REPLACEMENT_CHARACTER, 1), chunk.invalid().len());
        text.chain(others)
    })
}

/// A control character is shown by its picture, so that it is seen and moves
/// nothing; those outside ASCII have none.
fn visible(character: char) -> char {
    match character {
        '\0'..='\x1F' => char::from_u32(0x2400 + character as u32).expect("a control picture"),
        '\x7F' => '\u{2421}',
        other if other.is_control() => char::REPLACEMENT_CHARACTER,
        other => other,
    }
}

/// Two rows, or the first one alone; LF between them and none at the end.
impl fmt::Display for Marked<'_> {
    fn fmt(&self, f: &mut fmt::Formatter) -> fmt::Result {
        for (character, _) in shown(self.line) {
            write!(f, "{character}")?;
        }
        let mut next = 0;
        for (column, mark) in self.marks() {
            let before = if next == 0 { "\n" } else { "" };
            write!(f, "{before}{:1$}{mark}", "", column - next)?;
            next = column + 1;
        }
        Ok(())
    }
}

#[cfg(test)]
mod tests {
    use crate::{Answer, Code, Reading};

    /// Nothing matched.
    fn fail(furthest: usize) -> Answer<Vec<u8>> {
        refused(Code::Fail, 0, furthest)
    }

    /// So much matched, and the line goes on.
    fn rest(matched: usize, furthest: usize) -> Answer<Vec<u8>> {
        refused(Code::Rest, matched, furthest)
    }

    fn refused(code: Code, matched: usize, furthest: usize) -> Answer<Vec<u8>> {
        Answer::Refused {
            code,
            place: matched,
            matched,
            visits: 7,
            records: 0,
            furthest,
        }
    }

    fn rows(answer: &Answer<Vec<u8>>, line: impl AsRef<[u8]>) -> String {
        answer.marked(line.as_ref()).to_string()
    }

    #[test]
    fn under_the_furthest_position() {
        assert_eq!(rows(&fail(0), "1.5 kW"), "1.5 kW\n^");
        assert_eq!(rows(&fail(1), "1.5 kW"), "1.5 kW\n ^");
        assert_eq!(rows(&fail(5), "1.5 kW"), "1.5 kW\n     ^");
    }

    #[test]
    fn just_past_the_end() {
        assert_eq!(rows(&fail(2), "7+"), "7+\n  ^");
        assert_eq!(rows(&fail(0), ""), "\n^");
        for length in [255, 256, 4_000] {
            let line = "a".repeat(length);
            let below = " ".repeat(length);
            assert_eq!(rows(&fail(length), &line), format!("{line}\n{below}^"));
        }
    }

    #[test]
    fn under_the_first_byte_left_over() {
        assert_eq!(rows(&rest(1, 2), "7+"), "7+\n |^");
        assert_eq!(rows(&rest(1, 4), "7+2*x"), "7+2*x\n |  ^");
        assert_eq!(rows(&rest(1, 0), "ab"), "ab\n^|");
        assert_eq!(rows(&rest(4, 1), "abcde"), "abcde\n ^  |");
        assert_eq!(rows(&rest(0, 0), "ab"), "ab\n^");
        assert_eq!(rows(&rest(1, 1), "1.5"), "1.5\n ^");
    }

    #[test]
    fn only_rest_leaves_something_over() {
        for code in [Code::Records, Code::Room, Code::Effort, Code::Deep] {
            assert_eq!(rows(&refused(code, 1, 2), "7+2"), "7+2\n  ^", "{code}");
        }
        let stored = vec![1, 0, 10, 0, 1, 0, 0, 1, 0, 0];
        let read = Answer::Read {
            matched: 1,
            visits: 14,
            furthest: 2,
            reading: Reading::new(stored),
        };
        assert_eq!(rows(&read, "7+"), "7+\n  ^");
        assert_eq!(read.furthest(), 2);
        assert_eq!(read.to_string(), "READ 1 14 1");
    }

    #[test]
    fn a_call_that_is_turned_away_has_no_marks() {
        for code in Code::ALL.into_iter().filter(|code| !code.line_was_read()) {
            assert_eq!(rows(&refused(code, 0, 0), "7+2"), "7+2", "{code}");
            assert_eq!(rows(&refused(code, 0, 0), ""), "", "{code}");
        }
    }

    /// U+00B2 and U+03A9 have two bytes, U+20AC has three.
    #[test]
    fn a_column_for_a_character() {
        for (furthest, column) in [
            (0, 0),
            (1, 1),
            (2, 2),
            (3, 2),
            (4, 3),
            (5, 3),
            (6, 3),
            (7, 4),
        ] {
            let expected = format!("5m\u{B2}\u{20AC}x\n{}^", " ".repeat(column));
            assert_eq!(rows(&fail(furthest), "5m\u{B2}\u{20AC}x"), expected);
        }
        assert_eq!(rows(&rest(2, 4), "\u{3A9}\u{3A9}x"), "\u{3A9}\u{3A9}x\n |^");
        // Two positions within one character have one column.
        assert_eq!(rows(&rest(1, 0), "\u{3A9}"), "\u{3A9}\n^");
        assert_eq!(rows(&rest(0, 1), "\u{3A9}"), "\u{3A9}\n^");
    }

    /// Each byte by itself, also of a character that is cut.
    #[test]
    fn a_column_for_a_byte_that_is_no_text() {
        assert_eq!(rows(&fail(2), b"1\xFF5"), "1\u{FFFD}5\n  ^");
        assert_eq!(rows(&fail(3), b"\xE2\x82x5"), "\u{FFFD}\u{FFFD}x5\n   ^");
        assert_eq!(rows(&fail(1), b"\xE2\x82"), "\u{FFFD}\u{FFFD}\n ^");
        assert_eq!(rows(&fail(2), b"\xE2\x82"), "\u{FFFD}\u{FFFD}\n  ^");
        let mixed = b"\xC2\xB2\x80\xC2\xB2x";
        assert_eq!(rows(&fail(5), mixed), "\u{B2}\u{FFFD}\u{B2}x\n   ^");
    }

    #[test]
    fn control_characters_are_seen() {
        assert_eq!(rows(&rest(3, 2), "1,5\r"), "1,5\u{240D}\n  ^|");
        assert_eq!(rows(&fail(2), "\t1\n"), "\u{2409}1\u{240A}\n  ^");
        assert_eq!(rows(&fail(1), "\0\x7F"), "\u{2400}\u{2421}\n ^");
        assert_eq!(rows(&fail(1), "\x1F\x1B"), "\u{241F}\u{241B}\n ^");
        // U+009B, which a terminal may take for a command.
        assert_eq!(rows(&fail(2), "\u{9B}x"), "\u{FFFD}x\n ^");
    }

    /// A shorter line than was read has its mark past the end too.
    #[test]
    fn another_line() {
        assert_eq!(rows(&fail(9), "ab"), "ab\n  ^");
        assert_eq!(rows(&rest(5, 9), "ab"), "ab\n  ^");
    }

    #[test]
    fn blanks_of_the_line_stay_and_none_are_added() {
        assert_eq!(rows(&fail(1), "7  "), "7  \n ^");
        for line in ["", "7", "7+2", "\u{3A9}\r"] {
            for (matched, furthest) in [(0, 0), (0, 1), (1, 0), (1, 3)] {
                let text = rows(&rest(matched, furthest), line);
                let below = text.rsplit('\n').next().unwrap();
                assert!(below.ends_with(['^', '|']), "{text:?}");
            }
        }
    }
}
