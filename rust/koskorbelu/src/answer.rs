//! What comes back.

use std::error::Error;
use std::fmt;

use crate::code::Code;
use crate::marked::Marked;
use crate::reading::Reading;

/// Why a table is no sheet.
#[derive(Clone, Copy, Debug, PartialEq, Eq)]
pub struct Refusal {
    /// `Short` to `Field`, or `Loop`.
    pub code: Code,
    /// The rule or node, where the code names one, else 0.
    pub place: usize,
}

impl fmt::Display for Refusal {
    fn fmt(&self, f: &mut fmt::Formatter) -> fmt::Result {
        write!(f, "{} {}", self.code, self.place)
    }
}

impl Error for Refusal {}

/// The report on a sheet.
#[derive(Clone, Copy, Debug, PartialEq, Eq)]
pub struct Report {
    /// Rules whose root may be empty: bit i for rule i.
    pub may_be_empty: u64,
    /// Left-recursive rules, likewise.
    pub left_recursive: u64,
    /// How many rules are left-recursive.
    pub how_many: usize,
    /// The lowest of them.
    pub lowest: Option<usize>,
    /// No rule that rule 0 can reach is left-recursive.
    pub free: bool,
}

impl Report {
    /// No rule that rule 0 can reach is left-recursive. Rules that are never
    /// used don't count; the masks speak of all rules.
    pub fn is_free(&self) -> bool {
        self.free
    }
}

/// The answer to a reading. `Bytes` is the room with the stored tree: the
/// caller's, where it was lent, else its own.
#[derive(Clone, Debug, PartialEq, Eq)]
pub enum Answer<Bytes> {
    /// The line, or a prefix of it, is in the language of the sheet.
    Read {
        /// How many bytes of the line matched.
        matched: usize,
        /// Visits made.
        visits: u64,
        /// The furthest position at which a range was visited; see
        /// [`Answer::furthest`].
        furthest: usize,
        /// The tree.
        reading: Reading<Bytes>,
    },
    /// Anything else.
    Refused {
        /// Why; never `Read`.
        code: Code,
        /// Where; see [`Code`].
        place: usize,
        /// The match's length with `Rest`, `Records` and `Room`, else 0.
        matched: usize,
        /// Visits made; 0 unless [the line was read](Code::line_was_read).
        visits: u64,
        /// With `Records` 1,001, with `Room` the true number, else 0.
        records: usize,
        /// The furthest position at which a range was visited; see
        /// [`Answer::furthest`].
        furthest: usize,
    },
}

impl<Bytes> Answer<Bytes> {
    /// `Read` or why it was refused.
    pub fn code(&self) -> Code {
        match self {
            Answer::Read { .. } => Code::Read,
            Answer::Refused { code, .. } => *code,
        }
    }

    /// Visits made.
    pub fn visits(&self) -> u64 {
        match self {
            Answer::Read { visits, .. } | Answer::Refused { visits, .. } => *visits,
        }
    }

    /// The largest position at which a range, such as `'+'` or `[0-9]`, was
    /// visited, 0 if none was: what stands there is mostly where a line went
    /// wrong. It may be beyond the match, and is the line's length where a byte
    /// more was asked for. Ranges that fail count, those inside a `!` too; a
    /// visit that is refused does not. It is 0 unless [the line was
    /// read](Code::line_was_read).
    pub fn furthest(&self) -> usize {
        match self {
            Answer::Read { furthest, .. } | Answer::Refused { furthest, .. } => *furthest,
        }
    }

    /// The line with marks under it, for a person to see where it went wrong.
    ///
    /// The first row is the line; below it `^` stands under the furthest
    /// position, and with `Rest` `|` under the first byte left over, unless that
    /// is the same. With sheet B, `N <- D ',' D / D; D <- [0-9]`, and with sheet
    /// A, `S <- S '+' D / D; D <- [0-9]`:
    ///
    /// ```text
    /// 1.5      7+2+
    ///  ^          |^
    /// ```
    ///
    /// Where the call was turned away there is the line alone. A mark may stand
    /// just past the line's end. Positions count bytes, and a mark stands under
    /// the character that has the byte: each takes one column here, so wide or
    /// combining ones shift it. A byte that is no UTF-8 is shown as U+FFFD, a
    /// control character by its picture, such as U+240D for CR, or as U+FFFD
    /// where it has none.
    pub fn marked<'line>(&self, line: &'line [u8]) -> Marked<'line> {
        let is_read = self.code().line_was_read();
        Marked::new(line, is_read.then(|| self.furthest()), self.left_over())
    }

    /// The position of the first byte that is left over, with `Rest`.
    fn left_over(&self) -> Option<usize> {
        match self {
            Answer::Refused {
                code: Code::Rest,
                matched,
                ..
            } => Some(*matched),
            _ => None,
        }
    }

    /// The tree, if there is one.
    pub fn reading(self) -> Option<Reading<Bytes>> {
        match self {
            Answer::Read { reading, .. } => Some(reading),
            Answer::Refused { .. } => None,
        }
    }
}

/// As the classroom program prints it: READ, matched, visits and records, or
/// the code's name, place and visits. [`Answer::marked`] shows the line.
impl<Bytes: AsRef<[u8]>> fmt::Display for Answer<Bytes> {
    fn fmt(&self, f: &mut fmt::Formatter) -> fmt::Result {
        match self {
            Answer::Read {
                matched,
                visits,
                reading,
                ..
            } => {
                let records = reading.records().len();
                write!(f, "{} {matched} {visits} {records}", Code::Read)
            }
            Answer::Refused {
                code,
                place,
                visits,
                ..
            } => write!(f, "{code} {place} {visits}"),
        }
    }
}
