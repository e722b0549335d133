//! The codes, their numbers and names.

use std::fmt;

/// Why a call ended as it did. The checks are made in the order of the numbers,
/// but `Loop` after `Field` and before `Line`, and `Read` last. So the numbers
/// don't tell whether the line was read: [`Code::line_was_read`] does.
#[derive(Clone, Copy, Debug, PartialEq, Eq, Hash)]
pub enum Code {
    /// No refusal.
    Read = 0,
    /// Table under 7 bytes.
    Short = 1,
    /// Its first byte is not 1.
    Version = 2,
    /// Node count not 1 to 512, or rule count not 1 to 64.
    Count = 3,
    /// Slice length, written length and formula differ.
    Length = 4,
    /// A root is no node. Place: the first such rule.
    Root = 5,
    /// A node's kind is above 6. Place: the node.
    Kind = 6,
    /// A node's field is not as its kind asks. Place: the node.
    Field = 7,
    /// Line over 4,000 bytes.
    Line = 8,
    /// Allowance 0 or over 5,000,000.
    Allow = 9,
    /// Fewer working numbers than the formula asks.
    Work = 10,
    /// The allowance is used up. Place: position of the refused visit.
    Effort = 11,
    /// 512 visits are open. Place: position of the refused visit.
    Deep = 12,
    /// Rule 0 fails.
    Fail = 13,
    /// Whole-line only: the match ends before the line. Place: matched.
    Rest = 14,
    /// The tree has over 1,000 records. Place: matched.
    Records = 15,
    /// Room under the [`stored_length`](crate::stored_length). Place: matched.
    Room = 16,
    /// A repetition's child may be empty. Place: the first such repetition.
    Loop = 17,
}

impl Code {
    /// All codes; each stands at its number.
    pub const ALL: [Code; 18] = [
        Code::Read,
        Code::Short,
        Code::Version,
        Code::Count,
        Code::Length,
        Code::Root,
        Code::Kind,
        Code::Field,
        Code::Line,
        Code::Allow,
        Code::Work,
        Code::Effort,
        Code::Deep,
        Code::Fail,
        Code::Rest,
        Code::Records,
        Code::Room,
        Code::Loop,
    ];

    /// The code with this number, `None` for a number that is no code.
    pub fn with_number(number: u64) -> Option<Code> {
        let index = usize::try_from(number).ok()?;
        Code::ALL.get(index).copied()
    }

    pub fn number(self) -> u64 {
        self as u64
    }

    pub fn name(self) -> &'static str {
        match self {
            Code::Read => "READ",
            Code::Short => "SHORT",
            Code::Version => "VERSION",
            Code::Count => "COUNT",
            Code::Length => "LENGTH",
            Code::Root => "ROOT",
            Code::Kind => "KIND",
            Code::Field => "FIELD",
            Code::Line => "LINE",
            Code::Allow => "ALLOW",
            Code::Work => "WORK",
            Code::Effort => "EFFORT",
            Code::Deep => "DEEP",
            Code::Fail => "FAIL",
            Code::Rest => "REST",
            Code::Records => "RECORDS",
            Code::Room => "ROOM",
            Code::Loop => "LOOP",
        }
    }

    /// Whether the line was read, to its end or not: `Read`, and `Effort` to
    /// `Room`. With any other code the call was turned away before that, and
    /// nothing that was lent is changed.
    pub fn line_was_read(self) -> bool {
        match self {
            Code::Short
            | Code::Version
            | Code::Count
            | Code::Length
            | Code::Root
            | Code::Kind
            | Code::Field
            | Code::Loop
            | Code::Line
            | Code::Allow
            | Code::Work => false,
            Code::Effort
            | Code::Deep
            | Code::Fail
            | Code::Rest
            | Code::Records
            | Code::Room
            | Code::Read => true,
        }
    }
}

impl fmt::Display for Code {
    fn fmt(&self, f: &mut fmt::Formatter) -> fmt::Result {
        f.pad(self.name())
    }
}

#[cfg(test)]
mod tests {
    use super::Code;

    #[test]
    fn numbers_and_names_are_those_of_the_independent_reader() {
        assert_eq!(Code::ALL.len(), independent::CODES);
        for number in 0..Code::ALL.len() as u64 {
            let code = Code::with_number(number).unwrap();
            assert_eq!(code.number(), number);
            assert_eq!(Some(code.name()), independent::names(number));
        }
        assert_eq!(Code::with_number(18), None);
        assert_eq!(Code::with_number(u64::MAX), None);
    }

    /// READ and 11 to 16; 17 is turned away as 1 to 10 are.
    #[test]
    fn whether_the_line_was_read() {
        let read = Code::ALL.iter().filter(|code| code.line_was_read());
        let numbers: Vec<u64> = read.map(|code| code.number()).collect();
        assert_eq!(numbers, [0, 11, 12, 13, 14, 15, 16]);
    }
}
