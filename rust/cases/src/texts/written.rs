//! A sheet as it is written: its nodes, worked out without a text, and its text, with
//! random spaces and brackets.

use sheets::Sheet;

use crate::random::Random;

/// Names, and lines that define some of them: each the number of a name, and its
/// alternatives.
pub struct Written {
    pub names: Vec<Vec<u8>>,
    pub lines: Vec<(usize, Part)>,
}

#[derive(Clone)]
pub enum Part {
    /// By its number among the names.
    Name(usize),
    Quote(Vec<u8>),
    /// Lowest and highest of each part; the same twice for a single one.
    Class(Vec<(u8, u8)>),
    Signed(Box<Part>, u8),
    Not(Box<Part>),
    /// At least two.
    Sequence(Vec<Part>),
    /// At least two.
    Choice(Vec<Part>),
}

/// How tightly a part is bound, the loosest first.
#[derive(Clone, Copy, PartialEq, Eq, PartialOrd, Ord)]
enum Binding {
    Choice,
    Sequence,
    Not,
    Signed,
    Primary,
}

impl Part {
    fn binding(&self) -> Binding {
        match self {
            Part::Name(_) | Part::Quote(_) | Part::Class(_) => Binding::Primary,
            Part::Signed(..) => Binding::Signed,
            Part::Not(_) => Binding::Not,
            Part::Sequence(_) => Binding::Sequence,
            Part::Choice(_) => Binding::Choice,
        }
    }

    /// Adds the part's nodes to a sheet and gives the last one. Each name stands for
    /// the rule with that number among `rules`.
    fn number(&self, rules: &[u16], sheet: &mut Sheet) -> u16 {
        let mut all = |parts: &[Part]| -> Vec<u16> {
            let nodes = parts.iter().map(|part| part.number(rules, sheet));
            nodes.collect()
        };
        match self {
            Part::Name(name) => sheet.rule(rules[*name]),
            Part::Quote(bytes) => {
                let nodes: Vec<u16> = bytes.iter().map(|&byte| sheet.byte(byte)).collect();
                sheet.in_order(&nodes)
            }
            Part::Class(ranges) => {
                let nodes = ranges.iter().map(|&(low, high)| sheet.range(low, high));
                let nodes: Vec<u16> = nodes.collect();
                sheet.first_of(&nodes)
            }
            Part::Signed(part, sign) => {
                let child = part.number(rules, sheet);
                match sign {
                    b'*' => sheet.repetition(child),
                    b'+' => sheet.one_or_more(child),
                    _ => sheet.optional(child),
                }
            }
            Part::Not(part) => {
                let child = part.number(rules, sheet);
                sheet.not(child)
            }
            Part::Sequence(parts) => {
                let nodes = all(parts);
                sheet.in_order(&nodes)
            }
            Part::Choice(parts) => {
                let nodes = all(parts);
                sheet.first_of(&nodes)
            }
        }
    }
}

impl Written {
    /// The nodes and roots, worked out without a text. A name stands for the line
    /// that defines it, for line 0 if none does.
    pub fn sheet(&self) -> Sheet {
        let line_of = |name| self.lines.iter().position(|&(defined, _)| defined == name);
        let rules = (0..self.names.len()).map(|name| line_of(name).unwrap_or(0) as u16);
        let rules: Vec<u16> = rules.collect();
        let mut sheet = Sheet::new();
        for (_, line) in &self.lines {
            let root = line.number(&rules, &mut sheet);
            sheet.root(root);
        }
        sheet
    }
}

// Writing down.

/// Something written, in words, and how often brackets are put where none are needed.
struct Writer<'a> {
    random: &'a mut Random,
    brackets: u64,
    words: Vec<Vec<u8>>,
}

impl Writer<'_> {
    fn word(&mut self, word: &[u8]) {
        self.words.push(word.to_vec());
    }

    /// The part, in brackets if it is bound looser than it has to be here.
    fn part(&mut self, names: &[Vec<u8>], part: &Part, binding: Binding) {
        let mut brackets = u64::from(part.binding() < binding);
        while self.random.chance(self.brackets) {
            brackets += 1;
        }
        (0..brackets).for_each(|_| self.word(b"("));
        match part {
            Part::Name(name) => self.word(&names[*name]),
            Part::Quote(bytes) => self.word(&[b"'", &bytes[..], b"'"].concat()),
            Part::Class(ranges) => {
                let parts: Vec<u8> = ranges.iter().flat_map(|&range| written(range)).collect();
                self.word(&[b"[", &parts[..], b"]"].concat());
            }
            Part::Signed(part, sign) => {
                self.part(names, part, Binding::Signed);
                self.word(&[*sign]);
            }
            Part::Not(part) => {
                self.word(b"!");
                self.part(names, part, Binding::Not);
            }
            Part::Sequence(parts) => {
                let parts = parts.iter();
                parts.for_each(|part| self.part(names, part, Binding::Not));
            }
            Part::Choice(parts) => {
                for (number, part) in parts.iter().enumerate() {
                    if number > 0 {
                        self.word(b"/");
                    }
                    self.part(names, part, Binding::Sequence);
                }
            }
        }
        (0..brackets).for_each(|_| self.word(b")"));
    }
}

/// A part of a class.
fn written((low, high): (u8, u8)) -> Vec<u8> {
    match low == high {
        true => vec![low],
        false => vec![low, b'-', high],
    }
}

/// The words of all lines, each LF among them.
pub fn words(random: &mut Random, sheet: &Written) -> Vec<Vec<u8>> {
    let brackets = random.pick(&[0, 0, 5, 30]);
    let mut writer = Writer {
        random,
        brackets,
        words: Vec::new(),
    };
    for (name, line) in &sheet.lines {
        writer.word(&sheet.names[*name]);
        writer.word(b"<-");
        writer.part(&sheet.names, line, Binding::Choice);
        writer.word(b"\n");
    }
    writer.words
}

/// The words with the spaces before each and behind the last: spaces, word, spaces,
/// word and so on. Two names have one space between them at least.
pub fn with_spaces(random: &mut Random, words: &[Vec<u8>]) -> Vec<Vec<u8>> {
    let (percent, most) = random.pick(&[(0, 0), (50, 1), (100, 1), (30, 4)]);
    let mut pieces: Vec<Vec<u8>> = Vec::new();
    for word in words {
        let touch = pieces.last().is_some_and(|before| is_name(before)) && is_name(word);
        let spaces = match random.chance(percent) {
            true => random.between(1, most),
            false => touch.into(),
        };
        pieces.push(vec![b' '; spaces as usize]);
        pieces.push(word.clone());
    }
    pieces.push(vec![b' '; random.below(most + 1) as usize]);
    pieces
}

pub fn is_name(word: &[u8]) -> bool {
    word[0].is_ascii_alphabetic()
}

pub fn text_of(random: &mut Random, sheet: &Written) -> Vec<u8> {
    let words = words(random, sheet);
    with_spaces(random, &words).concat()
}
