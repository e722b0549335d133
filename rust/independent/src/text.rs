//! Sheets written as text: from a text to its table.
//!
//! The text is cut into words, and each has to fit where it stands. Then each name
//! is looked up. Then the nodes are made, in the order in which they are finished.
//! Nothing here calls itself, so that brackets may be as deep as a text can have
//! them.

use std::collections::HashMap;

use crate::table::{check, Node};
use crate::{names, Refusal, BIG, LONG, NAME, READ, ROOM, TEXT};

/// A longer text is refused with LONG.
pub const LONGEST_TEXT: usize = 8_000;

/// A name has at most so many letters.
const LONGEST_NAME: usize = 32;
const MOST_NODES: usize = 512;
const MOST_RULES: usize = 64;

/// What comes back for a text.
#[derive(Clone, Debug, PartialEq, Eq)]
pub struct Tabulated {
    pub code: u64,
    pub place: u64,
    /// Empty on a refusal.
    pub table: Vec<u8>,
}

impl Tabulated {
    /// Code, place and the table's length.
    pub fn numbers(&self) -> [u64; 3] {
        [self.code, self.place, self.table.len() as u64]
    }

    /// The name of the code.
    pub fn name(&self) -> &'static str {
        match self.code {
            LONG => "LONG",
            TEXT => "TEXT",
            NAME => "NAME",
            BIG => "BIG",
            code => names(code).expect("a code has a name"),
        }
    }
}

/// The table of a text, for a lent buffer of `room` bytes.
pub fn tabulate(text: &[u8], room: usize) -> Tabulated {
    match table_of(text, room) {
        Ok(table) => Tabulated {
            code: READ,
            place: 0,
            table,
        },
        Err(refusal) => Tabulated {
            code: refusal.code,
            place: refusal.place,
            table: Vec::new(),
        },
    }
}

/// The refusals in their order.
fn table_of(text: &[u8], room: usize) -> Result<Vec<u8>, Refusal> {
    if text.len() > LONGEST_TEXT {
        return refuse(LONG, 0);
    }
    let words = words_in_order(text).or_else(|place| refuse(TEXT, place))?;
    let lines = lines_of(&words);
    let rules = rules_of(text, &lines).or_else(|place| refuse(NAME, place))?;
    let sheet = sheet_of(text, &lines, &rules);
    if sheet.nodes.len() > MOST_NODES || sheet.roots.len() > MOST_RULES {
        return refuse(BIG, 0);
    }
    let table = sheet.bytes();
    // Of all that the check refuses, only a repetition of nothing can be here.
    let (code, place) = check(&table);
    if code != READ {
        return Err(Refusal { code, place });
    }
    if room < table.len() {
        return refuse(ROOM, 0);
    }
    Ok(table)
}

fn refuse<T>(code: u64, place: usize) -> Result<T, Refusal> {
    Err(Refusal {
        code,
        place: place as u64,
    })
}

// Words.

/// What a text is made of, but for spaces.
#[derive(Clone, Copy, Debug, PartialEq, Eq)]
enum Kind {
    /// A whole run of letters.
    Name,
    /// `<-`
    Arrow,
    /// `'kW'`
    Quote,
    /// `[0-9]`
    Class,
    /// `*`, `+` or `?`
    Sign,
    /// `!`
    Not,
    /// `/`
    Slash,
    /// `(`
    Open,
    /// `)`
    Close,
    /// LF
    LineEnd,
}

/// The bytes of a text from `start` up to `end`.
#[derive(Clone, Copy, Debug)]
struct Word {
    kind: Kind,
    start: usize,
    end: usize,
}

/// The first byte of a word says of which kind it is. `None` if no word begins
/// with it.
fn kind_of(first: u8) -> Option<Kind> {
    match first {
        b'A'..=b'Z' | b'a'..=b'z' => Some(Kind::Name),
        b'<' => Some(Kind::Arrow),
        b'\'' => Some(Kind::Quote),
        b'[' => Some(Kind::Class),
        b'*' | b'+' | b'?' => Some(Kind::Sign),
        b'!' => Some(Kind::Not),
        b'/' => Some(Kind::Slash),
        b'(' => Some(Kind::Open),
        b')' => Some(Kind::Close),
        b'\n' => Some(Kind::LineEnd),
        _ => None,
    }
}

/// Where the word that begins at `start` ends. Or else where it stops being one:
/// the place of the first byte it can't have, the text's length if it only lacks
/// more bytes.
fn end_of(kind: Kind, text: &[u8], start: usize) -> Result<usize, usize> {
    match kind {
        Kind::Name => end_of_name(text, start),
        Kind::Arrow => behind_one(text, start + 1, |byte| byte == b'-'),
        Kind::Quote => end_of_quote(text, start),
        Kind::Class => end_of_class(text, start),
        _ => Ok(start + 1),
    }
}

/// The place behind one byte that fits. Or else this place.
fn behind_one(text: &[u8], at: usize, fits: impl Fn(u8) -> bool) -> Result<usize, usize> {
    match text.get(at) {
        Some(&byte) if fits(byte) => Ok(at + 1),
        _ => Err(at),
    }
}

/// The place behind all bytes that fit.
fn behind_all(text: &[u8], at: usize, fits: impl Fn(u8) -> bool) -> usize {
    let fitting = text[at..].iter().take_while(|&&byte| fits(byte));
    at + fitting.count()
}

fn end_of_name(text: &[u8], start: usize) -> Result<usize, usize> {
    let end = behind_all(text, start, |byte| byte.is_ascii_alphabetic());
    if end - start > LONGEST_NAME {
        return Err(start + LONGEST_NAME);
    }
    Ok(end)
}

fn end_of_quote(text: &[u8], start: usize) -> Result<usize, usize> {
    let may_be_quoted = |byte| (33..=126).contains(&byte) && byte != b'\'';
    let at = behind_one(text, start + 1, may_be_quoted)?;
    let at = behind_all(text, at, may_be_quoted);
    behind_one(text, at, |byte| byte == b'\'')
}

fn end_of_class(text: &[u8], start: usize) -> Result<usize, usize> {
    let mut at = end_of_part(text, start + 1)?;
    while text.get(at) != Some(&b']') {
        at = end_of_part(text, at)?;
    }
    Ok(at + 1)
}

/// The end of a letter, a digit or a range.
fn end_of_part(text: &[u8], start: usize) -> Result<usize, usize> {
    let is_part = |byte: u8| byte.is_ascii_alphanumeric();
    let minus = behind_one(text, start, is_part)?;
    if text.get(minus) != Some(&b'-') {
        return Ok(minus);
    }
    let is_higher = |byte| is_part(byte) && byte > text[start];
    if !(0..=255).any(is_higher) {
        return Err(minus);
    }
    behind_one(text, minus + 1, is_higher)
}

// Which word may stand where.

/// What may follow the words so far.
#[derive(Clone, Copy, Debug, PartialEq, Eq)]
enum Next {
    /// A line's name. Behind a whole line the text may end, too.
    Line,
    /// The arrow behind a line's name.
    Arrow,
    /// The beginning of an item.
    Item,
    /// A sign for the item before, another item, or what ends a sequence.
    AnyBehindItem,
}

/// All words of a text. Or else the length of its longest beginning that is also
/// one of a text of this shape.
///
/// Each beginning up to there can be completed: a word by the bytes it lacks,
/// then an item if one has to come, closing brackets, and LF.
fn words_in_order(text: &[u8]) -> Result<Vec<Word>, usize> {
    let mut words = Vec::new();
    let (mut next, mut open) = (Next::Line, 0);
    let mut start = behind_spaces(text, 0);
    while start < text.len() {
        // A word that may not stand here may not even begin.
        let kind = kind_of(text[start]).ok_or(start)?;
        (next, open) = after(next, open, kind).ok_or(start)?;
        let end = end_of(kind, text, start)?;
        words.push(Word { kind, start, end });
        start = behind_spaces(text, end);
    }
    if next != Next::Line || words.is_empty() {
        return Err(text.len());
    }
    Ok(words)
}

fn behind_spaces(text: &[u8], at: usize) -> usize {
    behind_all(text, at, |byte| byte == b' ')
}

/// What may follow a word of this kind, and how many brackets are open then.
/// `None` if the word may not stand here.
fn after(next: Next, open: usize, kind: Kind) -> Option<(Next, usize)> {
    match (next, kind) {
        (Next::Line, Kind::Name) => Some((Next::Arrow, open)),
        (Next::Arrow, Kind::Arrow) => Some((Next::Item, open)),
        (Next::Line | Next::Arrow, _) => None,
        (_, Kind::Name | Kind::Quote | Kind::Class) => Some((Next::AnyBehindItem, open)),
        (_, Kind::Not) => Some((Next::Item, open)),
        (_, Kind::Open) => Some((Next::Item, open + 1)),
        (Next::Item, _) => None,
        (_, Kind::Sign) => Some((Next::AnyBehindItem, open)),
        (_, Kind::Slash) => Some((Next::Item, open)),
        (_, Kind::Close) if open > 0 => Some((Next::AnyBehindItem, open - 1)),
        (_, Kind::LineEnd) if open == 0 => Some((Next::Line, open)),
        _ => None,
    }
}

// Lines and names.

struct Line<'a> {
    name: Word,
    /// Behind the arrow and up to LF, which is not among them.
    alternatives: &'a [Word],
}

/// The lines of words that are in order: each a name, the arrow, alternatives, LF.
fn lines_of(words: &[Word]) -> Vec<Line<'_>> {
    let all = words.split(|word| word.kind == Kind::LineEnd);
    let lines = all.filter(|line| !line.is_empty());
    lines
        .map(|line| Line {
            name: line[0],
            alternatives: &line[2..],
        })
        .collect()
}

fn bytes_of<'a>(text: &'a [u8], word: &Word) -> &'a [u8] {
    &text[word.start..word.end]
}

/// The rule of each name. Or else the place of the first name that a line defines
/// again or no line defines.
fn rules_of<'a>(text: &'a [u8], lines: &[Line]) -> Result<HashMap<&'a [u8], usize>, usize> {
    let mut rules = HashMap::new();
    for (rule, line) in lines.iter().enumerate() {
        rules.entry(bytes_of(text, &line.name)).or_insert(rule);
    }
    for (rule, line) in lines.iter().enumerate() {
        if rules[bytes_of(text, &line.name)] != rule {
            return Err(line.name.start);
        }
        let mut uses = line.alternatives.iter();
        let is_undefined =
            |word: &&Word| word.kind == Kind::Name && !rules.contains_key(bytes_of(text, word));
        if let Some(word) = uses.find(is_undefined) {
            return Err(word.start);
        }
    }
    Ok(rules)
}

// Nodes.

/// The nodes and roots of a text, in any number.
struct Sheet {
    nodes: Vec<Node>,
    roots: Vec<usize>,
}

fn sheet_of(text: &[u8], lines: &[Line], rules: &HashMap<&[u8], usize>) -> Sheet {
    let mut making = Making::default();
    let mut roots = Vec::new();
    for line in lines {
        making.line(text, line.alternatives, rules);
        roots.push(making.parts.pop().expect("a line has a root"));
    }
    Sheet {
        nodes: making.nodes,
        roots,
    }
}

impl Sheet {
    /// The table, of at most 512 nodes and 64 rules.
    fn bytes(&self) -> Vec<u8> {
        let length = 7 + 2 * self.roots.len() + 5 * self.nodes.len();
        let mut bytes = vec![1];
        let mut write = |number: usize| bytes.extend((number as u16).to_be_bytes());
        write(length);
        write(self.nodes.len());
        write(self.roots.len());
        self.roots.iter().for_each(|&root| write(root));
        for &node in &self.nodes {
            let (kind, a, b) = fields(node);
            bytes.push(kind);
            bytes.extend((a as u16).to_be_bytes());
            bytes.extend((b as u16).to_be_bytes());
        }
        bytes
    }
}

/// Kind, field a, field b.
fn fields(node: Node) -> (u8, usize, usize) {
    match node {
        Node::Empty => (0, 0, 0),
        Node::Range { lowest, highest } => (1, lowest.into(), highest.into()),
        Node::Rule(rule) => (2, rule, 0),
        Node::Sequence(first, second) => (3, first, second),
        Node::Choice(first, second) => (4, first, second),
        Node::Not(child) => (5, child, 0),
        Node::Repetition(child) => (6, child, 0),
    }
}

/// What waits for the part behind it to be finished, the loosest first. Signs
/// don't wait: what they stand behind is finished.
#[derive(Clone, Copy, Debug, PartialEq, Eq, PartialOrd, Ord)]
enum Waiting {
    Bracket,
    Choice,
    Sequence,
    Not,
}

/// The nodes made so far.
#[derive(Default)]
struct Making {
    nodes: Vec<Node>,
    /// Finished parts that no node has taken yet, the newest last.
    parts: Vec<usize>,
    /// The newest last.
    waiting: Vec<Waiting>,
}

impl Making {
    /// Makes the nodes of a line; its root is then the newest part.
    fn line(&mut self, text: &[u8], words: &[Word], rules: &HashMap<&[u8], usize>) {
        let mut behind_item = false;
        for word in words {
            if behind_item && begins_item(word.kind) {
                self.wait(Waiting::Sequence);
            }
            behind_item = ends_item(word.kind);
            let bytes = bytes_of(text, word);
            match word.kind {
                Kind::Name => self.part(Node::Rule(rules[bytes])),
                Kind::Quote => self.quote(inside(bytes)),
                Kind::Class => self.class(inside(bytes)),
                Kind::Sign => self.sign(bytes[0]),
                Kind::Not => self.waiting.push(Waiting::Not),
                Kind::Slash => self.wait(Waiting::Choice),
                Kind::Open => self.waiting.push(Waiting::Bracket),
                Kind::Close => {
                    self.finish(Waiting::Bracket);
                    self.waiting.pop();
                }
                Kind::Arrow | Kind::LineEnd => unreachable!("these are not in alternatives"),
            }
        }
        self.finish(Waiting::Bracket);
    }

    /// Adds a node and gives its number.
    fn add(&mut self, node: Node) -> usize {
        self.nodes.push(node);
        self.nodes.len() - 1
    }

    /// Adds a node as a finished part.
    fn part(&mut self, node: Node) {
        let number = self.add(node);
        self.parts.push(number);
    }

    fn newest(&mut self) -> usize {
        self.parts.pop().expect("what binds has a part to bind")
    }

    /// What binds tighter has its part now. An equal one waits on, since
    /// sequences and choices nest to the right.
    fn wait(&mut self, waiting: Waiting) {
        self.finish(waiting);
        self.waiting.push(waiting);
    }

    /// Makes the nodes of all that wait and bind tighter than this.
    fn finish(&mut self, than: Waiting) {
        while let Some(&waiting) = self.waiting.last().filter(|&&waiting| waiting > than) {
            self.waiting.pop();
            let last = self.newest();
            let node = match waiting {
                Waiting::Not => Node::Not(last),
                Waiting::Sequence => Node::Sequence(self.newest(), last),
                Waiting::Choice => Node::Choice(self.newest(), last),
                Waiting::Bracket => unreachable!("no bracket binds tighter than another"),
            };
            self.part(node);
        }
    }

    /// The newest part with a sign behind it.
    fn sign(&mut self, sign: u8) {
        let child = self.newest();
        let node = match sign {
            b'*' => Node::Repetition(child),
            b'+' => Node::Sequence(child, self.add(Node::Repetition(child))),
            _ => Node::Choice(child, self.add(Node::Empty)),
        };
        self.part(node);
    }

    /// All bytes of a quote, one after the other.
    fn quote(&mut self, bytes: &[u8]) {
        let ranges = bytes.iter().map(|&byte| (byte, byte)).collect();
        self.ranges(ranges, Waiting::Sequence);
    }

    /// One of the parts of a class.
    fn class(&mut self, mut bytes: &[u8]) {
        let mut ranges = Vec::new();
        while let [lowest, rest @ ..] = bytes {
            let (highest, rest) = match rest {
                [b'-', highest, rest @ ..] => (highest, rest),
                _ => (lowest, rest),
            };
            ranges.push((*lowest, *highest));
            bytes = rest;
        }
        self.ranges(ranges, Waiting::Choice);
    }

    /// Ranges, joined as if they stood in brackets of their own.
    fn ranges(&mut self, ranges: Vec<(u8, u8)>, joined: Waiting) {
        self.waiting.push(Waiting::Bracket);
        for (number, (lowest, highest)) in ranges.into_iter().enumerate() {
            if number > 0 {
                self.wait(joined);
            }
            self.part(Node::Range {
                lowest: lowest.into(),
                highest: highest.into(),
            });
        }
        self.finish(Waiting::Bracket);
        self.waiting.pop();
    }
}

fn begins_item(kind: Kind) -> bool {
    is_primary(kind) || matches!(kind, Kind::Not | Kind::Open)
}

fn ends_item(kind: Kind) -> bool {
    is_primary(kind) || matches!(kind, Kind::Sign | Kind::Close)
}

fn is_primary(kind: Kind) -> bool {
    matches!(kind, Kind::Name | Kind::Quote | Kind::Class)
}

/// What stands between the first and the last byte.
fn inside(bytes: &[u8]) -> &[u8] {
    &bytes[1..bytes.len() - 1]
}
