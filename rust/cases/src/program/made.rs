//! The cases, by what they are about.

use independent::LONGEST_LINE;
use sheets::{sheet_a, sheet_b, Sheet};

use super::{Case, Grammar, Input};
use crate::deep::{padded, right_recursive};
use crate::furthest;
use crate::long_lines::over_and_over;
use crate::maker::Maker;
use crate::nothing::{repeated, Leaf, Place, PLACES, WAYS};
use crate::reach::not_free;
use crate::records::{exactly, four_a_byte};
use crate::rows::row_of_names;
use crate::soup::drawn_line;
use crate::textbook::{both_sides, examples};

/// The most bytes that a table has.
const MOST_TABLE: usize = 2_695;

/// What the program reads, and prints, at one time.
const AT_ONCE: usize = 4_096;

pub fn all() -> Vec<Case> {
    let mut cases = Cases(Vec::new());
    no_table(&mut cases);
    refused_tables(&mut cases);
    files_too_long(&mut cases);
    class_sheets(&mut cases);
    visits_at_the_allowance(&mut cases);
    open_visits(&mut cases);
    working_numbers(&mut cases);
    records(&mut cases);
    lengths_of_lines(&mut cases);
    long_lines(&mut cases);
    many_lines(&mut cases);
    ends_of_lines(&mut cases);
    any_bytes(&mut cases);
    failures(&mut cases);
    cases.0
}

/// The cases made so far.
struct Cases(Vec<Case>);

impl Cases {
    fn add(&mut self, name: &str, grammar: Grammar, input: Input) {
        self.0.push(Case {
            name: name.to_string(),
            grammar,
            input,
            is_full: false,
        });
    }

    /// A table with lines; each ends with LF.
    fn read(&mut self, name: &str, sheet: &Sheet, lines: &[Vec<u8>]) {
        self.input(name, sheet, text(lines));
    }

    /// A table with an input of any kind, as a file and through a pipe.
    fn input(&mut self, name: &str, sheet: &Sheet, input: Vec<u8>) {
        let table = Grammar::Table(sheet.bytes());
        self.add(name, table.clone(), Input::File(input.clone()));
        let name = format!("{name}, through a pipe");
        self.add(&name, table, Input::Pipe(input, 1_000));
    }

    /// A file that is refused, with lines and without.
    fn refused(&mut self, name: &str, file: &[u8]) {
        for (with, input) in [("lines", b"1,5\n7+2\n".as_slice()), ("no line", b"")] {
            let name = format!("{name}, with {with}");
            let table = Grammar::Table(file.to_vec());
            self.add(&name, table, Input::File(input.to_vec()));
        }
    }
}

fn text(lines: &[Vec<u8>]) -> Vec<u8> {
    lines
        .iter()
        .flat_map(|line| [line, b"\n".as_slice()].concat())
        .collect()
}

/// Lines of so many `a`.
fn all_a(lengths: impl IntoIterator<Item = usize>) -> Vec<Vec<u8>> {
    lengths
        .into_iter()
        .map(|length| vec![b'a'; length])
        .collect()
}

fn no_table(cases: &mut Cases) {
    let inputs = [b"".as_slice(), b"1,5\n", b"\n\n", b"1,5"];
    for input in inputs {
        for grammar in [Grammar::Missing, Grammar::Folder] {
            let name = format!("class.gram {grammar:?}, {} bytes", input.len());
            cases.add(&name, grammar, Input::File(input.to_vec()));
        }
    }
}

fn refused_tables(cases: &mut Cases) {
    for (letter, sheet) in [("A", sheet_a()), ("B", sheet_b())] {
        let table = sheet.bytes();
        for length in 0..table.len() {
            cases.refused(&format!("{letter} cut to {length}"), &table[..length]);
        }
        for version in [0, 2, 49, 255] {
            let mut other = table.clone();
            other[0] = version;
            cases.refused(&format!("{letter}, version {version}"), &other);
        }
        wrong_counts(cases, letter, &table);
        wrong_roots(cases, letter, &sheet);
        wrong_nodes(cases, letter, &sheet);
    }
    wrong_at_the_end(cases);
    repetitions_of_nothing(cases);
}

fn wrong_counts(cases: &mut Cases, letter: &str, table: &[u8]) {
    for (at, what) in [(1, "length"), (3, "nodes"), (5, "rules")] {
        for count in [0_u16, 1, 64, 65, 512, 513, 2_695, 65_535] {
            let mut other = table.to_vec();
            other[at..at + 2].copy_from_slice(&count.to_be_bytes());
            cases.refused(&format!("{letter}, {what} {count}"), &other);
        }
    }
}

fn wrong_roots(cases: &mut Cases, letter: &str, sheet: &Sheet) {
    let nodes = sheet.nodes.len() as u16;
    for rule in 0..sheet.roots.len() {
        for root in [nodes, 256, 65_535] {
            let mut other = sheet.clone();
            other.roots[rule] = root;
            cases.refused(
                &format!("{letter}, root {root} of rule {rule}"),
                &other.bytes(),
            );
        }
    }
}

fn wrong_nodes(cases: &mut Cases, letter: &str, sheet: &Sheet) {
    for number in 0..sheet.nodes.len() {
        for wrong in [
            (7, 0, 0),
            (255, 0, 0),
            (0, 1, 0),
            (1, 2, 1),
            (1, 0, 256),
            (5, 99, 0),
        ] {
            let mut other = sheet.clone();
            other.nodes[number] = wrong;
            cases.refused(
                &format!("{letter}, node {number} {wrong:?}"),
                &other.bytes(),
            );
        }
    }
}

/// Of 512 nodes and 64 rules.
fn full() -> Sheet {
    let mut sheet = sheet_b();
    while sheet.nodes.len() < 512 {
        sheet.empty();
    }
    sheet.roots.resize(64, 0);
    sheet
}

fn wrong_at_the_end(cases: &mut Cases) {
    for wrong in [(7, 0, 0), (2, 64, 0)] {
        let mut other = full();
        other.nodes[511] = wrong;
        cases.refused(&format!("full, node 511 {wrong:?}"), &other.bytes());
    }
    let mut other = full();
    other.roots[63] = 512;
    cases.refused("full, root 512 of rule 63", &other.bytes());
}

/// Refused, and the near twins of some of them read by.
fn repetitions_of_nothing(cases: &mut Cases) {
    for way in WAYS {
        for place in PLACES {
            let refused = repeated(place, way, Leaf::Empty);
            let name = format!("{way:?} of nothing repeated, {place:?}");
            cases.refused(&name, &refused.bytes());
        }
        let close = repeated(Place::Root, way, Leaf::NotThenByte);
        let lines = [b"".as_slice(), b"a", b"aa", b"caac", b"b"];
        cases.read(
            &format!("{way:?} of a byte repeated"),
            &close,
            &lines.map(<[u8]>::to_vec),
        );
    }
    let mut last = full();
    last.nodes[511] = (6, 510, 0);
    cases.refused("full, nothing repeated by node 511", &last.bytes());
    last.nodes[511] = (6, 511, 0);
    cases.refused("full, node 511 repeated by itself", &last.bytes());
}

/// Longer than any table, behind a good beginning and a bad one.
fn files_too_long(cases: &mut Cases) {
    let full = full();
    assert_eq!(full.bytes().len(), MOST_TABLE);
    cases.read("full", &full, &all_a([0, 1, 3, 4]));
    for length in [1, 2, 1_401, 2_696, 100_000] {
        for (letter, sheet) in [("full", &full), ("B", &sheet_b())] {
            let name = format!("{letter} and {length} bytes");
            let mut long = sheet.bytes();
            long.resize(long.len() + length, 0);
            cases.refused(&name, &long);
            // The length of all is written, where two bytes hold it.
            let all = long.len() as u16;
            long[1..3].copy_from_slice(&all.to_be_bytes());
            cases.refused(&format!("{name}, written"), &long);
            let mut nodes = long.clone();
            nodes[3..5].copy_from_slice(&513_u16.to_be_bytes());
            cases.refused(&format!("{name}, 513 nodes"), &nodes);
            long[0] = 2;
            cases.refused(&format!("{name}, version 2"), &long);
        }
    }
}

/// The sheets of a class and of the textbooks, with their lines and lines
/// drawn from them.
fn class_sheets(cases: &mut Cases) {
    let mut maker = Maker::new(crate::SEED);
    for (folder, sheet) in sheets::all() {
        let lines = drawn(&mut maker, &sheet, 40);
        cases.read(folder, &sheet, &lines);
    }
    for (number, example) in examples().iter().enumerate() {
        let mut lines = drawn(&mut maker, &example.sheet, 8);
        lines.extend(example.lines.iter().map(|line| line.as_bytes().to_vec()));
        cases.read(&format!("textbook {number}"), &example.sheet, &lines);
    }
    let nested = (0..5).map(|depth| {
        let (open, close) = ("(".repeat(depth), ")".repeat(depth));
        format!("1+2*{open}7{close}").into_bytes()
    });
    cases.read("brackets", &sheets::sum(), &nested.collect::<Vec<_>>());
}

fn drawn(maker: &mut Maker, sheet: &Sheet, count: usize) -> Vec<Vec<u8>> {
    let lines = (0..count).map(|_| drawn_line(maker, sheet));
    lines.filter(|line| !line.contains(&b'\n')).collect()
}

/// A node that matches nothing, in so many visits.
fn in_visits(sheet: &mut Sheet, visits: u64) -> u16 {
    match visits {
        0 | 1 => sheet.empty(),
        even if even % 2 == 0 => {
            let child = in_visits(sheet, even - 1);
            sheet.choice(child, child)
        }
        odd => {
            let half = in_visits(sheet, odd / 2);
            sheet.sequence(half, half)
        }
    }
}

/// A sheet that reads an empty line in so many visits, at least ten.
fn reading_in(visits: u64) -> Sheet {
    let mut sheet = Sheet::new();
    if visits.is_multiple_of(2) {
        // S <- X / R, where nothing is kept and S does not grow: one visit before X.
        let root = in_visits(&mut sheet, visits - 1);
        sheet.root(root);
        return not_free(sheet);
    }
    // S <- S 'a' / X: three visits before the first X, four before the second.
    let s = sheet.rule(0);
    let a = sheet.byte(b'a');
    let longer = sheet.sequence(s, a);
    let x = in_visits(&mut sheet, (visits - 7) / 2);
    let root = sheet.choice(longer, x);
    sheet.root(root);
    sheet
}

/// At the allowance, one and two below and above it.
fn visits_at_the_allowance(cases: &mut Cases) {
    for visits in [10, 11, 2_498, 2_499, 2_500, 2_501, 2_502, 4_000] {
        let name = format!("{visits} visits");
        cases.read(&name, &reading_in(visits), &all_a([0, 1, 2]));
    }
}

/// Refused for depth at places 0 to 3, and far along a line.
fn open_visits(cases: &mut Cases) {
    for nots in [507, 508, 509, 510] {
        let mut sheet = Sheet::new();
        let a = sheet.byte(b'a');
        let all = sheet.repetition(a);
        let top = (0..nots).fold(all, |child, _| sheet.not(child));
        sheet.root(top);
        cases.read(&format!("{nots} nots"), &sheet, &all_a(0..=3));
    }
    cases.read(
        "one chain for two rules",
        &chain_for_two_rules(),
        &all_a([0, 1]),
    );
    for pads in 0..4 {
        let sheet = right_recursive(pads);
        let other = not_free(sheet.clone());
        for (is_free, sheet) in [(true, sheet), (false, other)] {
            let name = format!("{pads} pads, free {is_free}");
            cases.read(&name, &sheet, &all_a(160..=172));
        }
    }
}

/// S <- pads R; R begins one pad further down the same chain, so that the
/// chain is open twice at one place.
fn chain_for_two_rules() -> Sheet {
    let mut sheet = Sheet::new();
    let r = sheet.rule(1);
    let root = padded(&mut sheet, r, 300);
    sheet.root(root);
    sheet.root(root - 1);
    sheet
}

/// 2,048 + 4 x 2,500 + 2 x n x (L + 1) is 16,384 for 271 nodes and 7 bytes.
fn working_numbers(cases: &mut Cases) {
    for nodes in [270, 271, 272, 512] {
        let mut sheet = Sheet::new();
        let a = sheet.byte(b'a');
        let all = sheet.repetition(a);
        while sheet.nodes.len() < nodes {
            sheet.empty();
        }
        sheet.root(all);
        cases.read(&format!("{nodes} nodes"), &sheet, &all_a(0..=9));
    }
}

fn records(cases: &mut Cases) {
    for records in [1, 255, 256, 999, 1_000, 1_001, 1_002, 1 << 64] {
        let sheet = exactly(records);
        cases.read(&format!("{records} records"), &sheet, &all_a([0, 1]));
    }
    cases.read("four records a byte", &four_a_byte(), &all_a(245..=256));
}

/// The longest lines, about what is read at one time, and far longer. By S <- 'a'* lines
/// of up to 1,083 bytes are read: two nodes ask for that many working numbers.
fn lengths_of_lines(cases: &mut Cases) {
    let short = [0, 1, 254, 255, 256, 257, 511, 512, 1_083, 1_084];
    let longest = [LONGEST_LINE - 1, LONGEST_LINE, LONGEST_LINE + 1];
    let at_once = [AT_ONCE - 1, AT_ONCE, AT_ONCE + 1, 2 * AT_ONCE, 100_000];
    let lengths = [short.as_slice(), &longest, &at_once].concat();
    let sheet = furthest::all();
    for &length in &lengths {
        let lines = all_a([length]);
        cases.read(&format!("a line of {length}"), &sheet, &lines);
        let last = lines[0].clone();
        cases.input(&format!("a last line of {length}"), &sheet, last);
    }
    cases.read("lines of all lengths", &sheet, &all_a(lengths));
}

/// Lines that give version 2, by sheets with so few nodes that there are enough working
/// numbers: nodes times one more than the bytes are at most 2,168.
fn long_lines(cases: &mut Cases) {
    // One node, which takes one byte.
    let mut one = Sheet::new();
    let a = one.byte(b'a');
    one.root(a);
    cases.read("one byte of many", &one, &all_a([256, 2_167, 2_168]));
    let sums = [255, 256, 257, 259, 305, 307, 308, 309].map(|length| over_and_over("7+", length));
    cases.read("long sums", &sheet_a(), &sums);
    let deep = [253, 255, 257, 259, 359, 361].map(|length| over_and_over("1+", length));
    cases.read("long sums, too deep", &both_sides(), &deep);
    let turns = [255, 256, 712, 713, 714, 715, 721, 722];
    cases.read("a record a byte", &row_of_names(1), &all_a(turns));
    let turns = [237, 238, 255, 256, 332, 333, 334, 432, 433];
    cases.read("three records a byte", &row_of_names(3), &all_a(turns));
    let turns = [255, 256, 290, 300, 305, 306, 307, 308, 309];
    cases.read("a row four times", &row_four_times(), &all_a(turns));
    let mut left = all_a([256, 300, 1_082]);
    left.iter_mut().for_each(|line| line.push(b'b'));
    cases.read("a long row and a byte", &furthest::all(), &left);
}

/// S <- R S 'b' / R, where R is 'a'*: two attempts, and the row is read twice in each.
fn row_four_times() -> Sheet {
    let mut sheet = Sheet::new();
    let (a, b, s) = (sheet.byte(b'a'), sheet.byte(b'b'), sheet.rule(0));
    let row = sheet.repetition(a);
    let longer = sheet.in_order(&[row, s, b]);
    let root = sheet.choice(longer, row);
    sheet.root(root);
    sheet
}

/// More than is read, and more than is printed, at one time.
fn many_lines(cases: &mut Cases) {
    let lines: Vec<Vec<u8>> = (0..2_000).map(|i| i.to_string().into_bytes()).collect();
    cases.read("2,000 numbers", &sheets::decimal_comma(), &lines);
    cases.read("2,000 sums", &sheet_a(), &vec![b"7+2".to_vec(); 2_000]);
    for count in [AT_ONCE - 1, AT_ONCE, AT_ONCE + 1, 3 * AT_ONCE] {
        let lines = all_a(vec![0; count]);
        cases.read(&format!("{count} empty lines"), &sheet_b(), &lines);
    }
    // No answer is longer.
    let longest = all_a(vec![0; AT_ONCE + 1]);
    cases.read("long answers", &exactly(1_000), &longest);
    // A line begins before what is read at one time ends, and ends behind it.
    for before in AT_ONCE - 4..=AT_ONCE + 1 {
        let mut input = b"7+2\n".repeat(before / 4);
        input.resize(before - 1, b'7');
        input.extend(b"\n1+2+3\n7+2");
        cases.input(&format!("a line across, {before}"), &sheet_a(), input);
    }
    // One byte at a time.
    let table = Grammar::Table(sheet_b().bytes());
    let input = Input::Pipe(b"1,5\n1.5\n\n,5".to_vec(), 1);
    cases.add("byte by byte", table, input);
}

fn ends_of_lines(cases: &mut Cases) {
    let inputs: [&[u8]; 12] = [
        b"",
        b"\n",
        b"\n\n\n",
        b"1",
        b"1\n",
        b"1\n\n",
        b"\n1",
        b"1,5\r\n1\r\n",
        b"1,5\r",
        b"\r\n",
        b"\r",
        b"1,5\n1.5\n,5",
    ];
    for input in inputs {
        let name = format!("{:?}", String::from_utf8_lossy(input));
        cases.input(&name, &sheet_b(), input.to_vec());
    }
}

/// Every byte but LF, alone and together.
fn any_bytes(cases: &mut Cases) {
    let mut sheet = Sheet::new();
    let any = sheet.range(0, 255);
    let all = sheet.repetition(any);
    sheet.root(all);
    let bytes = (0..=255).filter(|&byte| byte != b'\n');
    let mut lines: Vec<Vec<u8>> = bytes.clone().map(|byte| vec![byte]).collect();
    lines.push(bytes.collect());
    cases.read("any bytes", &sheet, &lines);
    cases.read("any bytes by B", &sheet_b(), &lines);
    let zeros = vec![vec![0; 9], vec![255; 9], vec![0, 255, 0]];
    let mut ends = Sheet::new();
    let (zero, last) = (ends.byte(0), ends.byte(255));
    let either = ends.choice(zero, last);
    let root = ends.repetition(either);
    ends.root(root);
    cases.read("bytes 0 and 255", &ends, &zeros);
}

/// Standard input that is a folder, and standard output that is full.
fn failures(cases: &mut Cases) {
    let good = Grammar::Table(sheet_b().bytes());
    let bad = Grammar::Table(b"no table".to_vec());
    let grammars = [
        ("B", good),
        ("no table", bad),
        ("no file", Grammar::Missing),
        ("a folder", Grammar::Folder),
    ];
    let many = b"1,5\n".repeat(2_000);
    for (name, grammar) in grammars {
        let folder = format!("{name}, input from a folder");
        cases.add(&folder, grammar.clone(), Input::Folder);
        for input in [b"".as_slice(), b"1,5\n", &many] {
            let name = format!("{name}, {} bytes, output full", input.len());
            cases.add(&name, grammar.clone(), Input::File(input.to_vec()));
            cases.0.last_mut().expect("it was added").is_full = true;
        }
    }
}

#[cfg(test)]
mod tests {
    use super::*;
    use crate::program::NUMBERS;

    fn printed(case: &Case) -> String {
        String::from_utf8(case.expected().printed).unwrap()
    }

    fn named<'a>(cases: &'a [Case], name: &str) -> &'a Case {
        let mut cases = cases.iter();
        cases.find(|case| case.name == name).expect(name)
    }

    #[test]
    fn visits_are_as_many_as_said() {
        for visits in 10..60 {
            let table = reading_in(visits).bytes();
            let (mut work, mut room) = (vec![0; NUMBERS], vec![0; 10]);
            let answer = independent::read(&table, b"", 100, &mut work, &mut room, true);
            assert_eq!((answer.code, answer.visits), (0, visits));
        }
    }

    #[test]
    fn at_the_allowance() {
        let all = all();
        let first = |name| {
            printed(named(&all, name))
                .lines()
                .next()
                .unwrap()
                .to_string()
        };
        assert_eq!(first("2499 visits"), "READ 0 2499 1");
        assert_eq!(first("2500 visits"), "READ 0 2500 1");
        assert_eq!(first("2501 visits"), "EFFORT 0 2500");
    }

    /// Each of these names has several places.
    #[test]
    fn places() {
        let all: String = all().iter().map(printed).collect();
        for name in [
            "ROOT", "KIND", "FIELD", "LOOP", "EFFORT", "DEEP", "REST", "RECORDS", "ROOM", "READ",
        ] {
            let mut places = places_of(name, &all);
            places.sort_unstable();
            places.dedup();
            assert!(places.len() > 2, "{name}: {places:?}");
        }
        for name in ["EFFORT", "DEEP", "REST", "RECORDS", "ROOM", "READ"] {
            let far = places_of(name, &all).into_iter().max();
            assert!(far > Some(255), "{name}: {far:?}");
        }
    }

    /// The first numbers of the lines with this name.
    fn places_of(name: &str, printed: &str) -> Vec<u64> {
        let numbers = |line: &str| {
            line.strip_prefix(name)?
                .strip_prefix(' ')?
                .split(' ')
                .next()?
                .parse()
                .ok()
        };
        printed.lines().filter_map(numbers).collect()
    }

    /// 5,005 bytes hold 1,000 records of version 1, and 714 of version 2.
    #[test]
    fn the_edges_of_the_room() {
        let all = all();
        let one = printed(named(&all, "a record a byte"));
        let lines: Vec<&str> = one.lines().collect();
        assert_eq!(lines[3], "READ 713 2142 714");
        assert_eq!(lines[4..6], ["ROOM 714 2145", "ROOM 715 2148"]);
        assert_eq!(lines[6..], ["ROOM 721 2166", "WORK 0 0"]);
        let three = printed(named(&all, "three records a byte"));
        let names: Vec<&str> = three
            .lines()
            .filter_map(|line| line.split(' ').next())
            .collect();
        let expected = "READ READ READ ROOM ROOM ROOM RECORDS RECORDS WORK";
        assert_eq!(names.join(" "), expected);
    }

    #[test]
    fn the_edges_of_a_line() {
        let all = all();
        let answer = |length: usize| printed(named(&all, &format!("a line of {length}")));
        assert_eq!(answer(1_083), "READ 1083 2168 1\n");
        assert_eq!(answer(1_084), "WORK 0 0\n");
        assert_eq!(answer(4_000), "WORK 0 0\n");
        for length in [4_001, 4_096, 100_000] {
            assert_eq!(answer(length), "LINE 0 0\n");
        }
    }

    #[test]
    fn the_edges_of_the_working_numbers() {
        let all = all();
        let lines = |name| printed(named(&all, name));
        let is_work = |name, line: usize| lines(name).lines().nth(line) == Some("WORK 0 0");
        assert!(!is_work("271 nodes", 7) && is_work("271 nodes", 8));
        assert!(is_work("272 nodes", 7) && !is_work("512 nodes", 3));
    }

    #[test]
    fn names_of_cases_differ() {
        let mut names: Vec<String> = all().into_iter().map(|case| case.name).collect();
        let count = names.len();
        names.sort_unstable();
        names.dedup();
        assert_eq!(names.len(), count);
    }
}
