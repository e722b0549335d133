//! Stored readings of both versions, as the reader leaves them, mutated and made by
//! hand, held against lines of every sort.

use independent::LONGEST_LINE;

use crate::long_lines::{behind_a_row, far_behind};
use crate::maker::{Maker, Trial, MOST_ROOM};
use crate::records::each_the_next_twice;
use crate::textbook::{examples, Example};
use crate::version::{
    record_length, stored_length, version, HEAD, LONGEST_OF_VERSION_1, MOST_RECORDS,
};

/// Rule, start, end, number of children.
type Record = (u8, u16, u16, u16);

const VERSIONS: [u64; 2] = [1, 2];

/// Lines at the ends of what each version is for, and beyond.
const LINES: [u16; 6] = [
    0,
    LONGEST_OF_VERSION_1 as u16,
    LONGEST_OF_VERSION_1 as u16 + 1,
    LONGEST_LINE as u16,
    LONGEST_LINE as u16 + 1,
    u16::MAX,
];

pub fn add(maker: &mut Maker) {
    from_readings(maker);
    by_hand(maker);
    in_the_higher_byte(maker);
    heads_alone(maker);
    seven_records_or_five(maker);
    grown_at_random(maker);
    over_a_thousand(maker);
}

/// The most records of a version that a command can carry.
fn most_records(version: u64) -> u64 {
    (MOST_ROOM - HEAD) / record_length(version)
}

fn stored(version: u64, records: &[Record]) -> Vec<u8> {
    let count = records.len() as u64;
    let mut bytes = head(version, stored_length(version, count), count);
    for &(rule, start, end, children) in records {
        bytes.push(rule);
        for position in [start, end] {
            bytes.extend(lowest(position, version));
        }
        bytes.extend(lowest(children, 2));
    }
    bytes
}

fn head(version: u64, length: u64, records: u64) -> Vec<u8> {
    let mut bytes = vec![version as u8];
    bytes.extend(lowest(length as u16, 2));
    bytes.extend(lowest(records as u16, 2));
    bytes
}

/// So many of a number's lowest bytes, the highest of them first.
fn lowest(number: u16, bytes: u64) -> Vec<u8> {
    number.to_be_bytes()[2 - bytes as usize..].to_vec()
}

/// What the reader stores for the example lines, where they stand and far behind, and
/// each byte of it wrong.
fn from_readings(maker: &mut Maker) {
    for (number, example) in examples().into_iter().enumerate() {
        for line in &example.lines {
            from_reading(maker, number, &example, line.as_bytes(), 0);
            let far = maker.random.pick(&[254, 255, 300, 3_900]);
            if maker.random.chance(60) {
                from_reading(maker, number, &example, line.as_bytes(), far);
            }
        }
    }
    for length in [0, LONGEST_OF_VERSION_1 + 1, LONGEST_LINE] {
        large_from_reading(maker, length);
    }
}

/// 511 records of nothing, whatever the line.
fn large_from_reading(maker: &mut Maker, length: usize) {
    let rules = 9;
    let table = each_the_next_twice(rules).bytes();
    let large = Trial::of(&table, &vec![b'a'; length], false, 100).stored;
    maker.well_formed(&large, rules, length as u16);
    for _ in 0..5 {
        let wrong = one_wrong(maker, &large);
        maker.well_formed(&wrong, rules, length as u16);
    }
}

/// The same stored reading held against lines of every sort.
fn held_against_all(maker: &mut Maker, stored: &[u8], rules: u16) {
    for length in LINES {
        maker.well_formed(stored, rules, length);
    }
}

/// An example's line behind so many bytes, read by a sheet that passes over them.
fn from_reading(maker: &mut Maker, number: usize, example: &Example, line: &[u8], far: usize) {
    let sheet = match far {
        0 => example.sheet.clone(),
        _ => behind_a_row(&example.sheet),
    };
    let line = far_behind(far, line);
    let trial = Trial::of(&sheet.bytes(), &line, false, 2_000 + 2 * far as u64);
    if trial.code != independent::READ {
        return;
    }
    let (rules, length) = (sheet.roots.len() as u16, line.len() as u16);
    maker.well_formed(&trial.stored, rules, length);
    maker.well_formed(&trial.stored, rules - 1, length);
    maker.well_formed(&trial.stored, rules, length.saturating_sub(1));
    if maker.random.chance(15) {
        held_against_all(maker, &trial.stored, rules);
    }
    // Every byte of the first sheets, some of the rest.
    if number < 2 || (trial.records > 2 && trial.records < 12) {
        let percent = if number < 2 { 60 } else { 6 };
        each_byte(maker, &trial.stored, rules, length, percent);
    }
}

fn each_byte(maker: &mut Maker, stored: &[u8], rules: u16, length: u16, percent: u64) {
    for at in 0..stored.len() {
        let byte = stored[at];
        for value in [byte.wrapping_add(1), byte.wrapping_sub(1), byte ^ 0x80, 0] {
            if value != byte && maker.random.chance(percent) {
                let mut wrong = stored.to_vec();
                wrong[at] = value;
                maker.well_formed(&wrong, rules, length);
            }
        }
        if maker.random.chance(percent) {
            maker.well_formed(&stored[..at], rules, length);
        }
    }
    // Up to one record longer, and a byte more.
    let mut longer = stored.to_vec();
    let record = record_length(version(length.into())) as usize;
    for extra in [vec![0; record], vec![1]].concat() {
        longer.push(extra);
        if maker.random.chance(percent) {
            maker.well_formed(&longer, rules, length);
        }
    }
}

/// A copy with one byte a little off.
fn one_wrong(maker: &mut Maker, stored: &[u8]) -> Vec<u8> {
    let mut wrong = stored.to_vec();
    let at = maker.random.below(wrong.len() as u64) as usize;
    let step = maker.random.pick(&[1, 255, 128, 2]);
    wrong[at] = wrong[at].wrapping_add(step);
    wrong
}

fn by_hand(maker: &mut Maker) {
    let forms: &[&[Record]] = &[
        // Right ones.
        &[(0, 0, 0, 0)],
        &[(1, 0, 0, 0)],
        &[(0, 0, 3, 0)],
        &[(0, 3, 3, 0)],
        &[(0, 0, 0, 0), (0, 0, 0, 1)],
        &[(0, 1, 1, 0), (0, 1, 1, 0), (1, 1, 1, 2)],
        &[(0, 0, 1, 0), (0, 1, 3, 0), (0, 0, 3, 2)],
        &[(0, 1, 2, 0), (1, 0, 3, 1)],
        &[
            (0, 0, 0, 0),
            (0, 0, 2, 0),
            (0, 2, 2, 0),
            (0, 2, 3, 0),
            (0, 0, 3, 4),
        ],
        &[(0, 0, 1, 0), (0, 0, 1, 1), (0, 2, 3, 0), (0, 0, 3, 2)],
        // No record, and a rule or a span out of bounds.
        &[],
        &[(2, 0, 0, 0)],
        &[(255, 0, 0, 0)],
        &[(0, 1, 0, 0)],
        &[(0, 0, 4, 0)],
        &[(0, 0, 255, 0)],
        &[(0, 4, 4, 0)],
        // Too few records to take.
        &[(0, 0, 0, 1)],
        &[(0, 0, 0, 65_535)],
        &[(0, 0, 0, 0), (0, 0, 0, 2)],
        &[(0, 0, 0, 0), (0, 0, 0, 257)],
        &[(0, 0, 1, 0), (0, 0, 1, 1), (0, 0, 1, 2)],
        // More than one left.
        &[(0, 0, 0, 0), (0, 0, 0, 0)],
        &[(0, 0, 1, 0), (0, 1, 3, 0), (0, 0, 3, 1)],
        &[(0, 0, 1, 0), (0, 1, 2, 0), (0, 2, 3, 0), (0, 1, 3, 2)],
        // Overlap, out of order, outside the span.
        &[(0, 0, 2, 0), (0, 1, 3, 0), (0, 0, 3, 2)],
        &[(0, 1, 3, 0), (0, 0, 1, 0), (0, 0, 3, 2)],
        &[(0, 0, 1, 0), (0, 0, 1, 0), (0, 0, 3, 2)],
        &[(0, 0, 2, 0), (0, 1, 3, 1)],
        &[(0, 1, 3, 0), (0, 0, 2, 1)],
        &[(0, 0, 3, 0), (0, 1, 2, 1)],
        &[(0, 2, 2, 0), (0, 1, 1, 0), (0, 0, 3, 2)],
        &[(0, 0, 1, 0), (0, 3, 3, 0), (0, 2, 2, 0), (0, 0, 3, 3)],
    ];
    for form in forms {
        for (version, from, length) in PLACES {
            one_by_hand(maker, version, form, from, length);
        }
    }
}

/// A version, how far a form stands from the line's beginning, and the line's length:
/// most end where the line does.
const PLACES: [(u64, u16, u16); 4] = [(1, 0, 3), (2, 0, 256), (2, 253, 256), (2, 3_997, 4_000)];

fn one_by_hand(maker: &mut Maker, version: u64, form: &[Record], from: u16, length: u16) {
    let moved = |&(rule, start, end, children): &Record| (rule, start + from, end + from, children);
    let records: Vec<Record> = form.iter().map(moved).collect();
    let bytes = stored(version, &records);
    for (rules, length) in [
        (2, length),
        (1, length),
        (2, length - 1),
        (0, length),
        (300, length),
    ] {
        maker.well_formed(&bytes, rules, length);
    }
    held_against_all(maker, &bytes, 2);
    each_byte(maker, &bytes, 2, length, 4);
    // The other version's number before the same records.
    let mut other = bytes;
    other[0] = 3 - other[0];
    for length in [LONGEST_OF_VERSION_1, LONGEST_LINE] {
        maker.well_formed(&other, 2, length as u16);
    }
}

/// Right ones, and such as would be right by the lower bytes of their positions alone.
fn in_the_higher_byte(maker: &mut Maker) {
    let forms: &[&[Record]] = &[
        &[(0, 0, 256, 0), (0, 0, 512, 1)],
        &[(0, 255, 256, 0), (0, 256, 511, 0), (0, 255, 512, 2)],
        &[(0, 0, 257, 0), (0, 257, 258, 0), (0, 0, 258, 2)],
        &[(0, 256, 0, 0)],
        &[(0, 257, 2, 0)],
        &[(0, 0, 257, 0), (0, 1, 258, 0), (0, 0, 258, 2)],
        &[(0, 257, 258, 0), (0, 2, 3, 0), (0, 0, 512, 2)],
        &[(0, 1, 2, 0), (0, 256, 512, 1)],
        &[(0, 256, 258, 0), (0, 0, 2, 1)],
        &[(0, 0, 768, 0)],
    ];
    for form in forms {
        let bytes = stored(2, form);
        for length in [767, 512, 511, 257, 256] {
            maker.well_formed(&bytes, 1, length);
        }
    }
}

/// Heads alone, of every length and with every small count, and with those whose
/// length passes two bytes.
fn heads_alone(maker: &mut Maker) {
    for (version, length) in VERSIONS.into_iter().zip([3, LONGEST_LINE as u16]) {
        for cut in 0..HEAD as usize {
            let none = head(version, HEAD, 0);
            maker.well_formed(&none[..cut], 2, length);
        }
        let passing = u64::from(u16::MAX) / record_length(version);
        for count in [0, 1, passing - 1, passing, u16::MAX.into()] {
            for total in [0, HEAD, stored_length(version, 1), u16::MAX.into()] {
                maker.well_formed(&head(version, total, count), 2, length);
            }
        }
    }
}

/// Seven records of version 1 are as long as five of version 2.
fn seven_records_or_five(maker: &mut Maker) {
    let length = stored_length(1, 7);
    for version in VERSIONS {
        for (count, children) in [(5, 4), (5, 6), (7, 4), (7, 6)] {
            let mut bytes = head(version, length, count);
            bytes.resize(length as usize - 1, 0);
            bytes.push(children);
            held_against_all(maker, &bytes, 1);
        }
    }
}

/// A tree grown at random, always well formed: a record takes some of the newest and
/// its span reaches round them.
struct Growing {
    /// How many rules there are, and how long the line is.
    rules: u64,
    length: u64,
    /// How far a span may reach beyond what it has to.
    step: u64,
    made: Vec<Record>,
    /// The spans of the records not yet taken, the newest last.
    untaken: Vec<(u64, u64)>,
}

impl Growing {
    fn grow(&mut self, maker: &mut Maker, children: usize) {
        let taken = self.untaken.split_off(self.untaken.len() - children);
        let from = self.untaken.last().map_or(0, |&(_, end)| end);
        let (first, last) = match (taken.first(), taken.last()) {
            (Some(&(start, _)), Some(&(_, end))) => (start, end),
            _ => {
                let at = maker.random.between(from, self.reach(from));
                (at, at)
            }
        };
        let start = maker.random.between(from, first);
        let end = maker.random.between(last, self.reach(last));
        let rule = maker.random.below(self.rules) as u8;
        self.untaken.push((start, end));
        self.made
            .push((rule, start as u16, end as u16, children as u16));
    }

    fn reach(&self, position: u64) -> u64 {
        (position + self.step).min(self.length)
    }
}

fn random_tree(maker: &mut Maker, records: u64, rules: u64, length: u64) -> Vec<Record> {
    let step = match version(length) {
        1 => 2,
        _ => maker.random.pick(&[2, 60, 256, 2_000]),
    };
    let mut growing = Growing {
        rules,
        length,
        step,
        made: Vec::new(),
        untaken: Vec::new(),
    };
    for _ in 1..records {
        let most = growing.untaken.len() as u64;
        let children = if maker.random.chance(55) {
            0
        } else {
            maker.random.below(most + 1)
        };
        growing.grow(maker, children as usize);
    }
    growing.grow(maker, growing.untaken.len());
    growing.made
}

/// A copy with the first byte of one position changed: in version 2 only the higher one.
fn one_position_wrong(maker: &mut Maker, version: u64, stored: &[u8]) -> Vec<u8> {
    let mut wrong = stored.to_vec();
    let records = stored_records(version, stored);
    let record = HEAD + record_length(version) * maker.random.below(records);
    let at = (record + 1 + version * maker.random.below(2)) as usize;
    let step = maker.random.pick(&[1, 2, 15, 255]);
    wrong[at] = wrong[at].wrapping_add(step);
    wrong
}

/// How many records a stored reading has.
fn stored_records(version: u64, stored: &[u8]) -> u64 {
    (stored.len() as u64 - HEAD) / record_length(version)
}

fn grown_at_random(maker: &mut Maker) {
    for lengths in [[0, 1, 5, 30, 255], [256, 300, 511, 1_000, 4_000]] {
        for _ in 0..180 {
            let records = maker.random.between(1, 20);
            let rules = maker.random.between(1, 5);
            let length = maker.random.pick(&lengths);
            let tree = random_tree(maker, records, rules, length);
            let bytes = stored(version(length), &tree);
            let (rules, line) = (rules as u16, length as u16);
            maker.well_formed(&bytes, rules, line);
            for _ in 0..3 {
                let wrong = one_wrong(maker, &bytes);
                maker.well_formed(&wrong, rules, line);
            }
            let wrong = one_position_wrong(maker, version(length), &bytes);
            maker.well_formed(&wrong, rules, line);
        }
    }
}

/// Well formed has no ceiling of a thousand records.
fn over_a_thousand(maker: &mut Maker) {
    for (version, at, length) in [(1, 0, 0), (2, 3_000, 3_000)] {
        let leaf: Record = (0, at, at, 0);
        let with = |children: u64| (0, at, at, children as u16);
        for records in [MOST_RECORDS + 1, most_records(version)] {
            let mut flat = vec![leaf; records as usize - 1];
            flat.push(with(records - 1));
            maker.well_formed(&stored(version, &flat), 1, length);
            let mut chain = vec![leaf];
            chain.resize(records as usize, with(1));
            maker.well_formed(&stored(version, &chain), 1, length);
            random_of_so_many(maker, version, records);
        }
        // One leaf too many, one child too many, and as many as there are.
        let mut left = vec![leaf; 1_010];
        for children in [1_008, 1_010, 1_009] {
            left[1_009] = with(children);
            maker.well_formed(&stored(version, &left), 1, length);
        }
    }
}

/// A random tree of so many records, and a byte of it wrong.
fn random_of_so_many(maker: &mut Maker, version: u64, records: u64) {
    let longest = match version {
        1 => LONGEST_OF_VERSION_1,
        _ => LONGEST_LINE,
    };
    let tree = stored(version, &random_tree(maker, records, 3, longest as u64));
    maker.well_formed(&tree, 3, longest as u16);
    let wrong = one_wrong(maker, &tree);
    maker.well_formed(&wrong, 3, longest as u16);
}

#[cfg(test)]
mod tests {
    use super::*;

    /// What is made by hand is what the reader leaves.
    #[test]
    fn as_the_reader_stores_it() {
        let a = sheets::sheet_a().bytes();
        let records = [(1, 0, 1, 0), (0, 0, 1, 1), (1, 2, 3, 0), (0, 0, 3, 2)];
        for (number, length) in [(1, 3), (1, 255), (2, 256), (2, 4_000)] {
            let mut line = b"7+2".to_vec();
            line.resize(length, b' ');
            let trial = Trial::of(&a, &line, false, 100);
            assert_eq!(trial.stored, stored(number, &records), "{length} bytes");
        }
    }

    #[test]
    fn random_trees_are_well_formed_for_their_lines_alone() {
        let mut maker = Maker::new(1);
        for length in [0, 1, 255, 256, 300, 4_000] {
            for records in [1, 2, 7, 300] {
                let tree = random_tree(&mut maker, records, 3, length);
                let bytes = stored(version(length), &tree);
                assert_eq!(stored_records(version(length), &bytes), records);
                assert!(independent::well_formed(&bytes, 3, length));
                let others = [255, 256]
                    .into_iter()
                    .filter(|&line| version(line) != version(length));
                for other in others.chain([4_001, 65_535]) {
                    assert!(!independent::well_formed(&bytes, 3, other));
                }
            }
        }
    }

    #[test]
    fn a_command_carries_so_many_records() {
        assert_eq!(VERSIONS.map(most_records), [1_432, 1_023]);
        for version in VERSIONS {
            assert!(stored_length(version, most_records(version)) <= MOST_ROOM);
        }
    }
}
