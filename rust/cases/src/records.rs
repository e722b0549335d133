//! Trees that double: at the limit of a thousand records, over it, and past
//! what 64 bits can count.

use sheets::Sheet;

use crate::maker::Maker;
use crate::reach::not_free;

pub fn add(maker: &mut Maker) {
    for rules in (1..=14).chain([31, 32, 33, 63, 64]) {
        maker.table(&each_the_next_twice(rules).bytes());
        ask(maker, &[b"", b"a"], 400);
    }
    let exact = [
        1, 2, 3, 255, 256, 257, 300, 512, 998, 999, 1_000, 1_001, 1_002, 2_000,
    ];
    let beyond = [16, 32, 63, 64, 65].map(|bits| 1_u128 << bits);
    let around = beyond
        .into_iter()
        .flat_map(|power| [power - 1, power, power + 1, power + 7]);
    for records in exact.into_iter().chain(around) {
        maker.table(&exactly(records).bytes());
        ask(maker, &[b"", b"a"], 600);
    }
    for records in [10, 500, 999, 1_000, 1_001, 1_002] {
        maker.table(&not_free(exactly(records)).bytes());
        ask(maker, &[b""], 14_000);
    }
    for steps in (1..=12).chain([30, 31, 32, 33, 40, 60]) {
        maker.table(&held_four_times(steps).bytes());
        ask(maker, &[b"a", b"aa", b"b"], 4_000);
    }
    for steps in [1, 2, 3, 4, 10] {
        maker.table(&nested_by_growth(steps).bytes());
        maker.report();
        for length in [1, 2, 9, 50] {
            maker.line(&vec![b'a'; length]);
            edges_both_ways(maker, 8_000);
        }
    }
    many_records_over_a_line(maker);
}

fn ask(maker: &mut Maker, lines: &[&[u8]], allowance: u64) {
    maker.report();
    for line in lines {
        maker.line(line);
        edges_both_ways(maker, allowance);
    }
}

/// The prefix reading at its edges, the whole-line reading once or at its
/// edges too when it is short.
fn edges_both_ways(maker: &mut Maker, allowance: u64) {
    maker.edges(false, allowance);
    let visits = maker.trial(true, maker.affordable(allowance)).visits;
    if visits < 200 {
        maker.edges(true, allowance);
    } else {
        maker.read_with_enough(true, visits, maker.full_room());
    }
}

/// So many rules, each the next one twice through one shared node, the last
/// empty.
pub fn each_the_next_twice(rules: u16) -> Sheet {
    let mut sheet = Sheet::new();
    for rule in 1..rules {
        let next = sheet.rule(rule);
        let twice = sheet.sequence(next, next);
        sheet.root(twice);
    }
    let nothing = sheet.empty();
    sheet.root(nothing);
    sheet
}

/// A sheet whose reading has exactly so many records on every line: a root
/// over empty trees.
pub fn exactly(records: u128) -> Sheet {
    let mut sheet = Sheet::new();
    let nothing = sheet.empty();
    let one = sheet.rule(1);
    let root = so_many(&mut sheet, one, records - 1).unwrap_or(nothing);
    sheet.root(root);
    sheet.root(nothing);
    sheet
}

/// `node` so many times in a row, by doubling; `None` for no times.
fn so_many(sheet: &mut Sheet, node: u16, times: u128) -> Option<u16> {
    let mut row = None;
    let mut doubled = node;
    let mut left = times;
    while left > 0 {
        if left % 2 == 1 {
            row = Some(match row {
                None => doubled,
                Some(before) => sheet.sequence(before, doubled),
            });
        }
        left /= 2;
        if left > 0 {
            doubled = sheet.sequence(doubled, doubled);
        }
    }
    row
}

/// Doubling where nothing is kept, through what is held.
///
/// Rule i <- &'a' (rule i, rule i+1 / rule i-1 four times); the last is
/// &'a' (rule k-1 four times) 'a'. The first attempt of each rule holds a
/// match of nothing with four times the trees its predecessor holds; the
/// second goes on to the next rule. Four to the k trees in few visits.
fn held_four_times(steps: u16) -> Sheet {
    let mut sheet = Sheet::new();
    let a = sheet.byte(b'a');
    let no_a = sheet.not(a);
    let a_ahead = sheet.not(no_a);
    let nothing = sheet.empty();
    let uses: Vec<u16> = (0..=steps).map(|rule| sheet.rule(rule)).collect();
    for rule in 0..=usize::from(steps) {
        let four = match rule {
            0 => nothing,
            _ => so_many(&mut sheet, uses[rule - 1], 4).expect("four is some"),
        };
        let body = match uses.get(rule + 1) {
            Some(&next) => {
                let on = sheet.sequence(uses[rule], next);
                sheet.choice(on, four)
            }
            None => sheet.sequence(four, a),
        };
        let root = sheet.sequence(a_ahead, body);
        sheet.root(root);
    }
    sheet
}

/// S <- W1 'a' / 'a'; W1 <- W2; ... the last W <- S: each byte nests one tree
/// for every rule, so trees are far deeper than visits are open.
pub fn nested_by_growth(steps: u16) -> Sheet {
    let mut sheet = Sheet::new();
    let a = sheet.byte(b'a');
    let first = sheet.rule(1 % (steps + 1));
    let longer = sheet.sequence(first, a);
    let root = sheet.choice(longer, a);
    sheet.root(root);
    for step in 1..=steps {
        let next = sheet.rule((step + 1) % (steps + 1));
        sheet.root(next);
    }
    sheet
}

/// S <- C*; C <- D; D <- E; E <- F; F <- 'a': four records a byte.
pub fn four_a_byte() -> Sheet {
    let mut sheet = Sheet::new();
    let uses: Vec<u16> = (1..=4).map(|rule| sheet.rule(rule)).collect();
    let all = sheet.repetition(uses[0]);
    let a = sheet.byte(b'a');
    sheet.root(all);
    sheet.root(uses[1]);
    sheet.root(uses[2]);
    sheet.root(uses[3]);
    sheet.root(a);
    sheet
}

/// Records made along a line rather than by doubling: with one rule more
/// around each byte, four lengths around the limit.
fn many_records_over_a_line(maker: &mut Maker) {
    // S <- S 'a' / 'a': one record a byte, nested as deep as the line.
    for (sheet, allowance) in [(four_a_byte(), 3_000), (nested_by_growth(0), 2_000)] {
        maker.table(&sheet.bytes());
        for length in [1, 100, 249, 250, 251, 254, 255, 256] {
            maker.line(&vec![b'a'; length]);
            let room = maker.full_room();
            maker.read_with_enough(false, allowance, room);
            maker.read_with_enough(true, allowance, room - 1);
        }
    }
    // S <- W 'a' / 'a'; W <- V; V <- U; U <- S: four records a byte by growth.
    maker.table(&nested_by_growth(3).bytes());
    for length in [200, 250, 251, 255] {
        maker.line(&vec![b'a'; length]);
        maker.read_with_enough(true, 10_000, maker.full_room());
    }
}

#[cfg(test)]
mod tests {
    use super::*;

    fn records_of(sheet: &Sheet, line: &[u8], allowance: u64) -> independent::Answer {
        let mut work = vec![0; 200_000];
        let mut room = vec![0; crate::version::FULL_ROOM];
        independent::read(&sheet.bytes(), line, allowance, &mut work, &mut room, true)
    }

    #[test]
    fn exactly_so_many_records() {
        for records in [1, 2, 7, 300, 999, 1_000] {
            let answer = records_of(&exactly(records), b"", 400);
            assert_eq!((answer.code, u128::from(answer.records)), (0, records));
            let answer = records_of(&not_free(exactly(records)), b"", 14_000);
            assert_eq!((answer.code, u128::from(answer.records)), (0, records));
        }
        for records in [1_001, 1 << 64, (1 << 64) + 7] {
            assert_eq!(records_of(&exactly(records), b"", 400).code, 15);
        }
    }

    #[test]
    fn held_trees_grow_fourfold() {
        let mut last = 0;
        for steps in 1..=4 {
            let answer = records_of(&held_four_times(steps), b"a", 4_000);
            assert_eq!((answer.code, answer.matched), (0, 1));
            assert!(answer.records > 3 * last);
            last = answer.records;
        }
        assert_eq!(records_of(&held_four_times(40), b"a", 4_000).code, 15);
    }
}
