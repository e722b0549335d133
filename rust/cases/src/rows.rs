//! Rows: a repetition's next visit of itself takes the place of the one before. At
//! 511, 512, 513 and 514 open visits, refused for effort at each visit of a turn,
//! come back to in their middle, with trees, in each other, and where rules grow.
//! Most are also read at the edges of a reader by which every turn opens one more.

mod come_back;

use independent::{Ways, DEEP};
use sheets::{sum, Sheet};

use crate::deep::{around_a_refusal, padded};
use crate::maker::{Maker, Trial};
use crate::reach::not_free;

pub fn add(maker: &mut Maker) {
    for (row, tails) in rows_and_tails() {
        for free in [true, false] {
            at_the_edge(maker, row, tails, free);
        }
    }
    every_allowance(maker);
    come_back::add(maker);
    rows_of_trees(maker);
    nested_sums(maker);
}

/// Puts a row's nodes on the sheet, and its rules behind those there are.
type Row = fn(&mut Sheet) -> u16;

/// What stands behind the bytes 'x'.
type Tails = &'static [&'static str];

/// By the dozen.
const MANY: &str = "aaaaaaaaaaaaaaaaaaaaaaaaaaaaaaaaaaaa";

fn rows_and_tails() -> Vec<(Row, Tails)> {
    vec![
        (bytes, &["", "a", "aa", MANY]),
        (words, &["", "ab", "aba", "abababababababab"]),
        (rows_in_a_row, &["", "aab", "bbb", "aabaabaaabab", MANY]),
        (rows_in_rows, &["", "aabbc", "cccc", "abaabcabcbcab"]),
        (named, &["a", "aaaa", MANY]),
        (
            deeper_at_b,
            &["aaaaaa", "bcd", "aabcda", "aaaaaaabcd", "aaaaabcdabcd"],
        ),
        (
            then_deeper,
            &["aab", "aaaaaaab", "aaaaaaaaaaab", "aaaaaaaaabc"],
        ),
        (
            rows_then_deeper,
            &["abc", "bbbbbbbbc", "ababababababc", "abbbbbbaaaabc"],
        ),
        (kept_then_deeper, &["aab", "aaaaaab", "aaaaaaaaaaabc"]),
        (
            before_more,
            &["bb", "aaaaaaa", "aaaaaaaab", "aaaaaaaaaaabb"],
        ),
        (behind_a_look, &["aaaa", "aaaab", MANY]),
        (
            numbers,
            &["7777777", "777+777", "7777777+7+7", "777777777+77"],
        ),
    ]
}

/// 'a'*
fn bytes(sheet: &mut Sheet) -> u16 {
    let a = sheet.byte(b'a');
    sheet.repetition(a)
}

/// ('a' 'b')*
fn words(sheet: &mut Sheet) -> u16 {
    let word = sheet.word("ab");
    sheet.repetition(word)
}

/// ('a'* 'b')*
fn rows_in_a_row(sheet: &mut Sheet) -> u16 {
    let (inner, b) = (bytes(sheet), sheet.byte(b'b'));
    let child = sheet.sequence(inner, b);
    sheet.repetition(child)
}

/// (('a'* 'b')* 'c')*
fn rows_in_rows(sheet: &mut Sheet) -> u16 {
    let (inner, c) = (rows_in_a_row(sheet), sheet.byte(b'c'));
    let child = sheet.sequence(inner, c);
    sheet.repetition(child)
}

/// N*; N <- M; M <- 'a'
fn named(sheet: &mut Sheet) -> u16 {
    let rule = sheet.roots.len() as u16;
    let (n, m, a) = (sheet.rule(rule), sheet.rule(rule + 1), sheet.byte(b'a'));
    sheet.root(m);
    sheet.root(a);
    sheet.repetition(n)
}

/// ('a' / 'b' 'c' 'd')*: a later turn may be deeper than those before.
fn deeper_at_b(sheet: &mut Sheet) -> u16 {
    let (a, longer) = (sheet.byte(b'a'), sheet.word("bcd"));
    let child = sheet.choice(a, longer);
    sheet.repetition(child)
}

/// 'a'* T; T <- 'b' T / empty: what comes behind a row is as deep as without it.
fn before_more(sheet: &mut Sheet) -> u16 {
    let row = bytes(sheet);
    let (t, b) = (sheet.rule(sheet.roots.len() as u16), sheet.byte(b'b'));
    let on = sheet.sequence(b, t);
    let root = sheet.optional(on);
    sheet.root(root);
    sheet.sequence(row, t)
}

/// (first pads last)?, as deep behind the first as there are pads.
fn maybe_deeper(sheet: &mut Sheet, first: u16, last: u16, pads: usize) -> u16 {
    let deep = padded(sheet, last, pads);
    let more = sheet.sequence(first, deep);
    sheet.optional(more)
}

/// 'a'* ('b' pads 'c')?: nothing else is so deep as what may come behind a row.
fn then_deeper(sheet: &mut Sheet) -> u16 {
    let (row, b, c) = (bytes(sheet), sheet.byte(b'b'), sheet.byte(b'c'));
    let maybe = maybe_deeper(sheet, b, c, 4);
    sheet.sequence(row, maybe)
}

/// !('a' R 'b' 'd') R ('b' pads 'c')?; R <- 'a'*: the same where, on a free sheet, the
/// first turn is kept.
fn kept_then_deeper(sheet: &mut Sheet) -> u16 {
    let row = sheet.rule(sheet.roots.len() as u16);
    let root = bytes(sheet);
    sheet.root(root);
    let [a, b, c] = [b'a', b'b', b'c'].map(|byte| sheet.byte(byte));
    let end = sheet.word("bd");
    let seen = sheet.in_order(&[a, row, end]);
    let not = sheet.not(seen);
    let maybe = maybe_deeper(sheet, b, c, 8);
    sheet.in_order(&[not, row, maybe])
}

/// ('a'* 'b')* ('c' pads 'd')?: the same behind rows in a row.
fn rows_then_deeper(sheet: &mut Sheet) -> u16 {
    let (rows, c, d) = (rows_in_a_row(sheet), sheet.byte(b'c'), sheet.byte(b'd'));
    let maybe = maybe_deeper(sheet, c, d, 4);
    sheet.sequence(rows, maybe)
}

/// !('a'* 'b') 'a'*: on a free sheet the row is kept, and come back to at once.
fn behind_a_look(sheet: &mut Sheet) -> u16 {
    let (row, b) = (bytes(sheet), sheet.byte(b'b'));
    let seen = sheet.sequence(row, b);
    let not = sheet.not(seen);
    sheet.sequence(not, row)
}

/// L; L <- L '+' N / N; N <- [0-9] [0-9]*: rows behind what is held.
fn numbers(sheet: &mut Sheet) -> u16 {
    let rule = sheet.roots.len() as u16;
    let (l, n, plus) = (sheet.rule(rule), sheet.rule(rule + 1), sheet.byte(b'+'));
    let longer = sheet.in_order(&[l, plus, n]);
    let root = sheet.choice(longer, n);
    let digit = sheet.range(b'0', b'9');
    let digits = sheet.one_or_more(digit);
    sheet.root(root);
    sheet.root(digits);
    l
}

/// S <- 'x' S / pads row: three visits deeper with each 'x', four if it is to be not
/// free.
fn tower(row: Row, pads: usize, free: bool) -> Sheet {
    let mut sheet = Sheet::new();
    sheet.root(0);
    let (x, s) = (sheet.byte(b'x'), sheet.rule(0));
    let on = sheet.sequence(x, s);
    let row = row(&mut sheet);
    let deep = padded(&mut sheet, row, pads);
    sheet.roots[0] = sheet.choice(on, deep);
    if free {
        sheet
    } else {
        not_free(sheet)
    }
}

/// Sheets whose rows can be as long as a line, free and not, with what such a line
/// repeats.
pub fn long_rows() -> Vec<(&'static str, [Sheet; 2])> {
    let rows: [(Row, &str); 7] = [
        (bytes, "a"),
        (words, "ab"),
        (rows_in_a_row, "aab"),
        (rows_in_rows, "aabbc"),
        (named, "a"),
        (behind_a_look, "a"),
        (numbers, "77+7"),
    ];
    let both = |row| [true, false].map(|free| tower(row, 0, free));
    rows.map(|(row, unit)| (unit, both(row))).to_vec()
}

/// So many bytes 'x' are nearly too deep.
fn nearly(free: bool) -> usize {
    if free {
        164
    } else {
        123
    }
}

/// The fewest pads with which the line is too deep.
fn pads_too_deep(row: Row, line: &[u8], free: bool) -> usize {
    let deep = |pads: &usize| {
        let table = tower(row, *pads, free).bytes();
        Trial::of(&table, line, false, 6_000).code == DEEP
    };
    (0..40).find(deep).expect("each pad opens one visit")
}

/// The deepest that is read, and one visit deeper: at the edges of both ways. One
/// less and one more: only itself, and where it is refused.
fn at_the_edge(maker: &mut Maker, row: Row, tails: Tails, free: bool) {
    for tail in tails {
        let front = vec![b'x'; nearly(free)];
        let line = [&front, tail.as_bytes()].concat();
        let edge = pads_too_deep(row, &line, free);
        for pads in edge - 2..=edge + 1 {
            maker.table(&tower(row, pads, free).bytes());
            maker.line(&line);
            let whole = maker.random.chance(50);
            if pads == edge || pads == edge - 1 {
                maker.both_edges(Ways::NESTED, whole);
                in_the_turns(maker);
            } else {
                around_a_refusal(maker, whole, 6_000);
            }
        }
    }
}

/// Refused for effort at some of the last visits, most of them in a row.
fn in_the_turns(maker: &mut Maker) {
    let visits = maker.trial(true, 6_000).visits;
    for _ in 0..2 {
        let allowance = visits - maker.random.between(2, 60);
        maker.read_with_enough(true, allowance, 40);
    }
}

/// Short rows refused for effort at each visit.
fn every_allowance(maker: &mut Maker) {
    for (row, line) in [
        (bytes as Row, "aaaaaaaa"),
        (rows_in_a_row, "aabab"),
        (rows_in_rows, "abcbc"),
        (named, "aaaa"),
        (behind_a_look, "aaaa"),
        (numbers, "12+345"),
    ] {
        for free in [true, false] {
            maker.table(&tower(row, 0, free).bytes());
            maker.line(line.as_bytes());
            let visits = maker.trial(false, 1_000).visits;
            for allowance in 1..=visits + 1 {
                maker.read_with_enough(allowance % 2 == 0, allowance, 60);
            }
        }
    }
}

/// About a thousand records: so many for each turn, and the root's.
fn rows_of_trees(maker: &mut Maker) {
    for (rules, lengths) in [
        (9, [110, 111, 112]),
        (8, [124, 125, 126]),
        (4, [249, 250, 255]),
        (3, [1, 40, 255]),
    ] {
        for sheet in [row_of_names(rules), not_free(row_of_names(rules))] {
            maker.table(&sheet.bytes());
            for length in lengths {
                maker.line(&vec![b'a'; length]);
                maker.edges(true, 6_000);
            }
        }
    }
}

/// S <- R*; R <- the next of so many rules, the last 'a'.
pub fn row_of_names(rules: u16) -> Sheet {
    let mut sheet = Sheet::new();
    let r = sheet.rule(1);
    let root = sheet.repetition(r);
    sheet.root(root);
    for rule in 2..=rules {
        let next = sheet.rule(rule);
        sheet.root(next);
    }
    let a = sheet.byte(b'a');
    sheet.root(a);
    sheet
}

/// Long rows of digits inside brackets, where two of four rules grow.
fn nested_sums(maker: &mut Maker) {
    maker.table(&sum().bytes());
    for (brackets, digits) in [(0, 255), (1, 200), (2, 90), (3, 40), (80, 100), (90, 10)] {
        let line = [vec![b'('; brackets], vec![b'7'; digits]].concat();
        maker.line(&line);
        maker.both_edges(Ways::NESTED, false);
    }
}

#[cfg(test)]
mod tests {
    use super::*;
    use crate::maker::USUAL_WORK;
    use crate::version::FULL_ROOM;
    use independent::{Answer, READ, RECORDS};

    fn read(sheet: &Sheet, line: &[u8]) -> Answer {
        let (mut work, mut room) = (vec![0; USUAL_WORK as usize], vec![0; FULL_ROOM]);
        independent::read(&sheet.bytes(), line, 6_000, &mut work, &mut room, false)
    }

    /// Behind k bytes 'x' the range of the row is the open visit number 3k + 3 and
    /// the pads, or 4k + 4 and the pads.
    #[test]
    fn the_edge_is_that_of_an_empty_row() {
        for (free, fewest) in [(true, 513 - 3 * 164 - 3), (false, 513 - 4 * 123 - 4)] {
            for tail in ["", "a", MANY] {
                let line = [vec![b'x'; nearly(free)], tail.into()].concat();
                assert_eq!(pads_too_deep(bytes, &line, free), fewest);
                let read = read(&tower(bytes, fewest - 1, free), &line);
                assert_eq!((read.code, read.matched), (READ, line.len() as u64));
            }
        }
    }

    #[test]
    fn which_towers_are_free() {
        for (row, _) in rows_and_tails() {
            let report = |free| independent::report(&tower(row, 1, free).bytes());
            assert!(report(true).free || report(true).how_many == 1);
            assert!(!report(false).free);
        }
    }

    #[test]
    fn a_thousand_records_and_one_more() {
        let records = |rules, length| {
            let answer = read(&row_of_names(rules), &vec![b'a'; length]);
            (answer.code, answer.records)
        };
        assert_eq!(records(9, 111), (READ, 1_000));
        assert_eq!(records(8, 125), (RECORDS, 1_001));
        assert_eq!(records(4, 249), (READ, 997));
        assert_eq!(records(4, 250), (RECORDS, 1_001));
    }
}
