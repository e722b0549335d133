//! A repetition's next visit of itself takes the place of the one before: it
//! counts, but no more visits are open. Rows at the edge of what may be open, and
//! rows that are refused for effort.

use super::calls::*;
use super::sheets::*;
use independent::*;

/// The answer where each turn opens one visit more.
pub fn before(table: &[u8], line: &[u8], allowance: u64) -> Answer {
    reads_with(Ways::NESTED, table, line, allowance, false).answer
}

/// The answer of a prefix reading, which was the same before.
pub fn as_before(table: &[u8], line: &[u8]) -> Answer {
    let now = prefix(table, line);
    assert_eq!(before(table, line, 2_500), now);
    now
}

/// Rule and span of each record, in stored order.
pub fn records(table: &[u8], line: &[u8]) -> Vec<(u8, u8, u8)> {
    let outcome = reads(table, line, 2_500, false);
    assert_eq!(outcome.answer.code, READ);
    let stored = 5 + 5 * outcome.answer.records as usize;
    let record = |bytes: &[u8]| (bytes[0], bytes[1], bytes[2]);
    outcome.room[5..stored].chunks(5).map(record).collect()
}

/// S <- [0-9]*
fn digits() -> Vec<u8> {
    table(&[1], &[(RANGE, 48, 57), (REPEAT, 0, 0)])
}

/// Each of the 256 positions is a visit of the repetition and one of the range.
#[test]
fn a_row_as_long_as_a_line() {
    let line = [b'7'; 255];
    let read = answer(READ, 0, 255, 512, 1, 255);
    assert_eq!(as_before(&digits(), &line), read);
    let enough = reads(&digits(), &line, 512, true).answer;
    assert_eq!(enough, read);
    let short = reads(&digits(), &line, 511, true).answer;
    assert_eq!(short, answer(EFFORT, 255, 0, 511, 0, 254));
}

/// The repetition at k is the visit number 2k + 1, the range 2k + 2.
#[test]
fn a_row_refused_for_effort_at_each_visit() {
    let line = b"0123456789";
    for allowance in 1..22_u64 {
        let place = allowance / 2;
        let furthest = place.saturating_sub(1);
        let refused = reads(&digits(), line, allowance, false).answer;
        assert_eq!(refused, answer(EFFORT, place, 0, allowance, 0, furthest));
        assert_eq!(before(&digits(), line, allowance), refused);
    }
    assert_eq!(
        reads(&digits(), line, 22, false).answer,
        answer(READ, 0, 10, 22, 1, 10)
    );
}

/// 510 nots over [0-9]*: all 512 nodes are open at the range, at each turn.
#[test]
fn a_row_as_long_as_a_line_below_510_visits() {
    let mut nodes = vec![(RANGE, 48, 57), (REPEAT, 0, 0)];
    for child in 1..511 {
        nodes.push((NOT, child, 0));
    }
    let sheet = table(&[511], &nodes);
    let line = [b'7'; 255];
    for length in [0, 1, 2, 254, 255] {
        let visits = 510 + 2 * (length + 1);
        let read = answer(READ, 0, 0, visits, 1, length);
        assert_eq!(prefix(&sheet, &line[..length as usize]), read);
    }
    // The repetition at 1 was the visit number 512 among those open.
    let refused = answer(DEEP, 1, 0, 510 + 3, 0, 0);
    assert_eq!(before(&sheet, &line[..1], 2_500), refused);
    assert_eq!(before(&sheet, &line, 2_500), refused);
}

/// S <- 'x' S / pads row, the row's nodes as given and each pad a choice before the
/// empty node. Behind k bytes 'x' S's choice is the open visit number 3k + 1, and
/// the pads come below it, then the row.
pub fn tower(row: &[(u8, u16, u16)], pads: u16) -> Vec<u8> {
    let x = row.len() as u16;
    let mut nodes = row.to_vec();
    nodes.extend([
        (RANGE, 120, 120),
        (RULE, 0, 0),
        (SEQ, x, x + 1),
        (EMPTY, 0, 0),
    ]);
    let mut top = x - 1;
    for _ in 0..pads {
        nodes.push((CHOICE, top, x + 3));
        top = nodes.len() as u16 - 1;
    }
    nodes.push((CHOICE, x + 2, top));
    table(&[nodes.len() as u16 - 1], &nodes)
}

/// S <- 'x' S / pads [0-9]*. Behind k bytes 'x' the digit's range is the open visit
/// number 3k + 3 and the pads.
fn digits_below(pads: u16) -> Vec<u8> {
    tower(&[(RANGE, 48, 57), (REPEAT, 0, 0)], pads)
}

/// Two bytes 'x', and so many digits.
fn row_behind_two(digits: usize) -> Vec<u8> {
    [b"xx".as_slice(), &vec![b'7'; digits]].concat()
}

/// With 503 pads the range is the 512th visit open, however long the row is.
#[test]
fn the_deepest_row_is_read_and_one_visit_deeper_none() {
    for digits in [0, 1, 9, 253] {
        let line = row_behind_two(digits);
        let length = line.len() as u64;
        // 11 visits down to the choice at 2 and the 'x' that fails there.
        let visits = 11 + 503 + 2 * (digits as u64 + 1);
        let read = answer(READ, 0, length, visits, 3, length);
        assert_eq!(whole(&digits_below(503), &line), read);
        // The range is the 513th, with the first digit or without one.
        let range = answer(DEEP, 2, 0, 11 + 504 + 1, 0, 2);
        assert_eq!(whole(&digits_below(504), &line), range);
        // The repetition is.
        let repetition = answer(DEEP, 2, 0, 11 + 505, 0, 2);
        assert_eq!(whole(&digits_below(505), &line), repetition);
    }
    let line = row_behind_two(253);
    let spans = [(0, 2, 255), (0, 1, 255), (0, 0, 255)];
    assert_eq!(records(&digits_below(503), &line), spans);
}

/// Each turn opened a visit more: with 503 pads not even one digit was read, with
/// 250 the longest row.
#[test]
fn rows_that_were_too_deep() {
    let deep = before(&digits_below(503), &row_behind_two(1), 2_500);
    assert_eq!(deep, answer(DEEP, 3, 0, 11 + 503 + 3, 0, 2));
    let line = row_behind_two(253);
    assert_eq!(before(&digits_below(503), &line, 2_500), deep);
    assert_eq!(as_before(&digits_below(250), &line).code, READ);
    let deep = before(&digits_below(251), &line, 2_500);
    assert_eq!((deep.code, deep.place), (DEEP, 255));
    assert_eq!(prefix(&digits_below(251), &line).code, READ);
}

/// A turn is refused for effort also where 512 visits have been open, and is
/// never too deep.
#[test]
fn the_deepest_row_refused_for_effort() {
    let line = row_behind_two(253);
    let first_turn = 11 + 503 + 2;
    for turn in [0, 1, 100, 252] {
        let visits = first_turn + 2 * turn;
        let refused = reads(&digits_below(503), &line, visits, true).answer;
        assert_eq!(refused, answer(EFFORT, 3 + turn, 0, visits, 0, 2 + turn));
        let range = reads(&digits_below(503), &line, visits + 1, true).answer;
        assert_eq!(range, answer(EFFORT, 3 + turn, 0, visits + 1, 0, 2 + turn));
    }
}

/// ('a' / 'b' 'c' 'd')*: 'c' is one visit deeper than the 'b' that fails at the
/// row's end, and too deep at whichever turn it comes.
#[test]
fn a_later_turn_is_as_deep_as_the_first() {
    let sheet = |pads| {
        let row = [
            (RANGE, 97, 97),
            (RANGE, 98, 98),
            (RANGE, 99, 99),
            (RANGE, 100, 100),
            (SEQ, 2, 3),
            (SEQ, 1, 4),
            (CHOICE, 0, 5),
            (REPEAT, 6, 0),
        ];
        tower(&row, pads)
    };
    // Behind three 'x' the repetition is the open visit number 11 and the pads, the
    // choice 12, 'b' 14, 'c' 15.
    for (line, place) in [
        (b"xxxbcd".as_slice(), 4),
        (b"xxxabcda", 5),
        (b"xxxaaaaaabcd", 10),
    ] {
        assert_eq!(whole(&sheet(497), line).code, READ);
        let deep = whole(&sheet(498), line);
        assert_eq!(
            (deep.code, deep.place, deep.furthest),
            (DEEP, place, place - 1)
        );
        let row = whole(&sheet(498), b"xxxaaaaaaaa");
        assert_eq!((row.code, row.matched), (READ, 11));
    }
}

/// S <- 'a'* T; T <- 'x' T / empty: what comes behind a row is as deep as without
/// it. At the j-th 'x' T's choice is the open visit number 3j + 3, the range 3j + 5.
#[test]
fn behind_a_row_as_many_visits_are_open_as_before_it() {
    let sheet = deeper_behind_a_row();
    for row in [0, 1, 2, 80] {
        let line = |xs| [vec![b'a'; row], vec![b'x'; xs]].concat();
        assert_eq!(as_before(&sheet, &line(169)).code, READ);
        let deep = as_before(&sheet, &line(170));
        assert_eq!((deep.code, deep.place), (DEEP, row as u64 + 170));
    }
}
