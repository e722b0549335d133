//! Rows on free sheets, each pair of which is kept, rows in rows, rows with trees,
//! and rows where rules grow.

use super::calls::*;
use super::in_place::{as_before, before, records, tower};
use super::sheets::*;
use independent::*;

/// S <- R 'x' / 'a' R 'y' / R; R <- the letters up to this one, repeated.
fn letters_thrice(last: u16) -> Vec<u8> {
    let nodes = [
        (RULE, 1, 0),
        (RANGE, 120, 120),
        (SEQ, 0, 1),
        (RANGE, 97, 97),
        (RANGE, 121, 121),
        (SEQ, 0, 4),
        (SEQ, 3, 5),
        (CHOICE, 6, 0),
        (CHOICE, 2, 7),
        (RANGE, 97, last),
        (REPEAT, 9, 0),
    ];
    table(&[8, 10], &nodes)
}

/// The first R keeps the row at 0, 1, 2 and 3. Behind the 'a' R's use at 1 is new,
/// and its row is kept; R at 0 is kept by its use.
#[test]
fn every_position_of_a_row_is_kept() {
    let sheet = letters_thrice(122);
    for line in [b"abc", b"aby", b"abx"] {
        // 3 and 2 x 4 for the row, 'x' at 3; 5 and 'y' at 3; then one.
        let read = answer(READ, 0, 3, 12 + 3 + 1 + 2 + 1 + 1, 2, 3);
        assert_eq!(as_before(&sheet, line), read);
        assert_eq!(records(&sheet, line), [(1, 0, 3), (0, 0, 3)]);
    }
    // Not behind an 'a': the third comes at once.
    assert_eq!(as_before(&sheet, b"b"), answer(READ, 0, 1, 8 + 3 + 1, 2, 1));
    // 'y' at 3 was the visit number 19, R's row at 1 number 18.
    for (allowance, place) in [(19, 0), (18, 3), (17, 1), (16, 1), (15, 1), (14, 0)] {
        let refused = reads(&sheet, b"abc", allowance, false).answer;
        assert_eq!(refused, answer(EFFORT, place, 0, allowance, 0, 3));
    }
}

/// With R <- [a-c]* the row ends before the last byte.
#[test]
fn a_try_that_comes_back_into_a_row() {
    let sheet = letters_thrice(99);
    assert_eq!(as_before(&sheet, b"abx"), answer(READ, 0, 3, 10, 2, 2));
    assert_eq!(records(&sheet, b"abx"), [(1, 0, 2), (0, 0, 3)]);
    assert_eq!(as_before(&sheet, b"aby"), answer(READ, 0, 3, 17, 2, 2));
    assert_eq!(records(&sheet, b"aby"), [(1, 1, 2), (0, 0, 3)]);
    assert_eq!(as_before(&sheet, b"abc"), answer(READ, 0, 3, 20, 2, 3));
    let refused = |allowance| reads(&sheet, b"aby", allowance, true).answer;
    assert_eq!(refused(16), answer(EFFORT, 2, 0, 16, 0, 2));
    assert_eq!(refused(15), answer(EFFORT, 1, 0, 15, 0, 2));
}

/// S <- 'a' R 'y' / R; R <- D*; D <- [a-z]. The first try keeps the row at 1 and on,
/// the turn at 1 of the second takes it, its trees behind that of the first D.
#[test]
fn a_turn_that_is_kept() {
    let nodes = [
        (RULE, 1, 0),
        (RANGE, 97, 97),
        (RANGE, 121, 121),
        (SEQ, 0, 2),
        (SEQ, 1, 3),
        (CHOICE, 4, 0),
        (RULE, 2, 0),
        (REPEAT, 6, 0),
        (RANGE, 97, 122),
    ];
    let sheet = table(&[5, 7, 8], &nodes);
    // 5 and 3 x 3 for the row, 'y' at 3; R, its row, D and the range at 0, the turn.
    let visits = 5 + 9 + 1 + 4 + 1;
    assert_eq!(as_before(&sheet, b"abc"), answer(READ, 0, 3, visits, 5, 3));
    let spans = [(2, 0, 1), (2, 1, 2), (2, 2, 3), (1, 0, 3), (0, 0, 3)];
    assert_eq!(records(&sheet, b"abc"), spans);
    let refused = reads(&sheet, b"abc", visits - 1, false).answer;
    assert_eq!(refused, answer(EFFORT, 1, 0, visits - 1, 0, 3));
}

/// ('a'* 'b')*: the inner row is one of its own at each turn of the outer one.
#[test]
fn rows_in_a_row() {
    let nodes = [
        (RANGE, 97, 97),
        (REPEAT, 0, 0),
        (RANGE, 98, 98),
        (SEQ, 1, 2),
        (REPEAT, 3, 0),
    ];
    let sheet = table(&[4], &nodes);
    // A turn over m bytes 'a' and a 'b' is 2 + 2 (m + 1) + 1 visits.
    assert_eq!(
        as_before(&sheet, b"aabab"),
        answer(READ, 0, 5, 9 + 7 + 5, 1, 5)
    );
    assert_eq!(as_before(&sheet, b"aaba"), answer(READ, 0, 3, 9 + 7, 1, 4));
    assert_eq!(as_before(&sheet, b"bbb"), answer(READ, 0, 3, 4 * 5, 1, 3));
    assert_eq!(as_before(&sheet, b""), answer(READ, 0, 0, 5, 1, 0));
    // The outer row's turn at 3; then the inner one's turn at 4, its range, and 'b'.
    for (allowance, place, furthest) in [(9, 3, 2), (13, 4, 3), (14, 4, 3), (15, 4, 4)] {
        let refused = reads(&sheet, b"aabab", allowance, false).answer;
        assert_eq!(refused, answer(EFFORT, place, 0, allowance, 0, furthest));
    }
}

/// The same below pads: behind two 'x' the inner range is the open visit number
/// 11 and the pads, whatever the turns of both.
#[test]
fn rows_in_a_row_at_the_edge() {
    let sheet = |pads| {
        let row = [
            (RANGE, 97, 97),
            (REPEAT, 0, 0),
            (RANGE, 98, 98),
            (SEQ, 1, 2),
            (REPEAT, 3, 0),
        ];
        tower(&row, pads)
    };
    for row in [b"xx".as_slice(), b"xxaaab", b"xxaabaab", b"xxbbbbbaaaaaaab"] {
        let line = [row, &b"aab".repeat(70)].concat();
        assert_eq!(whole(&sheet(501), &line).matched, line.len() as u64);
        let deep = whole(&sheet(502), &line);
        assert_eq!((deep.code, deep.place, deep.furthest), (DEEP, 2, 2));
    }
}

/// S <- R*; R <- the next of so many rules, the last 'a'.
fn named(rules: u16) -> Vec<u8> {
    let mut nodes = vec![(RANGE, 97, 97), (RULE, 1, 0), (REPEAT, 1, 0)];
    let mut roots = vec![2];
    for rule in 2..=rules {
        roots.push(nodes.len() as u16);
        nodes.push((RULE, rule, 0));
    }
    roots.push(0);
    table(&roots, &nodes)
}

/// Each turn is a visit of the repetition, of the rules and of the range.
#[test]
fn rows_of_a_thousand_records_and_one_more() {
    let line = [b'a'; 255];
    let read = as_before(&named(9), &line[..111]);
    assert_eq!(read, answer(READ, 0, 111, 112 * 11, 1_000, 111));
    let over = as_before(&named(8), &line[..125]);
    assert_eq!(over, answer(RECORDS, 125, 125, 126 * 10, 1_001, 125));
    let three = as_before(&named(3), &line);
    assert_eq!(three, answer(READ, 0, 255, 256 * 5, 766, 255));
    let four = as_before(&named(4), &line);
    assert_eq!(four, answer(RECORDS, 255, 255, 256 * 6, 1_001, 255));
}

/// The trees of a row stand in the order of its turns.
#[test]
fn trees_of_a_row() {
    let spans = [
        (2, 0, 1),
        (1, 0, 1),
        (2, 1, 2),
        (1, 1, 2),
        (2, 2, 3),
        (1, 2, 3),
        (0, 0, 3),
    ];
    assert_eq!(records(&named(2), b"aaa"), spans);
}

/// S <- S '+' N / N; N <- [0-9] [0-9]*. Where N fails it is three visits, and over
/// m digits 3 + 2m.
#[test]
fn a_row_in_a_sheet_that_grows() {
    let nodes = [
        (RULE, 0, 0),
        (RANGE, 43, 43),
        (RULE, 1, 0),
        (SEQ, 1, 2),
        (SEQ, 0, 3),
        (CHOICE, 4, 2),
        (RANGE, 48, 57),
        (REPEAT, 6, 0),
        (SEQ, 6, 7),
    ];
    let sheet = table(&[5, 8], &nodes);
    let attempts = (3 + 7) + (5 + 9) + (5 + 7);
    assert_eq!(
        as_before(&sheet, b"12+345"),
        answer(READ, 0, 6, attempts, 4, 6)
    );
    let spans = [(1, 0, 2), (0, 0, 2), (1, 3, 6), (0, 0, 6)];
    assert_eq!(records(&sheet, b"12+345"), spans);
    // In the second attempt the row behind the '+': its turns at 5 and 6.
    for (allowance, place, furthest) in [(20, 5, 4), (21, 5, 4), (22, 6, 5), (23, 6, 5)] {
        let refused = reads(&sheet, b"12+345", allowance, true).answer;
        assert_eq!(refused, answer(EFFORT, place, 0, allowance, 0, furthest));
    }
}

/// S <- 'x' S / L; L <- L '+' N / N; N <- [0-9] [0-9]*. Behind k bytes 'x' the range of
/// the first N's row is the open visit number 3k + 7, that of a later N 3k + 9.
#[test]
fn a_row_deep_in_a_sheet_that_grows() {
    let nodes = [
        (RULE, 0, 0),
        (RANGE, 120, 120),
        (SEQ, 1, 0),
        (RULE, 1, 0),
        (CHOICE, 2, 3),
        (RANGE, 43, 43),
        (RULE, 2, 0),
        (SEQ, 5, 6),
        (SEQ, 3, 7),
        (CHOICE, 8, 6),
        (RANGE, 48, 57),
        (REPEAT, 10, 0),
        (SEQ, 10, 11),
    ];
    let sheet = table(&[4, 9, 12], &nodes);
    let line = |xs, row: &[u8]| [&vec![b'x'; xs], row].concat();
    let row = [b'7'; 87];
    let read = whole(&sheet, &line(168, &row));
    let visits = 4 * 168 + 3 + 1 + (3 + 3 + 2 * 87) + (5 + 3 + 2 * 87);
    assert_eq!(read, answer(READ, 0, 255, visits, 169 + 2, 255));
    // One turn was read before.
    let deep = before(&sheet, &line(168, &row), 2_500);
    assert_eq!((deep.code, deep.place), (DEEP, 168 + 3));
    // In the second attempt N's row, behind its first digit.
    let deep = whole(&sheet, &line(168, b"77777+777"));
    assert_eq!((deep.code, deep.place), (DEEP, 168 + 5 + 2));
    let sum = whole(&sheet, &line(167, b"77777+777"));
    assert_eq!((sum.code, sum.matched), (READ, 167 + 9));
}
