//! The largest position at which a range was visited.

use super::calls::*;
use super::sheets::*;
use independent::*;

/// S <- 'a' !('b' 'c')
fn looking_ahead() -> Vec<u8> {
    let nodes = [
        (RANGE, 97, 97),
        (RANGE, 98, 98),
        (RANGE, 99, 99),
        (SEQ, 1, 2),
        (NOT, 3, 0),
        (SEQ, 0, 4),
    ];
    table(&[5], &nodes)
}

/// S <- R 'x' / 'b' / R; R <- 'a' 'b' 'c' / 'a'
fn falling_back() -> Vec<u8> {
    let nodes = [
        (RULE, 1, 0),
        (RANGE, 120, 120),
        (SEQ, 0, 1),
        (RANGE, 98, 98),
        (CHOICE, 3, 0),
        (CHOICE, 2, 4),
        (RANGE, 97, 97),
        (RANGE, 99, 99),
        (SEQ, 3, 7),
        (SEQ, 6, 8),
        (CHOICE, 9, 6),
    ];
    table(&[5, 10], &nodes)
}

/// S <- S 'b' 'c' / 'a'
fn growing() -> Vec<u8> {
    let nodes = [
        (RULE, 0, 0),
        (RANGE, 98, 98),
        (RANGE, 99, 99),
        (SEQ, 1, 2),
        (SEQ, 0, 3),
        (RANGE, 97, 97),
        (CHOICE, 4, 5),
    ];
    table(&[6], &nodes)
}

/// S <- 'a' S / 'a'
fn right_recursive() -> Vec<u8> {
    let nodes = [(RULE, 0, 0), (RANGE, 97, 97), (SEQ, 1, 0), (CHOICE, 2, 1)];
    table(&[3], &nodes)
}

#[test]
fn ranges_inside_a_not_count() {
    let sheet = looking_ahead();
    assert_eq!(prefix(&sheet, b"abd"), answer(READ, 0, 1, 6, 1, 2));
    assert_eq!(whole(&sheet, b"abd"), answer(REST, 1, 1, 6, 0, 2));
    // The not's child matches, so that all fails.
    assert_eq!(prefix(&sheet, b"abc"), answer(FAIL, 0, 0, 6, 0, 2));
    // S <- !!('a' 'b'): seen and not matched.
    let nodes = [
        (RANGE, 97, 97),
        (RANGE, 98, 98),
        (SEQ, 0, 1),
        (NOT, 2, 0),
        (NOT, 3, 0),
    ];
    assert_eq!(
        prefix(&table(&[4], &nodes), b"ab"),
        answer(READ, 0, 0, 5, 1, 1)
    );
}

#[test]
fn ranges_that_fail_count() {
    // S <- 'a' 'b' 'c' / 'a'
    let nodes = [
        (RANGE, 97, 97),
        (RANGE, 98, 98),
        (RANGE, 99, 99),
        (SEQ, 1, 2),
        (SEQ, 0, 3),
        (CHOICE, 4, 0),
    ];
    let sheet = table(&[5], &nodes);
    for (line, matched, furthest) in [("abc", 3, 2), ("abd", 1, 2), ("ad", 1, 1), ("d", 0, 0)] {
        let answer = prefix(&sheet, line.as_bytes());
        assert_eq!((answer.matched, answer.furthest), (matched, furthest));
    }
}

#[test]
fn a_range_at_the_lines_end_counts() {
    // S <- 'a'*
    let sheet = table(&[1], &[(RANGE, 97, 97), (REPEAT, 0, 0)]);
    for length in [0, 1, 2, 254, 255] {
        let answer = whole(&sheet, &vec![b'a'; length as usize]);
        assert_eq!((answer.matched, answer.furthest), (length, length));
    }
    assert_eq!(prefix(&looking_ahead(), b"ab").furthest, 2);
    assert_eq!(prefix(&sheet_a(), b"7+").furthest, 2);
}

#[test]
fn with_rest_it_is_before_at_or_after_the_match() {
    // S <- 'a'
    let byte = table(&[0], &[(RANGE, 97, 97)]);
    assert_eq!(whole(&byte, b"ab"), answer(REST, 1, 1, 1, 0, 0));
    let bytes = table(&[1], &[(RANGE, 97, 97), (REPEAT, 0, 0)]);
    assert_eq!(whole(&bytes, b"ab"), answer(REST, 1, 1, 4, 0, 1));
    assert_eq!(whole(&looking_ahead(), b"ab"), answer(REST, 1, 1, 6, 0, 2));
}

#[test]
fn it_is_0_where_no_range_is_visited() {
    let empty = table(&[0], &[(EMPTY, 0, 0)]);
    assert_eq!(prefix(&empty, b"ab"), answer(READ, 0, 0, 1, 1, 0));
    assert_eq!(whole(&empty, b"ab"), answer(REST, 0, 0, 1, 0, 0));
    assert_eq!(prefix(&doubling(9), b"").furthest, 0);
    // S <- S, and S <- () / 'a', whose range is not visited.
    let itself = table(&[0], &[(RULE, 0, 0)]);
    assert_eq!(prefix(&itself, b"ab"), answer(FAIL, 0, 0, 1, 0, 0));
    let nodes = [(EMPTY, 0, 0), (RANGE, 97, 97), (CHOICE, 0, 1)];
    assert_eq!(prefix(&table(&[2], &nodes), b"a").furthest, 0);
}

/// R is kept before the ranges at 1 and at 0 that follow it, and met again
/// after them.
#[test]
fn a_kept_answer_adds_nothing() {
    let sheet = falling_back();
    assert!(report(&sheet).free);
    for (line, matched, furthest) in [("abd", 1, 2), ("ad", 1, 1), ("abcx", 4, 3), ("abc", 3, 3)] {
        let answer = prefix(&sheet, line.as_bytes());
        assert_eq!((answer.matched, answer.furthest), (matched, furthest));
    }
    // S <- !(R 'b' 'd') R; R <- 'a': R is met again after a range at 2.
    let nodes = [
        (RULE, 1, 0),
        (RANGE, 98, 98),
        (RANGE, 100, 100),
        (SEQ, 1, 2),
        (SEQ, 0, 3),
        (NOT, 4, 0),
        (SEQ, 5, 0),
        (RANGE, 97, 97),
    ];
    assert_eq!(
        prefix(&table(&[6, 7], &nodes), b"abc"),
        answer(READ, 0, 1, 9, 2, 2)
    );
}

/// The second attempt looks further than the first, and fails or is not longer.
#[test]
fn an_attempt_that_does_not_grow_counts() {
    for (line, matched, furthest) in [("abd", 1, 2), ("ab", 1, 2), ("a", 1, 1), ("abcbd", 3, 4)] {
        let answer = prefix(&growing(), line.as_bytes());
        assert_eq!((answer.matched, answer.furthest), (matched, furthest));
    }
}

/// A on `7+2` visits its ranges at 0, 1, 2, 3, 0, by the visits number 5, 10,
/// 12, 17 and 19.
#[test]
fn effort_gives_what_was_reached() {
    for allowance in 1..19 {
        let furthest = match allowance {
            1..=9 => 0,
            10..=11 => 1,
            12..=16 => 2,
            _ => 3,
        };
        let refused = reads(&sheet_a(), b"7+2", allowance, true).answer;
        assert_eq!((refused.code, refused.visits), (EFFORT, allowance));
        assert_eq!(refused.furthest, furthest, "allowance {allowance}");
    }
    // 'c' at 2 is the sixth visit.
    let sheet = looking_ahead();
    for (allowance, place, furthest) in [(1, 0, 0), (2, 1, 0), (4, 1, 0), (5, 2, 1)] {
        assert_eq!(
            reads(&sheet, b"abd", allowance, false).answer,
            answer(EFFORT, place, 0, allowance, 0, furthest)
        );
    }
}

/// A refused visit is none, also of a range: the one at 170 is too deep.
#[test]
fn deep_gives_what_was_reached() {
    let refused = whole(&right_recursive(), &[b'a'; 255]);
    assert_eq!((refused.code, refused.place), (DEEP, 170));
    assert_eq!(refused.furthest, 169);
    // S <- !('a'* 'b') 'a' S looks to the line's end before it gets deep.
    let nodes = [
        (RANGE, 97, 97),
        (REPEAT, 0, 0),
        (RANGE, 98, 98),
        (SEQ, 1, 2),
        (NOT, 3, 0),
        (RULE, 0, 0),
        (SEQ, 0, 5),
        (SEQ, 4, 6),
    ];
    let refused = whole(&table(&[7], &nodes), &[b'a'; 200]);
    assert_eq!((refused.code, refused.furthest), (DEEP, 200));
    assert!(refused.place < 180);
}

#[test]
fn records_and_room_give_what_was_reached() {
    let sheet = looking_ahead();
    let needed = formula(&sheet, b"abd", 6);
    let short = run(&sheet, b"abd", 6, needed, 9, false).answer;
    assert_eq!(short, answer(ROOM, 1, 1, 6, 1, 2));
    // S <- C*; C <- D and so on to 'a', four records a byte: 251 bytes are too many.
    let nodes = [
        (RULE, 1, 0),
        (RULE, 2, 0),
        (RULE, 3, 0),
        (RULE, 4, 0),
        (RANGE, 97, 97),
        (REPEAT, 0, 0),
    ];
    let sheet = table(&[5, 1, 2, 3, 4], &nodes);
    let many = whole(&sheet, &[b'a'; 251]);
    assert_eq!((many.code, many.records), (RECORDS, 1_001));
    assert_eq!((many.matched, many.furthest), (251, 251));
}

#[test]
fn a_call_that_is_turned_away_gives_0() {
    let sheet = looking_ahead();
    let long = [b'a'; 4_001];
    for (line, allowance, work, code) in [
        (long.as_slice(), 100, 9_000, LINE),
        (b"abd", 0, 9_000, ALLOW),
        (b"abd", 5_000_001, 9_000, ALLOW),
        (b"abd", 100, 2_000, WORK),
    ] {
        for whole in [false, true] {
            let outcome = run(&sheet, line, allowance, work, 30, whole);
            assert_eq!(outcome.answer, turned_away(code, 0));
        }
    }
    // Node 2 repeats nothing, is a range that ends before it begins, is of kind 7.
    for (node, code) in [
        ((REPEAT, 1, 0), LOOP),
        ((RANGE, 2, 1), FIELD),
        ((7, 0, 0), KIND),
    ] {
        let sheet = table(&[0], &[(RANGE, 97, 97), (EMPTY, 0, 0), node]);
        assert_eq!(prefix(&sheet, b"ab"), turned_away(code, 2));
    }
    for length in 0..46 {
        let cut = &sheet_a()[..length];
        let code = if length < 7 { SHORT } else { LENGTH };
        assert_eq!(
            run(cut, b"7+2", 100, 9_000, 30, true).answer,
            turned_away(code, 0)
        );
    }
}
