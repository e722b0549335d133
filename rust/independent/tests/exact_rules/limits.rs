//! Each limit met and missed by one, and the order of the codes.

use super::calls::*;
use super::sheets::*;
use independent::*;

#[test]
fn lines_of_4_000_and_4_001_bytes() {
    // S <- 'a'*
    let sheet = table(&[1], &[(RANGE, 97, 97), (REPEAT, 0, 0)]);
    let line = [b'a'; 4_001];
    assert_eq!(
        reads(&sheet, &line[..4_000], 8_002, true).answer,
        answer(READ, 0, 4_000, 8_002, 1, 4_000)
    );
    assert_eq!(
        reads(&sheet, &line, 8_004, true).answer,
        turned_away(LINE, 0)
    );
    assert_eq!(LONGEST_LINE, 4_000);
}

#[test]
fn room_one_byte_short() {
    let sheet = sheet_a();
    let enough = formula(&sheet, b"7+2", 19);
    assert_eq!(run(&sheet, b"7+2", 19, enough, 25, true).answer.code, READ);
    let short = run(&sheet, b"7+2", 19, enough, 24, true);
    assert_eq!(short.answer, answer(ROOM, 3, 3, 19, 4, 3));
    assert!(short.room.iter().all(|&byte| byte == FILL));
    assert!(short.work.iter().all(|&number| number == 0));
}

#[test]
fn working_numbers_one_short() {
    let sheet = sheet_a();
    let enough = formula(&sheet, b"7+2", 19);
    assert_eq!(enough, 2_048 + 76 + 56);
    let short = run(&sheet, b"7+2", 19, enough - 1, 25, true);
    assert_eq!(short.answer, turned_away(WORK, 0));
    assert!(nothing_changed(&short));
}

#[test]
fn allowances_at_the_limits() {
    let sheet = sheet_a();
    for allowance in [0, 5_000_001, 1 << 63, u64::MAX] {
        assert_eq!(
            run(&sheet, b"7", allowance, 5_000, 50, true).answer.code,
            ALLOW
        );
    }
    assert_eq!(
        run(&sheet, b"7", 5_000_000, 20_002_076, 50, true)
            .answer
            .code,
        READ
    );
    assert_eq!(
        run(&sheet, b"7", 5_000_000, 20_002_075, 50, true)
            .answer
            .code,
        WORK
    );
    assert_eq!(MOST_ALLOWANCE, 5_000_000);
}

#[test]
fn node_and_rule_counts_at_the_limits() {
    for (n, r, code) in [
        (512, 64, READ),
        (513, 64, COUNT),
        (512, 65, COUNT),
        (0, 1, COUNT),
        (1, 0, COUNT),
    ] {
        let sheet = table(&vec![0; r], &vec![(EMPTY, 0, 0); n]);
        assert_eq!(check(&sheet), (code, 0), "n {n} r {r}");
    }
}

#[test]
fn tables_are_checked_in_the_order_of_the_codes() {
    let sheet = sheet_a();
    for length in 0..7 {
        assert_eq!(check(&sheet[..length]), (SHORT, 0));
    }
    for length in 7..46 {
        assert_eq!(check(&sheet[..length]), (LENGTH, 0));
    }
    let changed = |at: usize, byte: u8| {
        let mut sheet = sheet.clone();
        sheet[at] = byte;
        check(&sheet)
    };
    assert_eq!(changed(0, 2), (VERSION, 0));
    assert_eq!(changed(2, 47), (LENGTH, 0));
    assert_eq!(changed(4, 0), (COUNT, 0));
    assert_eq!(changed(6, 65), (COUNT, 0));
    assert_eq!(changed(8, 7), (ROOT, 0));
    assert_eq!(changed(10, 7), (ROOT, 1));
    assert_eq!(changed(11 + 5 * 3, 7), (KIND, 3));
    assert_eq!(changed(11 + 5 * 3 + 2, 3), (FIELD, 3)); // its own number
    assert_eq!(changed(11 + 5 * 2 + 2, 2), (FIELD, 2)); // rule 2 of 2
    assert_eq!(changed(11 + 5 + 3, 1), (FIELD, 1)); // highest 299
    assert_eq!(changed(11 + 5 + 4, 42), (FIELD, 1)); // lowest above highest
    assert_eq!(changed(11 + 4, 1), (FIELD, 0)); // b of a rule use
}

#[test]
fn five_hundred_and_twelve_visits_may_be_open() {
    // A chain of 511 nots, open all the way down to its range.
    let mut nodes = vec![(RANGE, 97, 97)];
    for child in 0..511 {
        nodes.push((NOT, child, 0));
    }
    let sheet = table(&[511], &nodes);
    assert_eq!(prefix(&sheet, b""), answer(READ, 0, 0, 512, 1, 0));
    assert_eq!(prefix(&sheet, b"a"), answer(FAIL, 0, 0, 512, 0, 0));
}

#[test]
fn the_513th_open_visit_is_too_deep() {
    // S <- 'a' S / 'a': three visits deeper with each byte. At position p the
    // choice is the open visit number 3p + 1, the sequence 3p + 2 and the
    // range under it 3p + 3. On 170 bytes the range at 170 would be 513.
    let nodes = [(RULE, 0, 0), (RANGE, 97, 97), (SEQ, 1, 0), (CHOICE, 2, 1)];
    let sheet = table(&[3], &nodes);
    let line = [b'a'; 170];
    assert_eq!(whole(&sheet, &line[..169]).code, READ);
    let refused = whole(&sheet, &line);
    assert_eq!((refused.code, refused.place), (DEEP, 170));
}

#[test]
fn effort_comes_before_deep() {
    let nodes = [(RULE, 0, 0), (RANGE, 97, 97), (SEQ, 1, 0), (CHOICE, 2, 1)];
    let sheet = table(&[3], &nodes);
    let line = [b'a'; 200];
    let deep = whole(&sheet, &line);
    assert_eq!(deep.code, DEEP);
    assert_eq!(
        reads(&sheet, &line, deep.visits, true).answer,
        answer(EFFORT, deep.place, 0, deep.visits, 0, deep.furthest)
    );
    assert_eq!(reads(&sheet, &line, deep.visits + 1, true).answer, deep);
}
