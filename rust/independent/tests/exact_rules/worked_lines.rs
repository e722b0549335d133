//! The worked lines, with their visits and trees.

use super::calls::*;
use super::sheets::*;
use independent::*;

#[test]
fn a_on_seven_plus_two() {
    let outcome = reads(&sheet_a(), b"7+2", 2_500, false);
    assert_eq!(outcome.answer, answer(READ, 0, 3, 19, 4, 3));
    let stored = [
        0x01, 0x00, 0x19, 0x00, 0x04, //
        0x01, 0x00, 0x01, 0x00, 0x00, //
        0x00, 0x00, 0x01, 0x00, 0x01, //
        0x01, 0x02, 0x03, 0x00, 0x00, //
        0x00, 0x00, 0x03, 0x00, 0x02,
    ];
    assert_eq!(outcome.room[..25], stored);
    assert!(well_formed(&stored, 2, 3));
}

#[test]
fn a_on_seven_plus_two_at_the_edge_of_the_allowance() {
    assert_eq!(
        reads(&sheet_a(), b"7+2", 19, false).answer,
        answer(READ, 0, 3, 19, 4, 3)
    );
    assert_eq!(
        reads(&sheet_a(), b"7+2", 18, false).answer,
        answer(EFFORT, 0, 0, 18, 0, 3)
    );
}

#[test]
fn a_on_short_lines() {
    assert_eq!(prefix(&sheet_a(), b"7"), answer(READ, 0, 1, 12, 2, 1));
    assert_eq!(prefix(&sheet_a(), b""), answer(FAIL, 0, 0, 5, 0, 0));
    assert_eq!(prefix(&sheet_a(), b"+"), answer(FAIL, 0, 0, 5, 0, 0));
    assert_eq!(prefix(&sheet_a(), b"7+"), answer(READ, 0, 1, 14, 2, 2));
    assert_eq!(whole(&sheet_a(), b"7+"), answer(REST, 1, 1, 14, 0, 2));
}

#[test]
fn b_on_its_lines() {
    let sheet = sheet_b((3, 0));
    assert_eq!(prefix(&sheet, b"1,5"), answer(READ, 0, 3, 8, 3, 2));
    assert_eq!(prefix(&sheet, b"1"), answer(READ, 0, 1, 7, 2, 1));
    assert_eq!(whole(&sheet, b"1.5"), answer(REST, 1, 1, 7, 0, 1));
    assert_eq!(whole(&sheet, b",5"), answer(FAIL, 0, 0, 5, 0, 0));
    let turned = sheet_b((0, 3));
    assert_eq!(whole(&turned, b"1,5"), answer(REST, 1, 1, 3, 0, 0));
}

#[test]
fn the_three_lines_of_the_program() {
    let sheet = sheet_b((3, 0));
    let lines: [&[u8]; 3] = [b"1,5", b"1.5", b",5"];
    let printed: Vec<String> = lines
        .iter()
        .map(|line| {
            let answer = run(&sheet, line, 2_500, 16_384, 5_005, true).answer;
            let name = names(answer.code).unwrap();
            match answer.code {
                READ => format!(
                    "{name} {} {} {}",
                    answer.matched, answer.visits, answer.records
                ),
                _ => format!("{name} {} {}", answer.place, answer.visits),
            }
        })
        .collect();
    assert_eq!(printed, ["READ 3 8 3", "REST 1 7", "FAIL 0 5"]);
}

#[test]
fn not_of_itself() {
    assert_eq!(prefix(&sheet_not(), b"a"), answer(READ, 0, 1, 7, 1, 0));
}

#[test]
fn e_groups_from_the_right() {
    let outcome = reads(&sheet_e(), b"1+2+3", 2_500, true);
    assert_eq!(outcome.answer.code, READ);
    assert_eq!(outcome.answer.records, 5);
    let spans: Vec<(u8, u8)> = outcome.room[5..30]
        .chunks(5)
        .map(|record| (record[1], record[2]))
        .collect();
    assert_eq!(spans, [(0, 1), (2, 3), (4, 5), (2, 5), (0, 5)]);
}

#[test]
fn nine_and_ten_rules() {
    let outcome = reads(&doubling(9), b"", 2_500, true);
    assert_eq!(outcome.answer, answer(READ, 0, 0, 25, 511, 0));
    assert_eq!(outcome.room[1..5], [0x0A, 0x00, 0x01, 0xFF]); // 2,560 bytes, 511 records
    assert!(well_formed(&outcome.room[..2_560], 9, 0));
    assert_eq!(
        prefix(&doubling(10), b""),
        answer(RECORDS, 0, 0, 28, 1_001, 0)
    );
}

#[test]
fn records_past_sixty_four_bits() {
    let sheet = doubling(64);
    assert_eq!(
        prefix(&sheet, b""),
        answer(RECORDS, 0, 0, 63 * 3 + 1, 1_001, 0)
    );
    // Doubling inside one rule as well: 2 to the 441.
    let mut nodes = vec![(EMPTY, 0, 0), (RULE, 1, 0)];
    for child in 1..442 {
        nodes.push((SEQ, child, child));
    }
    let sheet = table(&[442, 0], &nodes);
    assert_eq!(prefix(&sheet, b"").code, RECORDS);
}

#[test]
fn equal_length_is_no_growth() {
    // S <- S / 'a': the second attempt matches 1 again.
    let sheet = table(&[2], &[(RULE, 0, 0), (RANGE, 97, 97), (CHOICE, 0, 1)]);
    let outcome = reads(&sheet, b"a", 2_500, true);
    assert_eq!(outcome.answer, answer(READ, 0, 1, 5, 1, 0));
    // S <- S 'a' / empty: a match of nothing grows from failure.
    let nodes = [
        (RULE, 0, 0),
        (RANGE, 97, 97),
        (SEQ, 0, 1),
        (EMPTY, 0, 0),
        (CHOICE, 2, 3),
    ];
    assert_eq!(prefix(&table(&[4], &nodes), b"aa").matched, 2);
}
