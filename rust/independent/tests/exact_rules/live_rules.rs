//! Which rules become live and grow in a grammar that isn't free: the
//! left-recursive ones. A use of another visits its root once.

use super::calls::*;
use super::sheets::*;
use independent::*;

/// The answer if every rule became live.
fn before(table: &[u8], line: &[u8]) -> Answer {
    reads_with(Ways::EVERY_LIVE, table, line, 2_500, false).answer
}

/// The report's mask of left-recursive rules, of a table that isn't free.
fn growing(table: &[u8]) -> u64 {
    let report = report(table);
    assert_eq!((report.code, report.free), (READ, false));
    report.left_recursive
}

/// Rule and span of each record, in stored order.
fn records(table: &[u8], line: &[u8]) -> Vec<(u8, u8, u8)> {
    let outcome = reads(table, line, 2_500, false);
    assert_eq!(outcome.answer.code, READ);
    let stored = 5 + 5 * outcome.answer.records as usize;
    let record = |bytes: &[u8]| (bytes[0], bytes[1], bytes[2]);
    outcome.room[5..stored].chunks(5).map(record).collect()
}

/// The answer of a prefix reading with these visits and no more or fewer, and
/// with so many if every rule became live; all else is the same.
fn visits(table: &[u8], line: &[u8], now: u64, every: u64) {
    let answer = prefix(table, line);
    let text = String::from_utf8_lossy(line);
    assert_eq!(answer.visits, now, "{text}");
    let visits = every;
    assert_eq!(before(table, line), Answer { visits, ..answer }, "{text}");
    assert_eq!(reads(table, line, now, false).answer, answer, "{text}");
    let short = reads(table, line, now - 1, false).answer;
    assert_eq!((short.code, short.visits), (EFFORT, now - 1), "{text}");
}

#[test]
fn sheet_a_now_and_before() {
    assert_eq!(growing(&sheet_a()), 0b01);
    visits(&sheet_a(), b"7+2", 19, 22);
    visits(&sheet_a(), b"7", 12, 14);
    visits(&sheet_a(), b"", 5, 5);
    visits(&sheet_a(), b"+", 5, 5);
    visits(&sheet_a(), b"7+", 14, 16);
    assert_eq!(whole(&sheet_a(), b"7+"), answer(REST, 1, 1, 14, 0, 2));
}

/// From 19 on it is read, where 22 were needed; with 18 the last digit, at 0,
/// is refused.
#[test]
fn sheet_a_at_the_edges_of_the_allowance() {
    for allowance in [19, 20, 21] {
        let now = reads(&sheet_a(), b"7+2", allowance, true).answer;
        assert_eq!(now, answer(READ, 0, 3, 19, 4, 3));
        let before = reads_with(Ways::EVERY_LIVE, &sheet_a(), b"7+2", allowance, true).answer;
        assert_eq!((before.code, before.visits), (EFFORT, allowance));
    }
    let short = reads(&sheet_a(), b"7+2", 18, true).answer;
    assert_eq!(short, answer(EFFORT, 0, 0, 18, 0, 3));
}

/// Free sheets keep answers and grow nothing, with an unused left-recursive
/// rule too.
#[test]
fn free_sheets_are_read_as_before() {
    let b = sheet_b((3, 0));
    visits(&b, b"1,5", 8, 8);
    visits(&b, b"1", 7, 7);
    visits(&b, b",5", 5, 5);
    visits(&sheet_b((0, 3)), b"1,5", 3, 3);
    let unused = sheet_b_and(&[], 5, &[]);
    assert!(report(&unused).free);
    visits(&unused, b"1,5", 8, 8);
    visits(&unused, b"1", 7, 7);
    visits(&doubling(9), b"", 25, 25);
    visits(&doubling(10), b"", 28, 28);
}

#[test]
fn a_sheet_of_one_rule_that_grows_is_read_as_before() {
    visits(&sheet_not(), b"a", 7, 7);
    let sheet = sheet_e();
    let spans = [(0, 0, 1), (0, 2, 3), (0, 4, 5), (0, 2, 5), (0, 0, 5)];
    assert_eq!(records(&sheet, b"1+2+3"), spans);
    visits(&sheet, b"1", 4 + 6, 10);
    let answer = prefix(&sheet, b"1+2+3");
    assert_eq!(before(&sheet, b"1+2+3"), answer);
}

/// A <- B 'x' / 'y'; B <- A / D; D <- 'z'. A and B each start with the other.
#[test]
fn indirect_left_recursion() {
    let nodes = [
        (RULE, 1, 0),
        (RANGE, 120, 120),
        (SEQ, 0, 1),
        (RANGE, 121, 121),
        (CHOICE, 2, 3),
        (RULE, 0, 0),
        (RULE, 2, 0),
        (CHOICE, 5, 6),
        (RANGE, 122, 122),
    ];
    let sheet = table(&[4, 7, 8], &nodes);
    assert_eq!(growing(&sheet), 0b011);
    let spans = [(0, 0, 1), (1, 0, 1), (0, 0, 2), (1, 0, 2), (0, 0, 3)];
    assert_eq!(records(&sheet, b"yxx"), spans);
    visits(&sheet, b"yxx", 33, 33);
    assert_eq!(records(&sheet, b"zx"), [(2, 0, 1), (1, 0, 1), (0, 0, 2)]);
    visits(&sheet, b"zx", 21, 23);
}

/// S <- first S T / T; T <- 'a'; U with this root. Node 6 is either of x?, !x, x*.
fn hidden(node_6: (u8, u16, u16), first: u16, root_of_u: u16) -> Vec<u8> {
    let nodes = [
        (RULE, 0, 0),
        (RULE, 1, 0),
        (RULE, 2, 0),
        (RANGE, 97, 97),
        (RANGE, 120, 120),
        (EMPTY, 0, 0),
        node_6,
        (SEQ, 0, 1),
        (SEQ, first, 7),
        (CHOICE, 8, 1),
    ];
    table(&[9, 3, root_of_u], &nodes)
}

const OPTION: (u8, u16, u16) = (CHOICE, 4, 5);

/// S is left-recursive because what stands before it may match nothing.
#[test]
fn hidden_left_recursion() {
    let spans = [(1, 0, 1), (0, 0, 1), (1, 1, 2), (0, 0, 2)];
    for (node_6, short, long) in [
        (OPTION, 9 + 9 + 11, 32),
        ((NOT, 4, 0), 8 + 8 + 10, 29),
        ((REPEAT, 4, 0), 8 + 8 + 10, 29),
    ] {
        let sheet = hidden(node_6, 6, 6);
        assert_eq!(growing(&sheet), 0b001);
        assert_eq!(records(&sheet, b"aa"), spans);
        visits(&sheet, b"aa", short, long);
    }
    // The not fails on x, and S becomes live behind it by the others.
    visits(&hidden((NOT, 4, 0), 6, 6), b"xa", 6, 6);
    assert_eq!(prefix(&hidden(OPTION, 6, 6), b"xa").code, FAIL);
    let sheet = hidden((REPEAT, 4, 0), 6, 6);
    assert_eq!(prefix(&sheet, b"xxa").code, FAIL);
}

/// U <- 'x' / empty lets S be at the start, U <- 'x' does not.
#[test]
fn left_recursive_only_through_an_empty_first_child() {
    let sheet = hidden(OPTION, 2, 6);
    assert_eq!(growing(&sheet), 0b001);
    let spans = [(2, 0, 0), (1, 0, 1), (0, 0, 1), (1, 1, 2), (0, 0, 2)];
    assert_eq!(records(&sheet, b"aa"), spans);
    // T and U match once in each of the three attempts, and were tried again: T
    // by one visit, U by the choice, the range and the empty node.
    visits(&sheet, b"aa", 32, 32 + 3 + 3 * 3);
    let not_hidden = hidden(OPTION, 2, 4);
    assert!(report(&not_hidden).free);
    assert_eq!(report(&not_hidden).left_recursive, 0);
    assert_eq!(prefix(&not_hidden, b"aa"), before(&not_hidden, b"aa"));
}

/// L <- S '.' / D; S <- S '+' D / D; D <- [0-9]. L is not left-recursive, so the
/// reading itself is one attempt: sheet A's, and a few visits more.
#[test]
fn rule_0_above_a_rule_that_grows() {
    let nodes = [
        (RULE, 1, 0),
        (RULE, 2, 0),
        (RANGE, 46, 46),
        (SEQ, 0, 2),
        (CHOICE, 3, 1),
        (RANGE, 43, 43),
        (SEQ, 5, 1),
        (SEQ, 0, 6),
        (CHOICE, 7, 1),
        (RANGE, 48, 57),
    ];
    let sheet = table(&[4, 8, 9], &nodes);
    assert_eq!(growing(&sheet), 0b010);
    visits(&sheet, b"7+2.", 3 + 19 + 1, 2 * (3 + 22 + 1));
    visits(&sheet, b"7", 3 + 12 + 1 + 2, 2 * (3 + 14 + 1 + 3));
    visits(&sheet, b"", 3 + 5 + 2, 3 + 5 + 2);
    assert_eq!(
        records(&sheet, b"7+2."),
        [(2, 0, 1), (1, 0, 1), (2, 2, 3), (1, 0, 3), (0, 0, 4)]
    );
}

/// S <- S '+' F / F; F <- '(' S ')' / [0-9]. F is no start of itself, though it
/// uses S, which uses F.
#[test]
fn rule_0_grows_and_a_rule_below_it_does_not() {
    let nodes = [
        (RULE, 0, 0),
        (RULE, 1, 0),
        (RANGE, 43, 43),
        (SEQ, 2, 1),
        (SEQ, 0, 3),
        (CHOICE, 4, 1),
        (RANGE, 40, 40),
        (RANGE, 41, 41),
        (SEQ, 0, 7),
        (SEQ, 6, 8),
        (RANGE, 48, 57),
        (CHOICE, 9, 10),
    ];
    let sheet = table(&[5, 11], &nodes);
    assert_eq!(growing(&sheet), 0b01);
    visits(&sheet, b"1", 8 + 10, 12 + 14);
    // F in brackets is seven visits and S between them, and was tried twice.
    let (now, every) = (7 + 18, 1 + 2 * (6 + 26));
    visits(&sheet, b"(1)", 3 + now + 5 + now, 3 + every + 5 + every);
    let spans = [(1, 1, 2), (0, 1, 2), (1, 0, 3), (0, 0, 3)];
    assert_eq!(records(&sheet, b"(1)"), spans);
}

/// S <- S 'a' / M; M <- D; D <- 'b'. Each of M and D was tried twice at 0, one in
/// the other, where S is live.
#[test]
fn rules_in_each_other_where_another_is_live() {
    let nodes = [
        (RULE, 0, 0),
        (RANGE, 97, 97),
        (SEQ, 0, 1),
        (RULE, 1, 0),
        (CHOICE, 2, 3),
        (RULE, 2, 0),
        (RANGE, 98, 98),
    ];
    let sheet = table(&[4, 5, 6], &nodes);
    assert_eq!(growing(&sheet), 0b001);
    visits(&sheet, b"ba", 6 + 4 + 7, 10 + 4 + 11);
    visits(&sheet, b"", 6, 6);
    let spans = [(2, 0, 1), (1, 0, 1), (0, 0, 1), (0, 0, 2)];
    assert_eq!(records(&sheet, b"ba"), spans);
}

/// Any rule can be the one that grows: so many rules, each the next one, and the
/// last R <- R 'a' / 'a'.
#[test]
fn every_bit_of_the_mask() {
    for rules in 2..=64 {
        let last = rules - 1;
        let mut nodes = vec![
            (RULE, last, 0),
            (RANGE, 97, 97),
            (SEQ, 0, 1),
            (CHOICE, 2, 1),
        ];
        let mut roots = Vec::new();
        for next in 1..rules {
            roots.push(nodes.len() as u16);
            nodes.push((RULE, next, 0));
        }
        roots.push(3);
        let sheet = table(&roots, &nodes);
        assert_eq!(growing(&sheet), 1 << last);
        // One visit for each of the others, and three attempts of the last.
        assert_eq!(prefix(&sheet, b"aa").visits, u64::from(last) + 4 + 4 + 5);
    }
}
