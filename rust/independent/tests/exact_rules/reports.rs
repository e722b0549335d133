//! What check and report say of a sheet.

use super::calls::*;
use super::sheets::*;
use independent::*;

#[test]
fn sheet_a_has_46_bytes_and_its_report() {
    assert_eq!(sheet_a().len(), 46);
    assert_eq!(check(&sheet_a()), (READ, 0));
    let expected = Report {
        code: READ,
        place: 0,
        may_be_empty: 0,
        left_recursive: 1,
        how_many: 1,
        lowest: 0,
        free: false,
    };
    assert_eq!(report(&sheet_a()), expected);
    assert_eq!(report(&sheet_a()).numbers(), [0, 0, 0, 1, 1, 0, 0]);
}

#[test]
fn sheet_b_has_41_bytes_and_is_free() {
    let sheet = sheet_b((3, 0));
    assert_eq!(sheet.len(), 41);
    let report = report(&sheet);
    assert_eq!(
        (report.left_recursive, report.how_many, report.lowest),
        (0, 0, 64)
    );
    assert!(report.free);
}

/// Of B with rule 2 whatever is added: only rule 2 is left-recursive.
fn only_rule_2(free: bool) -> Report {
    Report {
        code: READ,
        place: 0,
        may_be_empty: 0,
        left_recursive: 4,
        how_many: 1,
        lowest: 2,
        free,
    }
}

#[test]
fn b_with_a_rule_unused_is_free() {
    let sheet = sheet_b_and(&[], 5, &[]);
    assert_eq!(report(&sheet), only_rule_2(true));
    assert_eq!(report(&sheet).numbers(), [0, 0, 0, 4, 1, 2, 1]);
    assert_eq!(prefix(&sheet, b"1,5"), answer(READ, 0, 3, 8, 3, 2));
    assert_eq!(prefix(&sheet, b"1"), answer(READ, 0, 1, 7, 2, 1));
}

#[test]
fn b_with_rule_2_used_is_not_free() {
    let behind_a_not = [(NOT, 6, 0), (SEQ, 7, 5)];
    let second = [(SEQ, 5, 6), (CHOICE, 7, 5)];
    let repeated = [(REPEAT, 6, 0), (SEQ, 7, 5)];
    let second_of_a_choice = [(CHOICE, 5, 6)];
    for more in [&behind_a_not[..], &second, &repeated, &second_of_a_choice] {
        let sheet = sheet_b_and(more, 6 + more.len() as u16, &[]);
        assert_eq!(report(&sheet), only_rule_2(false), "{more:?}");
        assert_eq!(prefix(&sheet, b"1,5").matched, 3, "{more:?}");
        assert_eq!(prefix(&sheet, b"1").matched, 1, "{more:?}");
        assert!(prefix(&sheet, b"1").visits > 7, "{more:?}");
    }
}

#[test]
fn a_rule_reached_only_through_another() {
    // D <- [0-9] P / [0-9]; P, rule 3, <- R.
    let through = [(RULE, 3, 0), (SEQ, 5, 7), (CHOICE, 8, 5)];
    let sheet = sheet_b_and(&through, 9, &[6]);
    assert_eq!(report(&sheet), only_rule_2(false));
    assert_eq!(prefix(&sheet, b"1,5").matched, 3);
    // Rule 3 uses it still, but nothing uses rule 3.
    let sheet = sheet_b_and(&through, 5, &[6]);
    assert_eq!(report(&sheet), only_rule_2(true));
    assert_eq!(prefix(&sheet, b"1,5"), answer(READ, 0, 3, 8, 3, 2));
}

#[test]
fn what_an_unused_rule_uses_does_not_matter() {
    // Rule 3 <- N R: it uses rule 0 and rule 2, and is used by none.
    let sheet = sheet_b_and(&[(RULE, 0, 0), (SEQ, 7, 6)], 5, &[8]);
    assert_eq!(report(&sheet), only_rule_2(true));
    assert_eq!(prefix(&sheet, b"1,5"), answer(READ, 0, 3, 8, 3, 2));
}

#[test]
fn rule_0_is_reached_though_nothing_uses_it() {
    // S <- R; R <- R: only rule 1 is left-recursive. Then rule 0 itself.
    let sheet = table(&[0, 0], &[(RULE, 1, 0)]);
    assert!(!report(&sheet).free);
    let sheet = table(&[0, 1], &[(RULE, 0, 0), (EMPTY, 0, 0)]);
    assert!(!report(&sheet).free);
}

/// Free is no on every refusal, of a sheet that is free otherwise.
#[test]
fn nothing_is_found_on_a_refusal() {
    let sheet = sheet_b((3, 0));
    let changed = |at: usize, byte: u8| {
        let mut sheet = sheet.clone();
        sheet[at] = byte;
        sheet
    };
    for (refused, code, place) in [
        (sheet[..6].to_vec(), SHORT, 0),
        (changed(0, 2), VERSION, 0),
        (changed(4, 0), COUNT, 0),
        (changed(2, 42), LENGTH, 0),
        (changed(10, 6), ROOT, 1),
        (changed(11, 7), KIND, 0),
        (changed(13, 2), FIELD, 0),
    ] {
        let numbers = [code, place, 0, 0, 0, 64, 0];
        assert_eq!(report(&refused).numbers(), numbers);
    }
}

#[test]
fn sum_of_rules_without_a_use() {
    // Rule 0's root is a use of rule 1, whose root is the same node: only
    // rule 1 is left-recursive.
    let sheet = table(&[0, 0], &[(RULE, 1, 0)]);
    assert_eq!(report(&sheet).left_recursive, 2);
    assert_eq!(report(&sheet).lowest, 1);
}

#[test]
fn hidden_left_recursion_is_seen() {
    // S <- 'x'* S 'a' / 'b'
    let nodes = [
        (RANGE, 120, 120),
        (REPEAT, 0, 0),
        (RULE, 0, 0),
        (RANGE, 97, 97),
        (SEQ, 2, 3),
        (SEQ, 1, 4),
        (RANGE, 98, 98),
        (CHOICE, 5, 6),
    ];
    let sheet = table(&[7], &nodes);
    assert_eq!(report(&sheet).left_recursive, 1);
    assert_eq!(prefix(&sheet, b"baa").matched, 3);
}
