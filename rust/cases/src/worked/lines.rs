//! The worked lines.

use sheets::{sheet_a, sheet_b, Sheet};

use super::{prefix, whole, Page};
use crate::reach::{with_unused, Form};
use crate::textbook::{both_sides, not_itself, sheet_b_turned_round};

pub(super) fn lines_of_a(page: &mut Page) {
    let a = sheet_a().bytes();
    page.check("A, check", &a);
    page.report("A, report", &a);
    page.reading("A on 7+2", &a, b"7+2", prefix(2_500));
    page.reading("A on 7+2, whole", &a, b"7+2", whole(2_500));
    page.reading("A on 7+2, allowance 19", &a, b"7+2", prefix(19));
    page.reading("A on 7+2, allowance 18", &a, b"7+2", prefix(18));
    page.reading("A on 7", &a, b"7", prefix(2_500));
    page.reading("A on an empty line", &a, b"", prefix(2_500));
    page.reading("A on +", &a, b"+", prefix(2_500));
    page.reading("A on 7+", &a, b"7+", prefix(2_500));
    page.reading("A on 7+, whole", &a, b"7+", whole(2_500));
}

pub(super) fn lines_of_b(page: &mut Page) {
    let b = sheet_b().bytes();
    page.check("B, check", &b);
    page.report("B, report", &b);
    page.reading("B on 1,5", &b, b"1,5", prefix(2_500));
    page.reading("B on 1,5, allowance 49", &b, b"1,5", prefix(49));
    page.reading("B on 1", &b, b"1", prefix(2_500));
    page.reading("B on 1,5, whole", &b, b"1,5", whole(2_500));
    page.reading("B on 1.5, whole", &b, b"1.5", whole(2_500));
    page.reading("B on ,5, whole", &b, b",5", whole(2_500));
    let turned = sheet_b_turned_round().bytes();
    page.reading("B turned round on 1,5", &turned, b"1,5", whole(2_500));
}

/// Sheet B with rule 2, which calls itself, unused and then used by rule 1.
pub(super) fn unused_rules(page: &mut Page) {
    for (name, sheet) in [
        ("a rule unused", b_with_a_rule_unused()),
        ("rule 2 behind a not", b_with_rule_2_behind_a_not()),
        ("rule 2 second", b_with_rule_2_second()),
        ("rule 2 repeated", b_with_rule_2_repeated()),
    ] {
        let table = sheet.bytes();
        page.report(&format!("B with {name}, report"), &table);
        for line in ["1,5", "1"] {
            let name = format!("B with {name} on {line}");
            page.reading(&name, &table, line.as_bytes(), prefix(2_500));
        }
    }
}

/// The digit of sheet B, and the use of rule 2 that is added to it.
const DIGIT: u16 = 5;
const USE_OF_RULE_2: u16 = 6;

fn b_with_a_rule_unused() -> Sheet {
    with_unused(sheet_b(), Form::Itself)
}

/// D <- !R [0-9]
fn b_with_rule_2_behind_a_not() -> Sheet {
    let mut sheet = b_with_a_rule_unused();
    let not = sheet.not(USE_OF_RULE_2);
    sheet.roots[1] = sheet.sequence(not, DIGIT);
    sheet
}

/// D <- [0-9] R / [0-9]
fn b_with_rule_2_second() -> Sheet {
    let mut sheet = b_with_a_rule_unused();
    let longer = sheet.sequence(DIGIT, USE_OF_RULE_2);
    sheet.roots[1] = sheet.choice(longer, DIGIT);
    sheet
}

/// D <- R* [0-9]
fn b_with_rule_2_repeated() -> Sheet {
    let mut sheet = b_with_a_rule_unused();
    let all = sheet.repetition(USE_OF_RULE_2);
    sheet.roots[1] = sheet.sequence(all, DIGIT);
    sheet
}

pub(super) fn other_sheets(page: &mut Page) {
    let not_itself = not_itself().bytes();
    page.report("S <- !S 'a', report", &not_itself);
    page.reading("S <- !S 'a' on a", &not_itself, b"a", prefix(2_500));
    let both_sides = both_sides().bytes();
    page.report("E, report", &both_sides);
    page.reading("E on 1+2+3", &both_sides, b"1+2+3", whole(2_500));
    let sum = difference().bytes();
    page.report("Sum, report", &sum);
    page.reading("Sum on 9-3-2", &sum, b"9-3-2", whole(2_500));
}

/// Sum <- Sum '-' Digit / Digit; Digit <- [0-9]
fn difference() -> Sheet {
    let mut sheet = Sheet::new();
    let (sum, digit) = (sheet.rule(0), sheet.rule(1));
    let minus = sheet.byte(b'-');
    let longer = sheet.in_order(&[sum, minus, digit]);
    let root = sheet.choice(longer, digit);
    let nine = sheet.range(b'0', b'9');
    sheet.root(root);
    sheet.root(nine);
    sheet
}

/// So many rules, each the next one twice, the last empty.
fn doubling(rules: u16) -> Sheet {
    let mut sheet = Sheet::new();
    let mut roots = vec![sheet.empty()];
    for next in (1..rules).rev() {
        let used = sheet.rule(next);
        roots.push(sheet.sequence(used, used));
    }
    roots.into_iter().rev().for_each(|root| sheet.root(root));
    sheet
}

pub(super) fn doubling_rules(page: &mut Page) {
    for (name, rules) in [("Nine", 9), ("Ten", 10)] {
        let name = format!("{name} rules that double");
        page.reading(&name, &doubling(rules).bytes(), b"", prefix(2_500));
    }
}

#[cfg(test)]
mod tests {
    use super::*;

    /// Node by node, as they are written down for whoever builds them again.
    #[test]
    fn nodes_of_the_sheets_with_rule_2() {
        let unused = b_with_a_rule_unused();
        let nodes = [
            (2, 1, 0),
            (1, 44, 44),
            (3, 1, 0),
            (3, 0, 2),
            (4, 3, 0),
            (1, 48, 57),
            (2, 2, 0),
        ];
        assert_eq!(
            (&unused.roots[..], &unused.nodes[..]),
            (&[4, 5, 6][..], &nodes[..])
        );
        for (sheet, more) in [
            (b_with_rule_2_behind_a_not(), [(5, 6, 0), (3, 7, 5)]),
            (b_with_rule_2_second(), [(3, 5, 6), (4, 7, 5)]),
            (b_with_rule_2_repeated(), [(6, 6, 0), (3, 7, 5)]),
        ] {
            assert_eq!(sheet.roots, [4, 8, 6]);
            assert_eq!(
                (&sheet.nodes[..7], &sheet.nodes[7..]),
                (&nodes[..], &more[..])
            );
        }
    }
}
