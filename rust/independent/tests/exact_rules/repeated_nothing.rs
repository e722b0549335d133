//! Repetitions over a node that may match nothing are refused.

use super::calls::*;
use super::sheets::*;
use independent::*;

/// Check, report and both readings refuse the table with LOOP at this node,
/// whatever the line, the allowance and what is lent; nothing is changed.
fn is_loop(table: &[u8], place: u64) {
    assert_eq!(check(table), (LOOP, place));
    assert_eq!(report(table).numbers(), [LOOP, place, 0, 0, 0, 64, 0]);
    for line in [b"".as_slice(), b"kW", &[b'k'; 4_000], &[b'k'; 4_001]] {
        for (allowance, work) in [(0, 0), (0, 9_000), (5_000_001, 0), (100, 0), (100, 9_000)] {
            for whole in [false, true] {
                let outcome = run(table, line, allowance, work, 30, whole);
                assert_eq!(outcome.answer, turned_away(LOOP, place));
                assert!(nothing_changed(&outcome));
            }
        }
    }
}

fn is_accepted(table: &[u8]) {
    assert_eq!(check(table), (READ, 0));
    assert_eq!(report(table).code, READ);
    assert!(line_was_read(prefix(table, b"a").code));
}

/// The nodes of 'kW'? and a repetition of the node `child`.
fn kilowatts_repeated(child: u16) -> Vec<u8> {
    let nodes = [
        (RANGE, 107, 107),
        (RANGE, 87, 87),
        (SEQ, 0, 1),
        (EMPTY, 0, 0),
        (CHOICE, 2, 3),
        (REPEAT, child, 0),
    ];
    table(&[5], &nodes)
}

#[test]
fn an_option_repeated() {
    is_loop(&kilowatts_repeated(4), 5); // ('kW'?)*
    is_loop(&kilowatts_repeated(3), 5); // ()*
    let sheet = kilowatts_repeated(2); // 'kW'*
    is_accepted(&sheet);
    assert_eq!(whole(&sheet, b"kWkW"), answer(READ, 0, 4, 11, 1, 4));
    is_accepted(&kilowatts_repeated(0)); // 'k'*
}

#[test]
fn a_repetition_over_a_rule_empty_by_left_recursion() {
    // S <- R*; R <- R 'a' / last
    let sheet = |last| {
        let nodes = [
            (RULE, 1, 0),
            (RANGE, 97, 97),
            (SEQ, 0, 1),
            last,
            (CHOICE, 2, 3),
            (REPEAT, 0, 0),
        ];
        table(&[5, 4], &nodes)
    };
    is_loop(&sheet((EMPTY, 0, 0)), 5);
    is_accepted(&sheet((RANGE, 97, 97)));
    assert_eq!(prefix(&sheet((RANGE, 97, 97)), b"aaa").matched, 3);
}

#[test]
fn a_repetition_over_two_rules_that_need_each_other() {
    // S <- P*; P <- Q Q / 'a'; Q <- P / last
    let sheet = |last| {
        let nodes = [
            (RULE, 1, 0),
            (RULE, 2, 0),
            (SEQ, 1, 1),
            (RANGE, 97, 97),
            (CHOICE, 2, 3),
            last,
            (CHOICE, 0, 5),
            (REPEAT, 0, 0),
        ];
        table(&[7, 4, 6], &nodes)
    };
    is_loop(&sheet((EMPTY, 0, 0)), 7);
    is_accepted(&sheet((RANGE, 98, 98)));
}

/// The least reading: rules that only need each other are not empty.
#[test]
fn two_rules_that_only_need_each_other() {
    // S <- P*; P <- Q; Q <- P
    let sheet = table(&[2, 1, 0], &[(RULE, 1, 0), (RULE, 2, 0), (REPEAT, 0, 0)]);
    is_accepted(&sheet);
    assert_eq!(report(&sheet).may_be_empty, 1);
    assert_eq!(prefix(&sheet, b"a").matched, 0);
    // Each the other and itself.
    let twice = [(RULE, 1, 0), (RULE, 2, 0), (SEQ, 0, 1), (REPEAT, 0, 0)];
    is_accepted(&table(&[3, 2, 2], &twice));
}

/// Only the last of a chain of rules is empty by itself, in both orders of the
/// nodes: each rule is found through the next.
#[test]
fn a_repetition_over_a_chain_of_rules() {
    for rules in [2, 3, 63] {
        for rising in [false, true] {
            for (last, is_empty) in [((EMPTY, 0, 0), true), ((RANGE, 97, 97), false)] {
                let mut nodes: Vec<_> = (2..rules).map(|next| (RULE, next, 0)).collect();
                let mut roots: Vec<u16> = (0..rules - 1).collect();
                nodes.push(last);
                if !rising {
                    nodes.reverse();
                    roots.reverse();
                }
                nodes.extend([(RULE, 1, 0), (REPEAT, rules - 1, 0)]);
                roots.insert(0, rules);
                let sheet = table(&roots, &nodes);
                match is_empty {
                    true => is_loop(&sheet, rules.into()),
                    false => is_accepted(&sheet),
                }
            }
        }
    }
}

#[test]
fn a_repetition_over_a_not_and_over_a_repetition() {
    for kind in [NOT, REPEAT] {
        let nodes = [(RANGE, 97, 97), (kind, 0, 0), (REPEAT, 1, 0)];
        is_loop(&table(&[2], &nodes), 2);
    }
    // S <- (!'b' 'a')*, S <- ('b'* 'a')*: each round takes a byte.
    for kind in [NOT, REPEAT] {
        let nodes = [
            (RANGE, 98, 98),
            (kind, 0, 0),
            (RANGE, 97, 97),
            (SEQ, 1, 2),
            (REPEAT, 3, 0),
        ];
        is_accepted(&table(&[4], &nodes));
        assert_eq!(whole(&table(&[4], &nodes), b"aa").code, READ);
    }
}

#[test]
fn a_repetition_of_nothing_that_no_rule_leads_to() {
    let nodes = |child| [(RANGE, 97, 97), (EMPTY, 0, 0), (REPEAT, child, 0)];
    is_loop(&table(&[0], &nodes(1)), 2);
    is_accepted(&table(&[0], &nodes(0)));
}

#[test]
fn the_lower_of_two_repetitions_of_nothing() {
    let nodes = [(EMPTY, 0, 0), (REPEAT, 0, 0), (REPEAT, 1, 0)];
    is_loop(&table(&[2], &nodes), 1);
    // A repetition of 'a' below them is none.
    let nodes = [
        (RANGE, 97, 97),
        (REPEAT, 0, 0),
        (EMPTY, 0, 0),
        (REPEAT, 2, 0),
        (REPEAT, 1, 0),
    ];
    is_loop(&table(&[1], &nodes), 3);
}

#[test]
fn every_node_is_tested_before_a_repetition_of_nothing_is_named() {
    let with = |last| table(&[2], &[(EMPTY, 0, 0), (REPEAT, 0, 0), last]);
    is_loop(&with((REPEAT, 0, 0)), 1);
    for (last, code) in [
        ((7, 0, 0), KIND),
        ((255, 0, 0), KIND),
        ((NOT, 2, 0), FIELD),
        ((EMPTY, 1, 0), FIELD),
        ((RULE, 1, 0), FIELD),
    ] {
        assert_eq!(check(&with(last)), (code, 2));
        assert_eq!(report(&with(last)).numbers(), [code, 2, 0, 0, 0, 64, 0]);
        assert_eq!(prefix(&with(last), b"a"), turned_away(code, 2));
    }
    let mut cut = with((REPEAT, 0, 0));
    cut.pop();
    assert_eq!(check(&cut), (LENGTH, 0));
    assert_eq!(
        check(&table(
            &[2, 3],
            &[(EMPTY, 0, 0), (REPEAT, 0, 0), (EMPTY, 0, 0)]
        )),
        (ROOT, 1)
    );
}

/// Tables without a repetition of nothing are refused for the line, the
/// allowance and the working numbers as before.
#[test]
fn line_allowance_and_working_numbers_come_after_it() {
    let (refused, accepted) = (kilowatts_repeated(4), kilowatts_repeated(2));
    let long = [b'k'; 4_001];
    for (line, allowance, work, code) in [
        (long.as_slice(), 0, 0, LINE),
        (b"kW", 0, 0, ALLOW),
        (b"kW", 100, 0, WORK),
        (b"kW", 100, 9_000, READ),
    ] {
        assert_eq!(
            run(&refused, line, allowance, work, 30, true).answer.code,
            LOOP
        );
        assert_eq!(
            run(&accepted, line, allowance, work, 30, true).answer.code,
            code
        );
    }
}
