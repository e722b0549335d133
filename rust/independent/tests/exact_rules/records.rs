//! Well-formed trees, the names of the codes and the search counts.

use super::sheets::*;
use independent::*;

#[test]
fn well_formed_wants_each_thing() {
    let good = |records: &[[u8; 5]]| {
        let mut stored = vec![1, 0, 5 + 5 * records.len() as u8, 0, records.len() as u8];
        stored.extend(records.concat());
        stored
    };
    assert!(well_formed(&good(&[[0, 0, 0, 0, 0]]), 1, 0));
    assert!(!well_formed(&good(&[]), 1, 0)); // no record
    assert!(!well_formed(&good(&[[1, 0, 0, 0, 0]]), 1, 0)); // rule
    assert!(!well_formed(&good(&[[0, 1, 0, 0, 0]]), 1, 1)); // start above end
    assert!(!well_formed(&good(&[[0, 0, 2, 0, 0]]), 1, 1)); // end beyond the line
    assert!(!well_formed(&good(&[[0, 0, 0, 0, 1]]), 1, 0)); // not enough children
    assert!(!well_formed(
        &good(&[[0, 0, 0, 0, 0], [0, 0, 0, 0, 0]]),
        1,
        0
    )); // two left
    assert!(well_formed(
        &good(&[[0, 0, 0, 0, 0], [0, 0, 0, 0, 1]]),
        1,
        0
    ));
    assert!(well_formed(
        &good(&[[0, 0, 1, 0, 0], [0, 1, 2, 0, 0], [0, 0, 2, 0, 2]]),
        1,
        2
    ));
    assert!(!well_formed(
        &good(&[[0, 1, 2, 0, 0], [0, 0, 1, 0, 0], [0, 0, 2, 0, 2]]),
        1,
        2
    ));
    assert!(!well_formed(
        &good(&[[0, 0, 2, 0, 0], [0, 1, 2, 0, 0], [0, 0, 2, 0, 2]]),
        1,
        2
    ));
    assert!(!well_formed(
        &good(&[[0, 0, 2, 0, 0], [0, 1, 2, 0, 1]]),
        1,
        2
    )); // before its span
    assert!(!well_formed(
        &good(&[[0, 0, 2, 0, 0], [0, 0, 1, 0, 1]]),
        1,
        2
    )); // after its span
    let mut wrong = good(&[[0, 0, 0, 0, 0]]);
    wrong[0] = 2;
    assert!(!well_formed(&wrong, 1, 0));
    wrong[0] = 1;
    wrong.push(0);
    assert!(!well_formed(&wrong, 1, 0));
    assert!(!well_formed(&[], 1, 0));
}

#[test]
fn every_code_has_its_name() {
    let all: Vec<&str> = (0..18).filter_map(names).collect();
    assert_eq!((all.len(), CODES), (18, 18));
    assert_eq!((all[0], all[8], all[16]), ("READ", "LINE", "ROOM"));
    assert_eq!((all[17], LOOP), ("LOOP", 17));
    assert_eq!(names(18), None);
    assert_eq!(names(u64::MAX), None);
}

/// On `1` S tries itself and then D, twice each; S is the only live use then,
/// and D is not looked for.
#[test]
fn searches_on_sheet_a() {
    let expected = Searches {
        made: 3,
        found: 2,
        most_live: 1,
        live: 2,
        found_from_newest: 2,
        found_from_oldest: 2,
        in_vain: 0,
        in_vain_here: 0,
    };
    assert_eq!(searches(&sheet_a(), b"1", 100), Some(expected));
    assert_eq!(searches(&[], b"1", 100), None);
}

/// R <- 'a' R / L / R; L <- L 'c' / 'c'. The last R, by which R is left-recursive,
/// is come to only where there is no `c`.
fn right_and_left() -> Vec<u8> {
    let nodes = [
        (RANGE, 97, 97),
        (RULE, 0, 0),
        (SEQ, 0, 1),
        (RULE, 1, 0),
        (CHOICE, 3, 1),
        (CHOICE, 2, 4),
        (RANGE, 99, 99),
        (SEQ, 3, 6),
        (CHOICE, 7, 6),
    ];
    table(&[5, 8], &nodes)
}

/// On `ac` R is live at both positions when L becomes live as the newest of
/// three, and only L is ever found.
#[test]
fn the_newest_of_three_is_found_first() {
    let counted = searches(&right_and_left(), b"ac", 1_000).expect("an accepted table");
    assert_eq!(counted.most_live, 3);
    assert!(counted.found > 0);
    assert_eq!(counted.found_from_newest, counted.found);
    assert_eq!(counted.found_from_oldest, 3 * counted.found);
}

/// On `aac` each use of R at 0 and 1 is tried twice, and the next R is looked for
/// each time: R at 1 twice, at 2 four times, L eight times, among one, two and
/// three live uses. None is live at the position of an R; R itself is at that of
/// L, and one of an earlier position ends the search.
#[test]
fn a_search_in_vain_ends_at_an_earlier_position() {
    let counted = searches(&right_and_left(), b"aac", 1_000).expect("an accepted table");
    assert_eq!(counted.made - counted.found, 1 + 2 + 4 + 8);
    assert_eq!(counted.in_vain, 2 + 4 * 2 + 8 * 3);
    assert_eq!(counted.in_vain_here, 2 + 4 + 8 * 2);
}
