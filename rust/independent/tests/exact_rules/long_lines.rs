//! Lines of over 255 bytes: their stored reading is of version 2, with two bytes
//! for each position.

use super::calls::*;
use super::in_place::tower;
use super::sheets::*;
use independent::*;

/// S <- 'a'*. Each position of a row is a visit of the repetition and one of the
/// range.
fn row() -> Vec<u8> {
    table(&[1], &[(RANGE, 97, 97), (REPEAT, 0, 0)])
}

/// S <- D*; D <- 'a'
fn row_with_trees() -> Vec<u8> {
    table(&[2, 0], &[(RANGE, 97, 97), (RULE, 1, 0), (REPEAT, 1, 0)])
}

/// The start of a line, and bytes 'x' behind it.
fn padded(start: &[u8], length: usize) -> Vec<u8> {
    let mut line = start.to_vec();
    line.resize(length, b'x');
    line
}

/// What a prefix reading stores; it is well formed for the line.
fn stored(table: &[u8], line: &[u8]) -> Vec<u8> {
    let mut outcome = reads(table, line, 10_000, false);
    assert_eq!(outcome.answer.code, READ);
    let length = stored_length(line, outcome.answer.records);
    outcome.room.truncate(length);
    assert!(well_formed(&outcome.room, 64, line.len() as u64));
    outcome.room
}

/// A stored reading of version 2: rule, start, end and number of children of each
/// record.
fn version_2(records: &[[u16; 4]]) -> Vec<u8> {
    let length = 5 + 7 * records.len() as u16;
    let mut stored = vec![2];
    stored.extend(length.to_be_bytes());
    stored.extend((records.len() as u16).to_be_bytes());
    for [rule, start, end, children] in records {
        stored.push(*rule as u8);
        for number in [start, end, children] {
            stored.extend(number.to_be_bytes());
        }
    }
    stored
}

#[test]
fn the_lines_length_gives_the_version() {
    for length in [0, 1, 3, 254, 255] {
        assert_eq!(version(length), 1);
    }
    for length in [256, 257, 300, 511, 512, 3_999, 4_000] {
        assert_eq!(version(length), 2);
    }
}

#[test]
fn lines_of_255_256_4_000_and_4_001_bytes() {
    let line = [b'a'; 4_001];
    for (length, bytes) in [
        (255, [1, 0, 10, 0, 1, 0, 0, 255, 0, 0].as_slice()),
        (256, &[2, 0, 12, 0, 1, 0, 0, 0, 1, 0, 0, 0]),
        (4_000, &[2, 0, 12, 0, 1, 0, 0, 0, 15, 160, 0, 0]),
    ] {
        let visits = 2 * (length + 1);
        let read = reads(&row(), &line[..length as usize], visits, true).answer;
        assert_eq!(read, answer(READ, 0, length, visits, 1, length));
        assert_eq!(stored(&row(), &line[..length as usize]), bytes);
    }
    for whole in [false, true] {
        let refused = run(&row(), &line, 10_000, 70_000, 20, whole);
        assert_eq!(refused.answer, turned_away(LINE, 0));
        assert!(nothing_changed(&refused));
    }
}

#[test]
fn a_match_of_three_bytes_on_a_line_of_300() {
    let line = padded(b"7+2", 300);
    let read = reads(&sheet_a(), &line, 100, false).answer;
    assert_eq!(read, answer(READ, 0, 3, 19, 4, 3));
    let bytes = [
        [2, 0, 33, 0, 4].as_slice(),
        &[1, 0, 0, 0, 1, 0, 0],
        &[0, 0, 0, 0, 1, 0, 1],
        &[1, 0, 2, 0, 3, 0, 0],
        &[0, 0, 0, 0, 3, 0, 2],
    ];
    assert_eq!(stored(&sheet_a(), &line), bytes.concat());
    let rest = reads(&sheet_a(), &line, 100, true).answer;
    assert_eq!(rest, answer(REST, 3, 3, 19, 0, 3));
}

/// However little is matched: three bytes, or none.
#[test]
fn a_short_match_on_either_side_of_255_bytes() {
    let on_three_bytes = stored(&sheet_a(), b"7+2");
    assert_eq!(
        stored(&sheet_a(), &padded(b"7+2", 255)),
        on_three_bytes,
        "byte for byte"
    );
    let records = [[1, 0, 1, 0], [0, 0, 1, 1], [1, 2, 3, 0], [0, 0, 3, 2]];
    for length in [256, 4_000] {
        let line = padded(b"7+2", length);
        assert_eq!(stored(&sheet_a(), &line), version_2(&records));
    }
    let none = [1, 0, 10, 0, 1, 0, 0, 0, 0, 0];
    assert_eq!(stored(&row(), &padded(b"", 255)), none);
    assert_eq!(
        stored(&row(), &padded(b"", 256)),
        version_2(&[[0, 0, 0, 0]])
    );
}

#[test]
fn room_goes_by_the_version() {
    for (length, needed) in [(255, 25), (256, 33), (300, 33), (4_000, 33)] {
        let line = padded(b"7+2", length);
        let work = formula(&sheet_a(), &line, 19);
        let enough = run(&sheet_a(), &line, 19, work, needed, false);
        assert_eq!(enough.answer, answer(READ, 0, 3, 19, 4, 3));
        assert_eq!(enough.room, stored(&sheet_a(), &line));
        for room in [0, 24, needed - 1] {
            let short = run(&sheet_a(), &line, 19, work, room, false);
            assert_eq!(short.answer, answer(ROOM, 3, 3, 19, 4, 3));
            assert!(short.room.iter().all(|&byte| byte == FILL));
            assert!(short.work.iter().all(|&number| number == 0));
        }
    }
    // Enough for version 1.
    let line = padded(b"7+2", 256);
    let short = run(&sheet_a(), &line, 100, 9_000, 25, false);
    assert_eq!(short.answer.code, ROOM);
}

/// S <- 'a'* D D; D <- 'b'
#[test]
fn positions_above_255() {
    let nodes = [
        (RANGE, 97, 97),
        (REPEAT, 0, 0),
        (RULE, 1, 0),
        (SEQ, 2, 2),
        (SEQ, 1, 3),
        (RANGE, 98, 98),
    ];
    let sheet = table(&[4, 5], &nodes);
    let line = |row| [&vec![b'a'; row], b"bb".as_slice()].concat();
    let bytes = [
        [2, 0, 26, 0, 3].as_slice(),
        &[1, 1, 1, 1, 2, 0, 0], // 257 to 258
        &[1, 1, 2, 1, 3, 0, 0],
        &[0, 0, 0, 1, 3, 0, 2],
    ];
    assert_eq!(stored(&sheet, &line(257)), bytes.concat());
    for row in [254, 255, 256, 510, 511, 512, 1_000, 3_998] {
        let records = [
            [1, row, row + 1, 0],
            [1, row + 1, row + 2, 0],
            [0, 0, row + 2, 2],
        ];
        assert_eq!(stored(&sheet, &line(row as usize)), version_2(&records));
    }
    let last_of_version_1 = [
        [1, 0, 20, 0, 3].as_slice(),
        &[1, 253, 254, 0, 0],
        &[1, 254, 255, 0, 0],
        &[0, 0, 255, 0, 2],
    ];
    assert_eq!(stored(&sheet, &line(253)), last_of_version_1.concat());
}

/// Refusals of visits and the rest of a line far behind its start.
#[test]
fn places_above_255() {
    let line = [vec![b'a'; 3_000], b"b".to_vec()].concat();
    let rest = reads(&row(), &line, 10_000, true).answer;
    assert_eq!(rest, answer(REST, 3_000, 3_000, 6_002, 0, 3_000));
    for allowance in [513, 514, 4_000, 6_001] {
        let place = allowance / 2;
        let refused = reads(&row(), &line, allowance, false).answer;
        assert_eq!(refused, answer(EFFORT, place, 0, allowance, 0, place - 1));
    }
    let sheet = deeper_behind_a_row();
    let line = |xs: usize| padded(&[b'a'; 3_000], 3_000 + xs);
    let read = reads(&sheet, &line(169), 10_000, true).answer;
    assert_eq!((read.code, read.matched), (READ, 3_169));
    let deep = reads(&sheet, &line(170), 10_000, true).answer;
    assert_eq!((deep.code, deep.place, deep.furthest), (DEEP, 3_170, 3_169));
}

#[test]
fn each_version_is_well_formed_for_its_lines_only() {
    let one = [1, 0, 10, 0, 1, 0, 0, 3, 0, 0];
    let two = version_2(&[[0, 0, 3, 0]]);
    for (length, first, second) in [
        (2, false, false),
        (3, true, false),
        (254, true, false),
        (255, true, false),
        (256, false, true),
        (257, false, true),
        (3_999, false, true),
        (4_000, false, true),
        (4_001, false, false),
        (65_536, false, false),
        (65_536 + 255, false, false),
        (u64::MAX, false, false),
    ] {
        assert_eq!(well_formed(&one, 1, length), first, "1 on {length}");
        assert_eq!(well_formed(&two, 1, length), second, "2 on {length}");
    }
}

/// Each with the other's number in byte 0, and with numbers of no version.
#[test]
fn the_records_are_as_long_as_the_version_says() {
    let one = [1, 0, 10, 0, 1, 0, 0, 3, 0, 0];
    let two = version_2(&[[0, 0, 3, 0]]);
    let with = |byte: u8, stored: &[u8]| [&[byte], &stored[1..]].concat();
    for length in [255, 256, 4_000] {
        assert!(!well_formed(&with(2, &one), 1, length));
        assert!(!well_formed(&with(1, &two), 1, length));
        for byte in [0, 3, 255] {
            assert!(!well_formed(&with(byte, &one), 1, length));
            assert!(!well_formed(&with(byte, &two), 1, length));
        }
    }
}

#[test]
fn well_formed_in_version_2_wants_each_thing() {
    let is = |records: &[[u16; 4]]| well_formed(&version_2(records), 2, 300);
    assert!(is(&[[1, 0, 0, 0]]));
    assert!(is(&[[1, 300, 300, 0]]));
    assert!(!is(&[])); // no record
    assert!(!is(&[[2, 0, 0, 0]])); // rule
    assert!(!is(&[[0, 256, 255, 0]])); // start above end
    assert!(!is(&[[0, 300, 299, 0]]));
    assert!(!is(&[[0, 0, 301, 0]])); // end beyond the line
    assert!(!is(&[[0, 0, 512, 0]]));
    assert!(!is(&[[0, 0, 0, 1]])); // not enough children
    assert!(!is(&[[0, 0, 0, 256]]));
    assert!(!is(&[[0, 0, 0, 0], [0, 0, 0, 0]])); // two left
    assert!(is(&[[1, 0, 255, 0], [1, 256, 300, 0], [0, 0, 300, 2]]));
    assert!(is(&[[1, 0, 256, 0], [1, 256, 300, 0], [0, 0, 300, 2]]));
    assert!(!is(&[[1, 256, 300, 0], [1, 0, 256, 0], [0, 0, 300, 2]])); // order
    assert!(!is(&[[1, 0, 257, 0], [1, 256, 300, 0], [0, 0, 300, 2]])); // overlap
    assert!(!is(&[[1, 255, 300, 0], [0, 256, 300, 1]])); // before its span
    assert!(!is(&[[1, 0, 256, 0], [0, 0, 255, 1]])); // after its span
}

#[test]
fn lengths_in_version_2_agree() {
    let good = version_2(&[[0, 0, 300, 0]]);
    assert!(well_formed(&good, 1, 300));
    for length in 0..good.len() {
        assert!(!well_formed(&good[..length], 1, 300));
    }
    for more in 1..8 {
        assert!(!well_formed(
            &[&good, [0; 7].split_at(more).0].concat(),
            1,
            300
        ));
    }
    for (at, byte) in [(1, 1), (2, 11), (2, 13), (3, 1), (4, 0), (4, 2)] {
        let mut wrong = good.clone();
        wrong[at] = byte;
        assert!(!well_formed(&wrong, 1, 300), "{byte} at {at}");
    }
}

#[test]
fn a_thousand_records_in_version_2_and_one_more() {
    let line = [b'a'; 1_000];
    let sheet = row_with_trees();
    let work = formula(&sheet, &line, 3_003);
    let read = run(&sheet, &line[..999], 3_003, work, 7_005, true);
    assert_eq!(read.answer, answer(READ, 0, 999, 3_000, 1_000, 999));
    let mut records: Vec<_> = (0..999).map(|at| [1, at, at + 1, 0]).collect();
    records.push([0, 0, 999, 999]);
    assert_eq!(read.room, version_2(&records));
    assert_eq!(read.room[..5], [2, 27, 93, 3, 232]); // 7,005 and 1,000
    assert!(well_formed(&read.room, 2, 999));
    let short = run(&sheet, &line[..999], 3_003, work, 7_004, true);
    assert_eq!(short.answer, answer(ROOM, 999, 999, 3_000, 1_000, 999));
    for room in [7_005, 0] {
        let over = run(&sheet, &line, 3_003, work, room, true);
        assert_eq!(
            over.answer,
            answer(RECORDS, 1_000, 1_000, 3_003, 1_001, 1_000)
        );
        assert!(over.room.iter().all(|&byte| byte == FILL));
    }
}

/// The more of a call is wrong, the earlier the code.
#[test]
fn line_then_allowance_then_working_numbers() {
    let line = [b'a'; 4_001];
    let work = 2_048 + 20_000_000 + 2 * 2 * 4_001;
    for (length, allowance, work, code) in [
        (4_001, 0, 0, LINE),
        (4_001, 5_000_001, 0, LINE),
        (4_001, 5_000_000, 0, LINE),
        (4_001, 5_000_000, work + 4, LINE),
        (4_000, 0, 0, ALLOW),
        (4_000, 5_000_001, 0, ALLOW),
        (4_000, 5_000_001, work + 4, ALLOW),
        (4_000, 5_000_000, 0, WORK),
        (4_000, 5_000_000, work - 1, WORK),
    ] {
        let outcome = run(&row(), &line[..length], allowance, work, 0, true);
        assert_eq!(outcome.answer, turned_away(code, 0));
        assert!(nothing_changed(&outcome));
    }
    let enough = run(&row(), &line[..4_000], 5_000_000, work, 0, true);
    assert_eq!(enough.answer, answer(ROOM, 4_000, 4_000, 8_002, 1, 4_000));
    // The table comes first: node 1 repeats nothing.
    let sheet = table(&[1], &[(EMPTY, 0, 0), (REPEAT, 0, 0)]);
    let refused = run(&sheet, &line, 5_000_001, 0, 0, true).answer;
    assert_eq!(refused, turned_away(LOOP, 1));
}

/// The most working numbers that any call needs: 512 nodes, the longest line and
/// the largest allowance.
#[test]
fn the_most_working_numbers() {
    let mut nodes = vec![(RANGE, 97, 97), (REPEAT, 0, 0)];
    nodes.resize(512, (EMPTY, 0, 0));
    let sheet = table(&[1], &nodes);
    let line = [b'a'; 4_000];
    let work = 2_048 + 20_000_000 + 2 * 512 * 4_001;
    let short = run(&sheet, &line, 5_000_000, work - 1, 12, true);
    assert_eq!(short.answer, turned_away(WORK, 0));
    assert!(nothing_changed(&short));
    let enough = run(&sheet, &line, 5_000_000, work + 1, 12, true);
    assert_eq!(enough.answer, answer(READ, 0, 4_000, 8_002, 1, 4_000));
    assert!(enough.work[..work].iter().all(|&number| number == 0));
    assert_eq!(enough.work[work], MARK);
}

/// Behind two bytes 'x' and with 503 pads all the visits that may be open are, at
/// each of the row's turns.
#[test]
fn the_longest_row_at_the_greatest_depth() {
    let below = |pads| tower(&[(RANGE, 97, 97), (REPEAT, 0, 0)], pads);
    let line = [b"xx".as_slice(), &[b'a'; 3_998]].concat();
    let visits = 11 + 503 + 2 * 3_999;
    let read = reads(&below(503), &line, visits, true).answer;
    assert_eq!(read, answer(READ, 0, 4_000, visits, 3, 4_000));
    let effort = reads(&below(503), &line, visits - 1, true).answer;
    assert_eq!(effort, answer(EFFORT, 4_000, 0, visits - 1, 0, 3_999));
    let deep = reads(&below(504), &line, visits, true).answer;
    assert_eq!((deep.code, deep.place), (DEEP, 2));
}

/// Where each turn opens one visit more, the range at 511 is the 513th.
#[test]
fn the_longest_row_as_it_was_before() {
    let line = [b'a'; 4_000];
    let nested = |ways| reads_with(ways, &row(), &line, 10_000, true).answer;
    assert_eq!(
        nested(Ways::NESTED),
        answer(DEEP, 511, 0, 2 * 511 + 1, 0, 510)
    );
    assert_eq!(
        nested(Ways::NESTED_AT_ANY_DEPTH),
        answer(READ, 0, 4_000, 8_002, 1, 4_000)
    );
}

/// Over 1,000 trees only the number is left; a failure behind a row forgets them.
#[test]
fn the_longest_row_with_trees() {
    let line = [b'a'; 4_000];
    let over = reads(&row_with_trees(), &line, 20_000, true).answer;
    let visits = 3 * 4_001;
    assert_eq!(over, answer(RECORDS, 4_000, 4_000, visits, 1_001, 4_000));
    // S <- D* 'x' / 'a'*; D <- 'a'
    let nodes = [
        (RANGE, 97, 97),
        (RULE, 1, 0),
        (REPEAT, 1, 0),
        (RANGE, 120, 120),
        (SEQ, 2, 3),
        (REPEAT, 0, 0),
        (CHOICE, 4, 5),
    ];
    let sheet = table(&[6, 0], &nodes);
    assert_eq!(
        stored(&sheet, &line[..1_500]),
        version_2(&[[0, 0, 1_500, 0]])
    );
}

/// S <- S 'x' / 'a'*: nothing is kept, and the row is read in both attempts.
#[test]
fn the_longest_row_where_a_rule_grows() {
    let nodes = [
        (RULE, 0, 0),
        (RANGE, 120, 120),
        (SEQ, 0, 1),
        (RANGE, 97, 97),
        (REPEAT, 3, 0),
        (CHOICE, 2, 4),
    ];
    let sheet = table(&[5], &nodes);
    let visits = (3 + 8_002) + (4 + 8_002);
    let read = reads(&sheet, &[b'a'; 4_000], visits, true).answer;
    assert_eq!(read, answer(READ, 0, 4_000, visits, 1, 4_000));
}

/// S <- S 'a' / 'a' grows by one byte with each attempt of four visits; the last
/// attempt is of five. Each tree holds the one before.
#[test]
fn a_sheet_that_grows_by_a_thousand_attempts() {
    let nodes = [(RULE, 0, 0), (RANGE, 97, 97), (SEQ, 0, 1), (CHOICE, 2, 1)];
    let sheet = table(&[3], &nodes);
    let line = [b'a'; 4_000];
    let mut records: Vec<_> = (1..=1_000).map(|end| [0, 0, end, 1]).collect();
    records[0][3] = 0;
    assert_eq!(stored(&sheet, &line[..1_000]), version_2(&records));
    for length in [1_001, 4_000] {
        let visits = 4 * length + 5;
        let over = reads(&sheet, &line[..length as usize], visits, true).answer;
        assert_eq!(over, answer(RECORDS, length, length, visits, 1_001, length));
    }
}

/// S <- pads (L 'z' / 'a'*); L <- L 'a' / 'a'. L's tree of a thousand records, each in
/// the next, is forgotten for want of a 'z' where 505 visits are open.
#[test]
fn the_deepest_tree_is_forgotten_far_down() {
    let sheet = |pads: u16| {
        let mut nodes = vec![
            (RANGE, 97, 97),
            (RULE, 1, 0),
            (SEQ, 1, 0),
            (CHOICE, 2, 0),
            (RANGE, 122, 122),
            (SEQ, 1, 4),
            (REPEAT, 0, 0),
            (EMPTY, 0, 0),
            (CHOICE, 5, 6),
        ];
        for at in 8..8 + pads {
            nodes.push((CHOICE, at, 7));
        }
        table(&[8 + pads, 3], &nodes)
    };
    let line = [b'a'; 1_000];
    let bytes = version_2(&[[0, 0, 1_000, 0]]);
    assert_eq!(stored(&sheet(503), &line), bytes);
}

/// S <- S 'x' / T, T being !('a'* 'z') twice, or that twice, so often doubled.
fn looks_ahead(doublings: u16) -> Vec<u8> {
    let mut nodes = vec![
        (RULE, 0, 0),
        (RANGE, 120, 120),
        (SEQ, 0, 1),
        (RANGE, 97, 97),
        (REPEAT, 3, 0),
        (RANGE, 122, 122),
        (SEQ, 4, 5),
        (NOT, 6, 0),
    ];
    for at in 7..7 + doublings {
        nodes.push((SEQ, at, at));
    }
    nodes.push((CHOICE, 2, 7 + doublings));
    table(&[8 + doublings], &nodes)
}

/// Nothing is kept, so that each look goes through the whole row: 8,002 visits and
/// three more. S has two attempts.
#[test]
fn readings_of_over_a_million_visits() {
    let line = [b'a'; 4_000];
    let look = |times: u64| times * (8_002 + 3) + times - 1;
    let visits = 3 + look(256) + 4 + look(256);
    let read = reads(&looks_ahead(8), &line, visits, false).answer;
    assert_eq!(read, answer(READ, 0, 0, visits, 1, 4_000));
    let most = reads(&looks_ahead(9), &line, 5_000_000, false).answer;
    assert_eq!((most.code, most.visits), (EFFORT, 5_000_000));
}
