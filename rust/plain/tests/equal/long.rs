//! Lines up to 4,000 bytes, allowances up to 5,000,000 and both versions of
//! the stored reading, buffers included.

use cases::Random;
use sheets::{decimal_comma, kilowatts, sheet_a, sheet_b, sum, thousands, Sheet};

use crate::both::{needed, Asked, ROOM};

const READ: u64 = 0;
const LINE: u64 = 8;
const ALLOW: u64 = 9;
const WORK: u64 = 10;
const EFFORT: u64 = 11;
const DEEP: u64 = 12;
const REST: u64 = 14;
const RECORDS: u64 = 15;
const SHORT_OF_ROOM: u64 = 16;

/// More visits than most lines here take.
const AMPLE: u64 = 400_000;

/// `1+1+...`, so many ones.
fn ones(count: usize) -> Vec<u8> {
    vec!["1"; count].join("+").into_bytes()
}

/// Free: a row of trees, `Row <- Digit*; Digit <- [0-9]`.
fn row() -> Sheet {
    let mut sheet = Sheet::new();
    let digit = sheet.rule(1);
    let digits = sheet.repetition(digit);
    let digit_root = sheet.range(b'0', b'9');
    sheet.root(digits);
    sheet.root(digit_root);
    sheet
}

/// Not free: a tree in a tree for each byte, `S <- S 'a' / 'a'`.
fn left() -> Sheet {
    let mut sheet = Sheet::new();
    let s = sheet.rule(0);
    let a = sheet.byte(b'a');
    let longer = sheet.sequence(s, a);
    let root = sheet.choice(longer, a);
    sheet.root(root);
    sheet
}

/// Rows in rows, gone over once more from the start. Not free, or free with
/// `';'` where `Log '!'` stands:
///
/// ```text
/// Log   <- Log '!' / Entry (';' Entry)* '.' / (Entry ';')* Entry
/// Entry <- Digit Digit* / ' '
/// Digit <- [0-9]
/// ```
fn log(free: bool) -> Sheet {
    let mut sheet = Sheet::new();
    let (log, entry, digit) = (sheet.rule(0), sheet.rule(1), sheet.rule(2));
    let semicolon = sheet.byte(b';');
    let before = sheet.sequence(entry, semicolon);
    let all_before = sheet.repetition(before);
    let entries = sheet.sequence(all_before, entry);
    let behind = sheet.sequence(semicolon, entry);
    let all_behind = sheet.repetition(behind);
    let stop = sheet.byte(b'.');
    let stopped = sheet.in_order(&[entry, all_behind, stop]);
    let bang = sheet.byte(b'!');
    let again = sheet.sequence(log, bang);
    let first = if free { semicolon } else { again };
    let log_root = sheet.first_of(&[first, stopped, entries]);
    let digits = sheet.one_or_more(digit);
    let blank = sheet.byte(b' ');
    let entry_root = sheet.choice(digits, blank);
    let digit_root = sheet.range(b'0', b'9');
    for root in [log_root, entry_root, digit_root] {
        sheet.root(root);
    }
    sheet
}

/// Deep and live far along the line: `L <- 'x'* R; R <- 'a' R / T;
/// T <- T 'b' / 'c' / R`.
fn far() -> Sheet {
    let mut sheet = Sheet::new();
    let (r, t) = (sheet.rule(1), sheet.rule(2));
    let [x, a, b, c] = [b'x', b'a', b'b', b'c'].map(|byte| sheet.byte(byte));
    let skipped = sheet.repetition(x);
    let line = sheet.sequence(skipped, r);
    let again = sheet.sequence(a, r);
    let r_root = sheet.choice(again, t);
    let longer = sheet.sequence(t, b);
    let t_root = sheet.first_of(&[longer, c, r]);
    for root in [line, r_root, t_root] {
        sheet.root(root);
    }
    sheet
}

/// Live again behind a row, with nothing live in between:
/// `R <- 'x'* 'a' R / R 'b' / 'c'`.
fn jumping() -> Sheet {
    let mut sheet = Sheet::new();
    let r = sheet.rule(0);
    let [x, a, b, c] = [b'x', b'a', b'b', b'c'].map(|byte| sheet.byte(byte));
    let skipped = sheet.repetition(x);
    let behind = sheet.in_order(&[skipped, a, r]);
    let longer = sheet.sequence(r, b);
    let root = sheet.first_of(&[behind, longer, c]);
    sheet.root(root);
    sheet
}

/// Sheet A that makes three quarters of a million trees first, in each attempt,
/// and then finds no `z`: `S <- Many 'z' / S '+' D / D`. Many is the next rule
/// twice, and so on, up to one that is empty.
fn wasteful() -> Sheet {
    const LAST: u16 = 20;
    let mut sheet = Sheet::new();
    let (s, d, many) = (sheet.rule(0), sheet.rule(1), sheet.rule(2));
    let [plus, z] = [b'+', b'z'].map(|byte| sheet.byte(byte));
    let in_vain = sheet.sequence(many, z);
    let longer = sheet.in_order(&[s, plus, d]);
    let s_root = sheet.first_of(&[in_vain, longer, d]);
    let d_root = sheet.range(b'0', b'9');
    sheet.root(s_root);
    sheet.root(d_root);
    for next in 3..=LAST {
        let next = sheet.rule(next);
        let twice = sheet.sequence(next, next);
        sheet.root(twice);
    }
    let nothing = sheet.empty();
    sheet.root(nothing);
    sheet
}

#[test]
fn lines_at_the_limits() {
    for sheet in [row(), decimal_comma(), left(), sum(), log(true)] {
        let table = sheet.bytes();
        let byte = if sheet == left() { b'a' } else { b'1' };
        for length in [254, 255, 256, 257, 511, 512, 999, 1_000, 3_999, 4_000] {
            let line = vec![byte; length];
            let asked = Asked::of(&table, &line, 100_000);
            let left = asked.both();
            asked.prefix().both();
            assert!([READ, RECORDS].contains(&left.answer[0]));
            assert_eq!(left.answer[2], length as u64);
            if left.answer[0] == READ {
                assert_eq!(left.room[0], if length <= 255 { 1 } else { 2 });
            }
        }
        let line = vec![byte; 4_001];
        assert_eq!(
            Asked::of(&table, &line, 100).both().answer,
            [LINE, 0, 0, 0, 0, 0]
        );
    }
}

#[test]
fn checks_in_their_order() {
    let table = sheet_a().bytes();
    let code = |asked: Asked| asked.both().answer[0];
    let (longest, too_long) = (vec![b'1'; 4_000], vec![b'1'; 4_001]);
    let with = |line, allowance, work| Asked {
        allowance,
        work,
        ..Asked::of(&table, line, 1)
    };
    assert_eq!(code(with(&too_long, 0, 0)), LINE);
    assert_eq!(code(with(&too_long, 5_000_001, 0)), LINE);
    assert_eq!(code(with(&longest, 0, 0)), ALLOW);
    assert_eq!(code(with(&longest, 5_000_001, 0)), ALLOW);
    assert_eq!(code(with(&longest, 1_000_001, 0)), WORK);
    assert_eq!(code(with(&longest, 5_000_000, 0)), WORK);
    let needed = needed(&table, &longest, 5_000_000);
    assert_eq!(code(with(&longest, 5_000_000, needed - 1)), WORK);
    assert_eq!(code(with(&longest, 5_000_000, needed)), REST);
    assert_eq!(code(with(&longest, 5_000_001, needed + 4)), ALLOW);
    assert_eq!(code(with(&longest, u64::MAX, needed)), ALLOW);
}

/// Eight pairs of brackets need more than a million visits, and nine more
/// than there are.
#[test]
fn the_largest_allowance() {
    let table = sum().bytes();
    let in_brackets = |pairs: usize| {
        let line = "1+".repeat(200) + &"(".repeat(pairs) + "1" + &")".repeat(pairs);
        line.into_bytes()
    };
    let line = in_brackets(8);
    let [code, _, matched, visits, ..] = Asked::of(&table, &line, 5_000_000).both().answer;
    assert_eq!((code, matched), (READ, line.len() as u64));
    assert!(visits > 1_000_000);
    let exact = Asked::of(&table, &line, visits).both().answer;
    assert_eq!((exact[0], exact[3]), (READ, visits));
    let short = Asked::of(&table, &line, visits - 1).both().answer;
    assert_eq!((short[0], short[3]), (EFFORT, visits - 1));
    let [code, place, _, visits, ..] = Asked::of(&table, &in_brackets(9), 5_000_000).both().answer;
    assert_eq!((code, visits), (EFFORT, 5_000_000));
    assert!(place > 255);
}

/// The trees of the reading come behind two million others.
#[test]
fn millions_of_trees() {
    let table = wasteful().bytes();
    for line in [&b"7+2"[..], &[b"7+2", &[b' '; 253][..]].concat()] {
        let left = Asked::of(&table, line, 5_000_000).prefix().both();
        let [code, _, matched, visits, records, _] = left.answer;
        assert_eq!((code, matched, records), (READ, 3, 4));
        assert!(visits > 3_000_000);
    }
}

/// The version goes by the line, also where the match is short.
#[test]
fn three_bytes_of_three_hundred() {
    let table = sheet_a().bytes();
    let line = [&b"7+2"[..], &[b'x'; 297]].concat();
    let asked = Asked::of(&table, &line, 100);
    let left = asked.prefix().both();
    assert_eq!(left.answer, [READ, 0, 3, 19, 4, 3]);
    let stored = [
        &[2, 0, 33, 0, 4][..],
        &[1, 0, 0, 0, 1, 0, 0],
        &[0, 0, 0, 0, 1, 0, 1],
        &[1, 0, 2, 0, 3, 0, 0],
        &[0, 0, 0, 0, 3, 0, 2],
    ]
    .concat();
    assert_eq!(left.room[..33], stored);
    assert!(left.room[33..].iter().all(|&byte| byte == 7));
    assert_eq!(asked.both().answer[..3], [REST, 3, 3]);
    // Up to 255 bytes it is what it was.
    for length in [3, 254, 255] {
        let left = Asked::of(&table, &line[..length], 100).prefix().both();
        let stored = [
            &[1, 0, 25, 0, 4][..],
            &[1, 0, 1, 0, 0],
            &[0, 0, 1, 0, 1],
            &[1, 2, 3, 0, 0],
            &[0, 0, 3, 0, 2],
        ]
        .concat();
        assert_eq!(left.room[..25], stored);
    }
    let left = Asked::of(&table, &line[..256], 100).prefix().both();
    assert_eq!(left.room[0], 2);
}

/// Room for the stored reading, one byte short of it, and as much as the other
/// version would take.
#[test]
fn room_by_the_version() {
    for (sheet, line) in [
        (sheet_a(), ones(128)),
        (sheet_a(), ones(129)),
        (sheet_a(), [&ones(128)[..], b"x"].concat()),
        (row(), vec![b'1'; 255]),
        (row(), vec![b'1'; 256]),
        (row(), vec![b'1'; 999]),
        (left(), vec![b'a'; 1_000]),
        (decimal_comma(), vec![b'1'; 4_000]),
    ] {
        let table = sheet.bytes();
        let asked = Asked::of(&table, &line, 100_000).prefix();
        let [code, _, matched, visits, records, furthest] = asked.both().answer;
        assert_eq!(code, READ);
        let size = if line.len() <= 255 { 5 } else { 7 };
        let room = 5 + size * records as usize;
        assert_eq!(asked.with_room(room).both().answer[0], READ);
        for short in [room - 1, 5 + 5 * records as usize - 1, 0] {
            assert_eq!(
                asked.with_room(short).both().answer,
                [SHORT_OF_ROOM, matched, matched, visits, records, furthest]
            );
        }
        let other = asked.with_room(5 + (12 - size) * records as usize);
        let fits = size == 5;
        assert_eq!(other.both().answer[0] == READ, fits);
    }
}

/// A thousand records in version 2, and one more.
#[test]
fn records_at_the_limit() {
    for (sheet, byte, of_a_thousand) in [(row(), b'1', 999), (left(), b'a', 1_000)] {
        let table = sheet.bytes();
        let line = vec![byte; of_a_thousand];
        let left = Asked::of(&table, &line, 100_000).both();
        assert_eq!((left.answer[0], left.answer[4]), (READ, 1_000));
        assert_eq!(left.room[..5], [2, 27, 93, 3, 232]);
        for more in [1, 2, 500, 4_000 - of_a_thousand] {
            let line = vec![byte; of_a_thousand + more];
            let length = line.len() as u64;
            // Nothing is stored, so it matters not how much room there is.
            for room in [0, ROOM] {
                let asked = Asked::of(&table, &line, 100_000).with_room(room);
                let [code, place, matched, _, records, _] = asked.both().answer;
                assert_eq!(
                    (code, place, matched, records),
                    (RECORDS, length, length, 1_001)
                );
            }
        }
    }
    // A left-recursive list with as many records, in pairs.
    let table = sheet_a().bytes();
    let records = |count| Asked::of(&table, &ones(count), 100_000).both().answer[4];
    assert_eq!((records(500), records(501)), (1_000, 1_001));
}

/// Rows that end and go on at each power of two, where too few bits would show.
#[test]
fn long_rows() {
    let ends = [
        200, 254, 255, 256, 257, 511, 512, 513, 1_023, 1_024, 2_047, 2_048, 3_998,
    ];
    for (sheet, tails) in [
        (decimal_comma(), [",1", ",", "x"]),
        (sum(), ["+1", "+", "x"]),
        (log(true), [";1", ";", "."]),
        (log(false), [";1", ";", "!"]),
    ] {
        let table = sheet.bytes();
        for end in ends {
            for tail in tails {
                let line = "1".repeat(end) + tail;
                let asked = Asked::of(&table, line.as_bytes(), AMPLE);
                asked.both();
                asked.prefix().both();
            }
        }
    }
}

/// Sums by sheet A and the sum sheet, up to the longest, cut off by effort at
/// several places.
#[test]
fn long_sums() {
    for sheet in [sheet_a(), sum()] {
        let table = sheet.bytes();
        for count in [127, 128, 129, 250, 256, 257, 500, 501, 1_000, 2_000] {
            let line = ones(count);
            let [_, _, matched, visits, ..] = Asked::of(&table, &line, AMPLE).both().answer;
            assert_eq!(matched, line.len() as u64);
            for allowance in [visits, visits - 1, visits - 7, visits / 2] {
                Asked::of(&table, &line, allowance).both();
                Asked::of(&table, &line, allowance).prefix().both();
            }
        }
    }
}

/// Sum is live at 0 and, after a bracket, far from there as well.
#[test]
fn live_far_apart() {
    let table = sum().bytes();
    for start in [
        255, 256, 257, 511, 512, 513, 768, 1_024, 2_048, 3_072, 3_990,
    ] {
        for inner in ["(1)", "(1+2)", "((1)*2)", "(1"] {
            let line = "1".repeat(start - 2) + "+" + inner;
            let left = Asked::of(&table, line.as_bytes(), AMPLE).both();
            Asked::of(&table, line.as_bytes(), AMPLE).prefix().both();
            let whole = inner != "(1";
            assert_eq!(left.answer[0], if whole { READ } else { REST });
        }
    }
}

/// The newest live use is a power of two before the one looked for, once or
/// several times, and next to that.
#[test]
fn live_by_jumps() {
    let table = jumping().bytes();
    for jump in [
        128, 255, 256, 257, 512, 768, 1_023, 1_024, 1_025, 2_048, 3_072, 3_990,
    ] {
        for times in 1..=(3_990 / jump).min(4) {
            let line = ("x".repeat(jump - 1) + "a").repeat(times) + "cbb";
            let asked = Asked::of(&table, line.as_bytes(), AMPLE);
            let answer = asked.both().answer;
            assert_eq!((answer[0], answer[2]), (READ, line.len() as u64));
            asked.prefix().both();
        }
    }
}

/// Refused for depth, and just not, behind a long row.
#[test]
fn deep_behind_a_long_row() {
    let table = far().bytes();
    let mut codes = [0; 17];
    for skipped in [100, 200, 255, 256, 300, 1_000, 2_047, 3_700] {
        for count in [1, 2, 40, 168, 169, 170, 171, 250] {
            for tail in ["c", "cb", "d", ""] {
                let line = "x".repeat(skipped) + &"a".repeat(count) + tail;
                let asked = Asked::of(&table, line.as_bytes(), 20_000);
                codes[asked.both().answer[0] as usize] += 1;
                asked.prefix().both();
            }
        }
    }
    assert!(codes[DEEP as usize] > 20 && codes[EFFORT as usize] > 20 && codes[0] > 20);
}

/// Lines of any length up to 4,000, made for each sheet, some with a slip.
#[test]
fn random_lines() {
    let sheets: [(Sheet, &[&str]); 12] = [
        (sheet_a(), &["1", "+2"]),
        (sheet_b(), &["1", ",2", "3"]),
        (decimal_comma(), &["12", "345", "7"]),
        (thousands(), &["1", ",234", ",567"]),
        (kilowatts(), &["12", ",5", " kW"]),
        (sum(), &["1", "+2", "-34", "*5", "+(6)", "*(7-8)", "+999"]),
        (row(), &["123", "4", "56"]),
        (left(), &["a", "aa"]),
        (log(true), &["1", ";23", ";456", "; "]),
        (log(false), &["1", ";23", ";456", "; "]),
        (far(), &["x", "xx", "a", "cb"]),
        (jumping(), &["x", "xxxx", "xxxxxxxx"]),
    ];
    let mut random = Random::new(212);
    let (mut stored, mut refused) = (0, 0);
    for (sheet, pieces) in &sheets {
        let table = sheet.bytes();
        for _ in 0..60 {
            let line = random_line(&mut random, pieces);
            let codes = at_its_edges(&mut random, &table, &line);
            stored += usize::from(line.len() > 255 && codes.contains(&READ));
            refused += usize::from(codes.contains(&EFFORT));
        }
    }
    assert!(stored > 100 && refused > 100, "{stored} {refused}");
}

/// The first piece, then any, cut to some length.
fn random_line(random: &mut Random, pieces: &[&str]) -> Vec<u8> {
    let length = match random.below(6) {
        0 => random.pick(&[255, 256, 257, 511, 512, 1_000, 4_000, 4_001]),
        1 => random.between(1, 255),
        2 | 3 => random.between(256, 1_000),
        _ => random.between(1_000, 4_000),
    };
    let mut line = pieces[0].as_bytes().to_vec();
    while line.len() < length as usize {
        line.extend(random.pick(pieces).as_bytes());
    }
    line.truncate(length as usize);
    if random.chance(30) {
        let at = random.below(length) as usize;
        line[at] = random.pick(b"1+;,.!ax()");
    }
    line
}

/// Prefix and whole; ample, exact and cut off; room exact and one byte short.
fn at_its_edges(random: &mut Random, table: &[u8], line: &[u8]) -> Vec<u64> {
    let mut codes = Vec::new();
    let mut ask = |asked: Asked| {
        let answer = asked.both().answer;
        codes.push(answer[0]);
        answer
    };
    let [code, _, _, visits, records, _] = ask(Asked::of(table, line, AMPLE).prefix());
    ask(Asked::of(table, line, AMPLE));
    if visits < 2 {
        return codes;
    }
    let cut = random.between(1, visits - 1);
    for allowance in [visits, visits - 1, cut] {
        ask(Asked::of(table, line, allowance).prefix());
    }
    if code == READ {
        let size = if line.len() <= 255 { 5 } else { 7 };
        let room = 5 + size * records as usize;
        for room in [room, room - 1] {
            ask(Asked::of(table, line, visits).prefix().with_room(room));
        }
    }
    codes
}
