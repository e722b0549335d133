//! The sheet `meter_log`: what it reads, what it refuses, and the tree of a
//! long line, whose positions take two bytes.

use independent::{Answer, EFFORT, FAIL, LINE, READ, REST, ROOM};
use sheets::{log_of_length, meter_log, READING, READINGS_OF_A_DAY};

/// Room for every stored reading.
const ROOM_FOR_ALL: usize = 7_005;

const READING_RULE: u8 = 1;
const TIME_RULE: u8 = 2;
const AMOUNT_RULE: u8 = 3;

/// Rule, start, end.
type Span = (u8, usize, usize);

/// Enough for a sheet without left recursion never to be refused for effort.
fn enough_for(line: &str) -> u64 {
    2 * meter_log().nodes.len() as u64 * (line.len() as u64 + 1) + 1
}

fn read_with(allowance: u64, room: &mut [u8], line: &str) -> Answer {
    let pairs = meter_log().nodes.len() * (line.len() + 1);
    let mut work = vec![0; 2_048 + 4 * allowance as usize + 2 * pairs];
    let table = meter_log().bytes();
    independent::read(&table, line.as_bytes(), allowance, &mut work, room, true)
}

fn read(line: &str) -> Answer {
    read_with(enough_for(line), &mut [0; ROOM_FOR_ALL], line)
}

/// The stored reading of a line that is read.
fn stored(line: &str) -> Vec<u8> {
    let mut room = vec![0; ROOM_FOR_ALL];
    let answer = read_with(enough_for(line), &mut room, line);
    assert_eq!(answer.code, READ, "{line}");
    room.truncate(number(&room[1..3]));
    assert!(independent::well_formed(&room, 4, line.len() as u64));
    room
}

/// The highest byte comes first.
fn number(bytes: &[u8]) -> usize {
    let append = |number, &byte| number * 256 + usize::from(byte);
    bytes.iter().fold(0, append)
}

/// The records of a stored reading; a position has as many bytes as the
/// version's number says.
fn spans(stored: &[u8]) -> Vec<Span> {
    let width = usize::from(stored[0]);
    let span = |record: &[u8]| {
        let (start, end) = record[1..].split_at(width);
        (record[0], number(start), number(&end[..width]))
    };
    stored[5..].chunks_exact(3 + 2 * width).map(span).collect()
}

/// Those of one rule.
fn of_rule(rule: u8, stored: &[u8]) -> Vec<(usize, usize)> {
    let spans = spans(stored).into_iter().filter(|span| span.0 == rule);
    spans.map(|(_, start, end)| (start, end)).collect()
}

/// A log of so many readings, twelve bytes each.
fn log(readings: usize) -> String {
    log_of_length(readings * READING)
}

/// A log in which one reading is another.
fn with_reading(readings: usize, there: usize, reading: &str) -> String {
    let mut log = log(readings);
    log.replace_range(there * READING..(there + 1) * READING, reading);
    log
}

#[test]
fn nodes_and_rules() {
    let sheet = meter_log();
    assert_eq!((sheet.nodes.len(), sheet.roots.len()), (31, 4));
    assert_eq!(sheet.table().map(|table| table.len()), Ok(170));
}

#[test]
fn times_of_half_hours_only() {
    for hour in 0..100 {
        for minute in 0..100 {
            let log = format!("{hour:02}:{minute:02} 0,123;");
            let is_half_hour = hour < 24 && minute % 30 == 0 && minute < 60;
            let code = if is_half_hour { READ } else { FAIL };
            assert_eq!(read(&log).code, code, "{log}");
        }
    }
    for time in [
        "7:30", "007:30", "07.30", "07:3", "07:300", "0730", "", ":30",
    ] {
        assert_eq!(read(&format!("{time} 0,123;")).code, FAIL, "{time}");
    }
}

#[test]
fn amounts_have_a_comma_and_three_digits_after_it() {
    for amount in ["0,123", "9,999", "00,000", "12,345", "10000000,123"] {
        let log = format!("00:00 {amount};");
        let stored = stored(&log);
        // All of it is the amount, not what stands after the comma.
        assert_eq!(of_rule(AMOUNT_RULE, &stored), [(6, 6 + amount.len())]);
    }
    for amount in [
        "0.123",
        "123",
        "0,12",
        "0,1234",
        ",123",
        "0,",
        "0,1,234",
        "1.000,123",
        "0 123",
        "-0,123",
        "O,123",
        "0,l23",
        "",
    ] {
        assert_eq!(read(&format!("00:00 {amount};")).code, FAIL, "{amount}");
    }
}

#[test]
fn a_decimal_point_is_never_read() {
    for there in 0..READINGS_OF_A_DAY {
        let day = log(READINGS_OF_A_DAY);
        let (start, comma) = (there * READING, there * READING + 7);
        assert_eq!(&day[comma..=comma], ",");
        let answer = read(&with_byte(&day, comma, "."));
        let code = if there == 0 { FAIL } else { REST };
        let of_reading = (answer.code, answer.place, answer.furthest);
        assert_eq!(of_reading, (code, start as u64, comma as u64), "{there}");
    }
    // Nor does any other byte give way to one.
    let log = log(3);
    for at in 0..log.len() {
        assert_ne!(read(&with_byte(&log, at, ".")).code, READ, "{at}");
    }
}

fn with_byte(line: &str, at: usize, byte: &str) -> String {
    let mut line = line.to_string();
    line.replace_range(at..=at, byte);
    line
}

#[test]
fn what_is_no_reading_is_left_over_from_its_start() {
    for reading in [
        "24:00 0,123;",
        "12:15 0,123;",
        "12:00 0,l23;",
        "12:00 0,123 ",
    ] {
        for there in [1, 21, 22, 47] {
            let answer = read(&with_reading(48, there, reading));
            let place = (there * READING) as u64;
            assert_eq!((answer.code, answer.place), (REST, place), "{reading}");
            assert_eq!(answer.records, 0);
        }
        assert_eq!(read(&with_reading(48, 0, reading)).code, FAIL, "{reading}");
    }
    // The last semicolon, too.
    let answer = read(&log(48)[..575]);
    assert_eq!((answer.code, answer.place), (REST, 564));
    assert_eq!(read("").code, FAIL);
}

#[test]
fn version_2_begins_at_256_bytes() {
    for (length, version, record) in [
        (12, 1, 5),
        (252, 1, 5),
        (255, 1, 5),
        (256, 2, 7),
        (264, 2, 7),
        (576, 2, 7),
        (4_000, 2, 7),
    ] {
        let log = log_of_length(length);
        assert_eq!(log.len(), length);
        let stored = stored(&log);
        let records = 3 * (length / READING) + 1;
        assert_eq!(stored[0], version, "{length}");
        assert_eq!(number(&stored[3..5]), records, "{length}");
        assert_eq!(stored.len(), 5 + record * records, "{length}");
        assert_eq!(spans(&stored).last(), Some(&(0, 0, length)));
    }
}

/// Where each is, with one byte for a position and with two.
#[test]
fn every_reading_is_found_in_the_tree() {
    for readings in [1, 21, 22, 48, 333] {
        let stored = stored(&log(readings));
        let starts = || (0..readings).map(|reading| reading * READING);
        let whole: Vec<_> = starts().map(|at| (at, at + 12)).collect();
        let times: Vec<_> = starts().map(|at| (at, at + 5)).collect();
        let amounts: Vec<_> = starts().map(|at| (at + 6, at + 11)).collect();
        assert_eq!(of_rule(READING_RULE, &stored), whole);
        assert_eq!(of_rule(TIME_RULE, &stored), times);
        assert_eq!(of_rule(AMOUNT_RULE, &stored), amounts);
        assert_eq!(of_rule(0, &stored), [(0, readings * READING)]);
    }
}

#[test]
fn the_longest_log() {
    let log = log(333);
    let stored = stored(&log);
    assert_eq!((log.len(), stored.len()), (3_996, ROOM_FOR_ALL));
    assert_eq!(number(&stored[3..5]), 1_000);
    let last = &spans(&stored)[996..];
    let time_and_amount = [(TIME_RULE, 3_984, 3_989), (AMOUNT_RULE, 3_990, 3_995)];
    assert_eq!(last[..2], time_and_amount);
    assert_eq!(last[2..], [(READING_RULE, 3_984, 3_996), (0, 0, 3_996)]);
    // The last four records as bytes: rule, start, end, children.
    let bytes = [
        [2, 0x0F, 0x90, 0x0F, 0x95, 0, 0],
        [3, 0x0F, 0x96, 0x0F, 0x9B, 0, 0],
        [1, 0x0F, 0x90, 0x0F, 0x9C, 0, 2],
        [0, 0x00, 0x00, 0x0F, 0x9C, 1, 77],
    ];
    assert_eq!(stored[7_005 - 28..], bytes.concat());
    let short = &mut [0; ROOM_FOR_ALL - 1];
    assert_eq!(read_with(enough_for(&log), short, &log).code, ROOM);
    assert!(short.iter().all(|&byte| byte == 0));
}

#[test]
fn lines_of_4_000_bytes_and_no_more() {
    let answer = read(&log_of_length(4_000));
    assert_eq!(
        (answer.code, answer.matched, answer.records),
        (READ, 4_000, 1_000)
    );
    for length in [4_001, 4_008, 4_032] {
        let log = log_of_length(length);
        assert_eq!(log.len(), length);
        assert_eq!(read(&log).to_string(), "LINE 0 0");
        assert_eq!(read(&log).code, LINE);
    }
}

/// Counted by hand, with the visit of the row that comes after a reading: 34, one
/// more where the minutes are no 00, two fewer where the hour begins with 2.
fn visits_of(half_hour: usize) -> u64 {
    let half = half_hour % 2 == 1;
    let late = half_hour % READINGS_OF_A_DAY >= 40;
    34 + u64::from(half) - 2 * u64::from(late)
}

#[test]
fn visits_grow_with_the_readings() {
    for readings in [1, 2, 21, 22, 40, 41, 48, 96, 333] {
        // The log's root, and nine visits that find no further reading.
        let visits = 1 + (0..readings).map(visits_of).sum::<u64>() + 9;
        assert_eq!(read(&log(readings)).visits, visits, "{readings}");
    }
}

#[test]
fn one_visit_fewer_is_refused() {
    let log = log(333);
    let visits = read(&log).visits;
    let room = &mut [0; ROOM_FOR_ALL];
    assert_eq!(read_with(visits, room, &log).code, READ);
    assert_eq!(read_with(visits - 1, room, &log).code, EFFORT);
    assert!(visits < enough_for(&log));
}
