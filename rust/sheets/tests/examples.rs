//! The files of `examples/` are what they should be: each table file is that
//! of its sheet, the long lines are those that `sheets` writes, and the
//! independent reader gives the expected answers.

use std::fs;
use std::path::{Path, PathBuf};

use sheets::Sheet;

/// What is lent for a line.
struct Lent {
    allowance: u64,
    work: usize,
    room: usize,
}

/// By the classroom program, for every line.
const BY_THE_PROGRAM: Lent = Lent {
    allowance: 2_500,
    work: 16_384,
    room: 5_005,
};

/// By the example `read_lines`, by a sheet without left recursion: enough
/// never to be refused for effort, and room for a thousand records.
fn by_read_lines(sheet: &Sheet, line: &str) -> Lent {
    let pairs = sheet.nodes.len() * (line.len() + 1);
    let allowance = 2 * pairs + 1;
    Lent {
        allowance: allowance as u64,
        work: 2_048 + 4 * allowance + 2 * pairs,
        room: 7_005,
    }
}

fn file(folder: &str, name: &str) -> PathBuf {
    let examples = Path::new(env!("CARGO_MANIFEST_DIR")).join("../../examples");
    examples.join(folder).join(name)
}

fn text(folder: &str, name: &str) -> String {
    let path = file(folder, name);
    fs::read_to_string(&path).unwrap_or_else(|error| panic!("{}: {error}", path.display()))
}

/// The answer as the classroom program prints it, and the room.
fn answer_with(lent: Lent, table: &[u8], line: &str) -> (String, Vec<u8>) {
    let (mut work, mut room) = (vec![0; lent.work], vec![0; lent.room]);
    let line = line.as_bytes();
    let answer = independent::read(table, line, lent.allowance, &mut work, &mut room, true);
    (answer.to_string(), room)
}

fn answer(table: &[u8], line: &str) -> (String, Vec<u8>) {
    answer_with(BY_THE_PROGRAM, table, line)
}

/// The answers to the lines of a folder, one a line.
fn answers(folder: &str, sheet: &Sheet, lent: fn(&Sheet, &str) -> Lent) -> String {
    let table = sheet.bytes();
    let lines = text(folder, "lines.txt");
    let answers = lines
        .lines()
        .map(|line| answer_with(lent(sheet, line), &table, line).0 + "\n");
    answers.collect()
}

#[test]
fn table_files_are_those_of_the_sheets() {
    for (folder, sheet) in sheets::all() {
        let table = fs::read(file(folder, "class.gram")).unwrap();
        assert!(table == sheet.bytes(), "{folder}: run sheets");
        assert_eq!(independent::check(&table), (0, 0), "{folder}");
    }
}

#[test]
fn long_lines_are_those_that_are_written() {
    let lines = sheets::meter_lines().into_iter().map(|line| line + "\n");
    let written = text(sheets::METER_LOG, "lines.txt");
    assert!(written == lines.collect::<String>(), "run sheets");
}

#[test]
fn expected_answers() {
    for (folder, sheet) in sheets::class() {
        let answers = answers(folder, &sheet, |_, _| BY_THE_PROGRAM);
        assert_eq!(answers, text(folder, "expected.txt"), "{folder}");
    }
    for (folder, sheet) in sheets::logs() {
        let answers = answers(folder, &sheet, by_read_lines);
        assert_eq!(answers, text(folder, "expected.txt"), "{folder}");
    }
}

/// It reads five readings and lends too little for more.
#[test]
fn the_program_turns_logs_away() {
    let answers = answers(sheets::METER_LOG, &sheets::meter_log(), |_, _| {
        BY_THE_PROGRAM
    });
    let expected = text(sheets::METER_LOG, "expected.txt");
    assert_eq!(answers.lines().next(), expected.lines().next());
    let lengths = sheets::meter_lines().into_iter().map(|line| line.len());
    for (answer, length) in answers.lines().zip(lengths).skip(1) {
        let turned_away = if length > 4_000 { "LINE" } else { "WORK" };
        assert_eq!(answer, format!("{turned_away} 0 0"), "{length} bytes");
    }
    let readings = |count| sheets::log_of_length(count * sheets::READING);
    let table = sheets::meter_log().bytes();
    assert_eq!(answer(&table, &readings(5)).0, "READ 60 182 16");
    assert_eq!(answer(&table, &readings(6)).0, "WORK 0 0");
}

/// Rule, start and end of each record of a short line, in stored order.
fn records(sheet: Sheet, line: &str) -> Vec<(u8, u8, u8)> {
    let (printed, room) = answer(&sheet.bytes(), line);
    assert!(printed.starts_with("READ "), "{line}: {printed}");
    let count = usize::from(room[3]) * 256 + usize::from(room[4]);
    let stored = room[5..].chunks(5).take(count);
    stored.map(|r| (r[0], r[1], r[2])).collect()
}

#[test]
fn a_comma_splits_or_groups() {
    let decimal = records(sheets::decimal_comma(), "1,500");
    assert_eq!(decimal, [(1, 0, 1), (1, 2, 5), (0, 0, 5)]);
    let thousands = records(sheets::thousands(), "1,500");
    let without_digits: Vec<_> = thousands.into_iter().filter(|r| r.0 != 3).collect();
    assert_eq!(without_digits, [(1, 0, 1), (2, 1, 5), (0, 0, 5)]);
}

#[test]
fn a_power_has_a_number_and_a_unit() {
    let power = records(sheets::kilowatts(), "1,5 kW").into_iter();
    let without_digits: Vec<_> = power.filter(|record| record.0 != 4).collect();
    let number = [(2, 0, 1), (3, 2, 3), (1, 0, 3)];
    assert_eq!(without_digits[..3], number);
    assert_eq!(without_digits[3..], [(5, 4, 6), (0, 0, 6)]);
}

#[test]
fn digits_of_a_power() {
    let table = sheets::kilowatts().bytes();
    for power in ["0 W", "123456 W", "123456,789 kW", "0,1 W"] {
        assert!(answer(&table, power).0.starts_with("READ "), "{power}");
    }
    for other in ["1234567 W", "0,1250 kW", "1, kW", ",5 kW", "1  W", "kW", ""] {
        assert!(answer(&table, other).0.starts_with("FAIL "), "{other}");
    }
}

#[test]
fn sums_group_from_the_left() {
    let sums = records(sheets::sum(), "9-3-2").into_iter();
    let sums: Vec<_> = sums.filter(|record| record.0 == 0).collect();
    assert_eq!(sums, [(0, 0, 1), (0, 0, 3), (0, 0, 5)]);
}

#[test]
fn reports() {
    for (folder, sheet) in sheets::all() {
        let report = independent::report(&sheet.bytes());
        let left_recursive = if folder == "sum" { 0b11 } else { 0 };
        assert_eq!(report.left_recursive, left_recursive, "{folder}");
        assert_eq!(report.may_be_empty, 0, "{folder}");
        assert_eq!(report.free, folder != "sum", "{folder}");
    }
}
