//! `cases OUT_STDIN OUT_STDOUT` writes the commands and the independent
//! reader's answers, and a table of counts to the standard error.

use std::process::ExitCode;

use cases::{make, Formed, Furthest, Growth, LongLines, Tally, Turns, SEED};

/// Fewer than this of any code are too few to compare by.
const LEAST_OF_A_CODE: u64 = 50;
const LEAST_COMMANDS: u64 = 20_000;
/// Of tables free though a rule is left-recursive, and not free though rule 0 is
/// not, or though another is not; of those refused for a repetition of nothing,
/// and those close to it.
const LEAST_TABLES: u64 = 200;
/// Of each sort of readings by how far ranges were asked, and by what they would
/// be if every rule became live, and if each turn opened one visit more.
const LEAST_READINGS: u64 = 100;
/// Of readings in version 2, and of those among them whose match passes 255.
const LEAST_IN_VERSION_2: u64 = 300;
/// Of stored readings by version and line, of those refused for room that version 1
/// would have had, and of each refusal above 255.
const LEAST_BY_VERSION: u64 = 50;

fn main() -> ExitCode {
    let arguments: Vec<String> = std::env::args().skip(1).collect();
    let [stdin, stdout] = arguments.as_slice() else {
        eprintln!("usage: cases OUT_STDIN OUT_STDOUT");
        return ExitCode::FAILURE;
    };
    let cases = make(SEED);
    for (path, bytes) in [(stdin, &cases.stdin), (stdout, &cases.stdout)] {
        if let Err(error) = std::fs::write(path, bytes) {
            eprintln!("{path}: {error}");
            return ExitCode::FAILURE;
        }
    }
    print_counts(&cases.tally);
    eprintln!(
        "stdin {} bytes, stdout {} bytes",
        cases.stdin.len(),
        cases.stdout.len()
    );
    if enough(&cases.tally) {
        ExitCode::SUCCESS
    } else {
        eprintln!("too few cases");
        ExitCode::FAILURE
    }
}

fn print_counts(tally: &Tally) {
    for (code, count) in tally.codes.iter().enumerate() {
        let name = independent::names(code as u64).expect("codes have names");
        eprintln!("{code:2} {name:8} {count:6}");
    }
    let formed = &tally.formed;
    eprintln!(
        "well formed {}, not well formed {}",
        formed.is, formed.is_not
    );
    for (sort, count) in sorts_of_stored(formed) {
        eprintln!("{sort} {count}");
    }
    let tables = &tally.tables;
    eprintln!(
        "tables with a repetition of nothing {}",
        tables.repeating_nothing
    );
    eprintln!("tables close to that and accepted {}", tables.close_to_it);
    eprintln!("tables without a left-recursive rule {}", tables.without);
    eprintln!("tables free though they have one {}", tables.unreached);
    eprintln!("tables whose rule 0 reaches one {}", tables.reached);
    eprintln!("tables whose rule 0 is one {}", tables.itself);
    eprintln!("of these two with another rule {}", tables.mixed);
    for (sort, count) in sorts_of_readings(&tally.furthest) {
        eprintln!("readings with furthest {sort} {count}");
    }
    for (sort, count) in sorts_by_growth(&tally.growth) {
        eprintln!("readings, not free, {sort} {count}");
    }
    for (sort, count) in sorts_by_turns(&tally.turns) {
        eprintln!("readings, DEEP by turns, {sort} {count}");
    }
    for (sort, count, _) in sorts_of_long_lines(&tally.long_lines) {
        eprintln!("readings, line over 255, {sort} {count}");
    }
    eprintln!("readings with over 65,536 numbers lent {}", tally.lent_more);
    eprintln!("commands {}", tally.commands);
}

fn sorts_of_readings(furthest: &Furthest) -> [(&'static str, u64); 8] {
    [
        ("above matched", furthest.above_matched),
        ("at matched", furthest.at_matched),
        ("below matched", furthest.below_matched),
        ("0, READ", furthest.read_at_0),
        ("above 0, FAIL", furthest.fail_above_0),
        ("above 0, EFFORT", furthest.effort_above_0),
        ("above 0, DEEP", furthest.deep_above_0),
        ("at the line's end", furthest.at_end),
    ]
}

/// Beside a reader by which every rule becomes live.
fn sorts_by_growth(growth: &Growth) -> [(&'static str, u64); 6] {
    [
        ("as many visits", growth.as_many),
        ("fewer visits", growth.fewer),
        ("EFFORT no more", growth.effort_no_more),
        ("DEEP instead of EFFORT", growth.deep_instead),
        ("EFFORT elsewhere", growth.effort_elsewhere),
        ("DEEP after fewer visits", growth.deep_sooner),
    ]
}

/// Beside a reader by which each turn opens one visit more, where that one is DEEP.
fn sorts_by_turns(turns: &Turns) -> [(&'static str, u64); 5] {
    [
        ("no more, free", turns.deep_no_more_free),
        ("no more, not free", turns.deep_no_more_not_free),
        ("now EFFORT", turns.effort_instead),
        ("now later", turns.deep_later),
        ("now as well", turns.deep_as_well),
    ]
}

/// Of lines that give version 2, with how many are enough.
fn sorts_of_long_lines(long: &LongLines) -> [(&'static str, u64, u64); 10] {
    [
        ("READ", long.read, LEAST_IN_VERSION_2),
        ("READ within 255", long.short_match, LEAST_READINGS),
        ("READ beyond 255", long.long_match, LEAST_IN_VERSION_2),
        ("ROOM", long.room, LEAST_READINGS),
        (
            "ROOM, not so in version 1",
            long.room_for_version_1,
            LEAST_BY_VERSION,
        ),
        (
            "FAIL, furthest over 255",
            long.fail_above_255,
            LEAST_BY_VERSION,
        ),
        ("REST over 255", long.rest_above_255, LEAST_BY_VERSION),
        ("EFFORT over 255", long.effort_above_255, LEAST_BY_VERSION),
        ("DEEP over 255", long.deep_above_255, LEAST_BY_VERSION),
        ("RECORDS over 255", long.records_above_255, LEAST_BY_VERSION),
    ]
}

/// Stored readings of both versions, by the lines they are held against.
fn sorts_of_stored(formed: &Formed) -> Vec<(String, u64)> {
    let mut sorts = Vec::new();
    let lines = ["up to 255", "up to 4,000", "over 4,000"];
    for version in 0..2 {
        let name = format!("stored, version {}", version + 1);
        sorts.push((format!("{name}, well formed"), formed.by_version[version]));
        for (line, kind) in lines.into_iter().enumerate() {
            let not = formed.not_by_line[version][line];
            sorts.push((format!("{name}, not well formed, line {kind}"), not));
            if line != version {
                let but = formed.but_for_the_line[version][line];
                sorts.push((format!("{name}, but for the line {kind}"), but));
            }
        }
    }
    sorts
}

fn enough(tally: &Tally) -> bool {
    let tables = &tally.tables;
    let sorts = [
        tables.unreached,
        tables.reached,
        tables.mixed,
        tables.repeating_nothing,
        tables.close_to_it,
    ];
    let mut readings = sorts_of_readings(&tally.furthest).to_vec();
    readings.extend(sorts_by_growth(&tally.growth));
    readings.extend(sorts_by_turns(&tally.turns));
    let stored = sorts_of_stored(&tally.formed);
    let long_lines = sorts_of_long_lines(&tally.long_lines);
    tally.commands >= LEAST_COMMANDS
        && tally.codes.iter().all(|&count| count >= LEAST_OF_A_CODE)
        && sorts.iter().all(|&count| count >= LEAST_TABLES)
        && readings.iter().all(|&(_, count)| count >= LEAST_READINGS)
        && stored.iter().all(|&(_, count)| count >= LEAST_BY_VERSION)
        && long_lines.iter().all(|&(_, count, least)| count >= least)
}
