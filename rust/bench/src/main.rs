//! Times each reader on a thousand lines of four sheets, by the visit on lines
//! of up to 4,000 bytes and with up to 409 uses live at once, and its check and
//! its report on small and full tables.
//!
//! A reading is timed as a whole: check, report, reading, storing, clearing.
//! Clearing is part of it, since the rules say what is left in the working
//! numbers. How long it takes to clear as many numbers is timed by itself, so
//! that the rest can be told apart.
//!
//! Per line the least of several repetitions counts, per sheet the median
//! over its lines, and the ratio to the plain baseline.

mod by_visit;
mod lines;
mod readers;

use std::hint::black_box;
use std::time::Instant;

use by_visit::lines_by_the_visit;
use cases::Random;
use koskorbelu::{work_needed, MOST_STORED};
use readers::{readers, Question, Reader};
use sheets::{sheet_a, sheet_b, sum, thousands};

/// What the program lends for each line.
const ALLOWANCE: u64 = 2_500;
const WORK: usize = 16_384;

const LINES: usize = 1_000;

/// How often a line is timed, and how many calls are timed together, so that
/// reading the clock weighs little.
#[derive(Clone, Copy)]
struct Pace {
    repetitions: usize,
    calls: u32,
}

const CLASS: Pace = Pace {
    repetitions: 60,
    calls: 4,
};

const REPORT: Pace = Pace {
    repetitions: 300,
    calls: 4,
};

/// A check of a small table is over before the clock is read.
const CHECK: Pace = Pace {
    repetitions: 300,
    calls: 64,
};

impl Pace {
    /// One call of a long reading is enough to outweigh the clock, and fewer
    /// repetitions keep the whole run short.
    fn of(visits: u64) -> Pace {
        if visits < 20_000 {
            return CLASS;
        }
        Pace {
            repetitions: (10_000_000 / visits).clamp(10, 60) as usize,
            calls: 1,
        }
    }
}

struct Sheet {
    name: &'static str,
    table: Vec<u8>,
    lines: Vec<Vec<u8>>,
    allowance: u64,
}

impl Sheet {
    /// How many working numbers a reading of the line clears.
    fn cleared(&self, line: &[u8]) -> usize {
        let nodes = usize::from(self.table[3]) * 256 + usize::from(self.table[4]);
        work_needed(self.allowance, nodes, line.len()) as usize
    }
}

/// What is lent, kept from line to line as the program keeps it.
struct Lent {
    work: Vec<u32>,
    room: Vec<u8>,
}

impl Lent {
    fn new(work: usize) -> Lent {
        Lent {
            work: vec![0; work],
            room: vec![0; MOST_STORED],
        }
    }
}

/// The nanoseconds of one line.
struct Times {
    /// Of each reader.
    readings: Vec<f64>,
    clearing: f64,
}

fn main() {
    let readers = readers();
    println!("Each reading is timed as a whole, and clearing the working numbers is part of it.");
    println!("`rest` is the whole less the time to clear as many numbers.");
    for sheet in class_sheets() {
        let mut lent = Lent::new(WORK);
        let codes = agree(&readers, &sheet, &mut lent);
        let times = time(&readers, &sheet, &mut lent, CLASS);
        let clearing = median(times.iter().map(|line| line.clearing).collect());
        println!();
        println!("sheet {}: {LINES} lines, {codes}", sheet.name);
        println!("  ns a line        whole  ratio      rest  ratio   (clearing {clearing:.0})");
        print_columns(&readers, &times, 1.0, 0);
    }
    let mut timed = Vec::new();
    for (sheet, visits) in lines_by_the_visit() {
        let line = &sheet.lines[0];
        let mut lent = Lent::new(sheet.cleared(line));
        let codes = agree(&readers, &sheet, &mut lent);
        let times = time(&readers, &sheet, &mut lent, Pace::of(visits));
        println!();
        println!(
            "by the visit, {}: {} bytes, {visits} visits, {codes}",
            sheet.name,
            line.len()
        );
        by_visit::print_live_uses(&sheet, visits);
        println!(
            "  ns a visit       whole  ratio      rest  ratio   (clearing {:.2})",
            times[0].clearing / visits as f64
        );
        print_columns(&readers, &times, visits as f64, 2);
        let a_visit = times[0].readings.iter().map(|time| time / visits as f64);
        timed.push((sheet.name, line.len(), a_visit.collect()));
    }
    let names: Vec<&str> = readers.iter().map(|reader| reader.name).collect();
    by_visit::print_growth(&timed, &names);
    for (name, table) in check_tables() {
        println!();
        println!("check, {name}: {} bytes", table.len());
        print_times("check", &readers, &table, CHECK, |reader| reader.check);
    }
    for (name, table) in report_tables() {
        println!();
        println!("report, {name}: {} bytes", table.len());
        print_times("report", &readers, &table, REPORT, |reader| reader.report);
    }
}

type Named = (&'static str, Vec<u8>);

/// In the last three a repetition's child is no range, so that it has to be
/// worked out what may be empty.
fn check_tables() -> [Named; 6] {
    let [every, none] = repeated_tables();
    [
        ("sheet A", sheet_a().bytes()),
        ("sheet B", sheet_b().bytes()),
        ("sum", sum().bytes()),
        ("thousands", thousands().bytes()),
        every,
        none,
    ]
}

fn repeated_tables() -> [Named; 2] {
    [
        ("full, repetitions, all may be empty", repeated(true)),
        ("full, repetitions, none may be empty", repeated(false)),
    ]
    .map(|(name, sheet)| (name, sheet.bytes()))
}

/// Small and full ones; with three it matters what rule 0 reaches. The check is
/// part of a report.
fn report_tables() -> [Named; 10] {
    let [every, none] = repeated_tables();
    [
        ("sheet A", sheet_a().bytes()),
        ("sheet B", sheet_b().bytes()),
        ("full, none may be empty", full(false).bytes()),
        ("full, all may be empty", full(true).bytes()),
        ("sheet B with a rule unused", with_a_rule_unused().bytes()),
        ("sheet A after a word", after_a_word().bytes()),
        ("full, the last is reached", full_reach().bytes()),
        ("sum", sum().bytes()),
        every,
        none,
    ]
}

/// Sheet B with a rule that calls itself and is never used: free.
fn with_a_rule_unused() -> sheets::Sheet {
    let mut sheet = sheet_b();
    let itself = sheet.rule(2);
    sheet.root(itself);
    sheet
}

/// Not free, though rule 0 is not left-recursive:
///
/// ```text
/// L <- 'sum' S
/// S <- S '+' D / D
/// D <- [0-9]
/// ```
fn after_a_word() -> sheets::Sheet {
    let mut sheet = sheets::Sheet::new();
    let (s, d) = (sheet.rule(1), sheet.rule(2));
    let word = sheet.word("sum");
    let l_root = sheet.sequence(word, s);
    let plus = sheet.byte(b'+');
    let longer = sheet.in_order(&[s, plus, d]);
    let s_root = sheet.choice(longer, d);
    let d_root = sheet.range(b'0', b'9');
    for root in [l_root, s_root, d_root] {
        sheet.root(root);
    }
    sheet
}

/// 64 rules of 8 nodes, each with the next one behind a byte, the last with itself.
fn full_reach() -> sheets::Sheet {
    let mut sheet = sheets::Sheet::new();
    for rule in 0..64 {
        let used = sheet.rule((rule + 1).min(63));
        let byte = sheet.byte(b'a');
        let mut root = if rule < 63 {
            sheet.sequence(byte, used)
        } else {
            used
        };
        while !sheet.nodes.len().is_multiple_of(8) {
            root = sheet.choice(byte, root);
        }
        sheet.root(root);
    }
    sheet
}

/// 64 rules of 8 nodes: each is a byte, or has the next rule at its left end,
/// the last one the first. If the last may be empty, so may all, and this is
/// learnt one rule at a time.
fn full(last_may_be_empty: bool) -> sheets::Sheet {
    let mut sheet = sheets::Sheet::new();
    for rule in 0..64 {
        let to = sheet.rule((rule + 1) % 64);
        let again = sheet.rule((rule + 1) % 64);
        let twice = sheet.sequence(to, again);
        let byte = sheet.byte(b'a');
        let some = if last_may_be_empty && rule == 63 {
            sheet.repetition(byte)
        } else {
            sheet.byte(b'b')
        };
        let either = sheet.choice(twice, byte);
        let first = sheet.choice(some, either);
        let root = sheet.choice(first, to);
        sheet.root(root);
    }
    sheet
}

/// 64 rules of 8 nodes, two of them repetitions whose child takes a byte:
///
/// ```text
/// R <- 'a' / N ('a' ('a' N)*)*    where N is the next rule, the first after the last
/// ```
///
/// If the last rule begins with the repetition, so may all be empty, and this
/// is learnt one rule at a time.
fn repeated(last_may_be_empty: bool) -> sheets::Sheet {
    let mut sheet = sheets::Sheet::new();
    for rule in 0..64 {
        let next = sheet.rule((rule + 1) % 64);
        let byte = sheet.byte(b'a');
        let more = sheet.sequence(byte, next);
        let inner = sheet.repetition(more);
        let some = sheet.sequence(byte, inner);
        let outer = sheet.repetition(some);
        let longer = sheet.sequence(next, outer);
        let first = if last_may_be_empty && rule == 63 {
            outer
        } else {
            byte
        };
        let root = sheet.choice(first, longer);
        sheet.root(root);
    }
    sheet
}

/// The least time of a check or report by each reader, and the ratio to the
/// baseline.
fn print_times<const NUMBERS: usize>(
    what: &str,
    readers: &[Reader],
    table: &[u8],
    pace: Pace,
    question: fn(&Reader) -> Question<NUMBERS>,
) {
    let expected = question(&readers[0])(table);
    let mut least = vec![f64::INFINITY; readers.len()];
    for _ in 0..pace.repetitions {
        for (reader, least) in readers.iter().zip(&mut least) {
            let ask = question(reader);
            assert_eq!(ask(table), expected);
            let once = time_calls(pace.calls, || {
                black_box(ask(black_box(table)));
            });
            *least = least.min(once);
        }
    }
    println!("  ns a {what:12}whole  ratio");
    for (reader, time) in readers.iter().zip(&least) {
        println!("  {:12} {:9.0} {:6.2}", reader.name, time, time / least[0]);
    }
}

/// A thousand lines each, with what the program lends.
fn class_sheets() -> [Sheet; 4] {
    let mut random = Random::new(2_500);
    let mut make = |name, sheet: sheets::Sheet, line: fn(&mut Random) -> Vec<u8>| Sheet {
        name,
        table: sheet.bytes(),
        lines: (0..LINES).map(|_| line(&mut random)).collect(),
        allowance: ALLOWANCE,
    };
    [
        make("A", sheet_a(), lines::for_a),
        make("B", sheet_b(), lines::for_b),
        make("sum", sum(), lines::for_sums),
        make("B with a rule unused", with_a_rule_unused(), lines::for_b),
    ]
}

/// A comparison of readers that differ means nothing: all must give the same
/// answers and buffers. Says how often each code was given.
fn agree(readers: &[Reader], sheet: &Sheet, lent: &mut Lent) -> String {
    let first = &readers[0];
    for reader in readers {
        assert_eq!((reader.check)(&sheet.table), (first.check)(&sheet.table));
        assert_eq!((reader.report)(&sheet.table), (first.report)(&sheet.table));
    }
    let mut counts = [0; independent::CODES];
    for line in &sheet.lines {
        for whole in [false, true] {
            let answers = readers.iter().map(|reader| {
                lent.work.fill(9);
                lent.room.fill(9);
                let answer = (reader.read)(
                    &sheet.table,
                    line,
                    sheet.allowance,
                    &mut lent.work,
                    &mut lent.room,
                    whole,
                );
                (answer, lent.work.clone(), lent.room.clone())
            });
            let answers: Vec<_> = answers.collect();
            let text = String::from_utf8_lossy(line);
            for (reader, answer) in readers.iter().zip(&answers) {
                assert!(*answer == answers[0], "{} differs on {text}", reader.name);
            }
            if whole {
                counts[answers[0].0[0] as usize] += 1;
            }
        }
    }
    let given = counts.iter().enumerate().filter(|(_, &count)| count > 0);
    let named = given.map(|(code, count)| {
        let name = independent::names(code as u64).expect("codes have names");
        format!("{name} {count}")
    });
    named.collect::<Vec<String>>().join(", ")
}

/// The times of each line.
fn time(readers: &[Reader], sheet: &Sheet, lent: &mut Lent, pace: Pace) -> Vec<Times> {
    let unknown = || Times {
        readings: vec![f64::INFINITY; readers.len()],
        clearing: f64::INFINITY,
    };
    let mut times: Vec<Times> = sheet.lines.iter().map(|_| unknown()).collect();
    // Readers and lines take turns, so that a slow moment of the machine
    // falls on all of them alike.
    for _ in 0..pace.repetitions {
        for (index, reader) in readers.iter().enumerate() {
            for (line, times) in sheet.lines.iter().zip(&mut times) {
                let once = time_reading(reader, sheet, line, lent, pace.calls);
                times.readings[index] = times.readings[index].min(once);
            }
        }
        for (line, times) in sheet.lines.iter().zip(&mut times) {
            let once = time_clearing(sheet.cleared(line), lent, pace.calls);
            times.clearing = times.clearing.min(once);
        }
    }
    times
}

fn time_reading(reader: &Reader, sheet: &Sheet, line: &[u8], lent: &mut Lent, calls: u32) -> f64 {
    time_calls(calls, || {
        let answer = (reader.read)(
            black_box(&sheet.table),
            black_box(line),
            sheet.allowance,
            black_box(&mut lent.work),
            black_box(&mut lent.room),
            true,
        );
        black_box(answer);
    })
}

fn time_clearing(numbers: usize, lent: &mut Lent, calls: u32) -> f64 {
    time_calls(calls, || black_box(&mut lent.work[..numbers]).fill(0))
}

/// Nanoseconds a call.
fn time_calls(calls: u32, mut call: impl FnMut()) -> f64 {
    let start = Instant::now();
    for _ in 0..calls {
        call();
    }
    start.elapsed().as_nanos() as f64 / f64::from(calls)
}

/// For each reader the median over the lines, whole and without clearing, of
/// one of so many parts, with so many decimals, and the ratios to the baseline.
fn print_columns(readers: &[Reader], times: &[Times], parts: f64, decimals: usize) {
    let medians = |reader: usize| {
        let whole = times.iter().map(|line| line.readings[reader]);
        let rest = times
            .iter()
            .map(|line| line.readings[reader] - line.clearing);
        [median(whole.collect()), median(rest.collect())]
    };
    let baseline = medians(0);
    for (index, reader) in readers.iter().enumerate() {
        let [whole, rest] = medians(index);
        println!(
            "  {:12} {:9.decimals$} {:6.2} {:9.decimals$} {:6.2}",
            reader.name,
            whole / parts,
            whole / baseline[0],
            rest / parts,
            rest / baseline[1],
        );
    }
}

fn median(mut times: Vec<f64>) -> f64 {
    times.sort_by(f64::total_cmp);
    let half = times.len() / 2;
    if times.len() % 2 == 1 {
        times[half]
    } else {
        (times[half - 1] + times[half]) / 2.0
    }
}

#[cfg(test)]
mod tests {
    use super::*;

    /// From the fifth to the seventh a rule is left-recursive, and rule 0 is not.
    #[test]
    fn what_the_report_tables_are() {
        let found = report_tables().map(|(_, table)| {
            let report = independent::report(&table);
            (report.how_many, report.lowest, report.free)
        });
        assert_eq!(found[..2], [(1, 0, false), (0, 64, true)]);
        assert_eq!(found[2..4], [(64, 0, false); 2]);
        assert_eq!(found[4..7], [(1, 2, true), (1, 1, false), (1, 63, false)]);
        assert_eq!(found[7..], [(2, 0, false), (64, 0, false), (64, 0, false)]);
    }

    /// Of 512 nodes 128 are repetitions, none of a range, and all rules or none
    /// may be empty.
    #[test]
    fn what_the_repeated_tables_are() {
        for (all, mask) in [(true, u64::MAX), (false, 0)] {
            let sheet = repeated(all);
            assert_eq!((sheet.nodes.len(), sheet.roots.len()), (512, 64));
            let is_range = |child: u16| sheet.nodes[usize::from(child)].0 == 1;
            let repeated = |node: &&sheets::Node| node.0 == 6 && !is_range(node.1);
            assert_eq!(sheet.nodes.iter().filter(repeated).count(), 128);
            let report = independent::report(&sheet.bytes());
            assert_eq!(
                (report.code, report.may_be_empty),
                (independent::READ, mask)
            );
        }
    }

    /// Readers that differ are not compared by the clock.
    #[test]
    fn the_readers_agree() {
        let readers = readers();
        for sheet in class_sheets() {
            agree(&readers, &sheet, &mut Lent::new(WORK));
        }
        for (sheet, _) in lines_by_the_visit() {
            let work = sheet.cleared(&sheet.lines[0]);
            agree(&readers, &sheet, &mut Lent::new(work));
        }
        for (name, table) in check_tables().into_iter().chain(report_tables()) {
            for reader in &readers {
                let given = ((reader.check)(&table), (reader.report)(&table));
                let first = ((readers[0].check)(&table), (readers[0].report)(&table));
                assert_eq!(given, first, "{} differs on {name}", reader.name);
            }
        }
    }
}
