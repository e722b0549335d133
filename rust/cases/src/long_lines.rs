//! Lines over 255 bytes, which give version 2, up to 4,000, and longer ones, which are
//! refused: with a short match and a long one, with about a thousand records, and with
//! all that can be refused of a line refused above 255. Each long line is asked about
//! many times.

mod meter_log;

use independent::{Ways, LONGEST_LINE, MOST_ALLOWANCE};
use sheets::{decimal_comma, sheet_a, sheet_b, sum, thousands, Sheet};

use crate::deep::{around_a_refusal, right_recursive};
use crate::furthest;
use crate::maker::{Maker, MOST_LINE, MOST_ROOM};
use crate::reach::{append, not_free};
use crate::records::{each_the_next_twice, exactly, nested_by_growth};
use crate::rows::{long_rows, row_of_names};
use crate::soup::{drawn_line, some_sheet};
use crate::textbook::examples;
use crate::version::{stored_length, LONGEST_OF_VERSION_1};

pub fn add(maker: &mut Maker) {
    at_the_limits(maker);
    one_line_for_every_sheet(maker);
    short_matches(maker);
    examples_far_behind(maker);
    class_sheets(maker);
    rows(maker);
    a_thousand_records(maker);
    too_deep(maker);
    meter_log::add(maker);
    random_sheets(maker);
}

/// Hardly any sheet reads this byte unless it is made to.
pub const BEFORE: u8 = b'~';

/// S <- '~'* R, where R was rule 0: what is read stands as far behind as there are such
/// bytes.
pub fn behind_a_row(sheet: &Sheet) -> Sheet {
    let mut behind = Sheet::new();
    let (before, rule) = (behind.byte(BEFORE), behind.rule(1));
    let row = behind.repetition(before);
    let root = behind.sequence(row, rule);
    behind.root(root);
    append(&mut behind, sheet);
    behind
}

/// S <- R*, where R was rule 0.
fn in_a_row(sheet: &Sheet) -> Sheet {
    let mut row = Sheet::new();
    let rule = row.rule(1);
    let root = row.repetition(rule);
    row.root(root);
    append(&mut row, sheet);
    row
}

/// The line behind so many such bytes.
pub fn far_behind(before: usize, line: &[u8]) -> Vec<u8> {
    [&vec![BEFORE; before], line].concat()
}

/// The line, and then such bytes up to that length.
fn filled_up(line: &str, length: usize) -> Vec<u8> {
    let mut line = line.as_bytes().to_vec();
    line.resize(length, BEFORE);
    line
}

/// The same over and over, up to that length.
pub fn over_and_over(unit: &str, length: usize) -> Vec<u8> {
    unit.bytes().cycle().take(length).collect()
}

/// Both readings at their edges, and refused for effort in even steps.
fn ask(maker: &mut Maker, wish: u64) {
    maker.edges(true, wish);
    maker.edges(false, wish);
    let visits = maker.trial(false, maker.affordable(wish)).visits;
    maker.refused_in_steps(visits, 6);
}

/// The same in few commands, for what is lent much.
fn ask_little(maker: &mut Maker, wish: u64) {
    let allowance = maker.affordable(wish);
    let trial = maker.trial(false, allowance);
    let (visits, stored) = (trial.visits, trial.stored.len() as u64);
    maker.read(false, visits, maker.needed(visits), stored);
    maker.read_with_enough(true, visits, stored.saturating_sub(1));
    maker.refused_in_steps(visits, 2);
}

/// A line of one row, as long as one can be.
fn at_the_limits(maker: &mut Maker) {
    maker.table(&furthest::all().bytes());
    let longest = [LONGEST_OF_VERSION_1, LONGEST_LINE];
    for length in longest
        .into_iter()
        .flat_map(|most| [most - 1, most, most + 1])
    {
        maker.line(&vec![b'a'; length]);
        ask(maker, 9_000);
        maker.allowance_limits(false);
        maker.allowance_limits(true);
    }
}

/// At the limit, where most sheets ask for more working numbers than are lent, and beyond
/// it: the line is refused before the allowance, and that before the working numbers.
fn one_line_for_every_sheet(maker: &mut Maker) {
    for length in [LONGEST_LINE, LONGEST_LINE + 1, MOST_LINE] {
        maker.line(&vec![b'7'; length]);
        for example in examples() {
            maker.table(&example.sheet.bytes());
            let whole = maker.random.chance(50);
            let allowance = maker.affordable(1_000);
            maker.read_with_enough(whole, allowance, 100);
            let wrong = maker.random.pick(&[0, MOST_ALLOWANCE + 1, u64::MAX]);
            maker.read(!whole, wrong, 0, 0);
        }
    }
}

/// What a sheet reads, and then what it doesn't: the line decides the version.
fn short_matches(maker: &mut Maker) {
    for example in examples() {
        maker.table(&example.sheet.bytes());
        for line in example.lines.iter().take(2) {
            let length = maker.random.pick(&[256, 257, 300]);
            maker.line(&filled_up(line, length));
            maker.edges(false, 1_200);
            maker.read_with_enough(true, maker.affordable(1_200), 100);
        }
    }
    for (sheet, line) in [(sheet_a(), "7+2"), (sheet_b(), "1,5"), (sheet_a(), "x")] {
        maker.table(&sheet.bytes());
        for length in [300, LONGEST_LINE] {
            maker.line(&filled_up(line, length));
            ask(maker, 100);
        }
    }
}

/// The examples read behind a row, where it passes 255: with too small an allowance in
/// the row and behind it.
fn examples_far_behind(maker: &mut Maker) {
    for example in examples() {
        maker.table(&behind_a_row(&example.sheet).bytes());
        maker.report();
        for _ in 0..2 {
            let line = maker.random.pick(&example.lines);
            let before = maker.random.pick(&[254, 255, 256, 300, 511]);
            let mut line = far_behind(before, line.as_bytes());
            // What a whole-line reading leaves over.
            line.extend(maker.random.chance(50).then_some(BEFORE));
            maker.line(&line);
            let whole = maker.random.chance(50);
            maker.edges(whole, 2_500);
            let visits = maker.trial(whole, maker.affordable(2_500)).visits;
            maker.read_with_enough(!whole, visits, 600);
            for _ in 0..2 {
                let allowance = visits - maker.random.between(2, 12);
                maker.read_with_enough(whole, allowance, 40);
            }
        }
    }
}

/// A line of so many bytes.
type Line = fn(usize) -> Vec<u8>;

/// The sheets of a class on lines made for them, the longest with the most lent.
fn class_sheets(maker: &mut Maker) {
    let sheets: [(Sheet, Line, &[usize], &[usize]); 4] = [
        (
            sheet_a(),
            |length| over_and_over("7+", length),
            &[257, 511, 999, 1_001],
            &[3_999],
        ),
        (
            sum(),
            |length| over_and_over("12+3*(4-5)-", length),
            &[257, 300],
            &[1_000, LONGEST_LINE],
        ),
        (
            decimal_comma(),
            |length| with_a_comma(&over_and_over("1234567890", length)),
            &[256, 1_000, 2_000],
            &[LONGEST_LINE],
        ),
        (
            thousands(),
            |length| over_and_over("123,", length),
            &[259, 999, 1_003],
            &[3_999],
        ),
    ];
    for (sheet, line, lengths, longest) in sheets {
        maker.table(&sheet.bytes());
        for &length in lengths {
            maker.line(&line(length));
            ask(maker, 9_000);
        }
        for &length in longest {
            maker.line(&line(length));
            maker.lending_most(|maker| ask_little(maker, 40_000));
        }
    }
}

/// The digits with a comma in their middle.
fn with_a_comma(digits: &[u8]) -> Vec<u8> {
    let mut line = digits.to_vec();
    line[digits.len() / 2] = b',';
    line
}

/// Rows of up to 4,000 turns.
fn rows(maker: &mut Maker) {
    for (unit, sheets) in long_rows() {
        for length in [256, 1_000] {
            maker.line(&over_and_over(unit, length));
            for sheet in &sheets {
                maker.table(&sheet.bytes());
                maker.both_edges(Ways::NESTED, length < 1_000);
            }
        }
        maker.line(&over_and_over(unit, LONGEST_LINE));
        for sheet in &sheets {
            maker.table(&sheet.bytes());
            maker.lending_most(|maker| ask_little(maker, 40_000));
        }
    }
}

/// One record a turn or several, flat or nested, and far more records than bytes.
fn a_thousand_records(maker: &mut Maker) {
    for (sheet, lengths) in [
        (row_of_names(1), [998, 999, 1_000]),
        (not_free(row_of_names(3)), [332, 333, 334]),
        (nested_by_growth(0), [999, 1_000, 1_001]),
        (nested_by_growth(1), [499, 500, 501]),
    ] {
        maker.table(&sheet.bytes());
        for length in lengths {
            maker.line(&vec![b'a'; length]);
            maker.edges(true, 6_000);
            with_room_for_version_1(maker, 6_000);
        }
    }
    maker.line(&[b'a'; 300]);
    for sheet in [exactly(1_000), exactly(1_001), each_the_next_twice(9)] {
        maker.table(&sheet.bytes());
        maker.edges(false, 600);
        with_room_for_version_1(maker, 600);
    }
}

/// As much room as version 1 would ask for, one byte less than a thousand records take,
/// as much as they take, and the most that is lent.
fn with_room_for_version_1(maker: &mut Maker, wish: u64) {
    let trial = maker.trial(false, maker.affordable(wish));
    let (visits, full) = (trial.visits, maker.full_room());
    for room in [stored_length(1, trial.records), full - 1, full, MOST_ROOM] {
        maker.read_with_enough(false, visits, room);
    }
}

/// At 511, 512 and 513 open visits behind a row, and with ranges visited at the line's
/// end before it is too deep.
fn too_deep(maker: &mut Maker) {
    for length in 168..=171 {
        let before = maker.random.pick(&[100, 256, 300]);
        maker.line(&far_behind(before, &vec![b'a'; length]));
        for pads in 0..6 {
            let sheet = right_recursive(pads);
            for sheet in [sheet.clone(), not_free(sheet)] {
                maker.table(&behind_a_row(&sheet).bytes());
                let whole = maker.random.chance(50);
                around_a_refusal(maker, whole, 2_500);
            }
        }
    }
    maker.table(&looking_to_the_end().bytes());
    for length in [256, 400, 1_000] {
        maker.line(&vec![b'a'; length]);
        around_a_refusal(maker, false, 5_000);
    }
}

/// S <- !('a'* 'b') 'a' S
fn looking_to_the_end() -> Sheet {
    let mut sheet = Sheet::new();
    let (a, b, s) = (sheet.byte(b'a'), sheet.byte(b'b'), sheet.rule(0));
    let row = sheet.repetition(a);
    let seen = sheet.sequence(row, b);
    let not = sheet.not(seen);
    let root = sheet.in_order(&[not, a, s]);
    sheet.root(root);
    sheet
}

/// Random sheets, as they are, in a row and behind one, on lines drawn from them.
fn random_sheets(maker: &mut Maker) {
    for round in 0..150 {
        let alphabet = maker.random.pick(&[b"ab".as_slice(), b"abc", b"0+,"]);
        let sheet = some_sheet(maker, alphabet);
        let least = maker.random.pick(&[256, 256, 300, 512, 1_200]);
        let (sheet, line) = match round % 3 {
            0 if !may_be_empty(&sheet) => (in_a_row(&sheet), drawn_in_a_row(maker, &sheet, least)),
            1 => (sheet.clone(), drawn_in_a_row(maker, &sheet, least)),
            _ => {
                let line = drawn_line(maker, &sheet);
                (behind_a_row(&sheet), far_behind(least, &line))
            }
        };
        maker.table(&sheet.bytes());
        maker.line(&line);
        let whole = maker.random.chance(50);
        maker.edges(whole, 4_000);
        maker.read_with_enough(!whole, maker.affordable(4_000), 600);
    }
    for _ in 0..14 {
        let sheet = some_sheet(maker, b"ab");
        let row = if may_be_empty(&sheet) {
            behind_a_row(&sheet)
        } else {
            in_a_row(&sheet)
        };
        let line = drawn_in_a_row(maker, &sheet, LONGEST_LINE - 100);
        maker.table(&row.bytes());
        maker.line(&line[..line.len().min(LONGEST_LINE)]);
        maker.lending_most(|maker| ask_little(maker, 40_000));
    }
}

fn may_be_empty(sheet: &Sheet) -> bool {
    independent::report(&sheet.bytes()).may_be_empty & 1 == 1
}

/// Lines drawn from the sheet one behind another, at least so many bytes.
fn drawn_in_a_row(maker: &mut Maker, sheet: &Sheet, least: usize) -> Vec<u8> {
    let mut line = Vec::new();
    while line.len() < least {
        let mut drawn = drawn_line(maker, sheet);
        // A sheet that draws nothing would never be done.
        drawn.extend(drawn.is_empty().then_some(b'a'));
        line.extend(drawn);
    }
    line
}

#[cfg(test)]
mod tests {
    use super::*;
    use crate::maker::Trial;
    use independent::{READ, RECORDS};

    /// The same trees, as far behind as there are bytes before them.
    #[test]
    fn examples_stand_behind_a_row() {
        for example in examples() {
            let (near, far) = (&example.sheet, behind_a_row(&example.sheet));
            let free = |sheet: &Sheet| independent::report(&sheet.bytes()).free;
            assert_eq!(free(near), free(&far));
            for line in &example.lines {
                let one = Trial::of(&near.bytes(), line.as_bytes(), false, 3_000);
                let line = far_behind(300, line.as_bytes());
                let other = Trial::of(&far.bytes(), &line, false, 3_700);
                assert_eq!(one.code, other.code);
                let more = u64::from(one.code == READ);
                assert_eq!(one.records + more, other.records);
            }
        }
    }

    #[test]
    fn a_thousand_records_in_version_2() {
        let stored = |sheet: Sheet, length| {
            let trial = Trial::of(&sheet.bytes(), &vec![b'a'; length], true, 6_000);
            (trial.code, trial.stored.len())
        };
        assert_eq!(stored(row_of_names(1), 999), (READ, 7_005));
        assert_eq!(stored(row_of_names(1), 1_000), (RECORDS, 0));
        assert_eq!(stored(nested_by_growth(0), 1_000), (READ, 7_005));
        assert_eq!(stored(nested_by_growth(0), 1_001), (RECORDS, 0));
    }

    /// Not over many: whoever answers fills and digests all of it.
    #[test]
    fn few_are_lent_much() {
        let mut maker = Maker::new(crate::SEED);
        add(&mut maker);
        let lent_more = maker.finish().tally.lent_more;
        assert!((100..=300).contains(&lent_more), "{lent_more}");
    }
}
