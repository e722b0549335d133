//! Single lines that are timed by the visit: long ones, ones with many uses
//! live at once, and ones that are lent more than they need.

use koskorbelu::{MOST_ALLOWANCE, MOST_LINE, MOST_LINE_OF_VERSION_1};
use sheets::{decimal_comma, log_of_length, meter_log, sheet_a, sum, READING};

use crate::{Lent, Sheet};

/// Lines that nobody would wait for are cut off after so many visits, nearly
/// all of them made with all the uses live.
const CUT: u64 = 100_000;

/// With this allowance six pairs of brackets are read, and seven are not.
const A_MILLION: u64 = 1_000_000;

/// One line each, with its visits; it is lent just what it needs, but for the
/// last ones.
pub fn lines_by_the_visit() -> Vec<(Sheet, u64)> {
    let lines = short()
        .into_iter()
        .chain(long())
        .chain(nested())
        .chain(right_recursive());
    let generous = generous().into_iter().map(as_allowed);
    lines.map(with_visits).chain(generous).collect()
}

fn ones(count: usize, between: &str) -> String {
    vec!["1"; count].join(between)
}

/// A line that is read to its end, however many visits that takes.
fn whole(name: &'static str, sheet: sheets::Sheet, line: String) -> Sheet {
    one(name, sheet, line, MOST_ALLOWANCE)
}

/// Two lengths each: what a visit costs should not grow with the line, or with
/// a row of digits.
fn short() -> Vec<Sheet> {
    vec![
        whole("sum", sum(), ones(8, "+")),
        whole("sum", sum(), ones(32, "+")),
        whole("sum, a number", sum(), ones(15, "")),
        whole("sum, a number", sum(), ones(63, "")),
        whole("decimal comma, free", decimal_comma(), ones(15, "")),
        whole("decimal comma, free", decimal_comma(), ones(63, "")),
    ]
}

/// The longest line of version 1, or just below it, the longest of all, and one
/// between them. Nothing is stored of over 1,000 records.
fn long() -> Vec<Sheet> {
    [MOST_LINE_OF_VERSION_1, 1_000, MOST_LINE]
        .into_iter()
        .flat_map(|bytes| {
            let digits = bytes.div_ceil(2);
            let readings = bytes / READING;
            [
                whole("sheet A", sheet_a(), ones(digits, "+")),
                whole("sum", sum(), ones(digits, "+")),
                whole("sum, a number", sum(), ones(bytes, "")),
                whole("decimal comma, free", decimal_comma(), ones(bytes, "")),
                whole(
                    "meter log, free",
                    meter_log(),
                    log_of_length(readings * READING),
                ),
            ]
        })
        .collect()
}

/// The longest log, allowed as many visits as are always enough on a free sheet,
/// and as many as can be allowed: working numbers that no cache holds.
fn generous() -> [Sheet; 2] {
    let log = log_of_length(MOST_LINE / READING * READING);
    let nodes = meter_log().nodes.len();
    let enough = 2 * (nodes * (log.len() + 1)) as u64 + 1;
    [
        one("meter log, always enough", meter_log(), log.clone(), enough),
        whole("meter log, the most", meter_log(), log),
    ]
}

/// What the longest line costs by the visit beside the longest of version 1.
pub fn print_growth(timed: &[(&'static str, usize, Vec<f64>)], readers: &[&str]) {
    println!();
    println!("a visit on the longest line, in times of one on the longest of version 1");
    println!("  {:28} {}", "", readers.join("  "));
    for (name, bytes, long) in timed.iter().filter(|line| line.1 > MOST_LINE - READING) {
        let of_version_1 = MOST_LINE_OF_VERSION_1 - READING..=MOST_LINE_OF_VERSION_1;
        let short = timed
            .iter()
            .find(|line| line.0 == *name && of_version_1.contains(&line.1));
        if let Some((_, short_bytes, short)) = short {
            let ratios: Vec<String> = long
                .iter()
                .zip(short)
                .map(|(long, short)| format!("{:6.3}", long / short))
                .collect();
            println!("  {name:20} {bytes:4}/{short_bytes} {}", ratios.join("  "));
        }
    }
}

/// A digit in brackets. Each pair makes four times the visits, so the program's
/// allowance reads two, and a million six and no more. With more it is spent at
/// the innermost, with up to 62 pairs: one more is too deep.
fn nested() -> Vec<Sheet> {
    let nested = |name, pairs| one(name, sum(), in_brackets(pairs), A_MILLION);
    vec![
        nested("sum, 1 pair of brackets", 1),
        nested("sum, 2 pairs of brackets", 2),
        nested("sum, 4 pairs of brackets", 4),
        nested("sum, 16 pairs of brackets", 16),
        nested("sum, 62 pairs of brackets", 62),
    ]
}

fn in_brackets(pairs: usize) -> String {
    "(".repeat(pairs) + "1" + &")".repeat(pairs)
}

/// With `c` at the end half of the uses that are looked for are live, with
/// `b`s after it nearly all, and with `d` two in eleven.
fn right_recursive() -> Vec<Sheet> {
    let line = |count: usize, end: &str| "a".repeat(count) + end;
    let long = "c".to_string() + &"b".repeat(200);
    vec![
        one("right, 3 a, c", right(1), line(3, "c"), CUT),
        one("right, 3 a, c, b", right(1), line(3, &long), CUT),
        one("right, 48 a, c", right(1), line(48, "c"), CUT),
        one("right, 48 a, c, b", right(1), line(48, &long), CUT),
        one("right, 200 a, c", right(1), line(200, "c"), CUT),
        one("right by 8, 50 a, c", right(8), line(50, "c"), CUT),
        one("right by 8, 50 a, c, b", right(8), line(50, &long), CUT),
        one("right by 8, 50 a, d", right(8), line(50, "d"), CUT),
    ]
}

/// Right-recursive, and left-recursive by a last alternative, which is only come
/// to where there is no `c`, so that R becomes live at every position:
///
/// ```text
/// R <- 'a' R / L
/// L <- L 'b' / 'c' / R
/// ```
///
/// R is reached through so many rules, each of which but the last only names
/// the next. By one rule three visits are open for each live use, so that 171
/// are live at most before it is too deep; by eight, ten for eight, and 409.
fn right(rules: u16) -> sheets::Sheet {
    let mut sheet = sheets::Sheet::new();
    for next in 1..rules {
        let named = sheet.rule(next);
        sheet.root(named);
    }
    let (r, l) = (sheet.rule(0), sheet.rule(rules));
    let [a, b, c] = [b'a', b'b', b'c'].map(|byte| sheet.byte(byte));
    let again = sheet.sequence(a, r);
    let r_root = sheet.choice(again, l);
    let longer = sheet.sequence(l, b);
    let l_root = sheet.first_of(&[longer, c, r]);
    sheet.root(r_root);
    sheet.root(l_root);
    sheet
}

fn one(name: &'static str, sheet: sheets::Sheet, line: String, allowance: u64) -> Sheet {
    Sheet {
        name,
        table: sheet.bytes(),
        lines: vec![line.into_bytes()],
        allowance,
    }
}

/// With its visits as its allowance, and one more where it gets too deep: a
/// spent allowance is named first.
fn with_visits(mut sheet: Sheet) -> (Sheet, u64) {
    let answer = answer(&sheet);
    let deep = answer.code == independent::DEEP;
    sheet.allowance = answer.visits + u64::from(deep);
    (sheet, answer.visits)
}

/// With the allowance that it has.
fn as_allowed(sheet: Sheet) -> (Sheet, u64) {
    let visits = answer(&sheet).visits;
    (sheet, visits)
}

fn answer(sheet: &Sheet) -> plain::Answer {
    let line = &sheet.lines[0];
    let mut lent = Lent::new(sheet.cleared(line));
    let Lent { work, room } = &mut lent;
    plain::read(&sheet.table, line, sheet.allowance, work, room, true)
}

fn searches(sheet: &Sheet) -> independent::Searches {
    independent::searches(&sheet.table, &sheet.lines[0], sheet.allowance)
        .expect("the table of a sheet is accepted")
}

/// How many uses are live while the line is read, and how many entries of a
/// list of them are gone through to find one. Nothing is live on a free sheet.
pub fn print_live_uses(sheet: &Sheet, visits: u64) {
    let searches = searches(sheet);
    if searches.made == 0 {
        return;
    }
    let ratio = |part: u64, of: u64| part as f64 / of as f64;
    let newest = searches.found_from_newest;
    let oldest = searches.found_from_oldest;
    println!(
        "  live uses        {} at most, {:.1} when one is looked for",
        searches.most_live,
        ratio(searches.live, searches.made),
    );
    println!(
        "  looked for       {:.2} a visit, {:.2} of them live",
        ratio(searches.made, visits),
        ratio(searches.found, searches.made),
    );
    if searches.found > 0 {
        println!(
            "  a live one       after {:.2} entries from the newest, {:.2} from the oldest",
            ratio(newest, searches.found),
            ratio(oldest, searches.found),
        );
    }
    println!(
        "  entries a visit  {:.2} from the newest to an earlier position, {:.2} to the oldest, {:.2} from the oldest",
        ratio(newest + searches.in_vain_here, visits),
        ratio(newest + searches.in_vain, visits),
        ratio(oldest + searches.in_vain, visits),
    );
}

#[cfg(test)]
mod tests {
    use super::*;

    fn code_and_most_live(sheet: sheets::Sheet, line: String, allowance: u64) -> (u64, u64) {
        let sheet = one("", sheet, line, allowance);
        (answer(&sheet).code, searches(&sheet).most_live)
    }

    #[test]
    fn six_pairs_are_read_and_62_are_not_too_deep() {
        let ends = |pairs| code_and_most_live(sum(), in_brackets(pairs), A_MILLION);
        assert_eq!(ends(6), (independent::READ, 14));
        assert_eq!(ends(7), (independent::EFFORT, 16));
        assert_eq!(ends(62), (independent::EFFORT, 126));
        assert_eq!(ends(63).0, independent::DEEP);
    }

    #[test]
    fn the_program_allows_two_pairs() {
        let code = |pairs| code_and_most_live(sum(), in_brackets(pairs), crate::ALLOWANCE).0;
        assert_eq!((code(2), code(3)), (independent::READ, independent::EFFORT));
    }

    #[test]
    fn so_many_uses_are_live() {
        let live = |rules, count| {
            let line = "a".repeat(count) + "c";
            code_and_most_live(right(rules), line, CUT)
        };
        assert_eq!(live(1, 3), (independent::READ, 5));
        assert_eq!(live(1, 48), (independent::EFFORT, 50));
        assert_eq!(live(1, 169), (independent::EFFORT, 171));
        assert_eq!(live(1, 170), (independent::DEEP, 170));
        assert_eq!(live(8, 50), (independent::EFFORT, 409));
        assert_eq!(live(8, 51), (independent::DEEP, 410));
    }
}
