//! Sheets that are not free, in which some rules are left-recursive and others
//! are not: only the former become live and grow. Each is read at the edges of
//! the allowance, and at those of a reader by which every rule becomes live.

use independent::Ways;
use sheets::{sheet_a, sum, Sheet};

use crate::deep::padded;
use crate::maker::Maker;
use crate::reach::{not_free, swap_rules};

pub fn add(maker: &mut Maker) {
    for (sheet, lines) in sheets_and_lines() {
        add_sheet(maker, &sheet, lines);
        // The same rules by other numbers.
        let rules = sheet.roots.len() as u64;
        if rules > 2 {
            let mut other = sheet.clone();
            let one = maker.random.between(1, rules - 2);
            let two = maker.random.between(one + 1, rules - 1);
            swap_rules(&mut other, one as u16, two as u16);
            add_sheet(maker, &other, &lines[..1]);
        }
    }
    for which in [0, 1, 2, 30, 31, 32, 33, 62, 63] {
        add_sheet(maker, &chain(64, |rule| rule == which), &["aaa", ""]);
    }
    for which in [0, 1] {
        add_sheet(maker, &chain(9, |rule| rule % 2 == which), &["aaa", "a"]);
    }
    too_deep(maker);
}

fn add_sheet(maker: &mut Maker, sheet: &Sheet, lines: &[&str]) {
    maker.table(&sheet.bytes());
    maker.report();
    for line in lines {
        maker.line(line.as_bytes());
        let whole = maker.random.chance(50);
        both_edges(maker, whole);
    }
}

/// Beside a reader by which every rule becomes live.
fn both_edges(maker: &mut Maker, whole: bool) {
    maker.both_edges(Ways::EVERY_LIVE, whole);
}

type Lines = &'static [&'static str];

fn sheets_and_lines() -> Vec<(Sheet, Lines)> {
    let hidden_lines = &["aa", "aaa", "xa", "xaa", "xxa", "a", ""];
    vec![
        (sheet_a(), &["7+2", "7", "", "+", "7+", "1+2+3+4"]),
        (sum(), &["1", "1+2", "(1)", "((1))", "2*(3", "1+"]),
        (above(), &["7+2.", "7", "7+2", "7.", "", "."]),
        (below(), &["(1)", "1+(2+3)", "((1))", "1", "(1", ""]),
        (in_each_other(), &["ba", "baa", "b", ""]),
        (indirect(), &["yxx", "zx", "zxx", "z", "y", ""]),
        (hidden(First::Option, true), hidden_lines),
        (hidden(First::Not, true), hidden_lines),
        (hidden(First::Repetition, true), hidden_lines),
        (hidden(First::Rule, true), hidden_lines),
        (not_free(hidden(First::Rule, false)), hidden_lines),
        (rights_and_left(), &["aac", "acbb", "c", "cb", "aa", ""]),
        (again_behind(), &["1+2,3,4+5", "1,2", "1", "1,", ""]),
        (beside_each_other(), &["abba", "ab", "ba", "a", ""]),
        (empty_and_not(), &["aab", "ab", "b", ""]),
    ]
}

/// L <- S '.' / D; S <- S '+' D / D; D <- [0-9]: rule 0 is not left-recursive and
/// uses a rule that is, where it stands itself.
fn above() -> Sheet {
    let mut sheet = Sheet::new();
    let (s, d) = (sheet.rule(1), sheet.rule(2));
    let dot = sheet.byte(b'.');
    let ended = sheet.sequence(s, dot);
    let l_root = sheet.choice(ended, d);
    let s_root = sum_of(&mut sheet, s, d);
    let d_root = sheet.range(b'0', b'9');
    for root in [l_root, s_root, d_root] {
        sheet.root(root);
    }
    sheet
}

/// The sum and a further term, or else the term.
fn sum_of(sheet: &mut Sheet, sum: u16, term: u16) -> u16 {
    let plus = sheet.byte(b'+');
    let longer = sheet.in_order(&[sum, plus, term]);
    sheet.choice(longer, term)
}

/// S <- S '+' F / F; F <- '(' S ')' / [0-9]: F is not left-recursive, though it
/// uses a rule that uses it.
fn below() -> Sheet {
    let mut sheet = Sheet::new();
    let (s, f) = (sheet.rule(0), sheet.rule(1));
    let s_root = sum_of(&mut sheet, s, f);
    let (open, close) = (sheet.byte(b'('), sheet.byte(b')'));
    let between = sheet.in_order(&[open, s, close]);
    let digit = sheet.range(b'0', b'9');
    let f_root = sheet.choice(between, digit);
    sheet.root(s_root);
    sheet.root(f_root);
    sheet
}

/// S <- S 'a' / M; M <- D; D <- 'b': two rules in each other where S is live.
fn in_each_other() -> Sheet {
    let mut sheet = Sheet::new();
    let [s, m, d] = [0, 1, 2].map(|rule| sheet.rule(rule));
    let (a, b) = (sheet.byte(b'a'), sheet.byte(b'b'));
    let longer = sheet.sequence(s, a);
    let root = sheet.choice(longer, m);
    for root in [root, d, b] {
        sheet.root(root);
    }
    sheet
}

/// A <- B 'x' / 'y'; B <- A / D; D <- 'z'
fn indirect() -> Sheet {
    let mut sheet = Sheet::new();
    let [a, b, d] = [0, 1, 2].map(|rule| sheet.rule(rule));
    let [x, y, z] = [b'x', b'y', b'z'].map(|byte| sheet.byte(byte));
    let longer = sheet.sequence(b, x);
    let a_root = sheet.choice(longer, y);
    let b_root = sheet.choice(a, d);
    for root in [a_root, b_root, z] {
        sheet.root(root);
    }
    sheet
}

/// What stands before a rule's use of itself.
#[derive(Clone, Copy)]
enum First {
    /// 'x'?
    Option,
    /// !'x'
    Not,
    /// 'x'*
    Repetition,
    /// U
    Rule,
}

/// S <- first S T / T; T <- 'a'; U <- 'x' / empty, or 'x' alone.
fn hidden(first: First, u_may_be_empty: bool) -> Sheet {
    let mut sheet = Sheet::new();
    let [s, t, u] = [0, 1, 2].map(|rule| sheet.rule(rule));
    let (a, x) = (sheet.byte(b'a'), sheet.byte(b'x'));
    let maybe = sheet.optional(x);
    let before = match first {
        First::Option => maybe,
        First::Not => sheet.not(x),
        First::Repetition => sheet.repetition(x),
        First::Rule => u,
    };
    let longer = sheet.in_order(&[before, s, t]);
    let root = sheet.choice(longer, t);
    for root in [root, a, if u_may_be_empty { maybe } else { x }] {
        sheet.root(root);
    }
    sheet
}

/// R <- 'a' R / L; L <- L 'b' / 'c': R uses itself, and not at its start.
fn rights_and_left() -> Sheet {
    let mut sheet = Sheet::new();
    let (r, l) = (sheet.rule(0), sheet.rule(1));
    let [a, b, c] = [b'a', b'b', b'c'].map(|byte| sheet.byte(byte));
    let again = sheet.sequence(a, r);
    let r_root = sheet.choice(again, l);
    let longer = sheet.sequence(l, b);
    let l_root = sheet.choice(longer, c);
    sheet.root(r_root);
    sheet.root(l_root);
    sheet
}

/// L <- S ',' L / S; S <- S '+' D / D; D <- [0-9]: rule 0 again at a later place.
fn again_behind() -> Sheet {
    let mut sheet = Sheet::new();
    let [l, s, d] = [0, 1, 2].map(|rule| sheet.rule(rule));
    let comma = sheet.byte(b',');
    let more = sheet.in_order(&[s, comma, l]);
    let l_root = sheet.choice(more, s);
    let s_root = sum_of(&mut sheet, s, d);
    let d_root = sheet.range(b'0', b'9');
    for root in [l_root, s_root, d_root] {
        sheet.root(root);
    }
    sheet
}

/// S <- S P / S Q / P / Q; P <- 'a' 'b'; Q <- 'b' 'a' / 'a': rules that don't grow
/// before and behind one that does, and where it has grown to.
fn beside_each_other() -> Sheet {
    let mut sheet = Sheet::new();
    let [s, p, q] = [0, 1, 2].map(|rule| sheet.rule(rule));
    let (ab, ba) = (sheet.word("ab"), sheet.word("ba"));
    let a = sheet.byte(b'a');
    let (sp, sq) = (sheet.sequence(s, p), sheet.sequence(s, q));
    let root = sheet.first_of(&[sp, sq, p, q]);
    let q_root = sheet.choice(ba, a);
    for root in [root, ab, q_root] {
        sheet.root(root);
    }
    sheet
}

/// S <- N? S 'b' / !N 'b' / E; N <- 'a'; E <- (): rules that don't grow, in front, in
/// a not and with a match of nothing.
fn empty_and_not() -> Sheet {
    let mut sheet = Sheet::new();
    let [s, n, e] = [0, 1, 2].map(|rule| sheet.rule(rule));
    let (a, b, nothing) = (sheet.byte(b'a'), sheet.byte(b'b'), sheet.empty());
    let maybe = sheet.optional(n);
    let longer = sheet.in_order(&[maybe, s, b]);
    let not = sheet.not(n);
    let only = sheet.sequence(not, b);
    let root = sheet.first_of(&[longer, only, e]);
    for root in [root, a, nothing] {
        sheet.root(root);
    }
    sheet
}

/// Each rule is the next one, the last 'a'; those that grow are themselves and
/// 'a', or else that.
fn chain(rules: u16, grows: impl Fn(u16) -> bool) -> Sheet {
    let mut sheet = Sheet::new();
    let a = sheet.byte(b'a');
    for rule in 0..rules {
        let next = match rule + 1 < rules {
            true => sheet.rule(rule + 1),
            false => a,
        };
        let root = match grows(rule) {
            true => {
                let itself = sheet.rule(rule);
                let longer = sheet.sequence(itself, a);
                sheet.choice(longer, next)
            }
            false => next,
        };
        sheet.root(root);
    }
    sheet
}

/// Rules that don't grow have matched before it is too deep, so that it is so
/// after fewer visits.
fn too_deep(maker: &mut Maker) {
    for rules in 1..=4 {
        maker.table(&named_then_deep(rules).bytes());
        for length in [8, 9, 10, 11, 14, 40] {
            maker.line(&[b"b".as_slice(), &vec![b'a'; length]].concat());
            both_edges(maker, false);
            both_edges(maker, true);
        }
        maker.table(&named_and_again(rules).bytes());
        for length in [168, 169, 170, 171, 200, 255] {
            maker.line(&vec![b'b'; length]);
            both_edges(maker, false);
            both_edges(maker, true);
        }
    }
}

/// S <- N pads T / S; T <- 'a' T / empty; N <- 'b' through so many rules. Three visits
/// deeper with each 'a': behind nine the range is the 512th that is open.
fn named_then_deep(rules: u16) -> Sheet {
    let mut sheet = Sheet::new();
    let (s, n, t) = (sheet.rule(0), sheet.rule(1), sheet.rule(rules + 1));
    let (a, b) = (sheet.byte(b'a'), sheet.byte(b'b'));
    let deep = padded(&mut sheet, t, 479);
    let first = sheet.sequence(n, deep);
    let root = sheet.choice(first, s);
    sheet.root(root);
    name_through(&mut sheet, rules, b);
    let on = sheet.sequence(a, t);
    let t_root = sheet.optional(on);
    sheet.root(t_root);
    sheet
}

/// R <- N R / L; L <- L 'c' / 'c'; N <- 'b' through so many rules. Three visits
/// deeper with each byte.
fn named_and_again(rules: u16) -> Sheet {
    let mut sheet = Sheet::new();
    let (r, n, l) = (sheet.rule(0), sheet.rule(1), sheet.rule(rules + 1));
    let (b, c) = (sheet.byte(b'b'), sheet.byte(b'c'));
    let again = sheet.sequence(n, r);
    let root = sheet.choice(again, l);
    sheet.root(root);
    name_through(&mut sheet, rules, b);
    let longer = sheet.sequence(l, c);
    let l_root = sheet.choice(longer, c);
    sheet.root(l_root);
    sheet
}

/// So many rules more, each but the last only the next.
fn name_through(sheet: &mut Sheet, rules: u16, last: u16) {
    for _ in 1..rules {
        let next = sheet.rule(sheet.roots.len() as u16 + 1);
        sheet.root(next);
    }
    sheet.root(last);
}

#[cfg(test)]
mod tests {
    use super::*;
    use crate::maker::USUAL_WORK;
    use crate::version::FULL_ROOM;
    use independent::{Answer, DEEP, EFFORT, READ};

    fn read(sheet: &Sheet, line: &[u8], allowance: u64) -> Answer {
        let (mut work, mut room) = (vec![0; USUAL_WORK as usize], vec![0; FULL_ROOM]);
        independent::read(&sheet.bytes(), line, allowance, &mut work, &mut room, false)
    }

    /// Which rules of the sheet are left-recursive.
    fn growing(sheet: &Sheet) -> u64 {
        let report = independent::report(&sheet.bytes());
        assert_eq!((report.code, report.free), (READ, false));
        report.left_recursive
    }

    #[test]
    fn which_rules_grow() {
        let masks = sheets_and_lines()
            .into_iter()
            .map(|(sheet, _)| growing(&sheet));
        let expected = [
            0b1, 0b11, 0b10, 0b1, 0b1, 0b11, 0b1, 0b1, 0b1, 0b1, 0b1000, 0b10, 0b10, 0b1, 0b1,
        ];
        assert_eq!(masks.collect::<Vec<u64>>(), expected);
        for which in [0, 31, 32, 63] {
            assert_eq!(growing(&chain(64, |rule| rule == which)), 1 << which);
        }
        assert_eq!(growing(&chain(9, |rule| rule % 2 == 0)), 0b1_0101_0101);
        assert_eq!(growing(&named_then_deep(3)), 0b1);
        assert_eq!(growing(&named_and_again(3)), 0b1_0000);
    }

    #[test]
    fn visits_of_the_chains() {
        // Three attempts of rule 0 with a byte more each, and one in vain; the
        // other rules in the first and the last.
        let first = read(&chain(64, |rule| rule == 0), b"aaa", 1_000);
        assert_eq!((first.code, first.matched), (READ, 3));
        assert_eq!(first.visits, (3 + 64) + 4 + 4 + (4 + 64));
        let last = read(&chain(64, |rule| rule == 63), b"aaa", 1_000);
        assert_eq!(last.visits, 63 + 4 + 4 + 4 + 5);
    }

    #[test]
    fn too_deep_behind_rules_that_do_not_grow() {
        let deep = |sheet: &Sheet, line: &[u8]| {
            let refused = read(sheet, line, 6_000);
            assert_eq!(refused.code, DEEP);
            assert_eq!(read(sheet, line, refused.visits).code, EFFORT);
            refused.visits
        };
        let line = b"baaaaaaaaaaaaaa";
        assert_eq!(
            deep(&named_then_deep(2), line),
            deep(&named_then_deep(1), line) + 1
        );
        let line = [b'b'; 255];
        assert!(deep(&named_and_again(2), &line) > deep(&named_and_again(1), &line));
        assert_eq!(read(&named_then_deep(1), b"baaaaaaaaa", 6_000).code, READ);
        assert_eq!(read(&named_then_deep(1), b"baaaaaaaaaa", 6_000).code, DEEP);
    }
}
