//! Sheets from the rules, from the papers and from the corners between them,
//! each with lines that mean something to it.

use sheets::{sheet_a, sheet_b, sum, Sheet};

use crate::long_lines::over_and_over;
use crate::maker::Maker;
use crate::program::{ALLOWANCE, NUMBERS, ROOM_LENGTH};
use crate::reach::{not_free, with_unused, with_used, Form, EDGES, FORMS};
use crate::soup::drawn_line;
use crate::version::AROUND_VERSION_1;

/// A sheet and its lines.
pub struct Example {
    pub sheet: Sheet,
    pub lines: Vec<&'static str>,
}

impl Example {
    /// The longest of the lines over and over, up to that length.
    pub fn long_line(&self, length: usize) -> Vec<u8> {
        let longest = self.lines.iter().max_by_key(|line| line.len());
        let longest = longest.expect("each example has lines");
        let pattern = if longest.is_empty() { "a" } else { longest };
        over_and_over(pattern, length)
    }
}

/// Sheet B with its choice turned round.
pub fn sheet_b_turned_round() -> Sheet {
    let mut sheet = sheet_b();
    sheet.nodes[4] = (4, 0, 3);
    sheet
}

/// E <- E '+' E / [0-9]
pub fn both_sides() -> Sheet {
    let mut sheet = Sheet::new();
    let e = sheet.rule(0);
    let plus = sheet.byte(b'+');
    let digit = sheet.range(b'0', b'9');
    let sum = sheet.in_order(&[e, plus, e]);
    let root = sheet.choice(sum, digit);
    sheet.root(root);
    sheet
}

/// E <- E '+' E / E '-' E / E '*' E / '(' E ')' / [0-9]
fn all_operators() -> Sheet {
    let mut sheet = Sheet::new();
    let e = sheet.rule(0);
    let operators: Vec<u16> = b"+-*".iter().map(|&byte| sheet.byte(byte)).collect();
    let mut choices: Vec<u16> = operators
        .iter()
        .map(|&operator| sheet.in_order(&[e, operator, e]))
        .collect();
    let open = sheet.byte(b'(');
    let close = sheet.byte(b')');
    choices.push(sheet.in_order(&[open, e, close]));
    choices.push(sheet.range(b'0', b'9'));
    let root = sheet.first_of(&choices);
    sheet.root(root);
    sheet
}

/// Mutual left recursion: L <- P '.' 'x' / 'x'; P <- P '(' 'n' ')' / L
fn mutual() -> Sheet {
    let mut sheet = Sheet::new();
    let (l, p) = (sheet.rule(0), sheet.rule(1));
    let dot = sheet.byte(b'.');
    let x = sheet.byte(b'x');
    let open = sheet.byte(b'(');
    let n = sheet.byte(b'n');
    let close = sheet.byte(b')');
    let member = sheet.in_order(&[p, dot, x]);
    let l_root = sheet.choice(member, x);
    let call = sheet.in_order(&[p, open, n, close]);
    let p_root = sheet.choice(call, l);
    sheet.root(l_root);
    sheet.root(p_root);
    sheet
}

/// E <- M '+' E / M; M <- M '-' 'n' / 'n'
fn left_under_right() -> Sheet {
    let mut sheet = Sheet::new();
    let (e, m) = (sheet.rule(0), sheet.rule(1));
    let plus = sheet.byte(b'+');
    let minus = sheet.byte(b'-');
    let n = sheet.byte(b'n');
    let sum = sheet.in_order(&[m, plus, e]);
    let e_root = sheet.choice(sum, m);
    let less = sheet.in_order(&[m, minus, n]);
    let m_root = sheet.choice(less, n);
    sheet.root(e_root);
    sheet.root(m_root);
    sheet
}

/// S <- !S 'a'
pub fn not_itself() -> Sheet {
    let mut sheet = Sheet::new();
    let s = sheet.rule(0);
    let not = sheet.not(s);
    let a = sheet.byte(b'a');
    let root = sheet.sequence(not, a);
    sheet.root(root);
    sheet
}

/// Numbers with thousands: N <- D D? D? (',' D D D)* ![0-9,]
fn thousands() -> Sheet {
    let mut sheet = Sheet::new();
    let d = sheet.rule(1);
    let comma = sheet.byte(b',');
    let nothing = sheet.empty();
    let maybe = sheet.choice(d, nothing);
    let group = sheet.in_order(&[comma, d, d, d]);
    let groups = sheet.repetition(group);
    let digit = sheet.range(b'0', b'9');
    let more = sheet.choice(digit, comma);
    let over = sheet.not(more);
    let root = sheet.in_order(&[d, maybe, maybe, groups, over]);
    sheet.root(root);
    sheet.root(digit);
    sheet
}

/// Identifier lists, growing: List <- List ',' Id / Id; Id <- [a-z] [a-z0-9]*
fn identifiers_growing() -> Sheet {
    let mut sheet = Sheet::new();
    let (list, id) = (sheet.rule(0), sheet.rule(1));
    let comma = sheet.byte(b',');
    let longer = sheet.in_order(&[list, comma, id]);
    let root = sheet.choice(longer, id);
    let word = identifier(&mut sheet);
    sheet.root(root);
    sheet.root(word);
    sheet
}

/// The same lists, free: List <- Id (',' Id)*
fn identifiers_repeated() -> Sheet {
    let mut sheet = Sheet::new();
    let id = sheet.rule(1);
    let comma = sheet.byte(b',');
    let next = sheet.sequence(comma, id);
    let rest = sheet.repetition(next);
    let root = sheet.sequence(id, rest);
    let word = identifier(&mut sheet);
    sheet.root(root);
    sheet.root(word);
    sheet
}

fn identifier(sheet: &mut Sheet) -> u16 {
    let letter = sheet.range(b'a', b'z');
    let digit = sheet.range(b'0', b'9');
    let either = sheet.choice(letter, digit);
    let rest = sheet.repetition(either);
    sheet.sequence(letter, rest)
}

/// A <- B 'a' / 'a'; B <- C 'b' / 'b'; C <- A 'c' / 'c'
fn three_in_a_ring() -> Sheet {
    let mut sheet = Sheet::new();
    let uses = [sheet.rule(1), sheet.rule(2), sheet.rule(0)];
    for (used, byte) in uses.into_iter().zip(*b"abc") {
        let byte = sheet.byte(byte);
        let longer = sheet.sequence(used, byte);
        let root = sheet.choice(longer, byte);
        sheet.root(root);
    }
    sheet
}

/// S <- hidden S 'a' / 'b', the hidden first child made by `first`.
fn hidden(first: fn(&mut Sheet) -> u16) -> Sheet {
    let mut sheet = Sheet::new();
    let before = first(&mut sheet);
    let s = sheet.rule(0);
    let a = sheet.byte(b'a');
    let b = sheet.byte(b'b');
    let longer = sheet.in_order(&[before, s, a]);
    let root = sheet.choice(longer, b);
    sheet.root(root);
    let nothing = sheet.empty();
    let x = sheet.byte(b'x');
    let optional = sheet.choice(x, nothing);
    sheet.root(optional);
    sheet
}

fn hidden_by_empty() -> Sheet {
    hidden(Sheet::empty)
}

fn hidden_by_option() -> Sheet {
    hidden(|sheet| {
        let x = sheet.byte(b'x');
        let nothing = sheet.empty();
        sheet.choice(x, nothing)
    })
}

fn hidden_by_repetition() -> Sheet {
    hidden(|sheet| {
        let x = sheet.byte(b'x');
        sheet.repetition(x)
    })
}

fn hidden_by_not() -> Sheet {
    hidden(|sheet| {
        let x = sheet.byte(b'x');
        sheet.not(x)
    })
}

/// Rule 1 of the hidden sheets may be empty.
fn hidden_by_rule() -> Sheet {
    hidden(|sheet| sheet.rule(1))
}

/// S <- S 'a' / empty
fn growing_from_nothing() -> Sheet {
    let mut sheet = Sheet::new();
    let s = sheet.rule(0);
    let a = sheet.byte(b'a');
    let longer = sheet.sequence(s, a);
    let nothing = sheet.empty();
    let root = sheet.choice(longer, nothing);
    sheet.root(root);
    sheet
}

/// S <- S S / 'a' / empty
fn twice_itself() -> Sheet {
    let mut sheet = Sheet::new();
    let s = sheet.rule(0);
    let twice = sheet.sequence(s, s);
    let a = sheet.byte(b'a');
    let nothing = sheet.empty();
    let root = sheet.first_of(&[twice, a, nothing]);
    sheet.root(root);
    sheet
}

/// S <- S
fn only_itself() -> Sheet {
    let mut sheet = Sheet::new();
    let s = sheet.rule(0);
    sheet.root(s);
    sheet
}

/// S <- R* 'b'; R <- Q 'a'; Q <- empty. The repetition ends on a child that
/// makes a tree of nothing before it fails.
fn repetition_over_trees() -> Sheet {
    let mut sheet = Sheet::new();
    let (r, q) = (sheet.rule(1), sheet.rule(2));
    let all = sheet.repetition(r);
    let b = sheet.byte(b'b');
    let root = sheet.sequence(all, b);
    let a = sheet.byte(b'a');
    let one = sheet.sequence(q, a);
    let nothing = sheet.empty();
    sheet.root(root);
    sheet.root(one);
    sheet.root(nothing);
    sheet
}

/// S <- ((R* 'b')* 'c')*; R <- 'a'
fn nested_repetitions() -> Sheet {
    let mut sheet = Sheet::new();
    let r = sheet.rule(1);
    let rs = sheet.repetition(r);
    let b = sheet.byte(b'b');
    let group = sheet.sequence(rs, b);
    let groups = sheet.repetition(group);
    let c = sheet.byte(b'c');
    let line = sheet.sequence(groups, c);
    let root = sheet.repetition(line);
    let a = sheet.byte(b'a');
    sheet.root(root);
    sheet.root(a);
    sheet
}

/// S <- (R R 'b')*; R <- 'a'*. All but the byte may match nothing, and the byte
/// is enough for the repetition.
fn repetition_close_to_nothing() -> Sheet {
    let mut sheet = Sheet::new();
    let r = sheet.rule(1);
    let b = sheet.byte(b'b');
    let line = sheet.in_order(&[r, r, b]);
    let root = sheet.repetition(line);
    let a = sheet.byte(b'a');
    let as_many = sheet.repetition(a);
    sheet.root(root);
    sheet.root(as_many);
    sheet
}

/// S <- !!R R / !R 'b'; R <- 'a' 'b'. What a not has seen leaves no trees.
fn double_not() -> Sheet {
    let mut sheet = Sheet::new();
    let r = sheet.rule(1);
    let not = sheet.not(r);
    let not_not = sheet.not(not);
    let a = sheet.byte(b'a');
    let b = sheet.byte(b'b');
    let seen = sheet.sequence(not_not, r);
    let unseen = sheet.sequence(not, b);
    let root = sheet.choice(seen, unseen);
    let ab = sheet.sequence(a, b);
    sheet.root(root);
    sheet.root(ab);
    sheet
}

/// S <- X X where X is one shared node: (R / 'b'); R <- 'a'
fn shared_child() -> Sheet {
    let mut sheet = Sheet::new();
    let r = sheet.rule(1);
    let b = sheet.byte(b'b');
    let x = sheet.choice(r, b);
    let xx = sheet.sequence(x, x);
    let xxxx = sheet.sequence(xx, xx);
    let root = sheet.choice(xxxx, xx);
    let a = sheet.byte(b'a');
    sheet.root(root);
    sheet.root(a);
    sheet
}

/// Rules 1 and 2 share one root: S <- R Q; R, Q <- 'a' 'b'* / 'b'
fn shared_root() -> Sheet {
    let mut sheet = Sheet::new();
    let (r, q) = (sheet.rule(1), sheet.rule(2));
    let root = sheet.sequence(r, q);
    let a = sheet.byte(b'a');
    let b = sheet.byte(b'b');
    let bs = sheet.repetition(b);
    let abs = sheet.sequence(a, bs);
    let shared = sheet.choice(abs, b);
    sheet.root(root);
    sheet.root(shared);
    sheet.root(shared);
    sheet
}

/// Two nodes that use one rule: kept apart where answers are kept, live
/// together where they are held. S <- R 'x' / R 'y'
fn two_uses() -> Sheet {
    let mut sheet = Sheet::new();
    let first = sheet.rule(1);
    let second = sheet.rule(1);
    let x = sheet.byte(b'x');
    let y = sheet.byte(b'y');
    let rx = sheet.sequence(first, x);
    let ry = sheet.sequence(second, y);
    let root = sheet.choice(rx, ry);
    let a = sheet.byte(b'a');
    let r_root = sheet.repetition(a);
    sheet.root(root);
    sheet.root(r_root);
    sheet
}

/// More rules than nodes: five rules, all rooted in one range.
fn more_rules_than_nodes() -> Sheet {
    let mut sheet = Sheet::new();
    let any = sheet.range(0, 255);
    for _ in 0..5 {
        sheet.root(any);
    }
    sheet
}

/// Nodes no rule leads to, on both sides of the one that counts.
fn unreachable_nodes() -> Sheet {
    let mut sheet = Sheet::new();
    let stray = sheet.byte(b'q');
    sheet.not(stray);
    let root = sheet.byte(b'a');
    sheet.root(root);
    let use_of_it = sheet.rule(0);
    sheet.sequence(use_of_it, stray);
    sheet
}

/// S <- A 'x' / A; A <- A 'a' / B; B <- 'b' / A: two rules in each other's
/// left corner, read at several positions.
fn crossed() -> Sheet {
    let mut sheet = Sheet::new();
    let (first, second) = (sheet.rule(1), sheet.rule(2));
    let x = sheet.byte(b'x');
    let a = sheet.byte(b'a');
    let b = sheet.byte(b'b');
    let ended = sheet.sequence(first, x);
    let s_root = sheet.choice(ended, first);
    let longer = sheet.sequence(first, a);
    let first_root = sheet.choice(longer, second);
    let second_root = sheet.choice(b, first);
    sheet.root(s_root);
    sheet.root(first_root);
    sheet.root(second_root);
    sheet
}

/// S <- S !'b' 'a' / 'a' / 'b': growth that a not can end.
fn growth_ended_by_not() -> Sheet {
    let mut sheet = Sheet::new();
    let s = sheet.rule(0);
    let a = sheet.byte(b'a');
    let b = sheet.byte(b'b');
    let not_b = sheet.not(b);
    let longer = sheet.in_order(&[s, not_b, a]);
    let root = sheet.first_of(&[longer, a, b]);
    sheet.root(root);
    sheet
}

/// S <- (S 'a')* 'b': the rule itself inside its leading repetition.
fn itself_repeated() -> Sheet {
    let mut sheet = Sheet::new();
    let s = sheet.rule(0);
    let a = sheet.byte(b'a');
    let b = sheet.byte(b'b');
    let sa = sheet.sequence(s, a);
    let all = sheet.repetition(sa);
    let root = sheet.sequence(all, b);
    sheet.root(root);
    sheet
}

fn example(sheet: Sheet, lines: &[&'static str]) -> Example {
    Example {
        sheet,
        lines: lines.to_vec(),
    }
}

pub fn examples() -> Vec<Example> {
    let mut examples = grammars();
    examples.extend(with_unused_rules());
    examples.extend(with_used_rules());
    examples
}

/// Free sheets with left-recursive rules that rule 0 does not reach.
fn with_unused_rules() -> Vec<Example> {
    let mut examples = Vec::new();
    for form in FORMS {
        examples.push(example(with_unused(sheet_b(), form), &["1,5", "1", ",5"]));
    }
    for (sheet, form, lines) in [
        (repetition_over_trees(), Form::Pair, ["aab", "a"]),
        (shared_root(), Form::Hidden, ["abbab", "b"]),
        (identifiers_repeated(), Form::Using, ["x1,y2", "a,"]),
    ] {
        examples.push(example(with_unused(sheet, form), &lines));
    }
    examples
}

/// Their near twins: one edge leads to such a rule, so that none is free.
fn with_used_rules() -> Vec<Example> {
    let twin = |edge| {
        let sheet = with_used(sheet_b(), 1, Form::Growing, edge);
        example(sheet, &["1,5", "1", "zaa,5", "aa1"])
    };
    EDGES.into_iter().map(twin).collect()
}

fn grammars() -> Vec<Example> {
    let hidden_lines = ["", "b", "ba", "baa", "xba", "xxbaa", "bxa", "a"];
    vec![
        example(
            sheet_a(),
            &["7+2", "7", "", "+", "7+", "1+2+3+4+5", "1+2+x", "x"],
        ),
        example(sheet_b(), &["1,5", "1", "1.5", ",5", "", "1,", "1,55"]),
        example(sheet_b_turned_round(), &["1,5", "1", ""]),
        example(
            sum(),
            &[
                "1", "12", "1+2", "1-2*3", "(1)", "(1+2)*3", "2*(3", "", "1+",
            ],
        ),
        example(both_sides(), &["1+2+3", "1", "1+", "1+2+3+4", ""]),
        example(all_operators(), &["1+2", "1*2-3", "(1+2)", "1+", "()"]),
        example(
            mutual(),
            &["x", "x(n)(n).x(n).x", "x.x", "x(n)", "x(n).x", "n", ""],
        ),
        example(left_under_right(), &["n", "n-n-n", "n-n+n", "n+n+n-n", "-"]),
        example(not_itself(), &["a", "", "b", "aa"]),
        example(
            thousands(),
            &[
                "1",
                "12,345",
                "1,234,567",
                "1234",
                "12,34",
                "",
                "123,456,789",
            ],
        ),
        example(
            identifiers_growing(),
            &["a", "x1,y2", "abc,d,e9", "a,", "1", ""],
        ),
        example(
            identifiers_repeated(),
            &["a", "x1,y2", "abc,d,e9", "a,", "1", ""],
        ),
        example(
            three_in_a_ring(),
            &["a", "ba", "cba", "acba", "cbacba", "b", ""],
        ),
        example(hidden_by_empty(), &hidden_lines),
        example(hidden_by_option(), &hidden_lines),
        example(hidden_by_repetition(), &hidden_lines),
        example(hidden_by_not(), &hidden_lines),
        example(hidden_by_rule(), &hidden_lines),
        example(growing_from_nothing(), &["", "a", "aaaa", "b"]),
        example(twice_itself(), &["", "a", "aa", "aaa"]),
        example(only_itself(), &["", "a"]),
        example(repetition_over_trees(), &["b", "aab", "", "a", "aaa"]),
        example(not_free(repetition_over_trees()), &["b", "aab", "", "a"]),
        example(nested_repetitions(), &["", "abc", "aabbcabc", "ab", "cc"]),
        example(
            repetition_close_to_nothing(),
            &["", "b", "aab", "aabbab", "a", "c"],
        ),
        example(not_free(repetition_close_to_nothing()), &["", "aabab"]),
        example(double_not(), &["ab", "b", "a", "", "aab"]),
        example(not_free(double_not()), &["ab", "b", "a"]),
        example(shared_child(), &["aa", "abab", "ba", "bbb", "a"]),
        example(not_free(shared_child()), &["aa", "abab"]),
        example(shared_root(), &["aa", "abbab", "bb", "b", "ab"]),
        example(not_free(shared_root()), &["aa", "abbab", "b"]),
        example(two_uses(), &["aax", "aay", "y", "z"]),
        example(not_free(two_uses()), &["aax", "aay", "z"]),
        example(more_rules_than_nodes(), &["", "q", "qq"]),
        example(unreachable_nodes(), &["a", "q", ""]),
        example(crossed(), &["b", "baa", "bax", "bx", "a"]),
        example(growth_ended_by_not(), &["a", "aaa", "aab", "baa", ""]),
        example(itself_repeated(), &["b", "bab", "babab", "a", ""]),
    ]
}

/// Sums that take more visits than the commands of the stream can allow.
pub fn dear_sums() -> Vec<String> {
    vec![
        "((1+2)*(3-4)+5)*6-(7)".to_string(),
        "(((((1)))))".to_string(),
        "1+2*3-4+".repeat(31),
        "9".to_string() + &"+9".repeat(127),
        "9".to_string() + &"+9".repeat(128),
    ]
}

pub fn add(maker: &mut Maker) {
    for example in examples() {
        maker.table(&example.sheet.bytes());
        maker.check();
        maker.report();
        for line in &example.lines {
            maker.line(line.as_bytes());
            maker.edges(false, 1_200);
            maker.edges(true, 1_200);
        }
        maker.allowance_limits(false);
        maker.allowance_limits(true);
        lines_around_version_1(maker, &example);
        as_the_program_asks(maker, &example);
    }
}

/// Lines drawn from the sheet, lent what the program lends.
fn as_the_program_asks(maker: &mut Maker, example: &Example) {
    for _ in 0..6 {
        let line = drawn_line(maker, &example.sheet);
        maker.line(&line);
        maker.read(true, ALLOWANCE, NUMBERS as u64, ROOM_LENGTH as u64);
    }
}

/// Lines about as long as those of version 1 can be.
fn lines_around_version_1(maker: &mut Maker, example: &Example) {
    for length in AROUND_VERSION_1 {
        maker.line(&example.long_line(length));
        let whole = maker.random.chance(50);
        let allowance = maker.affordable(700);
        maker.read_with_enough(whole, allowance, 600);
    }
}

#[cfg(test)]
mod tests {
    use super::*;

    #[test]
    fn the_worked_sheets_have_their_lengths() {
        assert_eq!(sheet_a().bytes().len(), 46);
        assert_eq!(sheet_b().bytes().len(), 41);
        assert_eq!(not_itself().bytes().len(), 29);
    }

    #[test]
    fn every_example_is_an_accepted_table() {
        for (number, example) in examples().iter().enumerate() {
            let checked = independent::check(&example.sheet.bytes());
            assert_eq!(checked, (0, 0), "example {number}");
        }
    }

    #[test]
    fn unused_rules_leave_sheets_free_and_used_ones_do_not() {
        let free = |example: &Example| independent::report(&example.sheet.bytes()).free;
        assert!(with_unused_rules().iter().all(free));
        assert!(!with_used_rules().iter().any(free));
    }

    #[test]
    fn the_hidden_sheets_are_left_recursive() {
        let all = [
            hidden_by_empty(),
            hidden_by_option(),
            hidden_by_repetition(),
            hidden_by_not(),
            hidden_by_rule(),
        ];
        for sheet in all {
            assert_eq!(independent::report(&sheet.bytes()).left_recursive, 1);
        }
    }
}
