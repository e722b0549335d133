//! Lines that open 511, 512 and 513 visits, and sheets of full size.

use sheets::Sheet;

use crate::maker::Maker;
use crate::reach::{not_free, swap_rules};
use crate::soup;

pub fn add(maker: &mut Maker) {
    right_recursion(maker);
    chains_of_nodes(maker);
    many_live_uses(maker);
    far_reach(maker);
    reach_down_a_chain(maker);
    full_size(maker);
}

/// `child` under so many sequences with an empty first: each opens one visit.
pub fn padded(sheet: &mut Sheet, child: u16, pads: usize) -> u16 {
    let nothing = sheet.empty();
    (0..pads).fold(child, |inner, _| sheet.sequence(nothing, inner))
}

/// S <- pads T; T <- 'a' T / empty. Three visits deeper with each byte, so
/// three pads reach every depth.
pub fn right_recursive(pads: usize) -> Sheet {
    let mut sheet = Sheet::new();
    let t = sheet.rule(1);
    let root = padded(&mut sheet, t, pads);
    let a = sheet.byte(b'a');
    let longer = sheet.sequence(a, t);
    let nothing = sheet.empty();
    let t_root = sheet.choice(longer, nothing);
    sheet.root(root);
    sheet.root(t_root);
    sheet
}

fn right_recursion(maker: &mut Maker) {
    for pads in 0..7 {
        maker.table(&right_recursive(pads).bytes());
        for length in 166..=171 {
            maker.line(&vec![b'a'; length]);
            let whole = maker.random.chance(50);
            let allowance = maker.affordable(1_000);
            around_a_refusal(maker, whole, allowance);
        }
    }
    for pads in 0..4 {
        maker.table(&not_free(right_recursive(pads)).bytes());
        for length in [165, 168, 169, 170, 171, 255] {
            maker.line(&vec![b'a'; length]);
            let allowance = maker.affordable(1_000);
            around_a_refusal(maker, true, allowance);
        }
    }
}

/// The reading itself, then the allowance just spent when the deep visit is
/// refused (effort is named first) and one more.
pub fn around_a_refusal(maker: &mut Maker, whole: bool, allowance: u64) {
    maker.read_with_enough(whole, allowance, 1_000);
    let trial = maker.trial(whole, allowance);
    if trial.code == independent::DEEP {
        maker.read_with_enough(whole, trial.visits, 40);
        maker.read_with_enough(whole, trial.visits + 1, 40);
    }
}

/// Sheets of up to 512 nodes in one chain of nots: down to a range, or to a row,
/// whose turns take the place of one another.
fn chains_of_nodes(maker: &mut Maker) {
    for nots in [509, 510, 511] {
        let mut sheet = Sheet::new();
        let a = sheet.byte(b'a');
        below_nots(&mut sheet, a, nots);
        maker.table(&sheet.bytes());
        for line in [b"".as_slice(), b"a"] {
            maker.line(line);
            for allowance in [510, 511, 512, 513] {
                maker.read_with_enough(false, allowance, 40);
            }
        }
    }
    for nots in [504, 506, 508, 509, 510] {
        let mut sheet = Sheet::new();
        let a = sheet.byte(b'a');
        let all = sheet.repetition(a);
        below_nots(&mut sheet, all, nots);
        let sheet = if nots < 508 { not_free(sheet) } else { sheet };
        maker.table(&sheet.bytes());
        for length in [0, 1, 2, 8, 40] {
            maker.line(&vec![b'a'; length]);
            maker.read_with_enough(true, 1_100, 40);
            maker.read_with_enough(false, 530, 40);
        }
    }
}

/// Rule 0 is the node below so many nots: each opens one visit.
fn below_nots(sheet: &mut Sheet, node: u16, nots: usize) {
    let top = (0..nots).fold(node, |inner, _| sheet.not(inner));
    sheet.root(top);
}

/// A long chain of rules at every position, none of which is ever done. Where
/// all of them grow, as many uses are live as visits can be open.
fn many_live_uses(maker: &mut Maker) {
    for rules in [2, 3, 8, 62, 63, 64] {
        for all_grow in [false, true] {
            maker.table(&chain_at_every_position(rules, all_grow).bytes());
            maker.report();
            for length in [0, 1, 2, 5, 8, 100] {
                maker.line(&vec![b'a'; length]);
                let allowance = maker.affordable(1_500);
                around_a_refusal(maker, length % 2 == 0, allowance);
            }
        }
    }
}

/// Each rule is the next; the last starts with itself, or with rule 0 so that all
/// grow, and goes on to rule 0.
fn chain_at_every_position(rules: u16, all_grow: bool) -> Sheet {
    let mut sheet = Sheet::new();
    let a = sheet.byte(b'a');
    let uses: Vec<u16> = (0..rules).map(|rule| sheet.rule(rule)).collect();
    for &next in &uses[1..] {
        sheet.root(next);
    }
    let first = if all_grow { 0 } else { rules - 1 };
    let grown = sheet.sequence(uses[usize::from(first)], a);
    let on = sheet.sequence(a, uses[0]);
    let last = sheet.first_of(&[grown, on, a]);
    sheet.root(last);
    sheet
}

/// Rule 0 reaches the last rule through all others, or not at all.
fn far_reach(maker: &mut Maker) {
    for rules in [2, 3, 33, 63, 64] {
        far_reach_of(maker, chain_of_rules(rules, None));
        for end in [0, rules / 2, rules - 2] {
            far_reach_of(maker, chain_of_rules(rules, Some(end)));
        }
    }
}

/// A rule that calls itself below a long chain of nodes, rule 0's root or not.
/// Each repetition is of something that takes a byte.
fn reach_down_a_chain(maker: &mut Maker) {
    let mut sheet = Sheet::new();
    let nothing = sheet.empty();
    let a = sheet.byte(b'a');
    let itself = sheet.rule(1);
    let mut top = itself;
    while sheet.nodes.len() < 512 {
        top = match sheet.nodes.len() % 4 {
            0 => sheet.choice(nothing, top),
            1 => sheet.not(top),
            2 => sheet.sequence(a, top),
            _ => sheet.repetition(top),
        };
    }
    for root in [top, nothing] {
        let mut sheet = sheet.clone();
        sheet.root(root);
        sheet.root(itself);
        maker.table(&sheet.bytes());
        maker.report();
        maker.line(b"");
        maker.read_with_enough(true, 1_100, 40);
    }
}

/// The report, and the reading of a line that goes through some of the rules.
fn far_reach_of(maker: &mut Maker, mut sheet: Sheet) {
    let rules = sheet.roots.len() as u16;
    // Half the time numbered the other way round behind rule 0.
    if maker.random.chance(50) {
        for rule in 1..=(rules - 1) / 2 {
            swap_rules(&mut sheet, rule, rules - rule);
        }
    }
    maker.table(&sheet.bytes());
    maker.report();
    maker.line(&vec![b'a'; usize::from(rules.min(5))]);
    maker.read_with_enough(false, 300, 100);
}

/// Each rule <- 'a' and the next / empty, but `end` goes to none; the last is itself.
fn chain_of_rules(rules: u16, end: Option<u16>) -> Sheet {
    let mut sheet = Sheet::new();
    let (a, nothing) = (sheet.byte(b'a'), sheet.empty());
    for rule in 0..rules - 1 {
        let next = sheet.rule(rule + 1);
        let on = sheet.sequence(a, if end == Some(rule) { a } else { next });
        let root = sheet.choice(on, nothing);
        sheet.root(root);
    }
    let itself = sheet.rule(rules - 1);
    sheet.root(itself);
    sheet
}

/// 512 nodes and 64 rules.
fn full_size(maker: &mut Maker) {
    for _ in 0..24 {
        let sheet = soup::soup(maker, 512, 64);
        maker.table(&sheet.bytes());
        maker.check();
        maker.report();
        for _ in 0..4 {
            let length = maker.random.below(9);
            let line = soup::random_line(maker, b"ab", length);
            maker.line(&line);
            let whole = maker.random.chance(50);
            let allowance = maker.affordable(700);
            maker.read_with_enough(whole, allowance, 300);
            around_a_refusal(maker, whole, allowance);
        }
        // Too long a line for what can be lent.
        maker.line(&[b'a'; 255]);
        maker.read(false, 100, 9_000, 100);
    }
}

#[cfg(test)]
mod tests {
    use super::*;

    fn code(sheet: &Sheet, length: usize) -> u64 {
        let mut work = vec![0; 20_000];
        let mut room = vec![0; crate::version::FULL_ROOM];
        let line = vec![b'a'; length];
        independent::read(&sheet.bytes(), &line, 1_500, &mut work, &mut room, true).code
    }

    #[test]
    fn a_chain_of_rules_is_free_where_it_ends() {
        for rules in [2, 3, 64] {
            let free = |end| independent::report(&chain_of_rules(rules, end).bytes()).free;
            assert!(!free(None));
            assert!((0..rules - 1).all(|end| free(Some(end))));
        }
    }

    #[test]
    fn one_rule_of_a_chain_grows_or_all_do() {
        for rules in [2, 62, 64] {
            let growing = |all| {
                let sheet = chain_at_every_position(rules, all);
                independent::report(&sheet.bytes()).how_many
            };
            assert_eq!((growing(false), growing(true)), (1, rules.into()));
        }
        let live = |all_grow| {
            let table = chain_at_every_position(64, all_grow).bytes();
            let searches = independent::searches(&table, &[b'a'; 100], 1_500);
            searches.expect("an accepted table").most_live
        };
        assert!(live(false) < 10 && live(true) > 490);
    }

    /// T at position p is open as number pads + 3p + 1, and under it come a
    /// choice, a sequence and a range.
    #[test]
    fn the_pads_reach_512_and_513() {
        for pads in 0..7 {
            for length in 166..=171 {
                let deepest = pads + 3 * length + 4;
                let expected = if deepest <= 512 { 0 } else { 12 };
                assert_eq!(code(&right_recursive(pads), length), expected);
            }
        }
    }
}
