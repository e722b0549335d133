//! Free sheets that come back into a row, whose pairs are all kept, and the same
//! not free.

use independent::Ways;
use sheets::Sheet;

use crate::maker::Maker;
use crate::reach::not_free;

pub fn add(maker: &mut Maker) {
    let lines = [
        "abc",
        "aby",
        "abx",
        "b",
        "a",
        "",
        "abcabcabcabcy",
        "aabbccx",
    ];
    for sheet in [
        tried_thrice(b'z'),
        tried_thrice(b'c'),
        kept_before_it(),
        looked_at_each_turn(),
        two_rows_of_one_child(),
    ] {
        for sheet in [sheet.clone(), not_free(sheet)] {
            maker.table(&sheet.bytes());
            maker.report();
            for line in lines {
                maker.line(line.as_bytes());
                let whole = maker.random.chance(50);
                maker.both_edges(Ways::NESTED, whole);
            }
            maker.line(&b"abc".repeat(20));
            maker.edges(true, 6_000);
        }
    }
}

/// S <- R 'x' / 'a' R 'y' / R; R <- the letters up to this one, repeated.
fn tried_thrice(last: u8) -> Sheet {
    let mut sheet = Sheet::new();
    let r = sheet.rule(1);
    let [a, x, y] = [b'a', b'x', b'y'].map(|byte| sheet.byte(byte));
    let first = sheet.sequence(r, x);
    let second = sheet.in_order(&[a, r, y]);
    let root = sheet.first_of(&[first, second, r]);
    let letter = sheet.range(b'a', last);
    let r_root = sheet.repetition(letter);
    sheet.root(root);
    sheet.root(r_root);
    sheet
}

/// S <- 'a' R 'y' / R; R <- D*; D <- [a-c]: a turn is kept, with its trees.
fn kept_before_it() -> Sheet {
    let mut sheet = Sheet::new();
    let (r, d) = (sheet.rule(1), sheet.rule(2));
    let (a, y) = (sheet.byte(b'a'), sheet.byte(b'y'));
    let first = sheet.in_order(&[a, r, y]);
    let root = sheet.choice(first, r);
    with_row_of(sheet, root, d)
}

/// This root of S; R <- D*; D <- [a-c]
fn with_row_of(mut sheet: Sheet, root: u16, d: u16) -> Sheet {
    let r_root = sheet.repetition(d);
    let d_root = sheet.range(b'a', b'c');
    for root in [root, r_root, d_root] {
        sheet.root(root);
    }
    sheet
}

/// S <- (!(R 'y') D)*; R <- D*; D <- [a-c]
fn looked_at_each_turn() -> Sheet {
    let mut sheet = Sheet::new();
    let (r, d, y) = (sheet.rule(1), sheet.rule(2), sheet.byte(b'y'));
    let seen = sheet.sequence(r, y);
    let not = sheet.not(seen);
    let child = sheet.sequence(not, d);
    let root = sheet.repetition(child);
    with_row_of(sheet, root, d)
}

/// S <- D* 'y' / 'a' D* 'x' / D* by two repetitions of one child; D <- [a-c]
fn two_rows_of_one_child() -> Sheet {
    let mut sheet = Sheet::new();
    let d = sheet.rule(1);
    let (one, two) = (sheet.repetition(d), sheet.repetition(d));
    let [a, x, y] = [b'a', b'x', b'y'].map(|byte| sheet.byte(byte));
    let first = sheet.sequence(one, y);
    let second = sheet.in_order(&[a, two, x]);
    let root = sheet.first_of(&[first, second, one]);
    let d_root = sheet.range(b'a', b'c');
    sheet.root(root);
    sheet.root(d_root);
    sheet
}

#[cfg(test)]
mod tests {
    use super::*;

    #[test]
    fn visits_of_what_is_kept() {
        let visits = |sheet: Sheet, line: &[u8]| {
            let (mut work, mut room) = (vec![0; 3_000], vec![0; 100]);
            independent::read(&sheet.bytes(), line, 100, &mut work, &mut room, false).visits
        };
        assert_eq!(visits(tried_thrice(b'z'), b"abc"), 20);
        assert_eq!(visits(tried_thrice(b'c'), b"aby"), 17);
        assert_eq!(visits(kept_before_it(), b"abc"), 20);
    }
}
