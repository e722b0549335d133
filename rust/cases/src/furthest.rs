//! How far ranges are asked: beyond the match and short of it, in nots, in
//! choices and attempts that come to nothing, before and after an answer that
//! is kept, at the line's end, and until a visit is refused.

use sheets::{sheet_a, sum, Sheet};

use crate::deep::{around_a_refusal, padded};
use crate::maker::Maker;
use crate::reach::not_free;

/// Refusals for effort of one line, at most.
const MOST_REFUSED: u64 = 8;

pub fn add(maker: &mut Maker) {
    for (sheet, lines) in sheets_and_lines() {
        for sheet in [sheet.clone(), not_free(sheet)] {
            maker.table(&sheet.bytes());
            maker.report();
            for line in lines {
                maker.line(line.as_bytes());
                read_and_refused(maker);
            }
        }
    }
    for (sheet, line) in [(sheet_a(), "1+2+3+4+x"), (sum(), "1+2*(3-4)*x")] {
        maker.table(&sheet.bytes());
        maker.line(line.as_bytes());
        read_and_refused(maker);
    }
    too_deep_behind(maker);
    too_deep_before(maker);
}

/// The whole-line reading, the prefix reading, and either of them with too
/// small an allowance: each, or as many in even steps.
fn read_and_refused(maker: &mut Maker) {
    let allowance = maker.affordable(3_000);
    let visits = maker.trial(false, allowance).visits;
    maker.read_with_enough(true, visits, 60);
    maker.read_with_enough(false, visits + 1, 60);
    maker.refused_in_steps(visits, MOST_REFUSED);
}

/// Down the line, with a look some bytes ahead at each: the furthest range is
/// behind the visit that is too deep.
fn too_deep_behind(maker: &mut Maker) {
    for sheet in [looking_on(3), looking_on(12), not_free(looking_on(3))] {
        maker.table(&sheet.bytes());
        for length in [165, 168, 171, 174, 255] {
            maker.line(&vec![b'a'; length]);
            let allowance = maker.affordable(12_000);
            around_a_refusal(maker, true, allowance);
        }
    }
}

/// S <- !('a' .. 'a' 'b') 'a' S / 'a', with so many bytes before the 'b'.
fn looking_on(bytes: usize) -> Sheet {
    let mut sheet = Sheet::new();
    let (a, b, s) = (sheet.byte(b'a'), sheet.byte(b'b'), sheet.rule(0));
    let ahead = (0..bytes).fold(b, |rest, _| sheet.sequence(a, rest));
    let not = sheet.not(ahead);
    let on = sheet.in_order(&[not, a, s]);
    let root = sheet.choice(on, a);
    sheet.root(root);
    sheet
}

/// A look to the line's end, then down a chain of nodes: also lines so short
/// that it is not too deep, with the first look or without.
fn too_deep_before(maker: &mut Maker) {
    for looks in [true, false] {
        let sheet = looking_then_deep(looks);
        for sheet in [sheet.clone(), not_free(sheet)] {
            maker.table(&sheet.bytes());
            for length in [0, 6, 8, 9, 10, 11, 14, 40] {
                maker.line(&vec![b'a'; length]);
                around_a_refusal(maker, false, 1_500);
            }
        }
    }
}

/// S <- !('a'* 'b') pads T, or without the not; T <- 'a' T / empty: each byte opens
/// three visits.
fn looking_then_deep(looks: bool) -> Sheet {
    let mut sheet = Sheet::new();
    let (a, b, t) = (sheet.byte(b'a'), sheet.byte(b'b'), sheet.rule(1));
    let ahead = sheet.repetition(a);
    let seen = sheet.sequence(ahead, b);
    let not = sheet.not(seen);
    let deep = padded(&mut sheet, t, 480);
    let root = if looks {
        sheet.sequence(not, deep)
    } else {
        deep
    };
    let on = sheet.sequence(a, t);
    let t_root = sheet.optional(on);
    sheet.root(root);
    sheet.root(t_root);
    sheet
}

type Lines = &'static [&'static str];

fn sheets_and_lines() -> Vec<(Sheet, Lines)> {
    vec![
        (ahead(), &["a", "ab", "abb", "abbc", "abbd", "b", ""]),
        (taking_less(), &["a", "ab", "abc", "abcd", "abd", ""]),
        (falling_back(), &["a", "abc", "abcd", "abx", "abcx", "b"]),
        (kept_after_nearer(), &["abd", "abc", "abcx", "ad", "b", ""]),
        (kept_after_further(), &["abb", "abbc", "abbd", "ad", "b"]),
        (kept_at_two(), &["aab", "aac", "aad", "a", ""]),
        (kept_behind(), &["ab", "abc", "a", "aab", ""]),
        (growing_in_vain(), &["abc", "abcd", "abcdbc", "abd", "a"]),
        (growing_with_a_look(), &["abbb", "abbc", "abc", "a", "b"]),
        (held_and_further(), &["aaa", "aab", "aaaab", "ab", "b"]),
        (held_behind(), &["ab", "abb", "abc", "a", ""]),
        (all(), &["", "a", "aaaa", "aaab", "b"]),
        (one(), &["a", "ab", "b", ""]),
        (one_or_two(), &["a", "ab", "abc", "ac", ""]),
        (three(), &["aab", "aac", "aa", "ac", "aabb", ""]),
        (looking_only(), &["aab", "aac", "aa", "b", ""]),
        (nothing(), &["", "ab"]),
        (nothing_twice(), &["", "ab"]),
        (never(), &["", "ab"]),
        (never_asked(), &["", "ab"]),
        (not_itself_alone(), &["", "ab"]),
    ]
}

/// S <- 'a' !('b' 'b' 'c')
fn ahead() -> Sheet {
    let mut sheet = Sheet::new();
    let (a, bbc) = (sheet.byte(b'a'), sheet.word("bbc"));
    let not = sheet.not(bbc);
    let root = sheet.sequence(a, not);
    sheet.root(root);
    sheet
}

/// S <- !!('a' 'b' 'c') 'a'
fn taking_less() -> Sheet {
    let mut sheet = Sheet::new();
    let (abc, a) = (sheet.word("abc"), sheet.byte(b'a'));
    let not = sheet.not(abc);
    let seen = sheet.not(not);
    let root = sheet.sequence(seen, a);
    sheet.root(root);
    sheet
}

/// S <- 'a' 'b' 'c' 'd' / 'a' 'b' 'x' / 'a'
fn falling_back() -> Sheet {
    let mut sheet = Sheet::new();
    let words = ["abcd", "abx", "a"].map(|word| sheet.word(word));
    let root = sheet.first_of(&words);
    sheet.root(root);
    sheet
}

/// S <- R 'x' / 'b' / R; R <- 'a' 'b' 'c' / 'a': R is kept, then come ranges at
/// its end and at 0, then R again.
fn kept_after_nearer() -> Sheet {
    let mut sheet = Sheet::new();
    let (r, x, b) = (sheet.rule(1), sheet.byte(b'x'), sheet.byte(b'b'));
    let ended = sheet.sequence(r, x);
    let root = sheet.first_of(&[ended, b, r]);
    let (long, short) = (sheet.word("abc"), sheet.byte(b'a'));
    let r_root = sheet.choice(long, short);
    sheet.root(root);
    sheet.root(r_root);
    sheet
}

/// S <- !(R 'b' 'b' 'c') R; R <- 'a': R is kept, then come further ranges, then
/// R again.
fn kept_after_further() -> Sheet {
    let mut sheet = Sheet::new();
    let (r, bbc) = (sheet.rule(1), sheet.word("bbc"));
    let longer = sheet.sequence(r, bbc);
    let not = sheet.not(longer);
    let root = sheet.sequence(not, r);
    let a = sheet.byte(b'a');
    sheet.root(root);
    sheet.root(a);
    sheet
}

/// S <- R R 'c' / R R 'd' / R; R <- 'a' !'b': kept at 0 and at 1, and each met
/// again after the other.
fn kept_at_two() -> Sheet {
    let mut sheet = Sheet::new();
    let (r, c, d) = (sheet.rule(1), sheet.byte(b'c'), sheet.byte(b'd'));
    let first = sheet.in_order(&[r, r, c]);
    let second = sheet.in_order(&[r, r, d]);
    let root = sheet.first_of(&[first, second, r]);
    let (a, b) = (sheet.byte(b'a'), sheet.byte(b'b'));
    let not = sheet.not(b);
    let r_root = sheet.sequence(a, not);
    sheet.root(root);
    sheet.root(r_root);
    sheet
}

/// S <- R E !E / R E; R <- 'a' 'b'; E <- (): R is kept and ends behind its
/// ranges, and E is kept where no range is visited.
fn kept_behind() -> Sheet {
    let mut sheet = Sheet::new();
    let (r, e) = (sheet.rule(1), sheet.rule(2));
    let not = sheet.not(e);
    let first = sheet.in_order(&[r, e, not]);
    let second = sheet.sequence(r, e);
    let root = sheet.choice(first, second);
    let (ab, empty) = (sheet.word("ab"), sheet.empty());
    for root in [root, ab, empty] {
        sheet.root(root);
    }
    sheet
}

/// S <- S 'b' 'c' 'd' / 'a': the last attempt looks further and does not grow.
fn growing_in_vain() -> Sheet {
    let mut sheet = Sheet::new();
    let (s, bcd, a) = (sheet.rule(0), sheet.word("bcd"), sheet.byte(b'a'));
    let longer = sheet.sequence(s, bcd);
    let root = sheet.choice(longer, a);
    sheet.root(root);
    sheet
}

/// S <- S 'b' !('b' 'c') / 'a': it grows by less than it has looked at.
fn growing_with_a_look() -> Sheet {
    let mut sheet = Sheet::new();
    let (s, b) = (sheet.rule(0), sheet.byte(b'b'));
    let bc = sheet.word("bc");
    let not = sheet.not(bc);
    let longer = sheet.in_order(&[s, b, not]);
    let a = sheet.byte(b'a');
    let root = sheet.choice(longer, a);
    sheet.root(root);
    sheet
}

/// S <- S S 'b' / 'a' 'a' / 'a': what is held was found by ranges before it.
fn held_and_further() -> Sheet {
    let mut sheet = Sheet::new();
    let (s, b) = (sheet.rule(0), sheet.byte(b'b'));
    let longer = sheet.in_order(&[s, s, b]);
    let (two, one) = (sheet.word("aa"), sheet.byte(b'a'));
    let root = sheet.first_of(&[longer, two, one]);
    sheet.root(root);
    sheet
}

/// S <- S () / 'a' 'b': what is held ends behind its ranges, and no range is
/// visited there.
fn held_behind() -> Sheet {
    let mut sheet = Sheet::new();
    let (s, empty, ab) = (sheet.rule(0), sheet.empty(), sheet.word("ab"));
    let longer = sheet.sequence(s, empty);
    let root = sheet.choice(longer, ab);
    sheet.root(root);
    sheet
}

/// S <- 'a'*, which asks at the line's end.
pub fn all() -> Sheet {
    let mut sheet = Sheet::new();
    let a = sheet.byte(b'a');
    let root = sheet.repetition(a);
    sheet.root(root);
    sheet
}

/// S <- 'a', which asks short of its match's end.
fn one() -> Sheet {
    let mut sheet = Sheet::new();
    let root = sheet.byte(b'a');
    sheet.root(root);
    sheet
}

/// S <- 'a' 'b'?
fn one_or_two() -> Sheet {
    let mut sheet = Sheet::new();
    let (a, b) = (sheet.byte(b'a'), sheet.byte(b'b'));
    let maybe = sheet.optional(b);
    let root = sheet.sequence(a, maybe);
    sheet.root(root);
    sheet
}

/// S <- 'a' 'a' 'b'
fn three() -> Sheet {
    let mut sheet = Sheet::new();
    let root = sheet.word("aab");
    sheet.root(root);
    sheet
}

/// S <- !('a' 'a' 'b'), which never takes a byte.
fn looking_only() -> Sheet {
    let mut sheet = Sheet::new();
    let aab = sheet.word("aab");
    let root = sheet.not(aab);
    sheet.root(root);
    sheet
}

/// S <- (), without a range.
fn nothing() -> Sheet {
    let mut sheet = Sheet::new();
    let root = sheet.empty();
    sheet.root(root);
    sheet
}

/// S <- R R; R <- ()
fn nothing_twice() -> Sheet {
    let mut sheet = Sheet::new();
    let r = sheet.rule(1);
    let root = sheet.sequence(r, r);
    let empty = sheet.empty();
    sheet.root(root);
    sheet.root(empty);
    sheet
}

/// S <- !()
fn never() -> Sheet {
    let mut sheet = Sheet::new();
    let empty = sheet.empty();
    let root = sheet.not(empty);
    sheet.root(root);
    sheet
}

/// S <- () / 'a', whose range is not visited.
fn never_asked() -> Sheet {
    let mut sheet = Sheet::new();
    let (empty, a) = (sheet.empty(), sheet.byte(b'a'));
    let root = sheet.choice(empty, a);
    sheet.root(root);
    sheet
}

/// S <- !S
fn not_itself_alone() -> Sheet {
    let mut sheet = Sheet::new();
    let s = sheet.rule(0);
    let root = sheet.not(s);
    sheet.root(root);
    sheet
}

#[cfg(test)]
mod tests {
    use super::*;
    use crate::maker::USUAL_WORK;
    use crate::version::FULL_ROOM;
    use independent::{Answer, DEEP, EFFORT, FAIL, READ};

    fn read(sheet: &Sheet, line: &[u8], allowance: u64) -> Answer {
        let (mut work, mut room) = (vec![0; USUAL_WORK as usize], vec![0; FULL_ROOM]);
        independent::read(&sheet.bytes(), line, allowance, &mut work, &mut room, false)
    }

    fn matched_and_furthest(sheet: &Sheet, line: &str) -> (u64, u64) {
        let answer = read(sheet, line.as_bytes(), 3_000);
        assert_eq!(answer.code, READ, "{line}");
        (answer.matched, answer.furthest)
    }

    #[test]
    fn every_sheet_is_accepted() {
        for (number, (sheet, _)) in sheets_and_lines().iter().enumerate() {
            assert_eq!(independent::check(&sheet.bytes()), (0, 0), "sheet {number}");
        }
    }

    #[test]
    fn beyond_the_match() {
        for (sheet, line, expected) in [
            (ahead(), "abbd", (1, 3)),
            (ahead(), "abb", (1, 3)),
            (taking_less(), "abcd", (1, 2)),
            (falling_back(), "abcx", (1, 3)),
            (kept_after_nearer(), "abd", (1, 2)),
            (kept_after_further(), "abbd", (1, 3)),
            (kept_at_two(), "aab", (1, 2)),
            (growing_in_vain(), "abcdbc", (4, 6)),
            (growing_with_a_look(), "abbc", (1, 3)),
            (looking_only(), "aac", (0, 2)),
        ] {
            assert_eq!(matched_and_furthest(&sheet, line), expected, "{line}");
            let other = not_free(sheet);
            assert_eq!(matched_and_furthest(&other, line), expected, "{line}");
        }
    }

    #[test]
    fn at_the_match_and_short_of_it() {
        assert_eq!(matched_and_furthest(&all(), "aaaa"), (4, 4));
        assert_eq!(matched_and_furthest(&one_or_two(), "ac"), (1, 1));
        assert_eq!(matched_and_furthest(&one(), "ab"), (1, 0));
        assert_eq!(matched_and_furthest(&three(), "aab"), (3, 2));
        assert_eq!(matched_and_furthest(&kept_behind(), "abc"), (2, 1));
        assert_eq!(matched_and_furthest(&held_behind(), "abb"), (2, 1));
    }

    #[test]
    fn without_a_range() {
        for sheet in [
            nothing(),
            nothing_twice(),
            never_asked(),
            not_itself_alone(),
        ] {
            assert_eq!(matched_and_furthest(&sheet, "ab"), (0, 0));
        }
        let failed = read(&never(), b"ab", 100);
        assert_eq!((failed.code, failed.furthest), (FAIL, 0));
    }

    /// What is too deep lies behind the furthest range or before it.
    #[test]
    fn before_and_behind_what_is_too_deep() {
        let refused = read(&looking_on(12), &[b'a'; 255], 10_000);
        assert_eq!(refused.code, DEEP);
        assert!(refused.place < refused.furthest && refused.furthest < 255);
        // At k the range opens the visit number 484 + 3k, and one more with the look.
        for (looks, furthest) in [(true, 14), (false, 9)] {
            let refused = read(&looking_then_deep(looks), &[b'a'; 14], 1_500);
            assert_eq!((refused.code, refused.furthest), (DEEP, furthest));
            assert!(refused.place < 14);
        }
    }

    /// The last of the four ranges is the last visit, at 3.
    #[test]
    fn a_refused_range_is_not_reached() {
        let visits = read(&ahead(), b"abbd", 100).visits;
        let refused = read(&ahead(), b"abbd", visits - 1);
        let reached = (refused.code, refused.place, refused.furthest);
        assert_eq!(reached, (EFFORT, 3, 2));
    }
}
