//! The furthest place of the line that a reading looks at.

use sheets::Sheet;

use super::{nothing_lent, prefix, sheet, whole, Page};

/// Sheets on which ranges are visited beyond the match, short of it, or not.
pub(super) fn furthest(page: &mut Page) {
    looking_ahead(page);
    kept_answers(page);
    attempts(page);
    few_ranges(page);
    too_deep(page);
}

/// What a not looks at counts, up to the refused visit and not with it.
fn looking_ahead(page: &mut Page) {
    // S <- 'a' !('b' 'c')
    let table = sheet(
        &[5],
        &[
            (1, 97, 97),
            (1, 98, 98),
            (1, 99, 99),
            (3, 1, 2),
            (5, 3, 0),
            (3, 0, 4),
        ],
    )
    .bytes();
    let name = "S <- 'a' !('b' 'c') on";
    for line in ["a", "ab", "abc", "abd"] {
        let name = format!("{name} {line}");
        page.reading(&name, &table, line.as_bytes(), prefix(2_500));
    }
    page.reading(&format!("{name} ab, whole"), &table, b"ab", whole(2_500));
    for allowance in [6, 5, 4, 0] {
        let name = format!("{name} abd, allowance {allowance}");
        page.reading(&name, &table, b"abd", prefix(allowance));
    }
    let name = format!("{name} abd, allowance 6, nothing lent");
    page.reading(&name, &table, b"abd", nothing_lent(6));
}

/// R is kept, then come ranges at its end and at 0, then R again.
fn kept_answers(page: &mut Page) {
    // S <- R 'x' / 'b' / R; R <- 'a' 'b' 'c' / 'a'
    let table = sheet(
        &[5, 10],
        &[
            (2, 1, 0),
            (1, 120, 120),
            (3, 0, 1),
            (1, 98, 98),
            (4, 3, 0),
            (4, 2, 4),
            (1, 97, 97),
            (1, 99, 99),
            (3, 3, 7),
            (3, 6, 8),
            (4, 9, 6),
        ],
    )
    .bytes();
    page.report("R kept, report", &table);
    for line in ["abd", "abc", "ad", "b"] {
        let name = format!("R kept, on {line}");
        page.reading(&name, &table, line.as_bytes(), prefix(2_500));
    }
}

/// The last attempt looks further than the match and does not grow.
fn attempts(page: &mut Page) {
    // S <- S 'b' 'c' / 'a'
    let table = sheet(
        &[6],
        &[
            (2, 0, 0),
            (1, 98, 98),
            (1, 99, 99),
            (3, 1, 2),
            (3, 0, 3),
            (1, 97, 97),
            (4, 4, 5),
        ],
    )
    .bytes();
    for line in ["ab", "abd", "abcbd"] {
        let name = format!("S <- S 'b' 'c' / 'a' on {line}");
        page.reading(&name, &table, line.as_bytes(), prefix(2_500));
    }
}

/// A match's end is further than its ranges, and without a range there is 0.
fn few_ranges(page: &mut Page) {
    let byte = sheet(&[0], &[(1, 97, 97)]).bytes();
    page.reading("S <- 'a' on ab, whole", &byte, b"ab", whole(2_500));
    let empty = sheet(&[0], &[(0, 0, 0)]).bytes();
    page.reading("S <- () on ab, whole", &empty, b"ab", whole(2_500));
    page.reading("S <- () on ab", &empty, b"ab", prefix(2_500));
    let never = sheet(&[1], &[(0, 0, 0), (5, 0, 0)]).bytes();
    page.reading("S <- !() on ab", &never, b"ab", prefix(2_500));
}

/// S <- !('a'* 'b') 'a' S
pub(super) fn looking_on() -> Sheet {
    sheet(
        &[7],
        &[
            (1, 97, 97),
            (6, 0, 0),
            (1, 98, 98),
            (3, 1, 2),
            (5, 3, 0),
            (2, 0, 0),
            (3, 0, 5),
            (3, 4, 6),
        ],
    )
}

/// The line's end is looked at before the reading gets too deep.
fn too_deep(page: &mut Page) {
    let table = looking_on().bytes();
    let name = "S <- !('a'* 'b') 'a' S on 255 bytes";
    let line = [b'a'; 255];
    page.reading(name, &table, &line, prefix(2_500));
    for allowance in [1_000, 100] {
        let name = format!("{name}, allowance {allowance}");
        page.reading(&name, &table, &line, prefix(allowance));
    }
}
