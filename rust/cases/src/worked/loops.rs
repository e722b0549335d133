//! Repetitions of nothing: refused wherever they stand.

use independent::LONGEST_LINE;

use super::{nothing_lent, prefix, sheet, whole, Page};

/// Repetitions whose child may be empty, and two that come close.
pub(super) fn loops(page: &mut Page) {
    option_repeated(page);
    rules_repeated(page);
    for (name, roots, nodes) in [
        ("Over a not", [2], [(1, 97, 97), (5, 0, 0), (6, 1, 0)]),
        (
            "Over a repetition",
            [2],
            [(1, 97, 97), (6, 0, 0), (6, 1, 0)],
        ),
        ("Never used", [0], [(1, 97, 97), (0, 0, 0), (6, 1, 0)]),
        ("Two of them", [2], [(0, 0, 0), (6, 0, 0), (6, 1, 0)]),
        ("One, then kind 7", [2], [(0, 0, 0), (6, 0, 0), (7, 0, 0)]),
        (
            "One, then a field wrong",
            [2],
            [(0, 0, 0), (6, 0, 0), (5, 2, 0)],
        ),
    ] {
        let table = sheet(&roots, &nodes).bytes();
        page.check(&format!("{name}, check"), &table);
    }
}

/// ('kW'?)*, and 'kW'* by the same nodes.
fn option_repeated(page: &mut Page) {
    let mut kilowatts = sheet(
        &[5],
        &[
            (1, 107, 107),
            (1, 87, 87),
            (3, 0, 1),
            (0, 0, 0),
            (4, 2, 3),
            (6, 4, 0),
        ],
    );
    let table = kilowatts.bytes();
    page.check("('kW'?)*, check", &table);
    page.report("('kW'?)*, report", &table);
    page.reading("('kW'?)* on kW", &table, b"kW", prefix(2_500));
    page.reading("('kW'?)* on kW, whole", &table, b"kW", whole(2_500));
    page.reading(
        "('kW'?)* on 4001 bytes, allowance 0, nothing lent",
        &table,
        &[b'k'; LONGEST_LINE + 1],
        nothing_lent(0),
    );
    kilowatts.nodes[5] = (6, 2, 0);
    page.reading("'kW'* on kWkW", &kilowatts.bytes(), b"kWkW", prefix(2_500));
}

/// Repetitions over a rule that is empty through itself or another, and over
/// one that only needs another.
fn rules_repeated(page: &mut Page) {
    // S <- R*; R <- R 'a' / empty
    let by_left_recursion = sheet(
        &[5, 4],
        &[
            (2, 1, 0),
            (1, 97, 97),
            (3, 0, 1),
            (0, 0, 0),
            (4, 2, 3),
            (6, 0, 0),
        ],
    );
    page.check(
        "Over a rule empty by left recursion, check",
        &by_left_recursion.bytes(),
    );
    // S <- P*; P <- Q Q / 'a'; Q <- P / empty
    let by_each_other = sheet(
        &[7, 4, 6],
        &[
            (2, 1, 0),
            (2, 2, 0),
            (3, 1, 1),
            (1, 97, 97),
            (4, 2, 3),
            (0, 0, 0),
            (4, 0, 5),
            (6, 0, 0),
        ],
    );
    page.check(
        "Over two rules empty by each other, check",
        &by_each_other.bytes(),
    );
    // S <- P*; P <- Q; Q <- P
    let never_empty = sheet(&[2, 1, 0], &[(2, 1, 0), (2, 2, 0), (6, 0, 0)]).bytes();
    let name = "Over two rules that only need each other";
    page.check(&format!("{name}, check"), &never_empty);
    page.reading(&format!("{name} on a"), &never_empty, b"a", prefix(2_500));
}
