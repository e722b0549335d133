//! Rows: a repetition's next visit of itself takes the place of the one before.

use sheets::{Node, Sheet};

use super::{prefix, sheet, whole, Page};

pub(super) fn rows(page: &mut Page) {
    one_row(page);
    far_inside(page);
    come_back(page);
    rows_in_a_row(page);
    rows_of_trees(page);
}

/// As long as a line, with just enough visits and one short; and refused at a turn
/// and at the range behind it.
fn one_row(page: &mut Page) {
    let table = sheet(&[1], &[(1, 48, 57), (6, 0, 0)]).bytes();
    let line = [b'7'; 255];
    for allowance in [512, 511] {
        let name = format!("S <- [0-9]* on 255 digits, allowance {allowance}");
        page.reading(&name, &table, &line, whole(allowance));
    }
    for allowance in [10, 11] {
        let name = format!("S <- [0-9]* on 10 digits, allowance {allowance}");
        page.reading(&name, &table, b"0123456789", prefix(allowance));
    }
}

/// Behind 169 brackets the range of the row is the open visit number 510 and the
/// rules, with digits or without.
fn far_inside(page: &mut Page) {
    let brackets = [b'('; 169];
    for rules in [1, 2, 3] {
        let table = in_brackets(rules).bytes();
        let open = 510 + rules;
        let line = [brackets.as_slice(), &[b'7'; 86]].concat();
        let name = format!("86 digits in 169 brackets, {open} open visits");
        page.reading(&name, &table, &line, whole(2_000));
    }
    let table = in_brackets(3).bytes();
    let name = "No digits in 169 brackets, 513 open visits";
    page.reading(name, &table, &brackets, whole(2_000));
}

/// S <- '(' S / R; R <- the next of so many rules, the last [0-9]*.
fn in_brackets(rules: u16) -> Sheet {
    let mut nodes: Vec<Node> = vec![
        (1, 40, 40),
        (2, 0, 0),
        (3, 0, 1),
        (1, 48, 57),
        (6, 3, 0),
        (2, 1, 0),
        (4, 2, 5),
    ];
    let mut roots = vec![6];
    for rule in 2..=rules {
        roots.push(nodes.len() as u16);
        nodes.push((2, rule, 0));
    }
    roots.push(4);
    sheet(&roots, &nodes)
}

/// Each pair of a row is kept, and found again in its middle.
fn come_back(page: &mut Page) {
    for (name, last, lines) in [
        ("[a-z]*", 122, ["abc", "aby"]),
        ("[a-c]*", 99, ["abx", "aby"]),
    ] {
        // S <- R 'x' / 'a' R 'y' / R
        let table = sheet(
            &[8, 10],
            &[
                (2, 1, 0),
                (1, 120, 120),
                (3, 0, 1),
                (1, 97, 97),
                (1, 121, 121),
                (3, 0, 4),
                (3, 3, 5),
                (4, 6, 0),
                (4, 2, 7),
                (1, 97, last),
                (6, 9, 0),
            ],
        )
        .bytes();
        for line in lines {
            let name = format!("S <- R 'x' / 'a' R 'y' / R, R <- {name} on {line}");
            page.reading(&name, &table, line.as_bytes(), prefix(2_500));
        }
    }
}

/// The inner row is one of its own at each turn of the outer one.
fn rows_in_a_row(page: &mut Page) {
    // S <- ('a'* 'b')*
    let table = sheet(
        &[4],
        &[(1, 97, 97), (6, 0, 0), (1, 98, 98), (3, 1, 2), (6, 3, 0)],
    )
    .bytes();
    for line in ["aabab", "aaba"] {
        let name = format!("S <- ('a'* 'b')* on {line}");
        page.reading(&name, &table, line.as_bytes(), prefix(2_500));
    }
    page.reading(
        "S <- ('a'* 'b')* on aabab, allowance 13",
        &table,
        b"aabab",
        prefix(13),
    );
}

/// A record for each rule and turn, and the root's.
fn rows_of_trees(page: &mut Page) {
    for (rules, turns) in [(9, 111), (8, 125)] {
        let records = rules * turns + 1;
        let name = format!("A row of {turns} turns, {records} records");
        let table = named(rules as u16).bytes();
        page.reading(&name, &table, &vec![b'a'; turns], whole(2_500));
    }
}

/// S <- R*; R <- the next of so many rules, the last 'a'.
fn named(rules: u16) -> Sheet {
    let mut nodes: Vec<Node> = vec![(1, 97, 97), (2, 1, 0), (6, 1, 0)];
    let mut roots = vec![2];
    for rule in 2..=rules {
        roots.push(nodes.len() as u16);
        nodes.push((2, rule, 0));
    }
    roots.push(0);
    sheet(&roots, &nodes)
}
