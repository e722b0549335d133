//! Rules that grow, and rules above, beside and below them that do not.

use sheets::{Node, Sheet};

use super::{prefix, sheet, Page};

/// Sheets in which some rules are left-recursive and others are not.
pub(super) fn growing_rules(page: &mut Page) {
    rule_0_above(page);
    indirect(page);
    hidden(page);
}

/// Rule 0 is not left-recursive and uses a rule that is, where it stands itself.
fn rule_0_above(page: &mut Page) {
    // L <- S '.' / D; S <- S '+' D / D; D <- [0-9]
    let table = sheet(
        &[4, 8, 9],
        &[
            (2, 1, 0),
            (2, 2, 0),
            (1, 46, 46),
            (3, 0, 2),
            (4, 3, 1),
            (1, 43, 43),
            (3, 5, 1),
            (3, 0, 6),
            (4, 7, 1),
            (1, 48, 57),
        ],
    )
    .bytes();
    page.report("L <- S '.' / D, report", &table);
    for line in ["7+2.", "7"] {
        let name = format!("L <- S '.' / D on {line}");
        page.reading(&name, &table, line.as_bytes(), prefix(2_500));
    }
    for allowance in [23, 22] {
        let name = format!("L <- S '.' / D on 7+2., allowance {allowance}");
        page.reading(&name, &table, b"7+2.", prefix(allowance));
    }
}

/// Two rules that each begin with the other, and one below them.
fn indirect(page: &mut Page) {
    // A <- B 'x' / 'y'; B <- A / D; D <- 'z'
    let table = sheet(
        &[4, 7, 8],
        &[
            (2, 1, 0),
            (1, 120, 120),
            (3, 0, 1),
            (1, 121, 121),
            (4, 2, 3),
            (2, 0, 0),
            (2, 2, 0),
            (4, 5, 6),
            (1, 122, 122),
        ],
    )
    .bytes();
    page.report("A <- B 'x' / 'y', report", &table);
    for line in ["yxx", "zx"] {
        let name = format!("A <- B 'x' / 'y' on {line}");
        page.reading(&name, &table, line.as_bytes(), prefix(2_500));
    }
}

/// A rule behind what may match nothing; in the last sheet it may not.
fn hidden(page: &mut Page) {
    let maybe = (4, 4, 5);
    for (name, sheet) in [
        ("'x'?", behind(maybe, 6, 6)),
        ("!'x'", behind((5, 4, 0), 6, 6)),
        ("'x'*", behind((6, 4, 0), 6, 6)),
        ("U <- 'x'?", behind(maybe, 2, 6)),
        ("U <- 'x'", behind(maybe, 2, 4)),
    ] {
        let table = sheet.bytes();
        page.report(&format!("S behind {name}, report"), &table);
        page.reading(
            &format!("S behind {name} on aa"),
            &table,
            b"aa",
            prefix(2_500),
        );
    }
}

/// S <- first S T / T; T <- 'a'; U, with node 6 and this root. Nodes 4 and 5 are
/// 'x' and empty.
fn behind(node_6: Node, first: u16, root_of_u: u16) -> Sheet {
    sheet(
        &[9, 3, root_of_u],
        &[
            (2, 0, 0),
            (2, 1, 0),
            (2, 2, 0),
            (1, 97, 97),
            (1, 120, 120),
            (0, 0, 0),
            node_6,
            (3, 0, 1),
            (3, first, 7),
            (4, 8, 1),
        ],
    )
}
