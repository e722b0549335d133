//! The limits of a table: its counts, its length, its roots, kinds and fields.

use sheets::{sheet_a, Sheet};

use super::{prefix, Page};

/// Every node empty, every root 0.
fn empties(n: usize, r: usize) -> Sheet {
    Sheet {
        roots: vec![0; r],
        nodes: vec![(0, 0, 0); n],
    }
}

pub(super) fn counts(page: &mut Page) {
    for (n, r) in [(1, 1), (512, 64), (513, 64), (512, 65), (0, 1), (1, 0)] {
        let table = empties(n, r).bytes();
        page.check(&format!("Check of nodes, rules {n} {r}"), &table);
        page.reading(&format!("Nodes, rules {n} {r}"), &table, b"", prefix(2_500));
    }
}

pub(super) fn cuts(page: &mut Page) {
    let mut a = sheet_a().bytes();
    a.push(0);
    for count in 0..=a.len() {
        page.check(&format!("A cut to bytes {count}"), &a[..count]);
    }
}

pub(super) fn roots(page: &mut Page) {
    for (rule, node) in [(0, 6), (0, 7), (0, 256), (1, 0), (1, 7), (1, 65_535)] {
        let mut a = sheet_a();
        a.roots[rule] = node;
        page.check(&format!("A with rule, root {rule} {node}"), &a.bytes());
    }
}

pub(super) fn kinds(page: &mut Page) {
    for kind in 0..=255 {
        let sheet = Sheet {
            roots: vec![1],
            nodes: vec![(0, 0, 0), (kind, 0, 0)],
        };
        page.reading(
            &format!("Node 1 of kind {kind}"),
            &sheet.bytes(),
            &[0],
            prefix(2_500),
        );
    }
}

pub(super) fn fields(page: &mut Page) {
    let mut node = |kind, a, b| {
        let mut sheet = empties(3, 2);
        sheet.nodes[2] = (kind, a, b);
        page.check(
            &format!("Node 2 of kind, a, b {kind} {a} {b}"),
            &sheet.bytes(),
        );
    };
    for (a, b) in [(0, 0), (1, 0), (256, 0), (0, 1), (0, 256)] {
        node(0, a, b);
    }
    for (a, b) in [
        (0, 0),
        (0, 255),
        (0, 256),
        (255, 255),
        (255, 254),
        (256, 255),
        (256, 256),
        (1, 0),
        (65_535, 65_535),
    ] {
        node(1, a, b);
    }
    let one_number = [(1, 0), (2, 0), (256, 0), (1, 1), (1, 256)];
    for (a, b) in one_number {
        node(2, a, b);
    }
    for kind in [3, 4] {
        for (a, b) in [(1, 1), (2, 1), (1, 2), (256, 1), (1, 256), (65_535, 65_535)] {
            node(kind, a, b);
        }
    }
    for kind in [5, 6] {
        for (a, b) in one_number {
            node(kind, a, b);
        }
    }
}

pub(super) fn order_of_the_check(page: &mut Page) {
    let mut sheet = sheet_a();
    sheet.nodes[1] = (7, 0, 0);
    page.check("A with kind 7 at node 1", &sheet.bytes());
    sheet.nodes[0] = (2, 2, 0);
    page.check(
        "A with kind 7 at node 1, a field wrong at node 0",
        &sheet.bytes(),
    );
    sheet.roots[1] = 7;
    page.check("A with these and root 7 of rule 1", &sheet.bytes());
    let mut table = sheet.bytes();
    table.pop();
    page.check("A with these and a byte too few", &table);
    table[4] = 0;
    page.check("A with these and no nodes", &table);
    table[0] = 2;
    page.check("A with these and version 2", &table);
    page.check("A with these and six bytes", &table[..6]);
}
