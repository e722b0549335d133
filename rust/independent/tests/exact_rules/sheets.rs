//! The sheets of the exact rules, as tables.

pub const EMPTY: u8 = 0;
pub const RANGE: u8 = 1;
pub const RULE: u8 = 2;
pub const SEQ: u8 = 3;
pub const CHOICE: u8 = 4;
pub const NOT: u8 = 5;
pub const REPEAT: u8 = 6;

pub fn table(roots: &[u16], nodes: &[(u8, u16, u16)]) -> Vec<u8> {
    let length = 7 + 2 * roots.len() + 5 * nodes.len();
    let mut bytes = vec![1];
    bytes.extend((length as u16).to_be_bytes());
    bytes.extend((nodes.len() as u16).to_be_bytes());
    bytes.extend((roots.len() as u16).to_be_bytes());
    for root in roots {
        bytes.extend(root.to_be_bytes());
    }
    for (kind, a, b) in nodes {
        bytes.push(*kind);
        bytes.extend(a.to_be_bytes());
        bytes.extend(b.to_be_bytes());
    }
    bytes
}

pub fn sheet_a() -> Vec<u8> {
    let nodes = [
        (RULE, 0, 0),
        (RANGE, 43, 43),
        (RULE, 1, 0),
        (SEQ, 1, 2),
        (SEQ, 0, 3),
        (CHOICE, 4, 2),
        (RANGE, 48, 57),
    ];
    table(&[5, 6], &nodes)
}

pub fn sheet_b(choice: (u16, u16)) -> Vec<u8> {
    let nodes = [
        (RULE, 1, 0),
        (RANGE, 44, 44),
        (SEQ, 1, 0),
        (SEQ, 0, 2),
        (CHOICE, choice.0, choice.1),
        (RANGE, 48, 57),
    ];
    table(&[4, 5], &nodes)
}

/// Sheet B with rule 2 <- rule 2, more nodes, this root of rule 1, and more roots.
pub fn sheet_b_and(more: &[(u8, u16, u16)], root: u16, roots: &[u16]) -> Vec<u8> {
    let mut nodes = vec![
        (RULE, 1, 0),
        (RANGE, 44, 44),
        (SEQ, 1, 0),
        (SEQ, 0, 2),
        (CHOICE, 3, 0),
        (RANGE, 48, 57),
        (RULE, 2, 0),
    ];
    nodes.extend(more);
    table(&[&[4, root, 6], roots].concat(), &nodes)
}

/// E <- E '+' E / [0-9]
pub fn sheet_e() -> Vec<u8> {
    let nodes = [
        (RULE, 0, 0),
        (RANGE, 43, 43),
        (SEQ, 1, 0),
        (SEQ, 0, 2),
        (RANGE, 48, 57),
        (CHOICE, 3, 4),
    ];
    table(&[5], &nodes)
}

/// S <- !S 'a'
pub fn sheet_not() -> Vec<u8> {
    let nodes = [(RULE, 0, 0), (NOT, 0, 0), (RANGE, 97, 97), (SEQ, 1, 2)];
    table(&[3], &nodes)
}

/// So many rules, each the next one twice, the last empty.
/// S <- 'a'* T; T <- 'x' T / empty: three visits deeper with each 'x'.
pub fn deeper_behind_a_row() -> Vec<u8> {
    let nodes = [
        (RANGE, 97, 97),
        (REPEAT, 0, 0),
        (RULE, 1, 0),
        (SEQ, 1, 2),
        (RANGE, 120, 120),
        (SEQ, 4, 2),
        (EMPTY, 0, 0),
        (CHOICE, 5, 6),
    ];
    table(&[3, 7], &nodes)
}

pub fn doubling(rules: u16) -> Vec<u8> {
    let mut nodes = vec![(EMPTY, 0, 0)];
    let mut roots = vec![0];
    for rule in (0..rules - 1).rev() {
        nodes.push((RULE, rule + 1, 0));
        let used = nodes.len() as u16 - 1;
        nodes.push((SEQ, used, used));
        roots.insert(0, used + 1);
    }
    table(&roots, &nodes)
}
