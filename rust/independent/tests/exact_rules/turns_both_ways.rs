//! Where a repetition's next visit of itself takes the place of the one before, a
//! line is read as it was where each turn opened one visit more; only DEEP is
//! given less.
//!
//! On random small grammars; so many as `KOSKORBELU_GRAMMARS` says if it is set.

use super::calls::*;
use super::random::*;
use super::sheets::*;
use independent::*;

/// How many readings there were of each sort, the older way's answer first.
#[derive(Debug, Default)]
struct Seen {
    /// Neither refused for effort nor for depth, and all is the same.
    same: u64,
    both_effort: u64,
    /// By the same visit.
    both_deep: u64,
    /// By a later visit now.
    deep_later: u64,
    /// DEEP, and EFFORT now.
    effort_instead: u64,
    /// DEEP, and neither now, by free grammars and by others.
    deep_no_more_free: u64,
    deep_no_more_not_free: u64,
}

#[test]
fn random_rows_both_ways() {
    let grammars = how_many_grammars();
    let mut random = Random(208);
    let mut seen = Seen::default();
    for _ in 0..grammars {
        let table = accepted(&mut random);
        for _ in 0..2 {
            let line = some_line(&mut random);
            let whole = random.below(2) == 0;
            let most = random.pick(&[300, 1_000, 2_000, 2_000]);
            let (now, before) = compare(&table, &line, most, whole, &mut seen);
            // At the edges of both ways.
            let edges = [before.visits, before.visits + 1, now.visits, now.visits - 1];
            for allowance in edges.map(|edge| edge.max(1)) {
                compare(&table, &line, allowance, whole, &mut seen);
            }
        }
    }
    println!("{seen:?}");
    for sort in [
        seen.same,
        seen.both_effort,
        seen.both_deep,
        seen.deep_later,
        seen.effort_instead,
        seen.deep_no_more_free,
        seen.deep_no_more_not_free,
    ] {
        assert!(sort >= grammars / 80, "{seen:?}");
    }
}

/// Reads both ways and gives both answers, today's first.
fn compare(
    table: &[u8],
    line: &[u8],
    allowance: u64,
    whole: bool,
    seen: &mut Seen,
) -> (Answer, Answer) {
    let read = |ways| reads_with(ways, table, line, allowance, whole);
    let (now, before) = (read(Ways::NOW), read(Ways::NESTED));
    let context = || format!("{table:?} on {line:?}, allowance {allowance}");
    let same = |other: &Outcome| {
        assert_eq!(now.answer, other.answer, "{}", context());
        assert!(now.room == other.room, "{}", context());
    };
    let (new, old) = (now.answer, before.answer);
    if old.code != DEEP {
        same(&before);
        *(match new.code {
            EFFORT => &mut seen.both_effort,
            _ => &mut seen.same,
        }) += 1;
        return (new, old);
    }
    assert!(new.visits >= old.visits && new.furthest >= old.furthest);
    // Where it is not too deep now, the limit alone made it so before.
    if new.code != DEEP {
        same(&read(Ways::NESTED_AT_ANY_DEPTH));
    }
    *(match new.code {
        DEEP if new == old => &mut seen.both_deep,
        DEEP => &mut seen.deep_later,
        EFFORT => &mut seen.effort_instead,
        _ if report(table).free => &mut seen.deep_no_more_free,
        _ => &mut seen.deep_no_more_not_free,
    }) += 1;
    (new, old)
}

/// A random table that the check accepts, in half the cases one that isn't free,
/// with rows in some rules. Rule 0 is one that no other uses: the others below many
/// nodes, or such that each 'x' of a line goes three visits deeper.
fn accepted(random: &mut Random) -> Vec<u8> {
    let free = random.below(2) == 0;
    loop {
        let rules = 1 + random.below(4);
        let size = 2 + random.below(8);
        let (mut roots, mut nodes) = some_grammar(random, size, rules);
        for root in &mut roots {
            *root = with_a_row(random, &mut nodes, *root, rules);
        }
        for (kind, used, _) in &mut nodes {
            *used += u16::from(*kind == RULE);
        }
        let others = add(&mut nodes, (RULE, 1, 0));
        let first = match random.below(8) {
            0 => others,
            1 => below(&mut nodes, others, 512),
            _ => behind_bytes(random, &mut nodes, others),
        };
        roots.insert(0, first);
        let table = table(&roots, &nodes);
        let report = report(&table);
        if report.code == READ && report.free == free {
            return table;
        }
    }
}

/// A row of bytes, of uses of a rule or of rows, before the body, behind it or
/// in its place.
fn with_a_row(random: &mut Random, nodes: &mut Vec<Node>, body: u16, rules: u64) -> u16 {
    let child = match random.below(6) {
        0..=2 => (RANGE, 97, 97),
        3 => (RULE, random.below(rules) as u16, 0),
        4 => {
            let b = add(nodes, (RANGE, 98, 98));
            let a = add(nodes, (RANGE, 97, 97));
            let row = add(nodes, (REPEAT, a, 0));
            (SEQ, row, b)
        }
        _ => return body,
    };
    let child = add(nodes, child);
    let row = add(nodes, (REPEAT, child, 0));
    match random.below(4) {
        0 => add(nodes, (SEQ, row, body)),
        1 => add(nodes, (SEQ, body, row)),
        2 => add(nodes, (CHOICE, body, row)),
        _ => row,
    }
}

/// The node or else nothing, as often as makes a table of so many nodes.
fn below(nodes: &mut Vec<Node>, node: u16, in_all: usize) -> u16 {
    let nothing = add(nodes, (EMPTY, 0, 0));
    (nodes.len()..in_all).fold(node, |inner, _| add(nodes, (CHOICE, inner, nothing)))
}

/// Rule 0 <- 'x' and rule 0, or else the node; below none to two nodes more.
fn behind_bytes(random: &mut Random, nodes: &mut Vec<Node>, node: u16) -> u16 {
    let deeper = nodes.len() + 1 + random.below(3) as usize;
    let node = below(nodes, node, deeper);
    let x = add(nodes, (RANGE, 120, 120));
    let itself = add(nodes, (RULE, 0, 0));
    let on = add(nodes, (SEQ, x, itself));
    add(nodes, (CHOICE, on, node))
}

/// Many 'x' or none, then rows of 'a' with a 'b' behind most.
fn some_line(random: &mut Random) -> Vec<u8> {
    let xs = random.pick(&[0, 140, 150, 156, 160, 162, 164, 166]);
    let mut line = vec![
        b'x';
        if xs > 0 {
            xs + random.below(8) as usize
        } else {
            0
        }
    ];
    for _ in 0..1 + random.below(3) {
        let row = random.pick(&[4, 16, 40, 80]);
        line.extend(vec![b'a'; random.below(row) as usize]);
        line.extend(random.pick(&[b"b".as_slice(), b"b", b"", b"bb"]));
    }
    line.truncate(255);
    line
}
