//! Damaged tables: every byte, every field, every length, and which damage
//! is named first.

use independent::{LONGEST_LINE, MOST_ALLOWANCE};
use sheets::{Node, Sheet};

use crate::maker::Maker;
use crate::textbook::examples;
use crate::version::LONGEST_OF_VERSION_1;

const MOST_NODES: usize = 512;
const MOST_RULES: usize = 64;

pub fn add(maker: &mut Maker) {
    let victims = victims();
    for victim in &victims {
        maker.line(b"7+2");
        each_byte(maker, victim);
        each_length(maker, victim);
        each_root(maker, victim);
        each_field(maker, victim);
    }
    short_or_of_another_version(maker, &victims);
    every_kind(maker, &victims);
    several_at_once(maker, &victims);
    counts(maker);
    order_of_the_checks(maker, &victims);
}

/// The small example sheets.
fn victims() -> Vec<Sheet> {
    let small = |sheet: &Sheet| sheet.bytes().len() <= 46;
    examples()
        .into_iter()
        .map(|example| example.sheet)
        .filter(small)
        .step_by(2)
        .take(8)
        .collect()
}

/// Puts one question about a table: check, report or a reading.
fn ask(maker: &mut Maker, table: &[u8]) {
    maker.table(table);
    match maker.random.below(4) {
        0 => maker.check(),
        1 => maker.report(),
        _ => ask_reading(maker),
    }
}

fn ask_reading(maker: &mut Maker) {
    let whole = maker.random.chance(50);
    let allowance = maker.random.between(1, 60);
    let room = maker.random.below(60);
    // A damaged node count can ask for more than is worth lending.
    let work = (maker.needed(allowance) + maker.random.below(10)).min(8_000);
    maker.read(whole, allowance, work, room);
}

fn each_byte(maker: &mut Maker, victim: &Sheet) {
    let table = victim.bytes();
    for at in 0..table.len() {
        let byte = table[at];
        let any = maker.random.below(256) as u8;
        let neighbours = [byte.wrapping_add(1), byte.wrapping_sub(1), byte ^ 0x80];
        let others = maker.random.pick(&[[0, 1], [6, 7], [2, 255], [64, 65]]);
        let mut values: Vec<u8> = neighbours.into_iter().chain(others).chain([any]).collect();
        values.sort_unstable();
        values.dedup();
        for value in values.into_iter().filter(|&value| value != byte) {
            let mut damaged = table.clone();
            damaged[at] = value;
            ask(maker, &damaged);
        }
    }
}

/// Cut off at every byte, and with bytes too many; once with the written
/// length as it was and once with the length of what is left.
fn each_length(maker: &mut Maker, victim: &Sheet) {
    let mut long = victim.bytes();
    let length = long.len();
    long.extend([0, 1, 0, 0, 0, 0]);
    for cut in (0..=long.len()).filter(|&cut| cut != length) {
        let mut damaged = long[..cut].to_vec();
        ask(maker, &damaged);
        if cut >= 3 && maker.random.chance(40) {
            damaged[1..3].copy_from_slice(&(cut as u16).to_be_bytes());
            ask(maker, &damaged);
        }
    }
}

/// Under seven bytes, and every way to miss the version.
fn short_or_of_another_version(maker: &mut Maker, victims: &[Sheet]) {
    for length in 0..8 {
        for _ in 0..4 {
            let table = pick(maker, victims).bytes();
            ask(maker, &table[..length]);
        }
    }
    for version in [
        0, 2, 3, 4, 7, 8, 16, 17, 32, 64, 65, 127, 128, 129, 254, 255,
    ] {
        for _ in 0..2 {
            let mut table = pick(maker, victims).bytes();
            table[0] = version;
            ask(maker, &table);
        }
    }
}

fn each_root(maker: &mut Maker, victim: &Sheet) {
    let n = victim.nodes.len() as u16;
    for rule in 0..victim.roots.len() {
        for root in [n - 1, n, n + 1, 255, 256, 65_535] {
            let mut damaged = victim.clone();
            damaged.roots[rule] = root;
            ask(maker, &damaged.bytes());
        }
    }
}

/// Every node with each of the fields that its kind just allows or refuses.
fn each_field(maker: &mut Maker, victim: &Sheet) {
    let r = victim.roots.len() as u16;
    for (number, &(kind, a, b)) in victim.nodes.iter().enumerate() {
        for (a, b) in field_edges(kind, a, b, number as u16, r) {
            let mut damaged = victim.clone();
            damaged.nodes[number] = (kind, a, b);
            ask(maker, &damaged.bytes());
        }
    }
}

fn field_edges(kind: u8, a: u16, b: u16, number: u16, r: u16) -> Vec<(u16, u16)> {
    let below = number.saturating_sub(1);
    match kind {
        0 => vec![(1, 0), (0, 1), (256, 0), (0, 256), (65_535, 65_535)],
        1 => vec![
            (0, 255),
            (255, 255),
            (0, 256),
            (255, 256),
            (256, 255),
            (256, 256),
            (b + 1, b),
            (b, b),
            (a, 65_535),
            (65_535, b),
        ],
        2 => vec![
            (r - 1, 0),
            (r, 0),
            (r + 1, 0),
            (a, 1),
            (a, 256),
            (64, 0),
            (65_535, 0),
        ],
        3 | 4 => vec![
            (below, b),
            (number, b),
            (number + 1, b),
            (a, below),
            (a, number),
            (a, number + 1),
            (65_535, b),
            (a, 65_535),
        ],
        _ => vec![
            (below, 0),
            (number, 0),
            (number + 1, 0),
            (a, 1),
            (a, 256),
            (65_535, 0),
        ],
    }
}

/// The kinds 7 to 255, each at some node of some victim.
fn every_kind(maker: &mut Maker, victims: &[Sheet]) {
    for kind in 7..=255 {
        let mut damaged = pick(maker, victims);
        let number = maker.random.below(damaged.nodes.len() as u64) as usize;
        damaged.nodes[number].0 = kind;
        ask(maker, &damaged.bytes());
    }
}

/// Two or three bytes or nodes wrong together: the first in order is named.
fn several_at_once(maker: &mut Maker, victims: &[Sheet]) {
    for _ in 0..250 {
        let mut damaged = pick(maker, victims).bytes();
        for _ in 0..maker.random.between(2, 3) {
            let at = maker.random.below(damaged.len() as u64) as usize;
            damaged[at] = maker.random.pick(&[0, 1, 2, 7, 9, 64, 65, 128, 255]);
        }
        ask(maker, &damaged);
    }
    for _ in 0..100 {
        let mut damaged = pick(maker, victims);
        for wrong in [(7, 0, 0), (0, 1, 0), (2, 64, 0), (255, 1, 1)] {
            let number = maker.random.below(damaged.nodes.len() as u64) as usize;
            if maker.random.chance(60) {
                damaged.nodes[number] = wrong;
            }
        }
        ask(maker, &damaged.bytes());
    }
}

fn pick(maker: &mut Maker, victims: &[Sheet]) -> Sheet {
    victims[maker.random.below(victims.len() as u64) as usize].clone()
}

/// Node and rule counts at their limits, with a table as long as they say.
fn counts(maker: &mut Maker) {
    let plain = |n: usize, r: usize, node: Node| Sheet {
        roots: vec![n.saturating_sub(1) as u16; r],
        nodes: vec![node; n],
    };
    maker.line(b"ab");
    for n in [0, 1, 2, 255, 256, 511, MOST_NODES, MOST_NODES + 1] {
        for r in [0, 1, 2, MOST_RULES - 1, MOST_RULES, MOST_RULES + 1] {
            // The long ones are dear: each pair of limits once is enough.
            if n > 2 && (1..MOST_RULES - 1).contains(&r) {
                continue;
            }
            let table = plain(n, r, (1, 97, 98)).bytes();
            maker.table(&table);
            maker.check();
            maker.report();
            ask_reading(maker);
        }
    }
    // The same counts over a table of another length: the count comes first.
    for (n, r) in [
        (0, 1),
        (1, 0),
        (513, 1),
        (1, 65),
        (65_535, 1),
        (1, 65_535),
        (512, 64),
    ] {
        let mut table = plain(2, 2, (0, 0, 0)).bytes();
        table[3..5].copy_from_slice(&(n as u16).to_be_bytes());
        table[5..7].copy_from_slice(&(r as u16).to_be_bytes());
        ask(maker, &table);
        ask(maker, &table[..7]);
    }
}

/// The table before the line, the line before the allowance, the allowance
/// before the working numbers.
fn order_of_the_checks(maker: &mut Maker, victims: &[Sheet]) {
    let mut tables = Vec::new();
    for victim in victims {
        let good = victim.bytes();
        let mut bad = good.clone();
        let at = maker.random.below(bad.len() as u64) as usize;
        bad[at] ^= 0xC0;
        tables.extend([good, bad]);
    }
    for length in [1, LONGEST_OF_VERSION_1 + 1, LONGEST_LINE, LONGEST_LINE + 1] {
        maker.line(&vec![b'7'; length]);
        for table in &tables {
            maker.table(table);
            for allowance in [0, 5, MOST_ALLOWANCE + 1] {
                let whole = maker.random.chance(50);
                maker.read(whole, allowance, 0, 0);
                maker.read(!whole, allowance, maker.needed(5).min(9_000), 20);
            }
        }
    }
}

#[cfg(test)]
mod tests {
    use super::*;

    #[test]
    fn the_victims_have_nodes_of_every_kind() {
        let victims = victims();
        for kind in 0..=6 {
            let mut nodes = victims.iter().flat_map(|victim| &victim.nodes);
            assert!(nodes.any(|node| node.0 == kind), "kind {kind}");
        }
    }

    /// What a person is told of a sheet agrees with the check of its table.
    #[test]
    fn a_sheet_has_a_fault_exactly_if_its_table_is_refused() {
        let mut seen = [0; 2];
        let mut look = |sheet: &Sheet| {
            let accepted = independent::check(&sheet.bytes()) == (independent::READ, 0);
            assert_eq!(sheet.table().is_ok(), accepted, "{sheet:?}");
            seen[usize::from(accepted)] += 1;
        };
        for victim in victims() {
            let rules = victim.roots.len() as u16;
            for (number, &(kind, a, b)) in victim.nodes.iter().enumerate() {
                for kind in [kind, 0, 1, 2, 3, 4, 5, 6, 7, 255] {
                    for (a, b) in field_edges(kind, a, b, number as u16, rules) {
                        let mut damaged = victim.clone();
                        damaged.nodes[number] = (kind, a, b);
                        look(&damaged);
                    }
                }
                for rule in 0..victim.roots.len() {
                    let mut damaged = victim.clone();
                    damaged.roots[rule] = (number + 1) as u16;
                    look(&damaged);
                }
            }
        }
        for (nodes, rules) in [(0, 0), (0, 1), (1, 0), (1, 64), (1, 65), (512, 1), (513, 1)] {
            look(&Sheet {
                roots: vec![0; rules],
                nodes: vec![(0, 0, 0); nodes],
            });
        }
        assert!(seen.iter().all(|&count| count > 100), "{seen:?}");
    }
}
