//! Random small grammars, to read in more than one way.

use super::sheets::*;

const GRAMMARS: u64 = 4_000;

/// So many as `KOSKORBELU_GRAMMARS` says if it is set.
pub fn how_many_grammars() -> u64 {
    match std::env::var("KOSKORBELU_GRAMMARS") {
        Ok(number) => number.parse().expect("a number of grammars"),
        Err(_) => GRAMMARS,
    }
}

/// splitmix64
pub struct Random(pub u64);

impl Random {
    pub fn below(&mut self, bound: u64) -> u64 {
        self.0 = self.0.wrapping_add(0x9E37_79B9_7F4A_7C15);
        let mut z = self.0;
        z = (z ^ (z >> 30)).wrapping_mul(0xBF58_476D_1CE4_E5B9);
        z = (z ^ (z >> 27)).wrapping_mul(0x94D0_49BB_1331_11EB);
        (z ^ (z >> 31)) % bound
    }

    pub fn pick<T: Copy>(&mut self, from: &[T]) -> T {
        from[self.below(from.len() as u64) as usize]
    }
}

/// The roots and nodes of so many rules and nodes, and a few nodes more. The check
/// may refuse them.
pub fn some_grammar(random: &mut Random, nodes: u64, rules: u64) -> (Vec<u16>, Vec<Node>) {
    let mut nodes: Vec<_> = (0..nodes)
        .map(|number| some_node(random, number, rules))
        .collect();
    let mut roots = Vec::new();
    for _ in 0..rules {
        // Mostly late nodes, which have more below them.
        let made = nodes.len() as u64;
        let body = random.below(made).max(random.below(made)) as u16;
        let used = (RULE, random.below(rules) as u16, 0);
        let shape = random.below(8);
        roots.push(match shape {
            0..=2 => longer(&mut nodes, used, None, body),
            3 => longer(&mut nodes, (RANGE, 97, 97), Some(used), body),
            _ => body,
        });
    }
    (roots, nodes)
}

pub type Node = (u8, u16, u16);

/// Gives the node's number.
pub fn add(nodes: &mut Vec<Node>, node: Node) -> u16 {
    nodes.push(node);
    nodes.len() as u16 - 1
}

/// The two nodes in order, or else the body; the body is the second if none is
/// given.
fn longer(nodes: &mut Vec<Node>, first: Node, second: Option<Node>, body: u16) -> u16 {
    let first = add(nodes, first);
    let second = second.map_or(body, |second| add(nodes, second));
    let both = add(nodes, (SEQ, first, second));
    add(nodes, (CHOICE, both, body))
}

fn some_node(random: &mut Random, number: u64, rules: u64) -> Node {
    let kind = match number < 2 || random.below(3) == 0 {
        true => random.pick(&[EMPTY, RANGE, RANGE, RANGE, RANGE, RULE, RULE, RULE, RULE]),
        false => random.pick(&[SEQ, SEQ, SEQ, CHOICE, CHOICE, CHOICE, NOT, REPEAT]),
    };
    let mut child = || random.below(number.max(1)) as u16;
    match kind {
        RANGE => random.pick(&[
            (RANGE, 97, 97),
            (RANGE, 97, 97),
            (RANGE, 98, 98),
            (RANGE, 97, 98),
        ]),
        RULE => (RULE, random.below(rules) as u16, 0),
        SEQ | CHOICE => (kind, child(), child()),
        NOT | REPEAT => (kind, child(), 0),
        _ => (EMPTY, 0, 0),
    }
}
