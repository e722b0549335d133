//! Lines of a class, by a seeded generator.

use cases::Random;

fn digit(random: &mut Random) -> u8 {
    b'0' + random.below(10) as u8
}

/// `d+d+...`, 1 to 41 bytes.
pub fn for_a(random: &mut Random) -> Vec<u8> {
    let mut line = vec![digit(random)];
    for _ in 0..random.below(21) {
        line.push(b'+');
        line.push(digit(random));
    }
    line
}

/// Half `d,d`; else one digit, or something that fails.
pub fn for_b(random: &mut Random) -> Vec<u8> {
    let (first, second) = (digit(random), digit(random));
    match random.below(12) {
        0..=5 => vec![first, b',', second],
        6..=8 => vec![first],
        9 => vec![first, b'.', second],
        10 => vec![b',', second],
        _ => vec![],
    }
}

/// Expressions up to about 40 bytes, one in ten with a slip.
pub fn for_sums(random: &mut Random) -> Vec<u8> {
    let mut line = Vec::new();
    let terms = random.between(1, 6);
    expression(random, &mut line, terms, 2);
    line.truncate(41);
    if random.chance(10) {
        let at = random.below(line.len() as u64) as usize;
        line[at] = random.pick(b"+*()x7");
    }
    line
}

/// So many terms with operators between them, brackets nested at most so far.
fn expression(random: &mut Random, line: &mut Vec<u8>, terms: u64, nesting: u64) {
    for term in 0..terms {
        if term > 0 {
            line.push(random.pick(b"++-*"));
        }
        if nesting > 0 && random.chance(12) {
            line.push(b'(');
            let inner = random.between(1, 3);
            expression(random, line, inner, nesting - 1);
            line.push(b')');
        } else {
            line.push(digit(random));
        }
    }
}
