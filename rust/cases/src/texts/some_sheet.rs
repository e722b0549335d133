//! Random sheets to write down.

use crate::random::Random;
use crate::texts::written::{Part, Written};

/// Up to six lines, each with a name of its own.
pub fn some_sheet(random: &mut Random) -> Written {
    let careless = random.chance(40);
    let lines = random.pick(&[1, 1, 2, 2, 3, 4, 6]);
    let names = some_names(random, lines);
    // Names are not always defined in the order of their numbers.
    let first = random.below(lines as u64) as usize;
    let order = (0..lines).map(|line| (first + line) % lines);
    let line = |name| (name, some_part(random, lines, 3, careless));
    let lines = order.map(line).collect();
    Written { names, lines }
}

/// Different names, most of them short, some of 32 letters.
pub fn some_names(random: &mut Random, how_many: usize) -> Vec<Vec<u8>> {
    let mut names: Vec<Vec<u8>> = Vec::new();
    while names.len() < how_many {
        let letters = random.pick(&[1, 1, 1, 2, 3, 5, 31, 32]);
        let letter = |_| random.pick(b"ABYZabyz");
        let name: Vec<u8> = (0..letters).map(letter).collect();
        if !names.contains(&name) {
            names.push(name);
        }
    }
    names
}

/// Some part with so many others in each other at most. A `careless` one may repeat
/// what may be nothing.
pub fn some_part(random: &mut Random, names: usize, depth: u64, careless: bool) -> Part {
    let kind = match depth {
        0 => random.below(4),
        _ => random.below(12),
    };
    let child = |random: &mut Random| some_part(random, names, depth - 1, careless);
    match kind {
        0 | 1 => Part::Name(random.below(names as u64) as usize),
        2 => some_quote(random),
        3 => some_class(random),
        4..=6 => {
            let parts = random.between(2, 4);
            Part::Sequence((0..parts).map(|_| child(random)).collect())
        }
        7 | 8 => {
            let parts = random.between(2, 4);
            Part::Choice((0..parts).map(|_| child(random)).collect())
        }
        9 => Part::Not(child(random).into()),
        10 => Part::Signed(child(random).into(), b'?'),
        _ => {
            let repeated = match careless {
                true => child(random),
                false => taking_a_byte(random, child),
            };
            Part::Signed(repeated.into(), random.pick(b"*+"))
        }
    }
}

/// A quote or a class, alone or before something else.
fn taking_a_byte(random: &mut Random, child: impl Fn(&mut Random) -> Part) -> Part {
    let taking = match random.chance(50) {
        true => some_quote(random),
        false => some_class(random),
    };
    match random.chance(40) {
        true => Part::Sequence(vec![taking, child(random)]),
        false => taking,
    }
}

fn some_quote(random: &mut Random) -> Part {
    let length = random.pick(&[1, 1, 1, 2, 3, 5]);
    let byte = |_| match random.between(33, 126) as u8 {
        b'\'' => b'"',
        byte => byte,
    };
    Part::Quote((0..length).map(byte).collect())
}

fn some_class(random: &mut Random) -> Part {
    let length = random.pick(&[1, 1, 2, 3, 4]);
    Part::Class((0..length).map(|_| some_range(random)).collect())
}

/// A letter, a digit or a range of them.
fn some_range(random: &mut Random) -> (u8, u8) {
    let all: Vec<u8> = (b'0'..=b'z').filter(u8::is_ascii_alphanumeric).collect();
    let (one, other) = match random.chance(30) {
        true => random.pick(&[(b'0', b'9'), (b'a', b'z'), (b'9', b'A'), (b'Z', b'a')]),
        false => (random.pick(&all), random.pick(&all)),
    };
    match random.chance(50) {
        true => (one, one),
        false => (one.min(other), one.max(other)),
    }
}

/// A part of so many nodes, at least one.
pub fn part_of_nodes(random: &mut Random, nodes: usize) -> Part {
    if nodes.is_multiple_of(2) {
        return Part::Not(part_of_nodes(random, nodes - 1).into());
    }
    // So many that are joined by one node fewer.
    let leaves = nodes.div_ceil(2);
    match random.below(4) {
        0 => Part::Quote(vec![b'+'; leaves]),
        1 => Part::Class((0..leaves).map(|_| some_range(random)).collect()),
        _ if leaves == 1 => Part::Name(0),
        2 => Part::Sequence(vec![Part::Name(0); leaves]),
        _ => Part::Choice(vec![Part::Name(0); leaves]),
    }
}

/// A name that a line defines again, one that no line defines, or both.
pub fn with_name_fault(random: &mut Random, mut sheet: Written) -> Written {
    let names = sheet.names.len();
    let fault = random.below(3);
    if fault < 2 {
        let line = random.below(names as u64) as usize;
        let uses = some_part(random, names, 1, false);
        match sheet.lines.len() > 1 {
            true => drop(sheet.lines.remove(line)),
            false => sheet.names.extend(another_name(random, &sheet.names)),
        }
        let undefined = (0..sheet.names.len()).filter(|&name| !defines(&sheet, name));
        let used = Part::Name(random.pick(&undefined.collect::<Vec<usize>>()));
        let at = random.below(sheet.lines.len() as u64) as usize;
        sheet.lines[at].1 = Part::Choice(vec![uses, used]);
    }
    if fault > 0 {
        let again = sheet.lines[random.below(sheet.lines.len() as u64) as usize].0;
        let line = (again, some_part(random, names, 2, false));
        let at = random.below(sheet.lines.len() as u64 + 1) as usize;
        sheet.lines.insert(at, line);
    }
    sheet
}

fn defines(sheet: &Written, name: usize) -> bool {
    sheet.lines.iter().any(|&(defined, _)| defined == name)
}

fn another_name(random: &mut Random, names: &[Vec<u8>]) -> Option<Vec<u8>> {
    let more = some_names(random, names.len() + 1);
    more.into_iter().find(|name| !names.contains(name))
}
