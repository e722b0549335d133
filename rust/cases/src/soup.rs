//! Random sheets and random lines for them.

use sheets::{Node, Sheet};

use crate::maker::{Maker, Trial};
use crate::nothing::{ask_refused, is_loop, mend, spoilt};
use crate::reach::{add_edge, add_unused, append, swap_rules, EDGES, FORMS};
use crate::version::AROUND_VERSION_1;

/// Makes random sheets with readings until so many commands are made.
pub fn add(maker: &mut Maker, commands: u64) {
    while maker.commands() < commands {
        let alphabet = maker.random.pick(&[b"ab".as_slice(), b"abc", b"0+,", b"a"]);
        let mut sheet = some_sheet(maker, alphabet);
        if !is_free(&sheet) && maker.random.chance(30) {
            sheet = behind_a_free_sheet(maker, alphabet, &sheet);
        }
        some_unused_rules(maker, &mut sheet);
        maker.table(&sheet.bytes());
        maker.report();
        if maker.random.chance(10) {
            maker.check();
        }
        for _ in 0..maker.random.between(1, 4) {
            let line = some_line(maker, &sheet, alphabet);
            maker.line(&line);
            some_readings(maker);
        }
        if maker.random.chance(30) {
            if let Some(refused) = spoilt(maker, &sheet) {
                ask_refused(maker, &refused);
            }
        }
    }
}

/// A random sheet. Most of them make no tree worth comparing, so most of
/// those are passed over.
pub fn some_sheet(maker: &mut Maker, alphabet: &[u8]) -> Sheet {
    loop {
        let sheet = match maker.random.below(5) {
            0 => {
                let nodes = maker.random.between(1, 30);
                let rules = maker.random.between(1, 6);
                soup(maker, nodes, rules)
            }
            _ => grown(maker, alphabet),
        };
        if maker.random.chance(6) || makes_trees(maker, &sheet) {
            return sheet;
        }
    }
}

/// Whether one of a few lines drawn from the sheet has several records.
fn makes_trees(maker: &mut Maker, sheet: &Sheet) -> bool {
    let table = sheet.bytes();
    let mut most = 0;
    for _ in 0..4 {
        let line = drawn_line(maker, sheet);
        let trial = Trial::of(&table, &line, false, 300);
        if trial.code == independent::READ {
            most = most.max(trial.records);
        }
    }
    most > 3 || (most > 1 && maker.random.chance(30))
}

/// The rules of a free sheet, then those of another, mostly not used by the first.
fn behind_a_free_sheet(maker: &mut Maker, alphabet: &[u8], other: &Sheet) -> Sheet {
    let mut sheet = some_sheet(maker, alphabet);
    while !is_free(&sheet) {
        sheet = some_sheet(maker, alphabet);
    }
    let (own, others) = (sheet.roots.len() as u64, other.roots.len() as u64);
    append(&mut sheet, other);
    if maker.random.chance(25) {
        let from = maker.random.below(own) as usize;
        let to = (own + maker.random.below(others)) as u16;
        add_some_edge(maker, &mut sheet, from, to);
    }
    sheet
}

/// Any edge by which the sheet stays an accepted one.
fn add_some_edge(maker: &mut Maker, sheet: &mut Sheet, from: usize, to: u16) {
    loop {
        let mut other = sheet.clone();
        add_edge(&mut other, from, to, maker.random.pick(&EDGES));
        if !is_loop(&other) {
            *sheet = other;
            return;
        }
    }
}

fn is_free(sheet: &Sheet) -> bool {
    independent::report(&sheet.bytes()).free
}

/// Adds left-recursive rules, most of them not used, and mostly to free sheets.
fn some_unused_rules(maker: &mut Maker, sheet: &mut Sheet) {
    let percent = if is_free(sheet) { 60 } else { 20 };
    if !maker.random.chance(percent) {
        return;
    }
    for _ in 0..maker.random.between(1, 2) {
        let form = maker.random.pick(&FORMS);
        let rule = add_unused(sheet, form);
        if maker.random.chance(25) {
            let from = maker.random.below(rule.into()) as usize;
            add_some_edge(maker, sheet, from, rule);
        }
        // Not always the last rules.
        if rule > 1 && maker.random.chance(50) {
            let other = maker.random.between(1, u64::from(rule) - 1) as u16;
            swap_rules(sheet, rule, other);
        }
    }
}

/// Some of the edges of a reading, at random.
fn some_readings(maker: &mut Maker) {
    let whole = maker.random.chance(50);
    if maker.random.chance(6) {
        maker.edges(whole, 400);
        return;
    }
    if maker.random.chance(2) {
        maker.allowance_limits(whole);
    }
    let wish = maker.random.pick(&[60, 200, 400, 400, 600, 600, 2_000]);
    let wish = if maker.random.chance(2) { 15_000 } else { wish };
    let allowance = maker.affordable(wish);
    let trial = maker.trial(whole, allowance);
    let visits = trial.visits.max(1);
    let room = match trial.code {
        independent::READ => trial.stored.len() as u64 + maker.random.below(12),
        _ => maker.random.below(40),
    };
    let slack = maker.random.below((allowance - visits).min(40) + 1);
    maker.read_with_enough(whole, visits + slack, room);
    maker.read_with_enough(!whole, visits + slack, room);
    match maker.random.below(6) {
        0 if visits > 1 => maker.read_with_enough(whole, visits - 1, room),
        1 if visits > 1 => {
            let allowance = maker.random.between(1, visits - 1);
            maker.read_with_enough(whole, allowance, room);
        }
        2 if trial.code == independent::READ => {
            let short = maker.random.between(1, 6);
            maker.read_with_enough(whole, visits, trial.stored.len() as u64 - short);
        }
        3 => maker.read(whole, visits, maker.needed(visits), room),
        4 => maker.read(whole, visits, maker.needed(visits) - 1, room),
        _ => {}
    }
}

/// A line: drawn from the sheet, drawn and changed, or anything at all.
fn some_line(maker: &mut Maker, sheet: &Sheet, alphabet: &[u8]) -> Vec<u8> {
    let chosen = maker.random.below(100);
    if chosen < 3 {
        let length = maker.random.pick(&AROUND_VERSION_1) as u64;
        return random_line(maker, alphabet, length);
    }
    if chosen < 35 {
        let length = maker.random.pick(&[0, 1, 2, 3, 4, 5, 7, 10, 20]);
        return random_line(maker, alphabet, length);
    }
    let mut line = drawn_line(maker, sheet);
    // Of two lines drawn, the longer one says more.
    let other = drawn_line(maker, sheet);
    if other.len() > line.len() {
        line = other;
    }
    if chosen < 55 {
        change(maker, &mut line, alphabet);
    }
    line
}

/// A line the sheet may well read.
pub fn drawn_line(maker: &mut Maker, sheet: &Sheet) -> Vec<u8> {
    let mut line = Vec::new();
    let mut steps = 200;
    draw(maker, sheet, sheet.roots[0], &mut line, &mut steps);
    line.truncate(60);
    line
}

pub fn random_line(maker: &mut Maker, alphabet: &[u8], length: u64) -> Vec<u8> {
    (0..length).map(|_| maker.random.pick(alphabet)).collect()
}

fn change(maker: &mut Maker, line: &mut Vec<u8>, alphabet: &[u8]) {
    let byte = maker.random.pick(alphabet);
    let at = maker.random.below(line.len() as u64 + 1) as usize;
    match maker.random.below(3) {
        0 => line.insert(at, byte),
        1 if at < line.len() => line[at] = byte,
        _ => line.truncate(at),
    }
}

/// Writes what a node might match: nots are passed over, choices are free.
/// Ends when the steps are used up, wherever that is.
fn draw(maker: &mut Maker, sheet: &Sheet, node: u16, line: &mut Vec<u8>, steps: &mut u32) {
    if *steps == 0 {
        return;
    }
    *steps -= 1;
    let (kind, a, b) = sheet.nodes[usize::from(node)];
    match kind {
        1 => line.push(maker.random.between(a.into(), b.into()) as u8),
        2 => draw(maker, sheet, sheet.roots[usize::from(a)], line, steps),
        3 => {
            draw(maker, sheet, a, line, steps);
            draw(maker, sheet, b, line, steps);
        }
        4 => {
            // The second more often: the first is where recursion goes on.
            let child = if maker.random.chance(40) { a } else { b };
            draw(maker, sheet, child, line, steps);
        }
        6 => {
            for _ in 0..maker.random.below(4) {
                draw(maker, sheet, a, line, steps);
            }
        }
        _ => {}
    }
}

/// Any accepted table of so many nodes and rules.
pub fn soup(maker: &mut Maker, nodes: u64, rules: u64) -> Sheet {
    let mut sheet = any_soup(maker, nodes, rules);
    mend(&mut sheet);
    sheet
}

/// Any table of so many nodes and rules that is accepted but for repetitions of
/// nothing: every node and root is as likely as the kinds allow.
pub fn any_soup(maker: &mut Maker, nodes: u64, rules: u64) -> Sheet {
    let mut sheet = Sheet::new();
    for number in 0..nodes {
        let node = soup_node(maker, number, rules);
        sheet.add(node);
    }
    for _ in 0..rules {
        // Mostly late nodes, which have more below them.
        let latest = maker.random.below(nodes).max(maker.random.below(nodes));
        sheet.root(latest as u16);
    }
    sheet
}

fn soup_node(maker: &mut Maker, number: u64, rules: u64) -> Node {
    let leaf = number == 0 || maker.random.chance(35);
    let kind = match leaf {
        true => maker.random.pick(&[0, 1, 1, 1, 1, 2, 2, 2]),
        false => maker.random.pick(&[3, 3, 3, 4, 4, 4, 5, 6]),
    };
    // Children mostly from the last dozen, so that the sheet hangs together.
    let mut child = || {
        let back = maker.random.between(1, 12).min(number.max(1));
        number.saturating_sub(back) as u16
    };
    match kind {
        0 => (0, 0, 0),
        1 => maker
            .random
            .pick(&[(1, 97, 97), (1, 98, 98), (1, 97, 98), (1, 0, 255)]),
        2 => (2, maker.random.below(rules) as u16, 0),
        3 | 4 => {
            let first = child();
            (kind, first, child())
        }
        _ => (kind, child(), 0),
    }
}

/// How one random sheet leans.
struct Leaning {
    /// Of a hundred leaves, so many use a rule.
    uses: u64,
    /// Of a hundred nodes, so many are shared with an earlier one.
    shared: u64,
    /// Of a hundred nodes, so many are nots.
    nots: u64,
    /// Of a hundred nodes, so many are repetitions.
    repetitions: u64,
    /// Of a hundred leaves, so many are empty.
    empties: u64,
}

/// A sheet grown rule by rule from small expressions.
fn grown(maker: &mut Maker, alphabet: &[u8]) -> Sheet {
    let rules = maker.random.between(1, 5);
    let leaning = Leaning {
        uses: maker.random.pick(&[15, 30, 50]),
        shared: maker.random.pick(&[0, 10, 25]),
        nots: maker.random.pick(&[0, 5, 15]),
        repetitions: maker.random.pick(&[0, 10, 20]),
        empties: maker.random.pick(&[0, 8, 25]),
    };
    let mut sheet = Sheet::new();
    for rule in 0..rules {
        let depth = maker.random.between(1, 4);
        let body = expression(maker, &mut sheet, &leaning, alphabet, rules, depth);
        let root = match maker.random.below(4) {
            0 => growing(maker, &mut sheet, rule, rules, body),
            _ => body,
        };
        sheet.root(root);
    }
    mend(&mut sheet);
    sheet
}

/// R body / body, the shape that left recursion mostly has.
fn growing(maker: &mut Maker, sheet: &mut Sheet, rule: u64, rules: u64, body: u16) -> u16 {
    let used = if maker.random.chance(70) {
        rule
    } else {
        maker.random.below(rules)
    };
    let itself = sheet.rule(used as u16);
    let longer = sheet.sequence(itself, body);
    sheet.choice(longer, body)
}

fn expression(
    maker: &mut Maker,
    sheet: &mut Sheet,
    leaning: &Leaning,
    alphabet: &[u8],
    rules: u64,
    depth: u64,
) -> u16 {
    let made = sheet.nodes.len() as u64;
    if made > 0 && maker.random.chance(leaning.shared) {
        return maker.random.below(made) as u16;
    }
    if depth == 0 {
        return leaf(maker, sheet, leaning, alphabet, rules);
    }
    let child = expression(maker, sheet, leaning, alphabet, rules, depth - 1);
    if maker.random.chance(leaning.nots) {
        return sheet.not(child);
    }
    if maker.random.chance(leaning.repetitions) {
        return sheet.repetition(child);
    }
    let lower = maker.random.below(depth);
    let second = expression(maker, sheet, leaning, alphabet, rules, lower);
    match maker.random.chance(55) {
        true => sheet.sequence(child, second),
        false => sheet.choice(child, second),
    }
}

fn leaf(
    maker: &mut Maker,
    sheet: &mut Sheet,
    leaning: &Leaning,
    alphabet: &[u8],
    rules: u64,
) -> u16 {
    if maker.random.chance(leaning.uses) {
        let rule = maker.random.below(rules) as u16;
        return sheet.rule(rule);
    }
    if maker.random.chance(leaning.empties) {
        return sheet.empty();
    }
    match maker.random.below(12) {
        0 => sheet.range(0, 255),
        1 => sheet.range(alphabet[0], alphabet[0].saturating_add(3)),
        _ => {
            let byte = maker.random.pick(alphabet);
            sheet.byte(byte)
        }
    }
}
