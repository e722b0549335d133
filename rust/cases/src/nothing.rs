//! Repetitions of nothing, which the check refuses, and near twins of them
//! that it accepts.

use independent::{LONGEST_LINE, LOOP, MOST_ALLOWANCE};
use sheets::{sheet_b, Sheet};

use crate::maker::Maker;
use crate::reach::append;
use crate::soup::{any_soup, drawn_line};
use crate::version::AROUND_VERSION_1;

const MOST_NODES: usize = 512;
const MOST_RULES: u16 = 64;

/// What decides whether a repetition's child may be empty.
#[derive(Clone, Copy, Debug)]
pub enum Leaf {
    /// ()
    Empty,
    /// !'b'
    Not,
    /// 'b'*
    Repetition,
    /// 'a'
    Byte,
    /// A rule that only calls itself: by the least reading it is not empty.
    Itself,
    /// () 'a'
    EmptyThenByte,
    /// !'b' 'a'
    NotThenByte,
    /// 'b'* 'a'
    RepetitionThenByte,
}

/// The leaves that may be empty.
pub const EMPTY: [Leaf; 3] = [Leaf::Empty, Leaf::Not, Leaf::Repetition];

/// The leaves that come close to it.
pub const CLOSE: [Leaf; 5] = [
    Leaf::Byte,
    Leaf::Itself,
    Leaf::EmptyThenByte,
    Leaf::NotThenByte,
    Leaf::RepetitionThenByte,
];

fn leaf(sheet: &mut Sheet, leaf: Leaf) -> u16 {
    match leaf {
        Leaf::Empty => sheet.empty(),
        Leaf::Byte => sheet.byte(b'a'),
        Leaf::Not => {
            let b = sheet.byte(b'b');
            sheet.not(b)
        }
        Leaf::Repetition => {
            let b = sheet.byte(b'b');
            sheet.repetition(b)
        }
        Leaf::Itself => {
            let rule = new_rule(sheet);
            let used = sheet.rule(rule);
            sheet.roots[usize::from(rule)] = used;
            used
        }
        Leaf::EmptyThenByte => then_byte(sheet, Leaf::Empty),
        Leaf::NotThenByte => then_byte(sheet, Leaf::Not),
        Leaf::RepetitionThenByte => then_byte(sheet, Leaf::Repetition),
    }
}

fn then_byte(sheet: &mut Sheet, first: Leaf) -> u16 {
    let first = leaf(sheet, first);
    let a = sheet.byte(b'a');
    sheet.sequence(first, a)
}

/// A rule whose root is set later.
fn new_rule(sheet: &mut Sheet) -> u16 {
    sheet.root(0);
    sheet.roots.len() as u16 - 1
}

/// From a repetition's child to its leaf X: the child may be empty exactly if
/// the leaf may.
#[derive(Clone, Copy, Debug)]
pub enum Way {
    /// X
    Direct,
    /// X / 'c'
    FirstOfChoice,
    /// 'c' / X
    SecondOfChoice,
    /// X !'c'
    FirstOfSequence,
    /// 'c'* X
    SecondOfSequence,
    /// X X, where both are one node
    Twice,
    /// R; R <- X
    Rule,
    /// R; R <- R 'c' / X
    Growing,
    /// P; P <- Q Q / 'c'; Q <- P / X
    EachOther,
}

pub const WAYS: [Way; 9] = [
    Way::Direct,
    Way::FirstOfChoice,
    Way::SecondOfChoice,
    Way::FirstOfSequence,
    Way::SecondOfSequence,
    Way::Twice,
    Way::Rule,
    Way::Growing,
    Way::EachOther,
];

fn child(sheet: &mut Sheet, way: Way, at_end: Leaf) -> u16 {
    let x = leaf(sheet, at_end);
    let c = sheet.byte(b'c');
    match way {
        Way::Direct => x,
        Way::FirstOfChoice => sheet.choice(x, c),
        Way::SecondOfChoice => sheet.choice(c, x),
        Way::FirstOfSequence => {
            let over = sheet.not(c);
            sheet.sequence(x, over)
        }
        Way::SecondOfSequence => {
            let some = sheet.repetition(c);
            sheet.sequence(some, x)
        }
        Way::Twice => sheet.sequence(x, x),
        Way::Rule => {
            let r = new_rule(sheet);
            sheet.roots[usize::from(r)] = x;
            sheet.rule(r)
        }
        Way::Growing => {
            let r = new_rule(sheet);
            let used = sheet.rule(r);
            let longer = sheet.sequence(used, c);
            sheet.roots[usize::from(r)] = sheet.choice(longer, x);
            used
        }
        Way::EachOther => {
            let (p, q) = (new_rule(sheet), new_rule(sheet));
            let (used, other) = (sheet.rule(p), sheet.rule(q));
            let twice = sheet.sequence(other, other);
            sheet.roots[usize::from(p)] = sheet.choice(twice, c);
            sheet.roots[usize::from(q)] = sheet.choice(used, x);
            used
        }
    }
}

/// Where the repetition stands.
#[derive(Clone, Copy, Debug)]
pub enum Place {
    /// The root of rule 0.
    Root,
    /// S <- 'x' repetition / 'y'
    Behind,
    /// Sheet B with a repetition that no rule leads to.
    Unused,
}

pub const PLACES: [Place; 3] = [Place::Root, Place::Behind, Place::Unused];

/// A sheet with a repetition at this place; what leads to it comes behind it.
pub fn repeated(place: Place, way: Way, at_end: Leaf) -> Sheet {
    let mut sheet = match place {
        Place::Unused => sheet_b(),
        Place::Root | Place::Behind => Sheet::new(),
    };
    if sheet.roots.is_empty() {
        new_rule(&mut sheet);
    }
    let child = child(&mut sheet, way, at_end);
    let all = sheet.repetition(child);
    match place {
        Place::Root => sheet.roots[0] = all,
        Place::Behind => {
            let (x, y) = (sheet.byte(b'x'), sheet.byte(b'y'));
            let first = sheet.sequence(x, all);
            sheet.roots[0] = sheet.choice(first, y);
        }
        Place::Unused => {}
    }
    sheet
}

/// How a rule of a chain has the next one N; it may be empty exactly if N may.
#[derive(Clone, Copy, Debug)]
enum Link {
    /// N
    Use,
    /// 'c' / N
    Choice,
    /// N N
    Sequence,
}

const LINKS: [Link; 3] = [Link::Use, Link::Choice, Link::Sequence];

/// S <- R*; R and each rule after it has the next one, the last is the leaf. In
/// both orders of the nodes one rule after the other is found to be empty.
fn chain(rules: u16, rising: bool, link: Link, at_end: Leaf) -> Sheet {
    let mut sheet = Sheet::new();
    (0..rules).for_each(|_| sheet.root(0));
    let mut order: Vec<u16> = (1..rules).collect();
    if !rising {
        order.reverse();
    }
    for rule in order {
        let root = if rule + 1 == rules {
            leaf(&mut sheet, at_end)
        } else {
            linked(&mut sheet, link, rule + 1)
        };
        sheet.roots[usize::from(rule)] = root;
    }
    let first = sheet.rule(1);
    sheet.roots[0] = sheet.repetition(first);
    sheet
}

fn linked(sheet: &mut Sheet, link: Link, next: u16) -> u16 {
    let used = sheet.rule(next);
    match link {
        Link::Use => used,
        Link::Sequence => sheet.sequence(used, used),
        Link::Choice => {
            let c = sheet.byte(b'c');
            sheet.choice(c, used)
        }
    }
}

/// Up to 512 nodes by repetitions that each take a byte, and up to 64 rules.
fn filled(mut sheet: Sheet) -> Sheet {
    let a = sheet.byte(b'a');
    let twice = sheet.sequence(a, a);
    let children = [a, twice];
    while sheet.nodes.len() < MOST_NODES {
        sheet.repetition(children[sheet.nodes.len() % 2]);
    }
    sheet.roots.resize(MOST_RULES.into(), a);
    sheet
}

/// A repetition at this node of a child at that one: 'a' / X, with X empty or
/// 'a' right before it. All other nodes are 'a'.
fn at_node(child: u16, repetition: u16, is_empty: bool) -> Sheet {
    let mut nodes = vec![(1, 97, 97); usize::from(repetition) + 1];
    if is_empty {
        nodes[usize::from(child) - 1] = (0, 0, 0);
    }
    nodes[usize::from(child)] = (4, 0, child - 1);
    nodes[usize::from(repetition)] = (6, child, 0);
    Sheet {
        roots: vec![repetition],
        nodes,
    }
}

/// Children on both sides of each 64 nodes, and the last that there can be.
const CHILDREN: [u16; 18] = [
    2, 62, 63, 64, 65, 127, 128, 191, 192, 255, 256, 319, 320, 383, 384, 447, 448, 510,
];

pub fn add(maker: &mut Maker) {
    for way in WAYS {
        for place in PLACES {
            for leaf in EMPTY {
                ask_refused(maker, &repeated(place, way, leaf));
            }
            for leaf in CLOSE {
                ask_close(maker, &repeated(place, way, leaf));
            }
        }
    }
    two_of_them(maker);
    any_tables(maker);
    chains(maker);
    nodes_of_every_word(maker);
    other_faults_first(maker);
}

/// Two repetitions, of which one or both are of nothing: the lower one counts.
fn two_of_them(maker: &mut Maker) {
    for way in WAYS {
        let (leaf, close) = (maker.random.pick(&EMPTY), maker.random.pick(&CLOSE));
        for (first, second) in [(leaf, leaf), (leaf, close), (close, leaf)] {
            let other = maker.random.pick(&WAYS);
            ask_refused(maker, &both(way, first, other, second));
        }
    }
}

fn both(way: Way, leaf: Leaf, other_way: Way, other_leaf: Leaf) -> Sheet {
    let mut sheet = repeated(Place::Root, way, leaf);
    append(&mut sheet, &repeated(Place::Root, other_way, other_leaf));
    sheet
}

/// Random nodes, with any number of them, and with none.
fn any_tables(maker: &mut Maker) {
    for _ in 0..40 {
        let (nodes, rules) = (maker.random.between(8, 50), maker.random.between(1, 6));
        let mut sheet = any_soup(maker, nodes, rules);
        if is_loop(&sheet) {
            ask_refused(maker, &sheet);
            mend(&mut sheet);
        }
        ask_close(maker, &sheet);
    }
}

fn chains(maker: &mut Maker) {
    for rising in [false, true] {
        for rules in [3, 9, 33, MOST_RULES] {
            let link = maker.random.pick(&LINKS);
            ask_refused(maker, &chain(rules, rising, link, Leaf::Empty));
            ask_close(maker, &chain(rules, rising, link, Leaf::Byte));
        }
        let link = maker.random.pick(&LINKS);
        ask_refused(maker, &filled(chain(MOST_RULES, rising, link, Leaf::Not)));
        ask_close(
            maker,
            &filled(chain(MOST_RULES, rising, link, Leaf::NotThenByte)),
        );
    }
}

fn nodes_of_every_word(maker: &mut Maker) {
    for child in CHILDREN {
        ask_refused(maker, &at_node(child, child + 1, true));
        ask_close(maker, &at_node(child, child + 1, false));
    }
    for child in [2, 63, 64, 320] {
        let mut full = at_node(child, 511, true);
        full.roots.resize(MOST_RULES.into(), 0);
        ask_refused(maker, &full);
    }
}

/// A node with another fault behind the repetition, or a root that is none.
fn other_faults_first(maker: &mut Maker) {
    for way in WAYS {
        let place = maker.random.pick(&PLACES);
        let sheet = repeated(place, way, Leaf::Empty);
        let last = sheet.nodes.len() as u16;
        for fault in [(7, 0, 0), (0, 1, 0), (5, last, 0), (2, 64, 0)] {
            let mut sheet = sheet.clone();
            sheet.add(fault);
            ask_refused(maker, &sheet);
        }
        let mut sheet = sheet;
        sheet.roots[0] = last;
        ask_refused(maker, &sheet);
    }
}

/// Whatever the line, the allowance and the working numbers are, the table is
/// refused first.
pub fn ask_refused(maker: &mut Maker, sheet: &Sheet) {
    maker.table(&sheet.bytes());
    if maker.random.chance(40) {
        maker.check();
    }
    maker.report();
    for _ in 0..2 {
        some_line(maker);
        let allowance = maker.random.pick(&[0, 1, 60, 60, 60, MOST_ALLOWANCE + 1]);
        let needed = maker.needed(allowance.min(60));
        let work = maker.random.pick(&[0, needed - 1, needed, needed + 9]);
        let (whole, room) = (maker.random.chance(50), maker.random.below(40));
        maker.read(whole, allowance, work.min(9_000), room);
    }
}

/// Mostly short, now and then of version 2 or too long.
fn some_line(maker: &mut Maker) {
    let length = match maker.random.below(120) {
        0 => LONGEST_LINE + 1,
        1..=8 => maker.random.pick(&AROUND_VERSION_1),
        _ => maker.random.below(4) as usize,
    };
    maker.line(&vec![b'a'; length]);
}

/// A sheet that is accepted, and is read by.
fn ask_close(maker: &mut Maker, sheet: &Sheet) {
    maker.table(&sheet.bytes());
    if maker.random.chance(20) {
        maker.check();
    }
    maker.report();
    some_line(maker);
    let whole = maker.random.chance(50);
    let allowance = maker.affordable(400);
    maker.read_with_enough(whole, allowance, 100);
    let drawn = drawn_line(maker, sheet);
    maker.line(&drawn);
    let allowance = maker.affordable(400);
    maker.read_with_enough(!whole, allowance, 300);
}

/// Whether the table is refused, for a repetition of nothing and nothing else.
pub fn is_loop(sheet: &Sheet) -> bool {
    independent::check(&sheet.bytes()).0 == LOOP
}

/// Gives each repetition of nothing another child.
pub fn mend(sheet: &mut Sheet) {
    while let (LOOP, place) = independent::check(&sheet.bytes()) {
        mend_at(sheet, place as usize);
    }
}

/// The nearest child below that takes a byte, a range only if there is no other;
/// without any it becomes a not. No other node is changed by that: a repetition
/// may be empty whatever its child is.
fn mend_at(sheet: &mut Sheet, place: usize) {
    let (ranges, others): (Vec<usize>, Vec<usize>) =
        (0..place).rev().partition(|&node| sheet.nodes[node].0 == 1);
    for child in others.into_iter().chain(ranges) {
        sheet.nodes[place].1 = child as u16;
        if independent::check(&sheet.bytes()) != (LOOP, place as u64) {
            return;
        }
    }
    sheet.nodes[place].0 = 5;
}

/// An accepted sheet with one repetition turned to a child that may be empty,
/// if it has such a child for one of them.
pub fn spoilt(maker: &mut Maker, sheet: &Sheet) -> Option<Sheet> {
    let is_repetition = |&number: &usize| sheet.nodes[number].0 == 6;
    let all: Vec<usize> = (0..sheet.nodes.len()).filter(is_repetition).collect();
    if all.is_empty() {
        return None;
    }
    let place = maker.random.pick(&all);
    let mut turned = (0..place).rev().map(|child| {
        let mut other = sheet.clone();
        other.nodes[place].1 = child as u16;
        other
    });
    turned.find(is_loop)
}

#[cfg(test)]
mod tests {
    use super::*;
    use independent::READ;

    fn place_of_repetition(sheet: &Sheet, place: Place) -> u64 {
        let behind = if let Place::Behind = place { 4 } else { 0 };
        (sheet.nodes.len() - 1 - behind) as u64
    }

    #[test]
    fn a_way_is_empty_as_its_leaf_is() {
        for way in WAYS {
            for place in PLACES {
                for leaf in EMPTY {
                    let sheet = repeated(place, way, leaf);
                    let at = place_of_repetition(&sheet, place);
                    let given = independent::check(&sheet.bytes());
                    assert_eq!(given, (LOOP, at), "{place:?} {way:?} {leaf:?}");
                }
                for leaf in CLOSE {
                    let sheet = repeated(place, way, leaf);
                    let given = independent::check(&sheet.bytes());
                    assert_eq!(given, (READ, 0), "{place:?} {way:?} {leaf:?}");
                }
            }
        }
    }

    #[test]
    fn the_lower_of_two_counts() {
        for way in WAYS {
            let first = repeated(Place::Root, way, Leaf::Empty).nodes.len() as u64;
            let second = repeated(Place::Root, Way::Rule, Leaf::Empty).nodes.len() as u64;
            let given = |leaf, other| {
                let sheet = both(way, leaf, Way::Rule, other);
                independent::check(&sheet.bytes())
            };
            assert_eq!(given(Leaf::Empty, Leaf::Empty), (LOOP, first - 1));
            assert_eq!(given(Leaf::Empty, Leaf::Byte), (LOOP, first - 1));
            assert_eq!(given(Leaf::Byte, Leaf::Empty), (LOOP, first + second - 1));
            assert_eq!(given(Leaf::Byte, Leaf::Byte), (READ, 0));
        }
    }

    #[test]
    fn a_chain_is_empty_as_its_end_is() {
        for rules in [3, 9, 64] {
            for link in LINKS {
                for rising in [false, true] {
                    let of = |leaf| chain(rules, rising, link, leaf);
                    assert!(is_loop(&of(Leaf::Empty)) && !is_loop(&of(Leaf::Byte)));
                    let full = filled(of(Leaf::Not));
                    assert_eq!((full.nodes.len(), full.roots.len()), (512, 64));
                    assert!(is_loop(&full));
                    let full = filled(of(Leaf::NotThenByte));
                    assert_eq!(independent::check(&full.bytes()), (READ, 0));
                }
            }
        }
    }

    #[test]
    fn one_node_makes_the_difference() {
        for child in CHILDREN {
            let place = u64::from(child) + 1;
            let check = |is_empty| independent::check(&at_node(child, child + 1, is_empty).bytes());
            assert_eq!((check(true), check(false)), ((LOOP, place), (READ, 0)));
        }
        let last = at_node(2, 511, true);
        assert_eq!(independent::check(&last.bytes()), (LOOP, 511));
    }

    #[test]
    fn mended_sheets_are_accepted_and_spoilt_ones_are_not() {
        let mut maker = Maker::new(7);
        for way in WAYS {
            for place in PLACES {
                for leaf in EMPTY {
                    let mut sheet = repeated(place, way, leaf);
                    mend(&mut sheet);
                    assert_eq!(independent::check(&sheet.bytes()), (READ, 0));
                }
            }
            let sheet = repeated(Place::Root, way, Leaf::NotThenByte);
            let other = spoilt(&mut maker, &sheet).expect("it has an empty node");
            assert!(is_loop(&other));
            let differ = |(one, two): &(&sheets::Node, &sheets::Node)| one != two;
            let pairs = sheet.nodes.iter().zip(&other.nodes);
            assert_eq!(pairs.filter(differ).count(), 1);
        }
        assert_eq!(spoilt(&mut maker, &sheet_b()), None);
    }
}
