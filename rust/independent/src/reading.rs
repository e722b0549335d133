//! How a line is read.

use std::collections::HashMap;
use std::fmt;
use std::rc::Rc;

use crate::report::report_on;
use crate::searches::Searches;
use crate::stored::{store, stored_length, version};
use crate::table::{open, Node, Table};
use crate::ways::{Live, Turns, Ways};
use crate::{
    names, Refusal, ALLOW, DEEP, EFFORT, FAIL, LINE, LONGEST_LINE, MOST_ALLOWANCE, READ, RECORDS,
    REST, ROOM, WORK,
};

/// What a reading returns.
#[derive(Clone, Copy, Debug, PartialEq, Eq)]
pub struct Answer {
    pub code: u64,
    pub place: u64,
    pub matched: u64,
    pub visits: u64,
    pub records: u64,
    /// The largest position at which a range was visited, 0 if none was.
    pub furthest: u64,
}

impl Answer {
    /// In the order of the rules.
    pub fn numbers(self) -> [u64; 6] {
        [
            self.code,
            self.place,
            self.matched,
            self.visits,
            self.records,
            self.furthest,
        ]
    }
}

/// As the classroom program prints it.
impl fmt::Display for Answer {
    fn fmt(&self, f: &mut fmt::Formatter) -> fmt::Result {
        let name = names(self.code).expect("a code has a name");
        if self.code == READ {
            let (matched, visits, records) = (self.matched, self.visits, self.records);
            write!(f, "{name} {matched} {visits} {records}")
        } else {
            write!(f, "{name} {} {}", self.place, self.visits)
        }
    }
}

/// A tree over this many records is not stored.
const MOST_RECORDS: u64 = 1_000;

/// One successful rule use.
#[derive(Debug)]
pub(crate) struct Tree {
    pub rule: usize,
    pub start: usize,
    pub end: usize,
    pub children: Vec<Rc<Tree>>,
    /// Records in this tree, itself included; at most 1,000.
    pub records: u64,
}

/// A list of trees.
///
/// Shared empty trees double at each sequence that uses one child twice, so
/// a list can be longer than any memory. But once a list holds over 1,000
/// records, every tree made from it does too and none of them is ever
/// stored: that much is all there is to remember of it.
#[derive(Clone, Debug)]
enum Trees {
    Listed(Vec<Rc<Tree>>),
    TooMany,
}

/// The answer of a visit.
#[derive(Clone, Debug)]
enum Outcome {
    Failure,
    Match { end: usize, trees: Trees },
}

/// A prefix reading, or a whole-line reading if `whole`.
pub fn read(
    table: &[u8],
    line: &[u8],
    allowance: u64,
    work: &mut [u32],
    room: &mut [u8],
    whole: bool,
) -> Answer {
    read_with(Ways::NOW, table, line, allowance, work, room, whole)
}

/// The same in these ways.
pub fn read_with(
    ways: Ways,
    table: &[u8],
    line: &[u8],
    allowance: u64,
    work: &mut [u32],
    room: &mut [u8],
    whole: bool,
) -> Answer {
    let table = match open(table) {
        Ok(table) => table,
        Err(refusal) => return refused(refusal.code, refusal.place),
    };
    if line.len() > LONGEST_LINE {
        return refused(LINE, 0);
    }
    if allowance == 0 || allowance > MOST_ALLOWANCE {
        return refused(ALLOW, 0);
    }
    let formula = 2_048 + 4 * allowance + 2 * table.nodes.len() as u64 * (line.len() as u64 + 1);
    if (work.len() as u64) < formula {
        return refused(WORK, 0);
    }

    // This reader needs no working numbers of its own; it only leaves them
    // as the rules say.
    for number in &mut work[..formula as usize] {
        *number = 0;
    }

    let mut reading = Reading::new(ways, &table, line, allowance);
    let outcome = reading.use_rule(0, 0);
    conclude(outcome, &reading, room, whole)
}

/// How live uses are looked for while a line is read, to its end or until it
/// is refused for effort or depth; `None` if the table is refused.
pub fn searches(table: &[u8], line: &[u8], allowance: u64) -> Option<Searches> {
    let table = open(table).ok()?;
    let mut reading = Reading::new(Ways::NOW, &table, line, allowance);
    let _ = reading.use_rule(0, 0);
    Some(reading.searches)
}

/// Codes 1 to 10 and LOOP return zeros else.
fn refused(code: u64, place: u64) -> Answer {
    Answer {
        code,
        place,
        matched: 0,
        visits: 0,
        records: 0,
        furthest: 0,
    }
}

/// From the use of rule 0 at position 0 to what comes back.
fn conclude(
    outcome: Result<Outcome, Refusal>,
    reading: &Reading,
    room: &mut [u8],
    whole: bool,
) -> Answer {
    let answer = |code, place, matched, records| Answer {
        code,
        place,
        matched,
        visits: reading.visits,
        records,
        furthest: reading.furthest as u64,
    };
    let (end, trees) = match outcome {
        Err(stop) => return answer(stop.code, stop.place, 0, 0),
        Ok(Outcome::Failure) => return answer(FAIL, 0, 0, 0),
        Ok(Outcome::Match { end, trees }) => (end, trees),
    };
    let matched = end as u64;
    if whole && end < reading.line.len() {
        return answer(REST, matched, matched, 0);
    }
    // A successful rule use is one tree, so a listed answer has one element.
    let tree = match trees {
        Trees::TooMany => return answer(RECORDS, matched, matched, MOST_RECORDS + 1),
        Trees::Listed(trees) => trees[0].clone(),
    };
    // The version goes by the line, however little of it is matched.
    let version = version(reading.line.len() as u64);
    if (room.len() as u64) < stored_length(version, tree.records) {
        return answer(ROOM, matched, matched, tree.records);
    }
    store(version, &tree, room);
    answer(READ, 0, matched, tree.records)
}

/// A reading under way.
struct Reading<'a> {
    table: &'a Table,
    line: &'a [u8],
    allowance: u64,
    free: bool,
    /// All others: the rules that become live and grow.
    grows: Vec<bool>,
    ways: Ways,
    /// Visits made.
    visits: u64,
    /// Visits open.
    open: u64,
    /// The largest position at which a range was visited, 0 if none was yet.
    furthest: usize,
    /// Free grammars: the answer of each finished pair (node, position).
    kept: HashMap<(usize, usize), Outcome>,
    /// All others: what is held for each live pair (rule, position), and how
    /// many were live before it.
    held: HashMap<(usize, usize), (Outcome, u64)>,
    /// Counted beside the rules.
    searches: Searches,
}

impl<'a> Reading<'a> {
    fn new(ways: Ways, table: &'a Table, line: &'a [u8], allowance: u64) -> Reading<'a> {
        let report = report_on(table);
        let grows = |rule: usize| match ways.live {
            Live::LeftRecursive => report.left_recursive >> rule & 1 == 1,
            Live::Every => true,
        };
        Reading {
            table,
            line,
            allowance,
            free: report.free,
            grows: (0..table.roots.len()).map(grows).collect(),
            ways,
            visits: 0,
            open: 0,
            furthest: 0,
            kept: HashMap::new(),
            held: HashMap::new(),
            searches: Searches::default(),
        }
    }

    /// One application of a node at a position. An error is the refusal of
    /// this visit or of one made while it was open.
    fn visit(&mut self, number: usize, position: usize) -> Result<Outcome, Refusal> {
        if let Some(kept) = self.begin(number, position)? {
            return Ok(kept);
        }
        let outcome = self.apply(number, position)?;
        self.open -= 1;
        self.keep(number, position, &outcome);
        Ok(outcome)
    }

    /// Counts a visit and opens it, or gives the kept answer.
    fn begin(&mut self, number: usize, position: usize) -> Result<Option<Outcome>, Refusal> {
        if self.visits == self.allowance {
            return Err(refused_visit(EFFORT, position));
        }
        if self.open == self.ways.most_open {
            return Err(refused_visit(DEEP, position));
        }
        self.visits += 1;
        if let Some(kept) = self.kept.get(&(number, position)) {
            return Ok(Some(kept.clone()));
        }
        self.open += 1;
        Ok(None)
    }

    /// Only free grammars keep anything.
    fn keep(&mut self, number: usize, position: usize, outcome: &Outcome) {
        if self.free {
            self.kept.insert((number, position), outcome.clone());
        }
    }

    fn apply(&mut self, number: usize, position: usize) -> Result<Outcome, Refusal> {
        match self.table.nodes[number] {
            Node::Empty => Ok(nothing(position)),
            Node::Range { lowest, highest } => Ok(self.range(lowest, highest, position)),
            Node::Rule(rule) => self.use_rule(rule, position),
            Node::Sequence(first, second) => self.sequence(first, second, position),
            Node::Choice(first, second) => self.choice(first, second, position),
            Node::Not(child) => self.not(child, position),
            Node::Repetition(child) => self.repetition(number, child, position),
        }
    }

    /// A match, a failure and the line's end count alike for the furthest. A kept
    /// answer does not come here, and its position has been counted.
    fn range(&mut self, lowest: u16, highest: u16, position: usize) -> Outcome {
        self.furthest = self.furthest.max(position);
        match self.line.get(position) {
            Some(&byte) if lowest <= u16::from(byte) && u16::from(byte) <= highest => {
                Outcome::Match {
                    end: position + 1,
                    trees: Trees::Listed(vec![]),
                }
            }
            _ => Outcome::Failure,
        }
    }

    fn sequence(
        &mut self,
        first: usize,
        second: usize,
        position: usize,
    ) -> Result<Outcome, Refusal> {
        match self.visit(first, position)? {
            Outcome::Failure => Ok(Outcome::Failure),
            Outcome::Match { end, trees } => {
                let after = self.visit(second, end)?;
                Ok(joined(trees, after))
            }
        }
    }

    fn choice(&mut self, first: usize, second: usize, position: usize) -> Result<Outcome, Refusal> {
        match self.visit(first, position)? {
            Outcome::Failure => self.visit(second, position),
            matched => Ok(matched),
        }
    }

    fn not(&mut self, child: usize, position: usize) -> Result<Outcome, Refusal> {
        match self.visit(child, position)? {
            Outcome::Failure => Ok(nothing(position)),
            Outcome::Match { .. } => Ok(Outcome::Failure),
        }
    }

    /// Turn after turn in a loop: a row can be as long as a line, too long for
    /// recursion.
    fn repetition(
        &mut self,
        itself: usize,
        child: usize,
        position: usize,
    ) -> Result<Outcome, Refusal> {
        let open = self.open;
        let mut row = Vec::new();
        let mut at = position;
        let last = loop {
            match self.visit(child, at)? {
                Outcome::Match { end, trees } if end > at => {
                    row.push((at, trees));
                    at = end;
                }
                // No trees even if the child matched nothing and made some.
                _ => break nothing(at),
            }
            if let Some(kept) = self.turn(itself, at)? {
                break kept;
            }
        };
        // All its turns are finished, and the first visit is open as before them.
        self.open = open;
        Ok(self.finish_row(itself, row, at, last))
    }

    /// Begins a repetition's own next visit. The one before gives up its place
    /// first, so that fewer are open than may be: it is never too deep.
    fn turn(&mut self, itself: usize, position: usize) -> Result<Option<Outcome>, Refusal> {
        if self.ways.turns == Turns::InPlace {
            self.open -= 1;
        }
        self.begin(itself, position)
    }

    /// The answers of a row's visits, from the last, made at `at`, to the first:
    /// the trees of a turn, then those of the turns after it.
    fn finish_row(
        &mut self,
        itself: usize,
        row: Vec<(usize, Trees)>,
        mut at: usize,
        last: Outcome,
    ) -> Outcome {
        let mut outcome = last;
        for (position, trees) in row.into_iter().rev() {
            self.keep(itself, at, &outcome);
            outcome = joined(trees, outcome);
            at = position;
        }
        outcome
    }

    /// A use of a rule at a position. In a free grammar, and where the rule does
    /// not grow, it visits the root once and looks at nothing that is held.
    fn use_rule(&mut self, rule: usize, position: usize) -> Result<Outcome, Refusal> {
        if self.free || !self.grows[rule] {
            let outcome = self.visit(self.table.roots[rule], position)?;
            return Ok(as_one_tree(rule, position, outcome));
        }
        let live = self.held.len() as u64;
        match self.held.get(&(rule, position)) {
            Some((held, older)) => {
                self.searches.find(live, *older);
                Ok(held.clone())
            }
            None => {
                let here = self.held.keys().filter(|(_, at)| *at == position).count();
                self.searches.miss(live, here as u64);
                self.grow(rule, position)
            }
        }
    }

    /// A use that isn't live becomes live with failure held and is grown.
    fn grow(&mut self, rule: usize, position: usize) -> Result<Outcome, Refusal> {
        let pair = (rule, position);
        let older = self.held.len() as u64;
        let mut held = Outcome::Failure;
        loop {
            self.held.insert(pair, (held.clone(), older));
            let attempt = self.visit(self.table.roots[rule], position)?;
            if !is_longer(&attempt, &held) {
                break;
            }
            held = as_one_tree(rule, position, attempt);
        }
        self.held.remove(&pair);
        Ok(held)
    }
}

fn refused_visit(code: u64, position: usize) -> Refusal {
    Refusal {
        code,
        place: position as u64,
    }
}

/// A match of nothing, with no trees.
fn nothing(position: usize) -> Outcome {
    Outcome::Match {
        end: position,
        trees: Trees::Listed(vec![]),
    }
}

/// Whether an attempt goes on growing what is held. Any match is longer than
/// a failure; a match of equal length is not longer.
fn is_longer(attempt: &Outcome, held: &Outcome) -> bool {
    match (attempt, held) {
        (Outcome::Failure, _) => false,
        (Outcome::Match { .. }, Outcome::Failure) => true,
        (Outcome::Match { end, .. }, Outcome::Match { end: held_end, .. }) => end > held_end,
    }
}

/// The trees found before, then those of `after`; a failure if that failed.
fn joined(before: Trees, after: Outcome) -> Outcome {
    match after {
        Outcome::Failure => Outcome::Failure,
        Outcome::Match { end, trees } => Outcome::Match {
            end,
            trees: join(before, trees),
        },
    }
}

fn join(before: Trees, after: Trees) -> Trees {
    match (before, after) {
        (Trees::Listed(mut trees), Trees::Listed(more)) => {
            trees.extend(more);
            if records_in(&trees) > MOST_RECORDS {
                Trees::TooMany
            } else {
                Trees::Listed(trees)
            }
        }
        _ => Trees::TooMany,
    }
}

/// A successful rule use is one tree: the rule, its span, the trees of its
/// root as children.
fn as_one_tree(rule: usize, start: usize, outcome: Outcome) -> Outcome {
    match outcome {
        Outcome::Failure => Outcome::Failure,
        Outcome::Match { end, trees } => Outcome::Match {
            end,
            trees: plant(rule, start, end, trees),
        },
    }
}

fn plant(rule: usize, start: usize, end: usize, trees: Trees) -> Trees {
    let Trees::Listed(children) = trees else {
        return Trees::TooMany;
    };
    let records = records_in(&children) + 1;
    if records > MOST_RECORDS {
        return Trees::TooMany;
    }
    Trees::Listed(vec![Rc::new(Tree {
        rule,
        start,
        end,
        children,
        records,
    })])
}

/// At most a thousand trees of at most a thousand records each, or one list
/// of that size joined to another: far from overflow.
fn records_in(trees: &[Rc<Tree>]) -> u64 {
    trees.iter().map(|tree| tree.records).sum()
}

#[cfg(test)]
mod tests {
    use super::*;

    /// Sheet B with a third rule that calls itself and is never used.
    const B_WITH_A_RULE_UNUSED: [u8; 48] = [
        1, 0, 48, 0, 7, 0, 3, // version, length, seven nodes, three rules
        0, 4, 0, 5, 0, 6, // their roots
        2, 0, 1, 0, 0, // node 0: rule 1
        1, 0, 44, 0, 44, // node 1: a comma
        3, 0, 1, 0, 0, // node 2: 1, then 0
        3, 0, 0, 0, 2, // node 3: 0, then 2
        4, 0, 3, 0, 0, // node 4: 3, or else 0
        1, 0, 48, 0, 57, // node 5: a digit
        2, 0, 2, 0, 0, // node 6: rule 2
    ];

    fn visits(line: &[u8], free: bool, ways: Ways) -> u64 {
        let table = open(&B_WITH_A_RULE_UNUSED).expect("an accepted table");
        let mut reading = Reading {
            free,
            ..Reading::new(ways, &table, line, 100)
        };
        assert!(reading.use_rule(0, 0).is_ok());
        reading.visits
    }

    /// What the rule that is never used would cost if it counted.
    #[test]
    fn visits_as_a_free_grammar_and_as_another() {
        for (line, free, other, before) in [(b"1,5".as_slice(), 8, 8, 20), (b"1", 7, 8, 20)] {
            assert_eq!(visits(line, true, Ways::NOW), free);
            assert_eq!(visits(line, true, Ways::EVERY_LIVE), free);
            assert_eq!(visits(line, false, Ways::NOW), other);
            assert_eq!(visits(line, false, Ways::EVERY_LIVE), before);
        }
    }
}
