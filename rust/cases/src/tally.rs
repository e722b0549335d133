//! What the cases are, counted.

mod versions;

pub use versions::{Formed, LongLines};

use std::cmp::Ordering;

use independent::{DEEP, EFFORT, FAIL, LOOP, READ, REST};

/// How often each thing was answered.
#[derive(Clone, Default)]
pub struct Tally {
    /// Commands that print a line.
    pub commands: u64,
    /// Times each code was given by check, report or reading.
    pub codes: [u64; independent::CODES],
    /// Stored readings by version and by the line they are held against.
    pub formed: Formed,
    /// Tables that were reported on or read by, each counted once.
    pub tables: Tables,
    /// Readings by how far ranges were asked.
    pub furthest: Furthest,
    /// Readings by what they would be if every rule became live.
    pub growth: Growth,
    /// Readings by what they would be if each turn opened one visit more.
    pub turns: Turns,
    /// Readings of lines that give version 2.
    pub long_lines: LongLines,
    /// Readings that are lent more working numbers than usual.
    pub lent_more: u64,
}

/// How many readings there are of each sort, by tables that aren't free. The
/// other answer is that of a reader by which every rule becomes live.
#[derive(Clone, Default)]
pub struct Growth {
    /// Neither is refused for effort or depth, and both make as many visits.
    pub as_many: u64,
    /// The same, and the other makes more.
    pub fewer: u64,
    /// The other gives EFFORT, and this one neither EFFORT nor DEEP.
    pub effort_no_more: u64,
    /// The other gives EFFORT, and this one DEEP.
    pub deep_instead: u64,
    /// Both give EFFORT, at another place or with another furthest range.
    pub effort_elsewhere: u64,
    /// Both give DEEP, this one after fewer visits.
    pub deep_sooner: u64,
}

impl Growth {
    pub(crate) fn count(&mut self, numbers: &[u64], other: [u64; 6]) {
        let (code, place, visits, furthest) = (numbers[0], numbers[1], numbers[3], numbers[5]);
        let [other_code, other_place, _, other_visits, _, other_furthest] = other;
        match (code, other_code) {
            (EFFORT, EFFORT) => {
                let elsewhere = (place, furthest) != (other_place, other_furthest);
                self.effort_elsewhere += u64::from(elsewhere);
            }
            (DEEP, EFFORT) => self.deep_instead += 1,
            (DEEP, _) => self.deep_sooner += u64::from(visits < other_visits),
            (_, EFFORT) => self.effort_no_more += 1,
            _ if visits < other_visits => self.fewer += 1,
            _ => self.as_many += 1,
        }
    }
}

/// How many readings there are of each sort. The other answer is that of a reader
/// by which each turn of a repetition opens one visit more, and is DEEP.
#[derive(Clone, Default)]
pub struct Turns {
    /// This one is neither EFFORT nor DEEP, by a table that is free.
    pub deep_no_more_free: u64,
    /// The same, by one that is not.
    pub deep_no_more_not_free: u64,
    /// This one is EFFORT.
    pub effort_instead: u64,
    /// This one is DEEP by a later visit.
    pub deep_later: u64,
    /// This one is DEEP by the same visit.
    pub deep_as_well: u64,
}

impl Turns {
    pub(crate) fn count(&mut self, numbers: &[u64], other: [u64; 6], free: bool) {
        let (code, visits) = (numbers[0], numbers[3]);
        let [other_code, _, _, other_visits, ..] = other;
        match code {
            _ if other_code != DEEP => {}
            EFFORT => self.effort_instead += 1,
            DEEP if visits > other_visits => self.deep_later += 1,
            DEEP => self.deep_as_well += 1,
            _ if free => self.deep_no_more_free += 1,
            _ => self.deep_no_more_not_free += 1,
        }
    }
}

/// How many readings there are of each sort.
#[derive(Clone, Default)]
pub struct Furthest {
    /// READ or REST: a range was visited beyond the match.
    pub above_matched: u64,
    /// READ or REST: the furthest one just where the match ends.
    pub at_matched: u64,
    /// READ or REST: the furthest one before that.
    pub below_matched: u64,
    /// READ, and none was visited behind 0.
    pub read_at_0: u64,
    /// FAIL, and one was visited behind 0.
    pub fail_above_0: u64,
    /// EFFORT, and the same.
    pub effort_above_0: u64,
    /// DEEP, and the same.
    pub deep_above_0: u64,
    /// The line has bytes, and one was visited at its end.
    pub at_end: u64,
}

impl Furthest {
    pub(crate) fn count(&mut self, numbers: &[u64], line_length: usize) {
        let (code, matched, furthest) = (numbers[0], numbers[2], numbers[5]);
        let above_0 = u64::from(furthest > 0);
        match code {
            READ | REST => *self.beside(matched, furthest) += 1,
            FAIL => self.fail_above_0 += above_0,
            EFFORT => self.effort_above_0 += above_0,
            DEEP => self.deep_above_0 += above_0,
            _ => {}
        }
        self.read_at_0 += u64::from(code == READ && furthest == 0);
        self.at_end += u64::from(furthest > 0 && furthest == line_length as u64);
    }

    /// The count of the readings that match so far and ask so far.
    fn beside(&mut self, matched: u64, furthest: u64) -> &mut u64 {
        match furthest.cmp(&matched) {
            Ordering::Greater => &mut self.above_matched,
            Ordering::Equal => &mut self.at_matched,
            Ordering::Less => &mut self.below_matched,
        }
    }
}

/// How many tables there are of each sort. All are accepted but those refused
/// with LOOP.
#[derive(Clone, Default)]
pub struct Tables {
    /// Refused for a repetition of nothing.
    pub repeating_nothing: u64,
    /// A repetition's child is no range, and another node may be empty too.
    pub close_to_it: u64,
    /// No rule is left-recursive.
    pub without: u64,
    /// Free, though a rule is left-recursive: rule 0 does not reach it.
    pub unreached: u64,
    /// Not free, though rule 0 is not left-recursive: it reaches one that is.
    pub reached: u64,
    /// Rule 0 is left-recursive.
    pub itself: u64,
    /// Of the last two those with a rule that is not left-recursive.
    pub mixed: u64,
}

impl Tables {
    pub(crate) fn count(&mut self, table: &[u8]) {
        let report = independent::report(table);
        match report.code {
            LOOP => self.repeating_nothing += 1,
            READ => {
                *self.of(report) += 1;
                let some_only = report.how_many < u64::from(table[5]) * 256 + u64::from(table[6]);
                self.mixed += u64::from(!report.free && some_only);
                self.close_to_it += u64::from(is_close_to_repeating_nothing(table));
            }
            _ => {}
        }
    }

    /// The count of the tables with such a report.
    fn of(&mut self, report: independent::Report) -> &mut u64 {
        if report.how_many == 0 {
            &mut self.without
        } else if report.free {
            &mut self.unreached
        } else if report.lowest > 0 {
            &mut self.reached
        } else {
            &mut self.itself
        }
    }
}

/// Whether it has to be worked out that no repetition is one of nothing: one has
/// another child than a range, and another node may be empty by its kind.
fn is_close_to_repeating_nothing(accepted: &[u8]) -> bool {
    let rules = usize::from(accepted[5]) * 256 + usize::from(accepted[6]);
    let nodes: Vec<&[u8]> = accepted[7 + 2 * rules..].chunks(5).collect();
    let is_range = |high: u8, low: u8| nodes[usize::from(high) * 256 + usize::from(low)][0] == 1;
    let repeats_more = |node: &&[u8]| node[0] == 6 && !is_range(node[1], node[2]);
    let empty = nodes.iter().filter(|node| matches!(node[0], 0 | 5 | 6));
    nodes.iter().any(repeats_more) && empty.count() > 1
}
