//! Making commands one by one, with their answers and a tally.

use std::collections::HashSet;

use independent::{Ways, EFFORT, MOST_ALLOWANCE, READ, ROOM};

use crate::command::{Command, Lending};
use crate::desk::{print, Desk, Readers};
use crate::random::Random;
use crate::tally::Tally;
use crate::version::{stored_length, version, FULL_ROOM, MOST_RECORDS};

/// The most a command can lend.
const MOST_WORK: u64 = 262_144;
pub const MOST_ROOM: u64 = 7_168;

/// The longest line of a command.
pub const MOST_LINE: usize = 4_100;

/// The most that nearly all commands lend: whoever answers fills and digests it.
pub const USUAL_WORK: u64 = 65_536;

/// The finished cases.
pub struct Cases {
    pub stdin: Vec<u8>,
    pub stdout: Vec<u8>,
    pub tally: Tally,
}

/// A reading tried out beforehand, to aim the edges of its commands.
pub struct Trial {
    pub code: u64,
    pub visits: u64,
    pub records: u64,
    pub stored: Vec<u8>,
}

impl Trial {
    pub fn of(table: &[u8], line: &[u8], whole: bool, allowance: u64) -> Trial {
        Trial::with(Ways::NOW, table, line, whole, allowance)
    }

    /// The same in these ways.
    fn with(ways: Ways, table: &[u8], line: &[u8], whole: bool, allowance: u64) -> Trial {
        let mut work = vec![0; needed(table, line, allowance) as usize];
        let mut room = vec![0; FULL_ROOM];
        let answer =
            independent::read_with(ways, table, line, allowance, &mut work, &mut room, whole);
        let stored = match answer.code {
            READ => stored_length(version(line.len() as u64), answer.records),
            _ => 0,
        };
        room.truncate(stored as usize);
        Trial {
            code: answer.code,
            visits: answer.visits,
            records: answer.records,
            stored: room,
        }
    }
}

/// The formula of the working numbers, also for a table that is refused.
fn needed(table: &[u8], line: &[u8], allowance: u64) -> u64 {
    let n = match table {
        [_, _, _, high, low, ..] => u64::from(*high) * 256 + u64::from(*low),
        _ => 0,
    };
    2_048 + 4 * allowance.min(MOST_ALLOWANCE) + 2 * n * (line.len() as u64 + 1)
}

pub struct Maker {
    pub random: Random,
    desk: Desk,
    cases: Cases,
    /// The most working numbers that are lent.
    most_work: u64,
    /// The tables counted.
    counted: HashSet<Vec<u8>>,
}

impl Maker {
    pub fn new(seed: u64) -> Maker {
        Maker {
            random: Random::new(seed),
            desk: Desk::new(Readers::independent()),
            cases: Cases {
                stdin: Vec::new(),
                stdout: Vec::new(),
                tally: Tally::default(),
            },
            most_work: USUAL_WORK,
            counted: HashSet::new(),
        }
    }

    pub fn finish(self) -> Cases {
        self.cases
    }

    /// Commands made so far that print a line.
    pub fn commands(&self) -> u64 {
        self.cases.tally.commands
    }

    /// Puts a command on the stream and its answer below it.
    fn put(&mut self, command: Command) {
        command.encode(&mut self.cases.stdin);
        let Some(numbers) = self.desk.answer(&command) else {
            return;
        };
        print(&numbers, &mut self.cases.stdout);
        let tally = &mut self.cases.tally;
        tally.commands += 1;
        let first = numbers[0] as usize;
        match &command {
            Command::WellFormed {
                rules,
                line_length,
                stored,
            } => tally.formed.count(stored, *rules, *line_length, first == 1),
            _ => tally.codes[first] += 1,
        }
        if let Command::Read(lending) = command {
            let line_length = self.desk.line().len();
            tally.furthest.count(&numbers, line_length);
            tally.long_lines.count(&numbers, &lending, line_length);
            tally.lent_more += u64::from(u64::from(lending.work) > USUAL_WORK);
            self.count_beside_others(&numbers, &lending);
        }
        if let Command::Report | Command::Read(_) = command {
            self.count_table();
        }
    }

    /// Counts a reading of the current table and line beside those in older ways.
    /// Refusals that come before the first visit don't count.
    fn count_beside_others(&mut self, numbers: &[u64], lending: &Lending) {
        if !matches!(numbers[0], READ | EFFORT..=ROOM) {
            return;
        }
        let free = independent::report(self.desk.table()).free;
        if !free {
            let other = self.other(Ways::EVERY_LIVE, lending);
            self.cases.tally.growth.count(numbers, other);
        }
        let nested = self.other(Ways::NESTED, lending);
        self.cases.tally.turns.count(numbers, nested, free);
    }

    /// The numbers of the same reading in these ways.
    fn other(&self, ways: Ways, lending: &Lending) -> [u64; 6] {
        let (mut work, mut room) = (lending.work(), lending.room());
        let answer = independent::read_with(
            ways,
            self.desk.table(),
            self.desk.line(),
            lending.allowance,
            &mut work,
            &mut room,
            lending.whole,
        );
        answer.numbers()
    }

    /// Counts the current table, unless it was counted before.
    fn count_table(&mut self) {
        let table = self.desk.table();
        if self.counted.insert(table.to_vec()) {
            self.cases.tally.tables.count(table);
        }
    }

    pub fn table(&mut self, table: &[u8]) {
        if self.desk.table() != table {
            self.put(Command::Table(table.to_vec()));
        }
    }

    pub fn line(&mut self, line: &[u8]) {
        assert!(line.len() <= MOST_LINE);
        if self.desk.line() != line {
            self.put(Command::Line(line.to_vec()));
        }
    }

    pub fn check(&mut self) {
        self.put(Command::Check);
    }

    pub fn report(&mut self) {
        self.put(Command::Report);
    }

    pub fn well_formed(&mut self, stored: &[u8], rules: u16, line_length: u16) {
        assert!(stored.len() as u64 <= MOST_ROOM);
        self.put(Command::WellFormed {
            rules,
            line_length,
            stored: stored.to_vec(),
        });
    }

    /// Makes commands that may lend the most there is.
    pub fn lending_most(&mut self, add: impl FnOnce(&mut Maker)) {
        self.most_work = MOST_WORK;
        add(self);
        self.most_work = USUAL_WORK;
    }

    /// A reading of the current table and line. More than is lent at most is cut
    /// down to that.
    pub fn read(&mut self, whole: bool, allowance: u64, work: u64, room: u64) {
        let fill = self.random.below(256) as u8;
        self.put(Command::Read(Lending {
            whole,
            allowance,
            work: work.min(self.most_work) as u32,
            room: room.min(MOST_ROOM) as u16,
            fill,
        }));
    }

    /// The working numbers the formula asks for with the current table and
    /// line, whatever they are worth.
    pub fn needed(&self, allowance: u64) -> u64 {
        needed(self.desk.table(), self.desk.line(), allowance)
    }

    /// The largest allowance, up to `wish`, whose working numbers can be lent.
    pub fn affordable(&self, wish: u64) -> u64 {
        let spare = self.most_work.saturating_sub(self.needed(0));
        wish.min(spare / 4).max(1)
    }

    /// Room for a thousand records of the current line.
    pub fn full_room(&self) -> u64 {
        stored_length(version(self.desk.line().len() as u64), MOST_RECORDS)
    }

    /// A reading with working numbers for its allowance and mostly a few more.
    pub fn read_with_enough(&mut self, whole: bool, allowance: u64, room: u64) {
        let extra = self.random.below(41);
        let work = self.needed(allowance) + extra;
        self.read(whole, allowance, work, room);
    }

    /// What a reading of the current table and line gives, without a command.
    pub fn trial(&self, whole: bool, allowance: u64) -> Trial {
        Trial::of(self.desk.table(), self.desk.line(), whole, allowance)
    }

    /// The same in these ways.
    pub fn trial_with(&self, ways: Ways, whole: bool, allowance: u64) -> Trial {
        Trial::with(ways, self.desk.table(), self.desk.line(), whole, allowance)
    }

    /// All edges of one reading: allowance, working numbers and room exact,
    /// one short and none.
    pub fn edges(&mut self, whole: bool, wish: u64) {
        let allowance = self.affordable(wish);
        let trial = self.trial(whole, allowance);
        let visits = trial.visits.max(1);
        let ample = match trial.code {
            READ => trial.stored.len() as u64 + self.random.below(30),
            _ => self.random.below(60),
        };
        let slack = self.random.below((allowance - visits).min(30) + 1);
        self.read_with_enough(whole, visits + slack, ample);
        self.read(whole, visits, self.needed(visits), ample);
        self.read(whole, visits, self.needed(visits) - 1, ample);
        if visits > 1 {
            self.read_with_enough(whole, visits - 1, ample);
        }
        // The same for every sheet and line, so now and then is enough.
        if self.random.chance(20) {
            self.read(whole, visits, 0, ample);
            self.read_with_enough(whole, 1, ample);
        }
        if trial.code == READ {
            let stored = trial.stored.len() as u64;
            self.read_with_enough(whole, visits, stored);
            self.read_with_enough(whole, visits, stored - 1);
            self.read_with_enough(whole, visits, 0);
        }
    }

    /// Refused for effort at allowances below so many visits: each, or as many as
    /// said in even steps.
    pub fn refused_in_steps(&mut self, visits: u64, most: u64) {
        let step = visits.div_ceil(most + 1).max(1);
        for allowance in (step..visits).step_by(step as usize) {
            let whole = self.random.chance(50);
            self.read_with_enough(whole, allowance, 60);
        }
    }

    /// The allowances at which the reading ends, and would end in other ways, with
    /// one more and one less.
    pub fn both_edges(&mut self, other: Ways, whole: bool) {
        let most = self.affordable(6_000);
        let mut allowances = Vec::new();
        for ways in [Ways::NOW, other] {
            let visits = self.trial_with(ways, whole, most).visits;
            allowances.extend([visits.saturating_sub(1), visits, visits + 1]);
        }
        allowances.sort_unstable();
        allowances.dedup();
        for allowance in allowances {
            if (1..=most).contains(&allowance) {
                self.read_with_enough(whole, allowance, 200);
            }
        }
        self.read_with_enough(!whole, most, 200);
    }

    /// The allowances at and beyond their limits. Working numbers for the
    /// largest cannot be lent, so that one asks for more of them.
    pub fn allowance_limits(&mut self, whole: bool) {
        for allowance in [0, MOST_ALLOWANCE, MOST_ALLOWANCE + 1, 1 << 63, u64::MAX] {
            let work = self.random.pick(&[0, 100, 2_600]);
            self.read(whole, allowance, work, 40);
        }
    }
}
