//! The reading.

use crate::report::masks;
use crate::sheet::{open, Node, Sheet, CHOICE, EMPTY, MOST_NODES, NOT, RANGE, RULE, SEQUENCE};
use crate::store::{store, stored_length, version};
use crate::{ALLOW, DEEP, EFFORT, FAIL, LINE, READ, RECORDS, REST, ROOM, WORK};

#[derive(Clone, Copy, Debug, PartialEq, Eq)]
pub struct Answer {
    pub code: u64,
    pub place: u64,
    pub matched: u64,
    pub visits: u64,
    pub records: u64,
    pub furthest: u64,
}

impl Answer {
    /// In the order of the rules.
    pub fn numbers(self) -> [u64; 6] {
        [
            self.code,
            self.place,
            self.matched,
            self.visits,
            self.records,
            self.furthest,
        ]
    }
}

const MOST_LINE: usize = 4_000;
const MOST_ALLOWANCE: u64 = 5_000_000;
const MOST_OPEN: u32 = 512;

/// The kind that a use of a left-recursive rule gets in a grammar that isn't
/// free: it becomes live, and a use of another rule does not.
const GROWING: u32 = 7;

/// Records and trees are counted up to here, one over what is stored.
pub(crate) const MANY: u32 = 1_001;

/// The first 2,048 working numbers: the packed nodes, one each, and the live
/// uses, three each. At one position at most 64 rules are live and a visit of
/// another kind opens the next position, so 512 open visits leave fewer than
/// 512 uses live.
const NODE_NUMBERS: usize = MOST_NODES;
const LIVE_NUMBERS: usize = 3 * 512;

/// An end no line has: the visit failed.
const FAILED: u32 = MOST_LINE as u32 + 1;
/// An end no line has: the visit, or one below it, was refused.
const STOPPED: u32 = FAILED + 1;

// Two positions share a number, and so do a rule and a position.
const _: () = assert!(MOST_LINE <= u16::MAX as usize);

/// The answer of a visit: an end, or one of the two marks above, and the
/// handle of its trees.
#[derive(Clone, Copy)]
struct Outcome {
    end: u32,
    trees: u32,
}

const FAILURE: Outcome = Outcome {
    end: FAILED,
    trees: NONE,
};
const STOP: Outcome = Outcome {
    end: STOPPED,
    trees: NONE,
};

impl Outcome {
    #[inline]
    fn matches(self) -> bool {
        self.end < FAILED
    }
}

#[inline]
fn nothing(position: u32) -> Outcome {
    Outcome {
        end: position,
        trees: NONE,
    }
}

/// The handle of no trees; any other is one above the number of a cell.
pub(crate) const NONE: u32 = 0;

/// The first number of a cell that joins two lists.
pub(crate) const JOIN: u32 = u32::MAX;

/// A cell is a tree: the rule, the handle of its children, its span, counts;
/// or a joint: `JOIN`, two handles, counts. A span is the start in the upper
/// and the end in the lower sixteen bits; so are counts, of records and trees.
pub(crate) type Cell = [u32; 4];

/// Rule and position, the end held, the trees held.
type Live = [u32; 3];

/// The end plus one, 0 if not yet known, and the trees.
type Kept = [u32; 2];

pub fn read(
    table: &[u8],
    line: &[u8],
    allowance: u64,
    work: &mut [u32],
    room: &mut [u8],
    whole: bool,
) -> Answer {
    let opened = match open(table) {
        Ok(opened) => opened,
        Err((code, place)) => return refused(code, place),
    };
    let sheet = opened.sheet;
    if line.len() > MOST_LINE {
        return refused(LINE, 0);
    }
    if allowance == 0 || allowance > MOST_ALLOWANCE {
        return refused(ALLOW, 0);
    }
    let n = sheet.nodes.len();
    let cells = 4 * allowance as usize;
    let kept = 2 * n * (line.len() + 1);
    let Some(work) = work.get_mut(..NODE_NUMBERS + LIVE_NUMBERS + cells + kept) else {
        return refused(WORK, 0);
    };
    let (nodes, rest) = work.split_at_mut(NODE_NUMBERS);
    let (live, rest) = rest.split_at_mut(LIVE_NUMBERS);
    let (cells, kept) = rest.split_at_mut(cells);
    for (into, node) in nodes.iter_mut().zip(sheet.nodes) {
        *into = Node::pack(node).0;
    }
    let masks = masks(&opened);
    if !masks.free {
        mark_growing(&mut nodes[..n], masks.left_recursive);
    }
    let mut reading = Reading {
        sheet,
        nodes: &nodes[..n],
        line,
        left: allowance as u32,
        live: live.as_chunks_mut().0,
        live_uses: 0,
        cells: cells.as_chunks_mut().0,
        made: 0,
        kept: kept.as_chunks_mut().0,
        furthest: 0,
        refusal: (0, 0),
    };
    let outcome = if masks.free {
        reading.kept.fill([0, 0]);
        reading.use_once::<true>(0, 0, 0)
    } else if masks.left_recursive & 1 == 1 {
        reading.grow(0, 0, 0)
    } else {
        reading.use_once::<false>(0, 0, 0)
    };
    let visits = allowance - u64::from(reading.left);
    let answer = reading.conclude(outcome, visits, room, whole);
    work.fill(0);
    answer
}

/// Gives the uses of these rules their kind.
fn mark_growing(nodes: &mut [u32], left_recursive: u64) {
    for packed in nodes {
        let node = Node(*packed);
        if node.kind() == RULE {
            let grows = (left_recursive >> node.a() & 1) as u32;
            *packed += (GROWING - RULE) * grows;
        }
    }
}

fn refused(code: u64, place: u64) -> Answer {
    Answer {
        code,
        place,
        matched: 0,
        visits: 0,
        records: 0,
        furthest: 0,
    }
}

struct Reading<'a> {
    sheet: Sheet<'a>,
    nodes: &'a [u32],
    line: &'a [u8],
    /// Visits left of the allowance.
    left: u32,
    live: &'a mut [Live],
    live_uses: usize,
    cells: &'a mut [Cell],
    /// Cells made. Each can be charged to a visit of its own, so there are
    /// no more than the allowance.
    made: usize,
    kept: &'a mut [Kept],
    /// The largest position at which a range was visited.
    furthest: u32,
    /// Code and place of the refused visit, after `STOP`.
    refusal: (u64, u64),
}

impl Reading<'_> {
    fn conclude(&mut self, outcome: Outcome, visits: u64, room: &mut [u8], whole: bool) -> Answer {
        let furthest = self.furthest.into();
        let answer = |code, place, matched, records| Answer {
            code,
            place,
            matched,
            visits,
            records,
            furthest,
        };
        if outcome.end == STOPPED {
            return answer(self.refusal.0, self.refusal.1, 0, 0);
        }
        if outcome.end == FAILED {
            return answer(FAIL, 0, 0, 0);
        }
        let matched = u64::from(outcome.end);
        if whole && matched < self.line.len() as u64 {
            return answer(REST, matched, matched, 0);
        }
        let records = self.counts(outcome.trees) >> 16;
        if records == MANY {
            return answer(RECORDS, matched, matched, records.into());
        }
        let version = version(self.line.len());
        let Some(room) = room.get_mut(..stored_length(version, records)) else {
            return answer(ROOM, matched, matched, records.into());
        };
        store(
            version,
            self.cells,
            outcome.trees,
            records,
            self.live.as_flattened_mut(),
            room,
        );
        answer(READ, 0, matched, records.into())
    }

    /// One visit; `open` visits are open already.
    fn visit<const FREE: bool>(&mut self, number: u32, position: u32, open: u32) -> Outcome {
        if self.left == 0 {
            return self.refuse(EFFORT, position);
        }
        if open == MOST_OPEN {
            return self.refuse(DEEP, position);
        }
        self.left -= 1;
        let place = self.place(number, position);
        if FREE {
            let [end, trees] = self.kept[place];
            if end != 0 {
                return Outcome {
                    end: end - 1,
                    trees,
                };
            }
        }
        let outcome = self.apply::<FREE>(number, position, open + 1);
        if FREE {
            // After a stop nothing is looked up any more.
            self.kept[place] = [outcome.end + 1, outcome.trees];
        }
        outcome
    }

    #[inline(always)]
    fn apply<const FREE: bool>(&mut self, number: u32, position: u32, open: u32) -> Outcome {
        let node = Node(self.nodes[number as usize]);
        match node.kind() {
            EMPTY => nothing(position),
            RANGE => self.range(node, position),
            RULE => self.use_once::<FREE>(node.a(), position, open),
            GROWING if !FREE => self.use_held(node.a(), position, open),
            SEQUENCE => {
                let before = self.visit::<FREE>(node.a(), position, open);
                if !before.matches() {
                    return before;
                }
                let after = self.visit::<FREE>(node.b(), before.end, open);
                self.joined(before.trees, after)
            }
            CHOICE => {
                let outcome = self.visit::<FREE>(node.a(), position, open);
                if outcome.end != FAILED {
                    return outcome;
                }
                self.visit::<FREE>(node.b(), position, open)
            }
            NOT => match self.visit::<FREE>(node.a(), position, open).end {
                STOPPED => STOP,
                FAILED => nothing(position),
                _ => FAILURE,
            },
            // Repetition.
            _ if FREE => self.kept_row(number, node.a(), position, open),
            _ => self.row(node.a(), position, open),
        }
    }

    /// A repetition where nothing is kept: each of its next visits takes the
    /// place of the one before, and the trees are joined as they come.
    #[inline(never)]
    fn row(&mut self, child: u32, position: u32, open: u32) -> Outcome {
        let mut read = nothing(position);
        loop {
            let turn = self.visit::<false>(child, read.end, open);
            if turn.end == STOPPED {
                return STOP;
            }
            if turn.end == FAILED || turn.end == read.end {
                return read;
            }
            read = self.joined(read.trees, turn);
            if self.left == 0 {
                return self.refuse(EFFORT, read.end);
            }
            self.left -= 1;
        }
    }

    /// A repetition in a free grammar: when the row ends it is gone back over,
    /// to keep each pair. While a pair of the row waits for its answer, it
    /// holds the place of the pair before it.
    #[inline(never)]
    fn kept_row(&mut self, number: u32, child: u32, position: u32, open: u32) -> Outcome {
        let first = self.place(number, position);
        let (mut at, mut place) = (position, first);
        let mut answer = loop {
            let turn = self.visit::<true>(child, at, open);
            if turn.end == STOPPED {
                return STOP;
            }
            if turn.end == FAILED || turn.end == at {
                break nothing(at);
            }
            if self.left == 0 {
                return self.refuse(EFFORT, turn.end);
            }
            self.left -= 1;
            let after = self.place(number, turn.end);
            let next = &mut self.kept[after];
            let [end, trees] = *next;
            if end != 0 {
                let rest = Outcome {
                    end: end - 1,
                    trees,
                };
                break self.joined(turn.trees, rest);
            }
            next[1] = place as u32;
            (at, place) = (turn.end, after);
        };
        // At one position the child's place is so far before the repetition's.
        let down = (number - child) as usize;
        while place != first {
            let next = &mut self.kept[place];
            place = next[1] as usize;
            *next = [answer.end + 1, answer.trees];
            let [_, trees] = self.kept[place - down];
            answer = self.joined(trees, answer);
        }
        answer
    }

    /// Where the answer of a pair is kept: those of a position stand together,
    /// so that a long line is gone along in memory too.
    #[inline]
    fn place(&self, number: u32, position: u32) -> usize {
        position as usize * self.nodes.len() + number as usize
    }

    #[inline(always)]
    fn range(&mut self, node: Node, position: u32) -> Outcome {
        self.furthest = self.furthest.max(position);
        match self.line.get(position as usize) {
            Some(&byte) if node.a() <= byte.into() && u32::from(byte) <= node.b() => {
                nothing(position + 1)
            }
            _ => FAILURE,
        }
    }

    #[cold]
    fn refuse(&mut self, code: u64, position: u32) -> Outcome {
        self.refusal = (code, position.into());
        STOP
    }

    /// A use of a rule that does not become live, as none does in a free grammar.
    fn use_once<const FREE: bool>(&mut self, rule: u32, position: u32, open: u32) -> Outcome {
        let root = self.sheet.root(rule as usize);
        let outcome = self.visit::<FREE>(root, position, open);
        if !outcome.matches() {
            return outcome;
        }
        self.planted(rule, position, outcome)
    }

    /// A use of a rule that does: what is held if it is live.
    fn use_held(&mut self, rule: u32, position: u32, open: u32) -> Outcome {
        let pair = pair(rule, position);
        // From the newest entry on.
        for &[live, end, trees] in self.live[..self.live_uses].iter().rev() {
            if live == pair {
                return Outcome { end, trees };
            }
            // Positions never fall from older to newer, so no older one is here.
            if live & 0xFFFF != position {
                break;
            }
        }
        self.grow(rule, position, open)
    }

    fn grow(&mut self, rule: u32, position: u32, open: u32) -> Outcome {
        let root = self.sheet.root(rule as usize);
        let entry = self.live_uses;
        self.live_uses += 1;
        let mut held = FAILURE;
        loop {
            self.live[entry] = [pair(rule, position), held.end, held.trees];
            let attempt = self.visit::<false>(root, position, open);
            if attempt.end == STOPPED {
                return STOP;
            }
            let longer = held.end == FAILED || attempt.end > held.end;
            if attempt.end == FAILED || !longer {
                break;
            }
            held = self.planted(rule, position, attempt);
        }
        self.live_uses = entry;
        held
    }

    /// The match as one tree of the rule.
    #[inline]
    fn planted(&mut self, rule: u32, start: u32, root: Outcome) -> Outcome {
        let counts = self.counts(root.trees) >> 16;
        let records = (counts + 1).min(MANY);
        let span = start << 16 | root.end;
        Outcome {
            end: root.end,
            trees: self.cell([rule, root.trees, span, records << 16 | 1]),
        }
    }

    /// `after`, with the trees `before` it in front if it matches.
    #[inline]
    fn joined(&mut self, before: u32, after: Outcome) -> Outcome {
        if !after.matches() || before == NONE {
            return after;
        }
        if after.trees == NONE {
            return Outcome {
                end: after.end,
                trees: before,
            };
        }
        let (left, right) = (self.counts(before), self.counts(after.trees));
        let records = ((left >> 16) + (right >> 16)).min(MANY);
        let trees = ((left & 0xFFFF) + (right & 0xFFFF)).min(MANY);
        Outcome {
            end: after.end,
            trees: self.cell([JOIN, before, after.trees, records << 16 | trees]),
        }
    }

    #[inline]
    fn cell(&mut self, cell: Cell) -> u32 {
        self.cells[self.made] = cell;
        self.made += 1;
        self.made as u32
    }

    /// The counts of a list of trees, 0 for none.
    #[inline]
    fn counts(&self, trees: u32) -> u32 {
        match trees {
            NONE => 0,
            _ => self.cells[trees as usize - 1][3],
        }
    }
}

#[inline]
fn pair(rule: u32, position: u32) -> u32 {
    rule << 16 | position
}
