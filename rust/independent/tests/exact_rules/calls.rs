//! Calls with marked buffers, and what each may leave in them.

use independent::*;

pub struct Outcome {
    pub answer: Answer,
    pub work: Vec<u32>,
    pub room: Vec<u8>,
}

pub const MARK: u32 = 0xABCD;
pub const FILL: u8 = 0xEE;

pub fn run(
    table: &[u8],
    line: &[u8],
    allowance: u64,
    work: usize,
    room: usize,
    whole: bool,
) -> Outcome {
    let mut work = vec![MARK; work];
    let mut room = vec![FILL; room];
    let answer = read(table, line, allowance, &mut work, &mut room, whole);
    Outcome { answer, work, room }
}

/// The same in these ways.
fn run_with(
    ways: Ways,
    table: &[u8],
    line: &[u8],
    allowance: u64,
    work: usize,
    whole: bool,
) -> Outcome {
    let mut work = vec![MARK; work];
    let mut room = vec![FILL; 7_010];
    let answer = read_with(ways, table, line, allowance, &mut work, &mut room, whole);
    Outcome { answer, work, room }
}

pub fn nothing_changed(outcome: &Outcome) -> bool {
    outcome.work.iter().all(|&number| number == MARK)
        && outcome.room.iter().all(|&byte| byte == FILL)
}

pub fn formula(table: &[u8], line: &[u8], allowance: u64) -> usize {
    let n = usize::from(table[3]) * 256 + usize::from(table[4]);
    2048 + 4 * allowance as usize + 2 * n * (line.len() + 1)
}

/// A record takes five bytes, seven where the line is over 255 bytes.
pub fn stored_length(line: &[u8], records: u64) -> usize {
    let record = if line.len() > 255 { 7 } else { 5 };
    5 + record * records as usize
}

/// READ and 11 to 16: the line was read, to its end or not. LOOP is no such
/// code, though its number is above theirs.
pub fn line_was_read(code: u64) -> bool {
    code == READ || (EFFORT..=ROOM).contains(&code)
}

/// Reads with five numbers and five bytes more than needed and checks what
/// is left in both buffers.
pub fn reads(table: &[u8], line: &[u8], allowance: u64, whole: bool) -> Outcome {
    reads_with(Ways::NOW, table, line, allowance, whole)
}

/// The same in these ways.
pub fn reads_with(ways: Ways, table: &[u8], line: &[u8], allowance: u64, whole: bool) -> Outcome {
    let needed = formula(table, line, allowance);
    let outcome = run_with(ways, table, line, allowance, needed + 5, whole);
    let code = outcome.answer.code;
    let expected = if line_was_read(code) { 0 } else { MARK };
    assert!(outcome.work[..needed]
        .iter()
        .all(|&number| number == expected));
    assert!(outcome.work[needed..].iter().all(|&number| number == MARK));
    let written = match code {
        READ => stored_length(line, outcome.answer.records),
        _ => 0,
    };
    assert!(outcome.room[written..].iter().all(|&byte| byte == FILL));
    outcome
}

pub fn answer(
    code: u64,
    place: u64,
    matched: u64,
    visits: u64,
    records: u64,
    furthest: u64,
) -> Answer {
    Answer {
        code,
        place,
        matched,
        visits,
        records,
        furthest,
    }
}

/// What comes back where the call is turned away: zeros after the place.
pub fn turned_away(code: u64, place: u64) -> Answer {
    answer(code, place, 0, 0, 0, 0)
}

pub fn prefix(table: &[u8], line: &[u8]) -> Answer {
    reads(table, line, 2_500, false).answer
}

pub fn whole(table: &[u8], line: &[u8]) -> Answer {
    reads(table, line, 2_500, true).answer
}
