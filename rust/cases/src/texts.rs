//! Texts of sheets: random sheets written down with random spaces and brackets,
//! the same with a fault, and the limits of a text.

mod limits;
mod some_sheet;
mod written;

pub use limits::every_byte;

use independent::{tabulate, BIG, LONG, LONGEST_TEXT, LOOP, NAME, READ, ROOM, TEXT};
use sheets::{MOST_NODES, MOST_RULES};

use crate::random::Random;
use limits::{every_byte_somewhere, limits};
use some_sheet::{part_of_nodes, some_names, some_part, some_sheet, with_name_fault};
use written::{text_of, Written};

/// No table is longer.
const LONGEST_TABLE: usize = 7 + 2 * MOST_RULES + 5 * MOST_NODES;

/// What a byte of a text is changed to, mostly.
const BYTES: &[u8] = b"AazZ09<-'[]()!*+?/ \n";

/// So many texts of a seed: the limits first, then random ones.
pub fn texts(seed: u64, how_many: usize) -> Vec<Vec<u8>> {
    let mut random = Random::new(seed);
    let mut texts: Vec<Vec<u8>> = limits().into_iter().map(|(text, _)| text).collect();
    texts.extend(every_byte_somewhere(&mut random));
    while texts.len() < how_many {
        add_some(&mut random, &mut texts);
    }
    texts.truncate(how_many);
    texts
}

/// The rooms to lend for a text: as much as any table takes and none; and where
/// there is a table, its length and one byte less.
pub fn rooms(text: &[u8]) -> Vec<usize> {
    let length = tabulate(text, LONGEST_TABLE).table.len();
    match length {
        0 => vec![LONGEST_TABLE, 0],
        _ => vec![LONGEST_TABLE, length, length - 1, 0],
    }
}

// Counts.

/// How many texts there are of each sort, and how many of it are enough.
pub fn sorts(texts: &[Vec<u8>]) -> [(&'static str, u64, u64); 9] {
    let mut counted = [
        ("READ", 0, 400),
        ("ROOM", 0, 400),
        ("LONG", 0, 10),
        ("TEXT at the end", 0, 100),
        ("TEXT within", 0, 400),
        ("NAME, defined again", 0, 50),
        ("NAME, not defined", 0, 50),
        ("BIG", 0, 50),
        ("LOOP", 0, 50),
    ];
    let mut count = |number: usize| counted[number].1 += 1;
    for text in texts {
        let answer = tabulate(text, LONGEST_TABLE);
        let place = answer.place as usize;
        match answer.code {
            READ => count(0),
            LONG => count(2),
            TEXT if place == text.len() => count(3),
            TEXT => count(4),
            NAME if is_line_name(text, place) => count(5),
            NAME => count(6),
            BIG => count(7),
            LOOP => count(8),
            code => unreachable!("code {code} with room for every table"),
        }
        let is_short = |&room: &usize| tabulate(text, room).code == ROOM;
        if rooms(text).iter().any(is_short) {
            count(1);
        }
    }
    counted
}

/// The sorts of which there are too few, in words. None if there are 4,000 texts or
/// more.
pub fn too_few(texts: &[Vec<u8>]) -> Vec<String> {
    let few = sorts(texts)
        .into_iter()
        .filter(|(_, count, least)| count < least);
    few.map(|(sort, count, least)| format!("{sort}: {count}, and {least} are enough"))
        .collect()
}

/// Whether only spaces stand between this place and the line's beginning.
fn is_line_name(text: &[u8], place: usize) -> bool {
    let before = text[..place].iter().rev().find(|&&byte| byte != b' ');
    matches!(before, None | Some(b'\n'))
}

// Random texts.

/// Adds a text, or every beginning of one.
fn add_some(random: &mut Random, texts: &mut Vec<Vec<u8>>) {
    let sheet = some_sheet(random);
    let text = text_of(random, &sheet);
    match random.below(200) {
        0 if text.len() < 120 => texts.extend((0..text.len()).map(|end| text[..end].to_vec())),
        0..=1 => texts.push(long_one(random, &text)),
        2..=9 => texts.push(big_one(random, sheet)),
        10..=39 => {
            let sheet = with_name_fault(random, sheet);
            texts.push(text_of(random, &sheet));
        }
        40..=99 => {
            let mut text = text;
            let changes = random.pick(&[1, 1, 1, 2]);
            (0..changes).for_each(|_| change(random, &mut text));
            texts.push(text);
        }
        100..=109 => {
            let end = random.below(text.len() as u64) as usize;
            texts.push(text[..end].to_vec());
        }
        _ => texts.push(text),
    }
}

/// One byte changed, inserted or dropped.
fn change(random: &mut Random, text: &mut Vec<u8>) {
    let at = random.below(text.len() as u64) as usize;
    let byte = match random.chance(85) {
        true => random.pick(BYTES),
        false => random.below(256) as u8,
    };
    match random.below(3) {
        0 => text[at] = byte,
        1 => text.insert(at, byte),
        _ => drop(text.remove(at)),
    }
}

/// With so many spaces somewhere that it has about 8,000 bytes.
fn long_one(random: &mut Random, text: &[u8]) -> Vec<u8> {
    let length = random.between(LONGEST_TEXT as u64 - 1, LONGEST_TEXT as u64 + 2);
    let spaces = vec![b' '; (length as usize).saturating_sub(text.len())];
    // In a quote they are a fault.
    let places = (0..text.len()).filter(|&at| b"(/!\n".contains(&text[at]));
    let at = random.pick(&places.collect::<Vec<usize>>());
    [&text[..at], &spaces, &text[at..]].concat()
}

/// About 512 nodes, or about 64 lines.
fn big_one(random: &mut Random, mut sheet: Written) -> Vec<u8> {
    let lines = sheet.lines.len();
    if random.chance(50) {
        let nodes = random.between(510, 515) as usize;
        let more = nodes.saturating_sub(sheet.sheet().nodes.len());
        sheet.names = some_names(random, lines + 1);
        let last = part_of_nodes(random, more.max(1));
        sheet.lines.push((lines, last));
    } else {
        let all = random.between(62, 67) as usize;
        sheet.names = some_names(random, all);
        let line = |name| (name, some_part(random, all, 0, false));
        sheet.lines.extend((lines..all).map(line));
    }
    text_of(random, &sheet)
}

#[cfg(test)]
mod tests {
    use super::limits::BEGINNINGS;
    use super::written::{is_name, with_spaces, words, Part};
    use super::*;
    use crate::SEED;

    /// What the text of a sheet has to give, from the sheet and from where its words
    /// begin.
    fn expected(sheet: &Written, pieces: &[Vec<u8>]) -> (u64, u64, Vec<u8>) {
        let length: usize = pieces.iter().map(Vec::len).sum();
        if length > LONGEST_TEXT {
            return (LONG, 0, vec![]);
        }
        if let Some(place) = name_fault(sheet, pieces) {
            return (NAME, place as u64, vec![]);
        }
        let sheet = sheet.sheet();
        if sheet.nodes.len() > MOST_NODES || sheet.roots.len() > MOST_RULES {
            return (BIG, 0, vec![]);
        }
        match independent::check(&sheet.bytes()) {
            (READ, _) => (READ, 0, sheet.bytes()),
            (code, place) => (code, place, vec![]),
        }
    }

    /// Where the first name begins that is defined again or not at all.
    fn name_fault(sheet: &Written, pieces: &[Vec<u8>]) -> Option<usize> {
        let line_names = sheet.lines.iter().map(|&(name, _)| &sheet.names[name]);
        let defined: Vec<&Vec<u8>> = line_names.collect();
        let mut before: Vec<&Vec<u8>> = Vec::new();
        let mut start = 0;
        // Spaces and words by turns, and the next word two pieces on.
        for (number, piece) in pieces.iter().enumerate() {
            if number % 2 == 1 && is_name(piece) {
                if pieces[number + 2] == b"<-" {
                    if before.contains(&piece) {
                        return Some(start);
                    }
                    before.push(piece);
                } else if !defined.contains(&piece) {
                    return Some(start);
                }
            }
            start += piece.len();
        }
        None
    }

    /// Line 0 gets something before it, so that there are 511 to 515 nodes.
    fn make_big(random: &mut Random, sheet: &mut Written) {
        let least = 510_usize.saturating_sub(sheet.sheet().nodes.len());
        let more = least + random.below(5) as usize;
        let first = part_of_nodes(random, more.max(1));
        let line = &mut sheet.lines[0].1;
        *line = Part::Sequence(vec![first, line.clone()]);
    }

    /// The maker and the text reader check each other.
    #[test]
    fn a_sheet_written_down_gives_its_table() {
        let mut random = Random::new(SEED);
        let mut codes = [0; 22];
        for _ in 0..6_000 {
            let mut sheet = some_sheet(&mut random);
            if random.chance(15) {
                sheet = with_name_fault(&mut random, sheet);
            }
            if random.chance(5) {
                make_big(&mut random, &mut sheet);
            }
            let words = words(&mut random, &sheet);
            let pieces = with_spaces(&mut random, &words);
            let text = pieces.concat();
            let answer = tabulate(&text, LONGEST_TABLE);
            codes[answer.code as usize] += 1;
            let answer = (answer.code, answer.place, answer.table);
            let shown = String::from_utf8_lossy(&text);
            assert_eq!(answer, expected(&sheet, &pieces), "{shown}");
        }
        let enough = |code: u64| codes[code as usize] > 100;
        assert!([READ, NAME, BIG, LOOP].into_iter().all(enough), "{codes:?}");
    }

    #[test]
    fn limits_give_their_codes() {
        for (text, code) in limits() {
            let shown = String::from_utf8_lossy(&text[..text.len().min(60)]);
            let answer = tabulate(&text, LONGEST_TABLE);
            assert_eq!(answer.code, code, "{} bytes, {shown}", text.len());
        }
    }

    #[test]
    fn each_sort_is_there() {
        for seed in SEED..SEED + 10 {
            assert_eq!(too_few(&texts(seed, 4_000)), Vec::<String>::new());
        }
        assert!(!too_few(&texts(SEED, 300)).is_empty());
    }

    #[test]
    fn a_seed_gives_the_same_texts_again() {
        let once = texts(SEED, 2_000);
        assert_eq!(once.len(), 2_000);
        assert!(once == texts(SEED, 2_000));
        assert!(once[..] == texts(SEED, 2_500)[..2_000]);
        assert!(once != texts(SEED + 1, 2_000));
    }

    #[test]
    fn rooms_are_at_the_edge() {
        assert_eq!(rooms(b"A<-A\n"), [2_695, 14, 13, 0]);
        assert_eq!(rooms(b"A<-B\n"), [2_695, 0]);
    }

    #[test]
    fn each_beginning_is_one() {
        for beginning in BEGINNINGS {
            let answer = tabulate(beginning.as_bytes(), LONGEST_TABLE);
            let is_beginning = answer.code != TEXT || answer.place == beginning.len() as u64;
            assert!(is_beginning, "{beginning}");
        }
        assert_eq!(every_byte().len(), 32 * 256);
    }
}
