//! The limits of a text, and each byte behind each beginning of one.

use independent::{BIG, LONG, LOOP, NAME, READ, TEXT};

use crate::random::Random;

/// Texts at each limit and just beyond it, with their codes.
pub fn limits() -> Vec<(Vec<u8>, u64)> {
    let mut all = Vec::new();
    all.extend(limits_of_bytes());
    all.extend(limits_of_brackets());
    all.extend(limits_of_names());
    all.extend(limits_of_rules());
    all.extend(limits_of_nodes());
    all
}

fn in_bytes(texts: &[(String, u64)]) -> Vec<(Vec<u8>, u64)> {
    let bytes = |(text, code): &(String, u64)| (text.clone().into_bytes(), *code);
    texts.iter().map(bytes).collect()
}

/// 8,000 and 8,001 bytes: spaces in each place, and things that are big or die.
fn limits_of_bytes() -> Vec<(Vec<u8>, u64)> {
    let mut all = Vec::new();
    for (length, is_long) in [(7_999, false), (8_000, false), (8_001, true), (8_002, true)] {
        for (before, filling, behind, code) in [
            ("", " ", "A<-A\n", READ),
            ("A", " ", "<-A\n", READ),
            ("A<-A", " ", "\n", READ),
            ("A<-A\n", " ", "", READ),
            ("A<-'", "k", "'\n", BIG),
            ("A<-[", "k", "]\n", BIG),
            ("A<-", "!", "A\n", BIG),
            ("A<-A", "?", "\n", BIG),
            ("A<-A", " B", "\n", NAME),
            ("A<-", "(", "", TEXT),
            ("", " ", "", TEXT),
            ("\t", " ", "A<-A\n", TEXT),
        ] {
            let fill = (length - before.len() - behind.len()) / filling.len();
            let mut text = [before, &filling.repeat(fill), behind].concat();
            text += &" ".repeat(length - text.len());
            all.push((text, if is_long { LONG } else { code }));
        }
    }
    in_bytes(&all)
}

/// Brackets as deep as 8,000 bytes have them, and at 3,999 ones.
fn limits_of_brackets() -> Vec<(Vec<u8>, u64)> {
    let text = |opened: usize, closed: usize| {
        format!("A<-{}A{}\n", "(".repeat(opened), ")".repeat(closed))
    };
    in_bytes(&[
        (text(3_996, 3_996), READ),
        (text(3_997, 3_997), READ),
        (text(3_998, 3_998), LONG),
        (text(3_999, 3_999), LONG),
        (text(3_997, 3_996), TEXT),
        (text(3_996, 3_997), TEXT),
        (text(3_999, 3_996), TEXT),
        (text(3_999, 0), TEXT),
        (text(0, 3_999), TEXT),
        (text(7_995, 0), TEXT),
    ])
}

/// Names of 32 and 33 letters, in each place.
fn limits_of_names() -> Vec<(Vec<u8>, u64)> {
    let name = |letters| "nAmE".repeat(9)[..letters].to_string();
    let mut all = Vec::new();
    for (letters, code) in [(31, READ), (32, READ), (33, TEXT), (34, TEXT)] {
        let name = name(letters);
        all.push((format!("{name}<-'a'\n"), code));
        all.push((format!("{name}<-{name} {name}\n"), code));
        all.push((format!("A<-{name}\n {name} <-A\n"), code));
        all.push((format!("A<-A\n{name}<-!({name} 'a')\n"), code));
        all.push((name, TEXT));
    }
    // Different only in the last letter, or in its case.
    let (most, less) = (name(32), name(31));
    all.push((format!("{most}<-{less}x\n{less}x<-{most}\n"), READ));
    all.push((format!("{most}<-{less}e\n{less}e<-{most}\n"), READ));
    all.push((format!("{most}<-{less}\n"), NAME));
    all.push((format!("{most}<-{less} E\n"), NAME));
    all.push((format!("{most}<-{less}x\n"), NAME));
    all.push((format!("{most}<-{most}\n{most}<-{most}\n"), NAME));
    in_bytes(&all)
}

/// 63 to 66 lines; also with a name that is defined again or not at all.
fn limits_of_rules() -> Vec<(Vec<u8>, u64)> {
    let name = |rule: usize| format!("R{}", "ab".repeat(rule / 8) + &"c".repeat(rule % 8));
    let mut all = Vec::new();
    for (rules, code) in [(63, READ), (64, READ), (65, BIG), (66, BIG)] {
        let line = |rule: usize| format!("{}<-{}\n", name(rule), name(rules - 1 - rule));
        let lines: String = (0..rules).map(line).collect();
        all.push((lines.replace("<-", " <- "), code));
        all.push((format!("{lines}{}<-Rx\n", name(0)), NAME));
        all.push((format!("{lines}Rx<-Ry\n"), NAME));
        all.push((format!("{lines}Rx"), TEXT));
        all.push((lines, code));
    }
    in_bytes(&all)
}

/// 511 to 514 nodes, of each kind and in one line or more.
fn limits_of_nodes() -> Vec<(Vec<u8>, u64)> {
    let mut all = Vec::new();
    for (nodes, code) in [(511_usize, READ), (512, READ), (513, BIG), (514, BIG)] {
        let leaves = nodes.div_ceil(2);
        let not = "!".repeat((nodes + 1) % 2);
        all.push((format!("A<-{not}'{}'\n", "k".repeat(leaves)), code));
        all.push((format!("A<-{not}[{}]\n", "k".repeat(leaves)), code));
        all.push((format!("A<-{not}(A{})\n", " A".repeat(leaves - 1)), code));
        all.push((format!("A<-{not}(A{})\n", "/A".repeat(leaves - 1)), code));
        all.push((format!("A<-{not}A{}\n", "?".repeat(leaves - 1)), code));
        all.push((format!("A<-{}A\n", "!".repeat(nodes - 1)), code));
        let half = "k".repeat(128); // 255 nodes
        let more = "!".repeat(nodes - 511);
        all.push((format!("A<-'{half}'\nB<-'{half}'\nC<-{more}A\n"), code));
        // With a repetition of nothing: BIG comes first.
        let loops = if code == READ { LOOP } else { BIG };
        all.push((format!("A<-{}A**\n", "!".repeat(nodes - 3)), loops));
    }
    // The largest table.
    let lines: String = (1..64)
        .map(|rule| format!("A{}<-A\n", "b".repeat(rule % 31) + &"c".repeat(rule / 31)))
        .collect();
    all.push((format!("A<-A'{}'\n{lines}", "k".repeat(224)), READ));
    all.push((format!("A<-A!'{}'\n{lines}", "k".repeat(224)), BIG));
    in_bytes(&all)
}

/// Beginnings of texts, one for each thing that can be asked for next.
pub const BEGINNINGS: [&str; 32] = [
    "",
    " ",
    "A",
    "A ",
    "NameNameNameNameNameNameNameName",
    "A<",
    "A<-",
    "A<- ",
    "A<-!",
    "A<-A",
    "A<-A ",
    "A<-NameNameNameNameNameNameNameName",
    "A<-A*",
    "A<-A? ",
    "A<-A/",
    "A<-(",
    "A<-(A",
    "A<-(A/",
    "A<-(A)",
    "A<-((A)",
    "A<-'",
    "A<-'a",
    "A<-'a'",
    "A<-[",
    "A<-[a",
    "A<-[z",
    "A<-[a-",
    "A<-[9-",
    "A<-[Z-",
    "A<-[0-9",
    "A<-[a]",
    "A<-A\n",
];

/// Each of 256 bytes behind each of these beginnings.
pub fn every_byte() -> Vec<Vec<u8>> {
    let behind = |beginning: &str| {
        let beginning = beginning.as_bytes().to_vec();
        (0..=255).map(move |byte| [&beginning[..], &[byte]].concat())
    };
    BEGINNINGS.into_iter().flat_map(behind).collect()
}

/// Some of them.
pub fn every_byte_somewhere(random: &mut Random) -> Vec<Vec<u8>> {
    let some = every_byte().into_iter();
    some.filter(|_| random.chance(4)).collect()
}
