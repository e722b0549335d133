//! Sheets written as text: the table of each construct, each refusal with its
//! place, and what the tables read.

use independent::*;

/// No table is longer.
const LONGEST_TABLE: usize = 2_695;

/// The text's table has these roots and these nodes, each with its five bytes.
fn gives(text: &str, roots: &[u8], nodes: &[[u8; 5]]) {
    let length = 7 + 2 * roots.len() + 5 * nodes.len();
    let mut table = vec![1, 0, length as u8, 0, nodes.len() as u8];
    table.extend([0, roots.len() as u8]);
    table.extend(roots.iter().flat_map(|&root| [0, root]));
    table.extend(nodes.concat());
    let read = Tabulated {
        code: READ,
        place: 0,
        table,
    };
    assert_eq!(tabulate(text.as_bytes(), LONGEST_TABLE), read, "{text:?}");
    assert_eq!(tabulate(text.as_bytes(), length), read, "{text:?}");
    refused_with(text, length - 1, ROOM, 0);
    refused_with(text, 0, ROOM, 0);
}

fn refused_with(text: &str, room: usize, code: u64, place: u64) {
    let answer = tabulate(text.as_bytes(), room);
    assert_eq!(answer.numbers(), [code, place, 0], "{text:?}");
}

/// Refused so whatever the room.
fn refused(text: &str, code: u64, place: usize) {
    for room in [0, 14, LONGEST_TABLE] {
        refused_with(text, room, code, place as u64);
    }
}

fn is_read(text: &str) {
    let answer = tabulate(text.as_bytes(), LONGEST_TABLE);
    assert_eq!((answer.code, answer.place), (READ, 0), "{text:?}");
    assert_eq!(check(&answer.table), (READ, 0));
}

/// Nodes and rules of the text's table.
fn counts(text: &str) -> (u8, u8, u8) {
    is_read(text);
    let table = tabulate(text.as_bytes(), LONGEST_TABLE).table;
    (table[3], table[4], table[6])
}

// Constructs.

#[test]
fn all_bytes_of_a_table() {
    let table = [
        1, 0, 41, 0, 6, 0, 2, // version, length, nodes, rules
        0, 4, 0, 5, // roots
        2, 0, 1, 0, 0, // B
        6, 0, 0, 0, 0, // B*
        1, 0, 48, 0, 57, // [0-9]
        3, 0, 1, 0, 2, // B* [0-9]
        5, 0, 3, 0, 0, // !(B* [0-9])
        1, 0, 43, 0, 43, // '+'
    ];
    let answer = tabulate(b"A <- !(B* [0-9])\nB <- '+'\n", 41);
    assert_eq!(answer.numbers(), [READ, 0, 41]);
    assert_eq!(answer.table, table);
}

#[test]
fn names_and_rules() {
    gives("A<-A\n", &[0], &[[2, 0, 0, 0, 0]]);
    let uses = [[2, 0, 1, 0, 0], [2, 0, 2, 0, 0], [2, 0, 0, 0, 0]];
    // Used before they are defined.
    gives("A<-Bb\nBb<-bB\nbB<-A\n", &[0, 1, 2], &uses);
    // Rules go by their lines, not by their letters or their first use.
    gives("z<-Bb\nBb<-bB\nbB<-z\n", &[0, 1, 2], &uses);
    let backwards = [[2, 0, 2, 0, 0], [2, 0, 1, 0, 0], [2, 0, 0, 0, 0]];
    gives("A<-C\nB<-B\nC<-A\n", &[0, 1, 2], &backwards);
}

#[test]
fn quotes() {
    gives("A<-'!'\n", &[0], &[[1, 0, 33, 0, 33]]);
    gives("A<-'~'\n", &[0], &[[1, 0, 126, 0, 126]]);
    let three = [
        [1, 0, 97, 0, 97],
        [1, 0, 98, 0, 98],
        [1, 0, 99, 0, 99],
        [3, 0, 1, 0, 2],
        [3, 0, 0, 0, 3],
    ];
    gives("A<-'abc'\n", &[4], &three);
    // What else means something means itself.
    let signs = [
        [1, 0, 60, 0, 60],
        [1, 0, 45, 0, 45],
        [1, 0, 91, 0, 91],
        [3, 0, 1, 0, 2],
        [3, 0, 0, 0, 3],
    ];
    gives("A<-'<-['\n", &[4], &signs);
}

/// A quote is one item: its signs mean all of it.
#[test]
fn quotes_with_signs() {
    let repeated = [
        [1, 0, 107, 0, 107],
        [1, 0, 87, 0, 87],
        [3, 0, 0, 0, 1],
        [6, 0, 2, 0, 0],
    ];
    gives("A<-'kW'*\n", &[3], &repeated);
    let beside = [
        [1, 0, 97, 0, 97],
        [1, 0, 98, 0, 98],
        [3, 0, 0, 0, 1],
        [1, 0, 99, 0, 99],
        [3, 0, 2, 0, 3],
    ];
    gives("A<-'ab''c'\n", &[4], &beside);
}

#[test]
fn classes() {
    gives("A<-[a]\n", &[0], &[[1, 0, 97, 0, 97]]);
    gives("A<-[0-9]\n", &[0], &[[1, 0, 48, 0, 57]]);
    gives("A<-[9-A]\n", &[0], &[[1, 0, 57, 0, 65]]);
    gives("A<-[Z-a]\n", &[0], &[[1, 0, 90, 0, 97]]);
    gives("A<-[y-z]\n", &[0], &[[1, 0, 121, 0, 122]]);
    let parts = [
        [1, 0, 48, 0, 57],
        [1, 0, 120, 0, 120],
        [1, 0, 65, 0, 70],
        [4, 0, 1, 0, 2],
        [4, 0, 0, 0, 3],
    ];
    gives("A<-[0-9xA-F]\n", &[4], &parts);
    // None is merged, not even twice the same.
    let twice = [[1, 0, 97, 0, 97], [1, 0, 97, 0, 97], [4, 0, 0, 0, 1]];
    gives("A<-[aa]\n", &[2], &twice);
}

#[test]
fn sequences_and_choices_nest_to_the_right() {
    let uses = [[2, 0, 0, 0, 0]; 3];
    let nested = |kind| [&uses[..], &[[kind, 0, 1, 0, 2], [kind, 0, 0, 0, 3]]].concat();
    gives("A<-A A A\n", &[4], &nested(3));
    gives("A<-A/A/A\n", &[4], &nested(4));
    gives("A<-A(A A)\n", &[4], &nested(3));
    gives("A<-A/(A/A)\n", &[4], &nested(4));
    let to_the_left = |kind| {
        let pair = [uses[0], uses[0], [kind, 0, 0, 0, 1]];
        [&pair[..], &[uses[0], [kind, 0, 2, 0, 3]]].concat()
    };
    gives("A<-(A A)A\n", &[4], &to_the_left(3));
    gives("A<-(A/A)/A\n", &[4], &to_the_left(4));
}

#[test]
fn sequences_bind_tighter_than_choices() {
    let nodes = [
        [1, 0, 97, 0, 97],
        [1, 0, 98, 0, 98],
        [1, 0, 99, 0, 99],
        [3, 0, 1, 0, 2],
        [1, 0, 100, 0, 100],
        [4, 0, 3, 0, 4],
        [4, 0, 0, 0, 5],
    ];
    gives("A<-'a'/'b' 'c'/'d'\n", &[6], &nodes);
    let in_brackets = [
        [1, 0, 97, 0, 97],
        [1, 0, 98, 0, 98],
        [4, 0, 0, 0, 1],
        [1, 0, 99, 0, 99],
        [1, 0, 100, 0, 100],
        [4, 0, 3, 0, 4],
        [3, 0, 2, 0, 5],
    ];
    gives("A<-('a'/'b')('c'/'d')\n", &[6], &in_brackets);
}

#[test]
fn signs() {
    let a = [1, 0, 97, 0, 97];
    gives("A<-'a'*\n", &[1], &[a, [6, 0, 0, 0, 0]]);
    // e's nodes are made once.
    gives("A<-'a'+\n", &[2], &[a, [6, 0, 0, 0, 0], [3, 0, 0, 0, 1]]);
    gives("A<-'a'?\n", &[2], &[a, [0, 0, 0, 0, 0], [4, 0, 0, 0, 1]]);
    let b = [1, 0, 98, 0, 98];
    let longer = [a, b, [3, 0, 0, 0, 1], [6, 0, 2, 0, 0], [3, 0, 2, 0, 3]];
    gives("A<-('a''b')+\n", &[4], &longer);
    // The first sign is the innermost.
    let both = [
        a,
        [6, 0, 0, 0, 0],
        [3, 0, 0, 0, 1],
        [0, 0, 0, 0, 0],
        [4, 0, 2, 0, 3],
        [0, 0, 0, 0, 0],
        [4, 0, 4, 0, 5],
    ];
    gives("A<-'a'+??\n", &[6], &both);
    // A sign means the item it stands behind.
    gives(
        "A<-'a''b'*\n",
        &[3],
        &[a, b, [6, 0, 1, 0, 0], [3, 0, 0, 0, 2]],
    );
    gives(
        "A<-'a'/'b'*\n",
        &[3],
        &[a, b, [6, 0, 1, 0, 0], [4, 0, 0, 0, 2]],
    );
}

#[test]
fn nots() {
    let a = [1, 0, 97, 0, 97];
    gives("A<-!'a'\n", &[1], &[a, [5, 0, 0, 0, 0]]);
    gives("A<-!!'a'\n", &[2], &[a, [5, 0, 0, 0, 0], [5, 0, 1, 0, 0]]);
    // Signs bind tighter, a sequence looser.
    gives("A<-!'a'*\n", &[2], &[a, [6, 0, 0, 0, 0], [5, 0, 1, 0, 0]]);
    let optional = [a, [0, 0, 0, 0, 0], [4, 0, 0, 0, 1], [5, 0, 2, 0, 0]];
    gives("A<-!'a'?\n", &[3], &optional);
    let b = [1, 0, 98, 0, 98];
    let first = [a, [5, 0, 0, 0, 0], b, [3, 0, 1, 0, 2]];
    gives("A<-!'a' 'b'\n", &[3], &first);
    gives(
        "A<-'a' !'b'\n",
        &[3],
        &[a, b, [5, 0, 1, 0, 0], [3, 0, 0, 0, 2]],
    );
    let all = [a, b, [3, 0, 0, 0, 1], [5, 0, 2, 0, 0]];
    gives("A<-!('a' 'b')\n", &[3], &all);
    let choice = [a, [5, 0, 0, 0, 0], b, [4, 0, 1, 0, 2]];
    gives("A<-!'a'/'b'\n", &[3], &choice);
}

#[test]
fn brackets_make_no_node() {
    let a = [1, 0, 97, 0, 97];
    for text in ["A<-('a')\n", "A<-((('a')))\n", "A<- ( ( 'a' ) ) \n"] {
        gives(text, &[0], &[a]);
    }
    let inside = [a, [5, 0, 0, 0, 0], [5, 0, 1, 0, 0]];
    gives("A<-!(!'a')\n", &[2], &inside);
    let signs = [a, [6, 0, 0, 0, 0], [0, 0, 0, 0, 0], [4, 0, 1, 0, 2]];
    gives("A<-('a'*)?\n", &[3], &signs);
}

/// A second line's nodes follow the first one's.
#[test]
fn roots_are_the_last_nodes_of_their_lines() {
    let nodes = [
        [2, 0, 1, 0, 0],
        [2, 0, 0, 0, 0],
        [4, 0, 0, 0, 1],
        [1, 0, 97, 0, 97],
        [6, 0, 3, 0, 0],
        [3, 0, 3, 0, 4],
    ];
    gives("A<-B/A\nB<-'a'+\n", &[2, 5], &nodes);
}

#[test]
fn spaces_change_nothing() {
    let texts = [
        "A<-!!B*+/(B B)\nB<-[a-z]'kW'\n",
        " A <- ! ! B * + / ( B B ) \n B <- [a-z] 'kW' \n ",
        "   A   <-   !   !   B   *   +   /   (   B   B   )   \n  B<-  [a-z]  'kW'  \n    ",
    ];
    // A repetition of a repetition: every spelling is refused alike.
    for text in texts {
        refused(text, LOOP, 2);
    }
    let table = |text: &str| tabulate(text.as_bytes(), LONGEST_TABLE).table;
    let without = texts.map(|text| table(&text.replace(['*', '+'], "")));
    assert_eq!(without[0].len(), 7 + 2 * 2 + 5 * 12);
    assert!(without.iter().all(|table| *table == without[0]));
}

// Refusals and their places.

#[test]
fn long() {
    let text = |length: usize| format!("A<-A{}\n", " ".repeat(length - 5));
    is_read(&text(8_000));
    refused(&text(8_001), LONG, 0);
    refused(&text(100_000), LONG, 0);
    // Spaces behind the last LF count, too.
    let spaces = |length: usize| format!("A<-A\n{}", " ".repeat(length - 5));
    is_read(&spaces(8_000));
    refused(&spaces(8_001), LONG, 0);
}

/// What comes first is told, in whatever order the text has it.
#[test]
fn the_order_of_refusals() {
    let with_spaces = |text: &str, length| format!("{text}{}", " ".repeat(length - text.len()));
    let (rules, _) = many_rules(65);
    let loops = "('a'?)*\n";
    let cases = [
        ("\tA<-B\n", TEXT, 0),
        // TEXT before NAME, BIG and LOOP, though it comes later.
        (&format!("A<-B\nA<-{loops}\t"), TEXT, 16),
        (&format!("{rules}\t"), TEXT, rules.len()),
        // NAME before BIG and LOOP.
        (&format!("{rules}X<-Unknown\n"), NAME, rules.len() + 3),
        (&format!("A<-{loops}A<-A\n"), NAME, 11),
        // BIG before LOOP.
        (&format!("{rules}X<-{loops}"), BIG, 0),
        (&format!("A<-{}\n", "A?*".repeat(300)), BIG, 0),
        // LOOP before ROOM, as `refused` sees to.
        (&format!("A<-{loops}"), LOOP, 3),
    ];
    for (text, code, place) in cases {
        refused(text, code, place);
        refused(&with_spaces(text, 8_001), LONG, 0);
    }
}

/// So many lines, and their last name.
fn many_rules(rules: u8) -> (String, String) {
    let name = |rule: u8| [b'R', b'a' + rule / 26, b'a' + rule % 26].map(char::from);
    let names: Vec<String> = (0..rules).map(|rule| name(rule).iter().collect()).collect();
    let lines = names.iter().map(|name| format!("{name}<-{}\n", names[0]));
    (lines.collect(), names[usize::from(rules) - 1].clone())
}

#[test]
fn big_by_rules() {
    let (most, last) = many_rules(64);
    assert_eq!(counts(&most), (0, 64, 64));
    refused(&many_rules(65).0, BIG, 0);
    // A name that is defined again is no further rule.
    refused(&format!("{most}{last}<-{last}\n"), NAME, most.len());
}

#[test]
fn big_by_nodes() {
    let quote = |bytes| format!("'{}'", "a".repeat(bytes));
    assert_eq!(counts(&format!("A<-!{}\n", quote(256))), (2, 0, 1)); // 512
    refused(&format!("A<-{}\n", quote(257)), BIG, 0); // 513
    refused(&format!("A<-!!{}\n", quote(256)), BIG, 0); // 513
    refused(&format!("A<-{}\n", quote(7_994)), BIG, 0);
    // The nodes of all lines together.
    let two = |second| format!("A<-{}\nB<-{second}\n", quote(256)); // 511 and more
    assert_eq!(counts(&two("'a'")), (2, 0, 2));
    refused(&two("!'a'"), BIG, 0);
    // The largest table there is.
    let (most, _) = many_rules(64);
    let with = |more: &str| format!("{}{more}{}\n", most.trim_end(), quote(224));
    let full = tabulate(with("").as_bytes(), LONGEST_TABLE);
    assert_eq!(full.numbers(), [READ, 0, 2_695]);
    refused(&with("!"), BIG, 0);
}

#[test]
fn brackets_as_deep_as_they_go() {
    let text = |depth: usize| format!("A<-{}A{}\n", "(".repeat(depth), ")".repeat(depth));
    // 7,999 bytes; one more is two bytes more.
    gives(&text(3_997), &[0], &[[2, 0, 0, 0, 0]]);
    refused(&text(3_998), LONG, 0);
    refused(&text(3_999), LONG, 0);
    // Not closed, closed too often, closed too seldom.
    refused(&format!("A<-{}", "(".repeat(7_997)), TEXT, 8_000);
    refused(&format!("A<-{}A\n", "(".repeat(3_999)), TEXT, 4_003);
    refused(&format!("A<-A{}\n", ")".repeat(3_999)), TEXT, 4);
    let lacks_one = text(3_997).replace("A)", "A");
    refused(&lacks_one, TEXT, 7_997);
    // Every one of them, a not and a sign: it is big, and no deeper.
    let nots = format!("A<-{}A{}\n", "!(".repeat(2_600), ")".repeat(2_600));
    refused(&nots, BIG, 0);
    refused(&format!("A<-{}A\n", "!".repeat(7_995)), BIG, 0);
    refused(&format!("A<-A{}\n", "*".repeat(7_995)), BIG, 0);
    let nested = format!("A<-{}A{}\n", "A/A(".repeat(1_500), ")".repeat(1_500));
    refused(&nested, BIG, 0);
}

#[test]
fn names_that_no_line_defines() {
    refused("A<-B\n", NAME, 3);
    refused("A<-A B\n", NAME, 5);
    refused("A<-A/ ( !Bc* )\n", NAME, 9);
    refused("A<-a\n", NAME, 3); // letters are told apart
    refused("AB<-A\n", NAME, 4); // and whole names
    refused("A<-AB\n", NAME, 3);
    refused("A<-B\nB<-C\n", NAME, 8);
    refused("A<-B C\nB<-D\n", NAME, 5); // the first one
    is_read("A<-B\nB<-A\n");
    is_read("A<-B C\nB<-C\nC<-A\n");
    // Not in quotes and classes.
    is_read("A<-'B'[C-D]\n");
}

#[test]
fn names_that_a_line_defines_again() {
    refused("A<-A\nA<-A\n", NAME, 5);
    refused("A<-A\n  A<-A\n", NAME, 7);
    refused("A<-A\nB<-A\nA<-A\nB<-B\n", NAME, 10);
    refused("A<-A\nB<-A\nB<-A\nA<-B\nA<-C\n", NAME, 10);
    refused("A<-A\nA<-A\nA<-A\n", NAME, 5);
    is_read("A<-A\na<-A\nAA<-a\n");
}

/// Both in the order of the text.
#[test]
fn the_first_of_both_names() {
    refused("A<-A\nA<-B\n", NAME, 5);
    refused("A<-B\nA<-A\n", NAME, 3);
    refused("A<-A\nB<-C\nA<-A\n", NAME, 8);
    refused("A<-A\nB<-B\nA<-C\n", NAME, 10);
}

#[test]
fn names_of_32_and_33_letters() {
    let name = |letters| "Ab".repeat(17)[..letters].to_string();
    let (most, more) = (name(32), name(33));
    gives(&format!("{most}<-{most}\n"), &[0], &[[2, 0, 0, 0, 0]]);
    refused(&format!("{more}<-A\n"), TEXT, 32);
    refused(&format!("A<-{more}\n"), TEXT, 35);
    refused(&format!("A<-'kW' {more}\n"), TEXT, 40);
    refused(&format!("A<-{more}"), TEXT, 35);
    refused(&format!("A<-{most}"), TEXT, 35);
    refused(&more, TEXT, 32);
    refused(&most, TEXT, 32);
    // A space makes two names of it; a shorter one is another one.
    refused(&format!("{most}<-{most} b\n"), NAME, 67);
    refused(&format!("{most}<-{}\n", name(31)), NAME, 34);
}

#[test]
fn repetitions_of_nothing() {
    refused("A<-('kW'?)*\n", LOOP, 5);
    refused("A<-('kW'?)+\n", LOOP, 5);
    refused("A<-'a'**\n", LOOP, 2);
    refused("A<-B*\nB<-!A\n", LOOP, 1); // by another line
    is_read("A<-'a'+*\n");
    is_read("A<-'kW'*\n");
}

/// Each place where a text can die, by what stands before it.
#[test]
fn which_bytes_may_follow() {
    const LETTERS: &str = "ABCDEFGHIJKLMNOPQRSTUVWXYZabcdefghijklmnopqrstuvwxyz";
    const LOWER: &str = "bcdefghijklmnopqrstuvwxyz";
    let with_letters = |more: &str| format!("{LETTERS}{more}");
    let with_digits = |more: &str| with_letters(&format!("0123456789{more}"));
    let line = with_letters(" ");
    let item = with_letters(" !'[(");
    let behind_item = with_letters(" !'[(*+?/\n");
    let in_brackets = with_letters(" !'[(*+?/)");
    let in_quote: String = (33..=126).map(char::from).collect();
    let name = "N".repeat(32);
    let cases = [
        ("", line.clone()),
        ("  ", line.clone()),
        ("A<-A\n", line.clone()),
        ("A<-A\n ", line),
        ("A", with_letters(" <")),
        ("A ", " <".into()),
        ("A<-A\nA", with_letters(" <")),
        (&name, " <".into()),
        ("A<", "-".into()),
        ("A<-", item.clone()),
        ("A<- ", item.clone()),
        ("A<-!", item.clone()),
        ("A<-! ", item.clone()),
        ("A<-(", item.clone()),
        ("A<-A/", item.clone()),
        ("A<-(A/", item),
        ("A<-A", behind_item.clone()),
        ("A<-A ", behind_item.clone()),
        ("A<-!A*", behind_item.clone()),
        ("A<-A? ", behind_item.clone()),
        ("A<-(A)", behind_item.clone()),
        ("A<-((A))+", behind_item.clone()),
        ("A<-'a'", behind_item.clone()),
        ("A<-[a]", behind_item.clone()),
        ("A<-A\nB<-A", behind_item),
        (&format!("A<-{name}"), " !'[(*+?/\n".into()),
        ("A<-(A", in_brackets.clone()),
        ("A<-((A)", in_brackets.clone()),
        ("A<-A(A A*", in_brackets),
        (&format!("A<-({name}"), " !'[(*+?/)".into()),
        ("A<-'", in_quote.replace('\'', "")),
        ("A<-'a", in_quote.clone()),
        ("A<-'~!", in_quote),
        ("A<-[", with_digits("")),
        ("A<-[a", with_digits("-]")),
        ("A<-[0", with_digits("-]")),
        ("A<-[y", with_digits("-]")),
        ("A<-[z", with_digits("]")),
        ("A<-[zz", with_digits("]")),
        ("A<-[za", with_digits("-]")),
        ("A<-[0-9", with_digits("]")),
        ("A<-[0-9a", with_digits("-]")),
        ("A<-[a-", LOWER.into()),
        ("A<-[Z-", format!("a{LOWER}")),
        ("A<-[9-", LETTERS.into()),
        ("A<-[0-", with_digits("").replace('0', "")),
        ("A<-[y-", "z".into()),
    ];
    for (before, may_follow) in cases {
        for byte in 0..=255 {
            let text = [before.as_bytes(), &[byte]].concat();
            let answer = tabulate(&text, LONGEST_TABLE);
            let dies = (answer.code, answer.place) == (TEXT, before.len() as u64);
            let expected = !may_follow.as_bytes().contains(&byte);
            assert_eq!(dies, expected, "{before:?} and byte {byte}");
        }
    }
}

/// The same places, with more behind them.
#[test]
fn texts_that_die() {
    for (text, place) in [
        ("\n", 0),
        ("  \n", 2),
        ("A<-A\n\nB<-A\n", 5),
        ("A<-A\n  \nB<-A\n", 7),
        ("<-A\n", 0),
        ("A\n", 1),
        ("A B<-A\n", 2),
        ("A < -A\n", 3),
        ("A<A\n", 2),
        ("A<--A\n", 3),
        ("A<-\n", 3),
        ("A<- \nB<-A\n", 4),
        ("A<-<-A\n", 3),
        ("A<-*\n", 3),
        ("A<-!*A\n", 4),
        ("A<-!\n", 4),
        ("A<-!/A\n", 4),
        ("A<-/A\n", 3),
        ("A<-A/\n", 5),
        ("A<-A//A\n", 5),
        ("A<-''\n", 4),
        ("A<-'a b'\n", 5),
        ("A<-'a\n", 5),
        ("A<-'\x7f'\n", 4),
        ("A<-[]\n", 4),
        ("A<-[a-a]\n", 6),
        ("A<-[a-Z]\n", 6),
        ("A<-[z-z]\n", 5),
        ("A<-[a-b-c]\n", 7),
        ("A<-[-a]\n", 4),
        ("A<-[a-]\n", 6),
        ("A<-[a ]\n", 5),
        ("A<-[a\n", 5),
        ("A<-]\n", 3),
        ("A<-()\n", 4),
        ("A<-(A\n)\n", 5),
        ("A<-A)\n", 4),
        ("A<-(A))\n", 6),
        ("A<-(A/)\n", 6),
        ("A<-A\tA\n", 4),
        ("A<-A\r\n", 4),
        ("A<-A\n\r", 5),
        ("A<-A\n \t", 6),
        ("A1<-A\n", 1),
        ("A<-1\n", 3),
        ("A<-A #\n", 5),
        ("A<-A\0\n", 4),
        ("A<-é\n", 3),
        ("A<-A B<-A\n", 6),
        ("A<-A<-A\n", 4),
    ] {
        refused(text, TEXT, place);
    }
    for whole in ["A<-A\n", " A <- A \n  ", "A<-A\n "] {
        is_read(whole);
    }
}

/// A text that only lacks its end dies there.
#[test]
fn texts_that_stop_too_soon() {
    let text = " Ab <- !'kW'[0-9z](Ab /'-' )*\nB<-Ab\n ";
    is_read(text);
    let lines = [text.find('\n').unwrap(), text.rfind('\n').unwrap()];
    let is_whole = |length| length > lines[1];
    for length in 0..=text.len() {
        let beginning = &text[..length];
        match length {
            _ if is_whole(length) => is_read(beginning),
            // Behind the first LF the text is whole, until the second line begins.
            _ if length == lines[0] + 1 => is_read(beginning),
            _ => refused(beginning, TEXT, length),
        }
    }
}

// The same found in a slow way.

/// splitmix64
struct Random(u64);

impl Random {
    fn below(&mut self, bound: usize) -> usize {
        self.0 = self.0.wrapping_add(0x9E37_79B9_7F4A_7C15);
        let mut z = self.0;
        z = (z ^ (z >> 30)).wrapping_mul(0xBF58_476D_1CE4_E5B9);
        z = (z ^ (z >> 27)).wrapping_mul(0x94D0_49BB_1331_11EB);
        ((z ^ (z >> 31)) % bound as u64) as usize
    }

    fn pick<T: Copy>(&mut self, from: &[T]) -> T {
        from[self.below(from.len())]
    }

    fn bytes(&mut self, most: usize, from: &[u8]) -> Vec<u8> {
        (0..self.below(most + 1)).map(|_| self.pick(from)).collect()
    }
}

/// Whether a whole text is of the shape: each line is cut at its first `<-`, and
/// what stands behind it is made shorter until nothing changes.
fn is_of_the_shape(text: &[u8]) -> bool {
    let mut lines: Vec<&[u8]> = text.split(|&byte| byte == b'\n').collect();
    let behind = lines.pop().expect("a split gives something");
    behind.iter().all(|&byte| byte == b' ') && !lines.is_empty() && lines.into_iter().all(is_line)
}

fn is_line(line: &[u8]) -> bool {
    let Some(arrow) = line.windows(2).position(|two| two == b"<-") else {
        return false;
    };
    let runs = line[..arrow].split(|&byte| byte == b' ');
    let runs: Vec<&[u8]> = runs.filter(|run| !run.is_empty()).collect();
    matches!(runs[..], [name] if is_name(name)) && are_alternatives(&line[arrow + 2..])
}

fn is_name(name: &[u8]) -> bool {
    (1..=32).contains(&name.len()) && name.iter().all(u8::is_ascii_alphabetic)
}

fn is_quote(inside: &[u8]) -> bool {
    !inside.is_empty() && inside.iter().all(|byte| (33..=126).contains(byte))
}

fn is_class(inside: &[u8]) -> bool {
    let is_class_or_nothing = |rest: &[u8]| rest.is_empty() || is_class(rest);
    let single = match inside {
        [one, rest @ ..] => one.is_ascii_alphanumeric() && is_class_or_nothing(rest),
        _ => false,
    };
    let range = match inside {
        [low, b'-', high, rest @ ..] => {
            [low, high].iter().all(|byte| byte.is_ascii_alphanumeric())
                && low < high
                && is_class_or_nothing(rest)
        }
        _ => false,
    };
    single || range
}

/// Whether names, quotes and classes, each written `i`, come down to one.
fn are_alternatives(text: &[u8]) -> bool {
    let Some(mut short) = with_short_items(text) else {
        return false;
    };
    loop {
        let joined = ["i*", "i+", "i?", "!i", "ii", "i/i", "(i)"];
        let shorter = joined
            .iter()
            .fold(short.clone(), |text, join| text.replace(join, "i"));
        if shorter == short {
            return short == "i";
        }
        short = shorter;
    }
}

fn with_short_items(mut text: &[u8]) -> Option<String> {
    let mut short = String::new();
    while let [first, rest @ ..] = text {
        let up_to = |end: u8| rest.iter().position(|&byte| byte == end);
        let (is_item, length) = match first {
            b'\'' => (is_quote(&rest[..up_to(b'\'')?]), up_to(b'\'')? + 2),
            b'[' => (is_class(&rest[..up_to(b']')?]), up_to(b']')? + 2),
            _ => {
                let ends = text.iter().position(|byte| !byte.is_ascii_alphabetic());
                let run = ends.unwrap_or(text.len());
                (is_name(&text[..run]), run.max(1))
            }
        };
        match first {
            _ if is_item => short.push('i'),
            b' ' => {}
            _ if b"!*+?/()".contains(first) => short.push(char::from(*first)),
            _ => return None,
        }
        text = &text[length..];
    }
    Some(short)
}

/// Up to three bytes of these, or a whole line's beginning.
fn endings() -> Vec<Vec<u8>> {
    let mut all = vec![vec![]];
    let mut from = 0;
    for _ in 0..3 {
        let to = all.len();
        for number in from..to {
            for byte in *b"az<-']" {
                all.push([&all[number][..], &[byte]].concat());
            }
        }
        from = to;
    }
    all.push(b"a<-a".to_vec());
    all
}

/// Whether something can be put behind it that makes it a text of the shape: an
/// ending, then closing brackets, then LF or nothing.
fn can_be_completed(beginning: &[u8], endings: &[Vec<u8>]) -> bool {
    let open = beginning.iter().filter(|&&byte| byte == b'(').count();
    endings.iter().any(|ending| {
        (0..=open).any(|closed| {
            let text = [beginning, ending, &vec![b')'; closed]].concat();
            is_of_the_shape(&text) || is_of_the_shape(&[&text[..], b"\n"].concat())
        })
    })
}

const ALPHABET: &[u8] = b"Aaz09<-'[]()!*+?/ \n";

/// Anything, anything behind an arrow, or some words, often with one byte
/// changed or cut off.
fn some_text(random: &mut Random) -> Vec<u8> {
    let words: [&[u8]; 16] = [
        b"a", b"A ", b"'9'", b"'a<'", b"[a-z]", b"[A0-9z]", b"(", b")", b"(", b")", b"!", b"*",
        b"+ ", b"/", b"/", b"\nA<-",
    ];
    match random.below(4) {
        0 => random.bytes(9, ALPHABET),
        1 => [b"A<-", &random.bytes(8, ALPHABET)[..]].concat(),
        _ => {
            let chosen: Vec<&[u8]> = (0..random.below(9)).map(|_| random.pick(&words)).collect();
            let mut text = [b"A <- a", &chosen.concat()[..], b"\n "].concat();
            let at = random.below(text.len());
            match random.below(5) {
                0 => text[at] = random.pick(ALPHABET),
                1 => text.insert(at, random.pick(ALPHABET)),
                2 => drop(text.remove(at)),
                3 => text.truncate(at),
                _ => {}
            }
            text
        }
    }
}

#[test]
fn places_found_by_trying_all_endings() {
    let (mut random, endings) = (Random(201), endings());
    let (mut whole, mut dead, mut unfinished) = (0, 0, 0);
    for _ in 0..20_000 {
        let text = some_text(&mut random);
        let answer = tabulate(&text, LONGEST_TABLE);
        let shown = String::from_utf8_lossy(&text);
        if is_of_the_shape(&text) {
            assert_ne!(answer.code, TEXT, "{shown:?}");
            whole += 1;
            continue;
        }
        let lengths = 0..=text.len();
        let lives = |&length: &usize| can_be_completed(&text[..length], &endings);
        let longest = lengths
            .take_while(lives)
            .last()
            .expect("nothing is a beginning");
        assert_eq!(answer.numbers(), [TEXT, longest as u64, 0], "{shown:?}");
        match longest == text.len() {
            true => unfinished += 1,
            false => dead += 1,
        }
    }
    println!("whole {whole}, dead {dead}, unfinished {unfinished}");
    assert!(whole > 500 && dead > 10_000 && unfinished > 2_000);
}

// What the tables read.

fn node_table(roots: &[u16], nodes: &[(u8, u16, u16)]) -> Vec<u8> {
    let length = 7 + 2 * roots.len() + 5 * nodes.len();
    let head = [length, nodes.len(), roots.len()].map(|number| number as u16);
    let mut table = vec![1];
    table.extend(
        head.iter()
            .chain(roots)
            .flat_map(|number| number.to_be_bytes()),
    );
    for &(kind, a, b) in nodes {
        table.push(kind);
        table.extend([a, b].iter().flat_map(|field| field.to_be_bytes()));
    }
    table
}

fn table_of(text: &str) -> Vec<u8> {
    is_read(text);
    tabulate(text.as_bytes(), LONGEST_TABLE).table
}

/// The answer and the whole room, of which only READ writes something.
fn reading(table: &[u8], line: &[u8], whole: bool) -> (Answer, Vec<u8>) {
    let mut work = vec![0; 2_048 + 4 * 2_500 + 2 * 512 * (line.len() + 1)];
    let mut room = vec![0; 5_005];
    let answer = read(table, line, 2_500, &mut work, &mut room, whole);
    (answer, room)
}

/// Both tables give the same for a hundred lines, but for the visits.
fn read_the_same(text: &str, table: &[u8], alphabet: &[u8], random: &mut Random) {
    let written = table_of(text);
    let mut codes = [0; CODES];
    for _ in 0..100 {
        let line = random.bytes(12, alphabet);
        for whole in [false, true] {
            let (of_text, its_room) = reading(&written, &line, whole);
            let (of_table, room) = reading(table, &line, whole);
            let visits = of_text.visits;
            assert_eq!(of_text, Answer { visits, ..of_table }, "{line:?}");
            assert_eq!(its_room, room, "{line:?}");
            codes[of_text.code as usize] += 1;
        }
    }
    let [read, fail, rest] = [READ, FAIL, REST].map(|code| codes[code as usize]);
    assert_eq!(read + fail + rest, 200);
    assert!(read > 20 && fail > 20 && rest > 20);
}

#[test]
fn sheet_a() {
    let nodes = [
        (2, 0, 0),
        (1, 43, 43),
        (2, 1, 0),
        (3, 1, 2),
        (3, 0, 3),
        (4, 4, 2),
        (1, 48, 57),
    ];
    let table = node_table(&[5, 6], &nodes);
    assert_eq!(table.len(), 46);
    let text = "S <- S '+' D / D\nD <- [0-9]\n";
    let mut random = Random(1);
    read_the_same(text, &table, b"0123456789+++++", &mut random);
    read_the_same(text, &table, b"7+", &mut random);
    let written = table_of(text);
    assert_eq!(written.len(), 51); // D twice
    assert_eq!(report(&written).numbers(), report(&table).numbers());
}

#[test]
fn sheet_b() {
    let nodes = [
        (2, 1, 0),
        (1, 44, 44),
        (3, 1, 0),
        (3, 0, 2),
        (4, 3, 0),
        (1, 48, 57),
    ];
    let table = node_table(&[4, 5], &nodes);
    assert_eq!(table.len(), 41);
    let text = "N <- D ',' D / D\nD <- [0-9]\n";
    let mut random = Random(2);
    read_the_same(text, &table, b"0123456789,,,,,", &mut random);
    read_the_same(text, &table, b"5,", &mut random);
    let written = table_of(text);
    assert_eq!(report(&written).numbers(), report(&table).numbers());
}

#[test]
fn a_sum_groups_from_the_left() {
    let sum = table_of("Sum <- Sum '-' Term / Term\nTerm <- '(' Sum ')' / [0-9]+\n");
    let (answer, room) = reading(&sum, b"9-3-2", true);
    assert_eq!([answer.code, answer.matched, answer.records], [READ, 5, 6]);
    let stored = [
        [1, 0, 35, 0, 6], // version, length, records
        [1, 0, 1, 0, 0],  // 9
        [0, 0, 1, 0, 1],
        [1, 2, 3, 0, 0], // 3
        [0, 0, 3, 0, 2], // 9-3
        [1, 4, 5, 0, 0], // 2
        [0, 0, 5, 0, 2], // 9-3-2
    ];
    assert_eq!(room[..35], stored.concat());
    // In brackets the other way.
    let (answer, room) = reading(&sum, b"9-(3-2)", true);
    assert_eq!([answer.code, answer.matched, answer.records], [READ, 7, 8]);
    assert_eq!(room[35..45], [1, 2, 7, 0, 1, 0, 0, 7, 0, 2]);
}

/// Signs mean what they say: `?`, `+`, `*` and `!`, of names, quotes and classes.
#[test]
fn a_line_of_a_class() {
    let power = table_of(
        "Power  <- Number Unit !Any\n\
         Number <- Digit+ (',' Digit Digit? Digit?)?\n\
         Unit   <- 'kW' / 'W'\n\
         Digit  <- [0-9]\n\
         Any    <- [0-9A-Za-z]\n",
    );
    for (line, code) in [
        ("1,5kW", READ),
        ("1500W", READ),
        ("0,125W", READ),
        ("1,5kWh", FAIL),
        ("1,W", FAIL),
        (",5W", FAIL),
        ("1,2345W", FAIL),
        ("5k", FAIL),
    ] {
        assert_eq!(
            reading(&power, line.as_bytes(), true).0.code,
            code,
            "{line}"
        );
    }
}

#[test]
fn names_of_the_codes() {
    for (text, room, name) in [
        ("A<-A\n", 14, "READ"),
        ("A<-A\n", 13, "ROOM"),
        ("A<-A", 14, "TEXT"),
        ("A<-B\n", 14, "NAME"),
        ("A<-'a'**\n", 14, "LOOP"),
        (&" ".repeat(8_001), 14, "LONG"),
        (&many_rules(65).0, 14, "BIG"),
    ] {
        assert_eq!(tabulate(text.as_bytes(), room).name(), name);
    }
    assert_eq!(
        [LONG, TEXT, NAME, BIG, LOOP, ROOM, READ],
        [18, 19, 20, 21, 17, 16, 0]
    );
}
