//! The names and numbers of `include/koskorbelu.h` are those of this crate and of
//! the independent reader.

use std::collections::BTreeMap;
use std::fs;
use std::iter::Peekable;
use std::path::Path;
use std::vec::IntoIter;

use koskorbelu::{stored_length, stored_version, work_needed};
use koskorbelu::{Code, MOST_ALLOWANCE, MOST_NODES, MOST_RECORDS, MOST_RULES, MOST_STORED};
use koskorbelu::{MOST_LINE, MOST_LINE_OF_VERSION_1};

fn text() -> String {
    let path = Path::new(env!("CARGO_MANIFEST_DIR")).join("../../include/koskorbelu.h");
    fs::read_to_string(path).unwrap()
}

/// Each `KOS_NAME = NUMBER` and `#define KOS_NAME NUMBER`, without its KOS_.
fn header() -> BTreeMap<String, u64> {
    let mut names = BTreeMap::new();
    for line in text().lines() {
        let line = line.trim().trim_start_matches("#define ");
        let mut words = line.split([' ', '=', ',']).filter(|word| !word.is_empty());
        let name = words.next().and_then(|word| word.strip_prefix("KOS_"));
        let number = words.next().and_then(|word| word.parse().ok());
        if let (Some(name), Some(number)) = (name, number) {
            assert_eq!(names.insert(name.to_string(), number), None, "{name} twice");
        }
    }
    names
}

#[test]
fn codes() {
    let header = header();
    for code in Code::ALL {
        assert_eq!(header.get(code.name()), Some(&code.number()), "{code}");
    }
}

/// Where a number stands in an answer, and how many there are.
#[test]
fn answers() {
    let header = header();
    let check = ["CODE", "PLACE"];
    let report = [
        "MAY_BE_EMPTY",
        "LEFT_RECURSIVE",
        "HOW_MANY",
        "LOWEST",
        "FREE",
    ];
    let read = ["MATCHED", "VISITS", "RECORDS", "FURTHEST"];
    for (rest, count) in [(&report[..], "REPORT"), (&read[..], "READ"), (&[], "CHECK")] {
        for (at, name) in check.iter().chain(rest).enumerate() {
            assert_eq!(
                header.get(&format!("AT_{name}")),
                Some(&(at as u64)),
                "{name}"
            );
        }
        let numbers = (check.len() + rest.len()) as u64;
        assert_eq!(header.get(&format!("{count}_NUMBERS")), Some(&numbers));
    }
}

#[test]
fn limits() {
    let header = header();
    let longest_table = 7 + 2 * MOST_RULES + 5 * MOST_NODES;
    for (name, number) in [
        ("MOST_NODES", MOST_NODES as u64),
        ("MOST_RULES", MOST_RULES as u64),
        ("MOST_TABLE", longest_table as u64),
        ("MOST_LINE", MOST_LINE as u64),
        ("MOST_LINE_OF_VERSION_1", MOST_LINE_OF_VERSION_1 as u64),
        ("MOST_ALLOWANCE", MOST_ALLOWANCE),
        ("MOST_RECORDS", MOST_RECORDS as u64),
        ("MOST_STORED", MOST_STORED as u64),
    ] {
        assert_eq!(header.get(name), Some(&number), "{name}");
    }
    // Nothing in the header is left untested but the stack, which c/stack.c measures.
    let tested = Code::ALL.len() + 2 + 5 + 4 + 3 + 8;
    assert_eq!(header.len(), tested + 1, "{header:?}");
}

/// The macros with arguments give what the functions of this crate give, and take
/// an argument whole.
#[test]
fn formulas() {
    let macros = macros();
    let value = |expression: String| value(&expression, &macros) as usize;
    for length in [0, 1, 255, 256, 300, 4_000] {
        let version = value(format!("KOS_STORED_VERSION({length})"));
        assert_eq!(version, stored_version(length).into(), "{length}");
        let size = stored_length(1, length) - stored_length(0, length);
        assert_eq!(value(format!("KOS_RECORD_SIZE({length})")), size);
        for records in [0, 1, 4, MOST_RECORDS] {
            let stored = stored_length(records, length);
            for asked in [
                format!("KOS_STORED_LENGTH({records}, {length})"),
                format!("KOS_STORED_LENGTH(0 + {records} + 0, 0 + {length} + 0)"),
            ] {
                assert_eq!(value(asked), stored, "{records} {length}");
            }
        }
        for (allowance, nodes) in [(1, 1), (20, 6), (MOST_ALLOWANCE, MOST_NODES)] {
            let needed = work_needed(allowance, nodes, length) as usize;
            for asked in [
                format!("KOS_WORK_NEEDED({allowance}, {nodes}, {length})"),
                format!("KOS_WORK_NEEDED(0 + {allowance} + 0, 0 + {nodes} + 0, 0 + {length} + 0)"),
            ] {
                assert_eq!(value(asked), needed, "{allowance} {nodes} {length}");
            }
        }
    }
    assert_eq!(value("KOS_RECORD_SIZE(255)".into()), 5);
    assert_eq!(value("KOS_RECORD_SIZE(256)".into()), 7);
    let longest = value("KOS_STORED_LENGTH(KOS_MOST_RECORDS, KOS_MOST_LINE)".into());
    assert_eq!(longest, MOST_STORED);
    // None with arguments is left untested.
    let with_arguments = macros.values().filter(|(names, _)| !names.is_empty());
    assert_eq!(with_arguments.count(), 4);
}

/// A reading asks for just so many working numbers as the wrapper says.
#[test]
fn working_numbers() {
    let table = sheets::sheet_b().bytes();
    let needed = work_needed(20, 6, 3) as usize;
    for (lent, code) in [(needed, 0), (needed - 1, 10)] {
        let (mut work, mut room) = (vec![0; lent], vec![0; MOST_STORED]);
        let answer = independent::read(&table, b"1,5", 20, &mut work, &mut room, true);
        assert_eq!(answer.code, code, "{lent}");
    }
}

/// The names of a macro's arguments, and what it stands for.
type Macro = (Vec<String>, Vec<String>);

/// All macros of the header.
fn macros() -> BTreeMap<String, Macro> {
    let text = text().replace("\\\n", " ");
    let defined = text
        .lines()
        .filter_map(|line| line.strip_prefix("#define "));
    let named = defined.map(|line| {
        let end = line.find([' ', '(']).unwrap_or(line.len());
        let (name, rest) = line.split_at(end);
        let (names, body) = match rest.strip_prefix('(') {
            Some(rest) => rest.split_once(')').expect("a bracket that is closed"),
            None => ("", rest),
        };
        let mut names = words(names);
        names.retain(|word| word != ",");
        (name.to_string(), (names, words(body)))
    });
    named.collect()
}

/// Names and numbers, and signs of one or two characters.
fn words(text: &str) -> Vec<String> {
    let mut words: Vec<String> = Vec::new();
    let mut before = ' ';
    for character in text.chars() {
        let is_name = |c: char| c.is_alphanumeric() || c == '_';
        let goes_on =
            is_name(before) && is_name(character) || "<=".contains(before) && character == '=';
        match words.last_mut() {
            Some(word) if goes_on => word.push(character),
            _ if character == ' ' => {}
            _ => words.push(character.to_string()),
        }
        before = character;
    }
    words
}

/// An expression of C with the header's macros, and of its signs those that they use.
fn value(expression: &str, macros: &BTreeMap<String, Macro>) -> u64 {
    let mut expression = words(expression);
    while let Some(at) = expression.iter().position(|word| macros.contains_key(word)) {
        let (names, body) = &macros[&expression[at]];
        let mut after = expression.split_off(at + 1);
        expression.pop();
        let arguments = match names.len() {
            0 => Vec::new(),
            _ => take_arguments(&mut after),
        };
        assert_eq!(arguments.len(), names.len(), "{names:?}");
        for word in body {
            match names.iter().position(|name| name == word) {
                Some(at) => expression.extend_from_slice(&arguments[at]),
                None => expression.push(word.clone()),
            }
        }
        expression.append(&mut after);
    }
    let mut rest = expression.into_iter().peekable();
    let value = choice(&mut rest);
    assert_eq!(rest.next(), None);
    value
}

/// The arguments from the bracket on; what comes after them is left.
fn take_arguments(words: &mut Vec<String>) -> Vec<Vec<String>> {
    let mut arguments = vec![Vec::new()];
    let mut depth = 0;
    let mut taken = 0;
    for word in &*words {
        taken += 1;
        depth += i32::from(word == "(") - i32::from(word == ")");
        match word.as_str() {
            ")" if depth == 0 => break,
            "(" if depth == 1 => {}
            "," if depth == 1 => arguments.push(Vec::new()),
            _ => arguments.last_mut().unwrap().push(word.clone()),
        }
    }
    words.drain(..taken);
    arguments
}

type Words = Peekable<IntoIter<String>>;

fn choice(rest: &mut Words) -> u64 {
    let condition = comparison(rest);
    if rest.next_if_eq("?").is_none() {
        return condition;
    }
    let yes = choice(rest);
    assert_eq!(rest.next().as_deref(), Some(":"));
    let no = choice(rest);
    if condition != 0 {
        yes
    } else {
        no
    }
}

fn comparison(rest: &mut Words) -> u64 {
    let left = sum(rest);
    if rest.next_if_eq("<=").is_some() {
        (left <= sum(rest)).into()
    } else if rest.next_if_eq("==").is_some() {
        (left == sum(rest)).into()
    } else {
        left
    }
}

fn sum(rest: &mut Words) -> u64 {
    let mut sum = product(rest);
    while rest.next_if_eq("+").is_some() {
        sum += product(rest);
    }
    sum
}

fn product(rest: &mut Words) -> u64 {
    let mut product = factor(rest);
    while rest.next_if_eq("*").is_some() {
        product *= factor(rest);
    }
    product
}

fn factor(rest: &mut Words) -> u64 {
    let word = rest.next().expect("a number or a bracket");
    if word != "(" {
        return word.parse().unwrap_or_else(|_| panic!("no number: {word}"));
    }
    let is_cast = rest.next_if_eq("size_t").is_some();
    let inside = if is_cast { 0 } else { choice(rest) };
    assert_eq!(rest.next().as_deref(), Some(")"));
    if is_cast {
        factor(rest)
    } else {
        inside
    }
}
