//! Deep comparison: the proved library answers as the independent reader
//! does, all numbers and the whole of every buffer.
//!
//! All cases of a seed are compared, then those of the next, until there were
//! enough. KOSKORBELU_SEED sets the first seed, KOSKORBELU_COMMANDS how many
//! commands are enough.

#[cfg(not(feature = "proved"))]
#[test]
#[ignore = "needs the proved library: scripts/native-archive, then --features proved"]
fn the_cases_of_the_case_maker() {}

#[cfg(feature = "proved")]
mod proved {
    use std::env;
    use std::str::FromStr;
    use std::thread;

    use cases::{dear_sums, decode, make, run, Command, Lending, Read, Readers};
    use koskorbelu::{face, read_prefix, read_prefix_with, read_whole, read_whole_with};
    use koskorbelu::{stored_length, work_needed, Answer, Code, Record, Tree};
    use koskorbelu::{MOST_ALLOWANCE, MOST_LINE, MOST_NODES, MOST_STORED};
    use sheets::{sheet_a, sheet_b, sum, Sheet};

    const SEED: u64 = 1;
    const COMMANDS: usize = 27_000;

    #[test]
    fn the_cases_of_the_case_maker() {
        let first = setting("KOSKORBELU_SEED", SEED);
        let enough = setting("KOSKORBELU_COMMANDS", COMMANDS);
        let mut compared = 0;
        let mut seed = first;
        while compared < enough {
            compared += compare_all(seed, enough - compared);
            seed += 1;
        }
        println!(
            "{compared} commands compared, seeds {first} to {}",
            seed - 1
        );
    }

    fn setting<T: FromStr>(variable: &str, usual: T) -> T {
        match env::var(variable) {
            Ok(text) => match text.parse() {
                Ok(number) => number,
                Err(_) => panic!("{variable} is no number: {text}"),
            },
            Err(_) => usual,
        }
    }

    /// Compares at most so many commands of a seed, and gives how many.
    fn compare_all(seed: u64, most: usize) -> usize {
        let (mut table, mut line) = (Vec::new(), Vec::new());
        let mut compared = 0;
        for command in decode(&make(seed).stdin) {
            if compared == most {
                break;
            }
            match &command {
                Command::Table(next) => table.clone_from(next),
                Command::Line(next) => line.clone_from(next),
                // The C functions have no such test.
                Command::WellFormed { .. } => {}
                asked => {
                    compared += 1;
                    if let Some(found) = difference(asked, &table, &line) {
                        panic!("seed {seed}, table {table:?}, line {line:?}, {asked:?}: {found}");
                    }
                }
            }
        }
        compared
    }

    /// What the proved library gives that the independent reader does not.
    fn difference(asked: &Command, table: &[u8], line: &[u8]) -> Option<String> {
        let independent = Readers::independent();
        let numbers = |proved: &[u64], other: &[u64]| {
            (proved != other).then(|| format!("proved {proved:?}, independent {other:?}"))
        };
        match asked {
            Command::Check => {
                let (code, place) = (independent.check)(table);
                numbers(&face::check(table), &[code, place])
            }
            Command::Report => numbers(&face::report(table), &(independent.report)(table)),
            Command::Read(lending) => {
                let proved = read(face::read, table, line, lending);
                let other = read(independent.read, table, line, lending);
                numbers(&proved.0, &other.0)
                    .or((proved.1 != other.1).then(|| "working numbers differ".to_string()))
                    .or((proved.2 != other.2).then(|| "rooms differ".to_string()))
                    .or((!is_left_as_named(&proved, lending)).then(|| "misnamed".to_string()))
            }
            _ => None,
        }
    }

    /// The six numbers, and what is then in the working numbers and the room.
    type Left = ([u64; 6], Vec<u32>, Vec<u8>);

    fn read(function: Read, table: &[u8], line: &[u8], lending: &Lending) -> Left {
        let (mut work, mut room) = (lending.work(), lending.room());
        let numbers = function(
            table,
            line,
            lending.allowance,
            &mut work,
            &mut room,
            lending.whole,
        );
        (numbers, work, room)
    }

    /// Something is changed exactly if the code says that the line was read.
    fn is_left_as_named((numbers, work, room): &Left, lending: &Lending) -> bool {
        let code = Code::with_number(numbers[0]).expect("a named answer");
        let is_as_found = *work == lending.work() && *room == lending.room();
        code.line_was_read() != is_as_found
    }

    /// Allowances whose working numbers the commands cannot lend.
    #[test]
    fn large_allowances() {
        for (sheet, allowance) in [(sum(), 1_000_000), (sum(), 300_000), (sheet_a(), 1_000_000)] {
            for line in &dear_sums() {
                for whole in [false, true] {
                    compare(&sheet, line, whole, allowance);
                }
            }
        }
    }

    /// It takes 80 MB of working numbers, so one line alone uses it up.
    #[test]
    fn the_largest_allowance() {
        let nested = "((((((((1))))))))";
        compare(&sum(), nested, true, MOST_ALLOWANCE);
        let answer = read_whole(&sum().bytes(), nested.as_bytes(), MOST_ALLOWANCE);
        assert_eq!(answer.to_string(), "EFFORT 8 5000000");
        compare(&sum(), &"(((1)))+".repeat(500), true, 1_400_000);
    }

    /// With exactly the working numbers that are needed, and room for every tree.
    fn compare(sheet: &Sheet, line: &str, whole: bool, allowance: u64) {
        let work = work_needed(allowance, sheet.nodes.len(), line.len());
        let asked = Command::Read(Lending {
            whole,
            allowance,
            work: work as u32,
            room: MOST_STORED as u16,
            fill: 7,
        });
        let found = difference(&asked, &sheet.bytes(), line.as_bytes());
        assert_eq!(found, None, "{line}, {asked:?}");
    }

    /// What Rust is given says the same as the numbers.
    #[test]
    fn answers_for_rust() {
        for (sheet, line) in [
            (sheet_a(), "7+2"),
            (sheet_a(), "7+"),
            (sheet_b(), "1,5"),
            (sheet_b(), ",5"),
            (sum(), "9-3-2*(4+1)"),
            (sheet_a(), &digits(128)),
            (sheet_a(), &digits(129)),
            (sheet_a(), &digits(500)),
            (sheet_a(), &digits(501)),
        ] {
            let (table, line) = (sheet.bytes(), line.as_bytes());
            let needed = work_needed(4_000, sheet.nodes.len(), line.len());
            let (mut work, mut room) = (vec![7; needed as usize], vec![7; MOST_STORED]);
            let [code, place, matched, visits, records, furthest] =
                face::read(&table, line, 4_000, &mut work, &mut room, true);
            let answer = read_whole(&table, line, 4_000);
            assert_eq!((answer.code().number(), answer.visits()), (code, visits));
            assert_eq!(answer.furthest() as u64, furthest);
            match answer {
                Answer::Read {
                    matched: end,
                    reading,
                    ..
                } => {
                    assert_eq!(end as u64, matched);
                    let length = stored_length(records as usize, line.len());
                    assert_eq!(reading.stored(), &room[..length]);
                    let width = reading.version().into();
                    assert_eq!(again(&reading.tree(), width), reading.stored()[5..]);
                }
                Answer::Refused { place: at, .. } => assert_eq!(at as u64, place),
            }
            let mut other_room = vec![7; MOST_STORED];
            let lent = read_whole_with(&table, line, 4_000, &mut work, &mut other_room);
            let alone = read_whole(&table, line, 4_000);
            assert_eq!(lent.to_string(), alone.to_string());
            assert_eq!(other_room, room);
        }
    }

    /// The line with its marks, as a person is shown it.
    #[test]
    fn marks_under_a_line() {
        for (sheet, line, answer, below) in [
            (sheet_a(), "7+2", "READ 3 19 4", "   ^"),
            (sheet_a(), "7+2+", "REST 3 21", "   |^"),
            (sheet_a(), "7+2*9", "REST 3 19", "   ^"),
            (sheet_a(), "", "FAIL 0 5", "^"),
            (sheet_b(), "1.5", "REST 1 7", " ^"),
            (sheet_b(), ",5", "FAIL 0 5", "^"),
            (sheet_b(), "1,5 kW", "REST 3 8", "  ^|"),
            (sheet_b(), "1,\u{B2}", "REST 1 9", " |^"),
        ] {
            let table = sheet.bytes();
            let given = read_whole(&table, line.as_bytes(), 2_500);
            assert_eq!(given.to_string(), answer, "{line}");
            let rows = given.marked(line.as_bytes()).to_string();
            assert_eq!(rows, format!("{line}\n{below}"));
        }
        let table = sheet_b().bytes();
        let rows = |line: &[u8]| {
            let answer = read_whole(&table, line, 2_500);
            answer.marked(line).to_string()
        };
        assert_eq!(rows(b"1,5\r"), "1,5\u{240D}\n  ^|");
        assert_eq!(rows(b"\xFF"), "\u{FFFD}\n^");
        // Turned away.
        assert_eq!(rows(&[b'1'; 4_001]), "1".repeat(4_001));
        let far = "a".repeat(3_999);
        let line = far.clone() + "b";
        let answer = read_whole(&row(), line.as_bytes(), 10_000);
        let below = " ".repeat(far.len());
        assert_eq!(
            answer.marked(line.as_bytes()).to_string(),
            format!("{line}\n{below}^")
        );
    }

    /// What was reached before a visit is refused; prefix readings mark no rest.
    #[test]
    fn marks_of_a_reading_that_is_refused() {
        let table = sheet_a().bytes();
        for (allowance, answer, below) in [
            (9, "EFFORT 1 9", "^"),
            (10, "EFFORT 2 10", " ^"),
            (16, "EFFORT 3 16", "  ^"),
            (18, "EFFORT 0 18", "   ^"),
            (19, "READ 3 19 4", "   ^"),
        ] {
            let given = read_prefix(&table, b"7+2", allowance);
            assert_eq!(given.to_string(), answer);
            let rows = given.marked(b"7+2").to_string();
            assert_eq!(rows, format!("7+2\n{below}"));
        }
        let prefix = read_prefix(&table, b"7+", 2_500);
        assert_eq!(prefix.marked(b"7+").to_string(), "7+\n  ^");
        let (mut work, mut room) = (vec![0; 3_000], vec![0; 24]);
        let short = read_whole_with(&table, b"7+2", 19, &mut work, &mut room);
        assert_eq!(short.to_string(), "ROOM 3 19");
        assert_eq!(short.marked(b"7+2").to_string(), "7+2\n   ^");
    }

    /// The records of a tree as they are stored, with so many bytes a position.
    fn again(tree: &Tree, width: usize) -> Vec<u8> {
        let children = tree.children.iter();
        let mut bytes: Vec<u8> = children.flat_map(|child| again(child, width)).collect();
        bytes.push(tree.rule as u8);
        for position in [tree.start, tree.end] {
            bytes.extend(&(position as u16).to_be_bytes()[2 - width..]);
        }
        bytes.extend((tree.children.len() as u16).to_be_bytes());
        bytes
    }

    /// `7+7+7`: sheet A makes two records of each digit.
    fn digits(count: usize) -> String {
        vec!["7"; count].join("+")
    }

    /// The line with bytes behind it that no sheet here reads.
    fn padded(line: &str, length: usize) -> Vec<u8> {
        format!("{line:x<length$}").into_bytes()
    }

    /// S <- 'a'*
    fn row() -> Vec<u8> {
        let mut sheet = Sheet::new();
        let byte = sheet.byte(b'a');
        let row = sheet.repetition(byte);
        sheet.root(row);
        sheet.bytes()
    }

    #[test]
    fn lines_of_255_256_4_000_and_4_001_bytes() {
        let line = [b'a'; 4_001];
        for (length, given, stored) in [
            (255, "READ 255 512 1", vec![1, 0, 10, 0, 1, 0, 0, 255, 0, 0]),
            (
                256,
                "READ 256 514 1",
                vec![2, 0, 12, 0, 1, 0, 0, 0, 1, 0, 0, 0],
            ),
            (
                4_000,
                "READ 4000 8002 1",
                vec![2, 0, 12, 0, 1, 0, 0, 0, 15, 160, 0, 0],
            ),
            (4_001, "LINE 0 0", vec![]),
        ] {
            for read in [read_prefix, read_whole] {
                let answer = read(&row(), &line[..length], 10_000);
                assert_eq!(answer.to_string(), given);
                let reading = answer.reading();
                assert_eq!(reading.map_or(vec![], |r| r.stored().to_vec()), stored);
            }
        }
    }

    #[test]
    fn allowances_of_5_000_000_and_5_000_001() {
        let table = sheet_a().bytes();
        for (allowance, given) in [
            (0, "ALLOW 0 0"),
            (5_000_000, "READ 3 19 4"),
            (5_000_001, "ALLOW 0 0"),
            (u64::MAX, "ALLOW 0 0"),
        ] {
            assert_eq!(read_whole(&table, b"7+2", allowance).to_string(), given);
        }
    }

    /// A line that is too long is refused before the allowance is looked at, and
    /// that before the working numbers.
    #[test]
    fn line_allowance_working_numbers() {
        let line = [b'a'; 4_001];
        for (length, allowance, given) in [
            (4_001, 5_000_001, "LINE 0 0"),
            (4_000, 5_000_001, "ALLOW 0 0"),
            (4_000, 5_000_000, "WORK 0 0"),
        ] {
            let (mut work, mut room) = ([7; 100], [7; 10]);
            let line = &line[..length];
            let answer = read_whole_with(&row(), line, allowance, &mut work, &mut room);
            assert_eq!(answer.to_string(), given);
            assert_eq!((work, room), ([7; 100], [7; 10]));
        }
    }

    /// The line's length gives the version, not the match's.
    #[test]
    fn a_short_match_on_a_long_line() {
        let table = sheet_a().bytes();
        let short = read_prefix(&table, b"7+2", 100).reading().unwrap();
        let within = read_prefix(&table, &padded("7+2", 255), 100);
        assert_eq!(within.reading().unwrap(), short);
        let long = read_prefix(&table, &padded("7+2", 300), 100);
        assert_eq!(long.to_string(), "READ 3 19 4");
        let long = long.reading().unwrap();
        let stored = [
            [2, 0, 33, 0, 4].as_slice(),
            &[1, 0, 0, 0, 1, 0, 0],
            &[0, 0, 0, 0, 1, 0, 1],
            &[1, 0, 2, 0, 3, 0, 0],
            &[0, 0, 0, 0, 3, 0, 2],
        ];
        assert_eq!(long.stored(), stored.concat());
        let whole = read_whole(&table, &padded("7+2", 300), 100);
        assert_eq!(whole.to_string(), "REST 3 19");
    }

    /// One match read in both versions: nothing but the bytes differs.
    #[test]
    fn records_are_alike_in_both_versions() {
        for (sheet, line) in [
            (sheet_a(), "7+2"),
            (sheet_b(), "1,5"),
            (sum(), "9-3-2*(4+1)"),
            (sheet_a(), &digits(127)),
        ] {
            let [short, long] = [255, 256].map(|length| {
                let answer = read_prefix(&sheet.bytes(), &padded(line, length), 4_000);
                let Answer::Read {
                    matched,
                    visits,
                    furthest,
                    reading,
                } = answer
                else {
                    panic!("{line} is read");
                };
                ((matched, visits, furthest), reading)
            });
            assert_eq!(short.0, long.0, "{line}");
            assert_eq!((short.1.version(), long.1.version()), (1, 2));
            let [one, two] = [&short.1, &long.1].map(|r| r.records().collect::<Vec<Record>>());
            assert_eq!(one, two, "{line}");
            assert_eq!(short.1.tree(), long.1.tree(), "{line}");
        }
    }

    /// Exactly enough, and one byte short.
    #[test]
    fn room_goes_by_the_version() {
        let table = sheet_a().bytes();
        for (line, needed, enough, short) in [
            (padded("7+2", 255), 25, "READ 3 19 4", "ROOM 3 19"),
            (padded("7+2", 256), 33, "READ 3 19 4", "ROOM 3 19"),
            (padded("7+2", 4_000), 33, "READ 3 19 4", "ROOM 3 19"),
            (
                padded(&digits(500), 4_000),
                7_005,
                "READ 999 3505 1000",
                "ROOM 999 3505",
            ),
        ] {
            let mut work = vec![7; work_needed(4_000, 7, line.len()) as usize];
            let mut room = vec![7; needed];
            let answer = read_prefix_with(&table, &line, 4_000, &mut work, &mut room);
            assert_eq!(answer.to_string(), enough);
            let mut room = vec![7; needed - 1];
            let answer = read_prefix_with(&table, &line, 4_000, &mut work, &mut room);
            assert_eq!(answer.to_string(), short);
            assert_eq!(room, vec![7; needed - 1]);
        }
    }

    /// Each digit is a D, and an S around it and the S before it.
    #[test]
    fn a_thousand_records_of_version_2() {
        let table = sheet_a().bytes();
        let read = read_whole(&table, digits(500).as_bytes(), 4_000);
        assert_eq!(read.to_string(), "READ 999 3505 1000");
        let reading = read.reading().unwrap();
        assert_eq!((reading.version(), reading.stored().len()), (2, 7_005));
        let due = (0..500).flat_map(|digit| {
            let (start, end) = (2 * digit, 2 * digit + 1);
            let children = if digit == 0 { 1 } else { 2 };
            [(1, start, end, 0), (0, 0, end, children)]
        });
        let records = reading.records();
        let given = records.map(|r| (r.rule, r.start, r.end, r.children));
        assert!(given.eq(due));
        let more = read_whole(&table, digits(501).as_bytes(), 4_000);
        assert_eq!(more.to_string(), "RECORDS 1001 3512");
    }

    /// With nothing lent, and with nothing in what is lent.
    #[test]
    fn empty_slices() {
        assert_eq!(face::check(&[]), [1, 0]);
        assert_eq!(face::report(&[]), [1, 0, 0, 0, 0, 64, 0]);
        let table = sheet_b().bytes();
        for whole in [false, true] {
            let numbers = face::read(&[], &[], 0, &mut [], &mut [], whole);
            assert_eq!(numbers, [1, 0, 0, 0, 0, 0]);
            let numbers = face::read(&table, &[], 1, &mut [], &mut [], whole);
            assert_eq!(numbers, [10, 0, 0, 0, 0, 0]);
        }
    }

    /// The deepest readings too fit in KOS_STACK of the header, with what a thread
    /// and the desk take beside it.
    #[test]
    fn a_small_stack_is_enough() {
        let stream = make(SEED).stdin;
        let readers = Readers {
            check: |table| face::check(table).into(),
            report: face::report,
            read: face::read,
            well_formed: Readers::independent().well_formed,
        };
        let small = thread::Builder::new().stack_size(94_208 + 32 * 1024);
        let answering = small.spawn(move || run(&stream, readers)).unwrap();
        assert!(!answering.join().unwrap().is_empty());
    }

    /// The wrapper lends enough for every line, the longest and deepest too.
    #[test]
    fn enough_is_lent() {
        let mut full = sheet_a();
        while full.nodes.len() < MOST_NODES {
            full.empty();
        }
        for table in [sheet_a().bytes(), full.bytes()] {
            for length in [1, 127, 255, 256, 999, MOST_LINE, MOST_LINE + 1] {
                let line: Vec<u8> = b"7+".iter().copied().cycle().take(length).collect();
                for allowance in [1, 2_500, 100_000, u64::MAX] {
                    let code = read_prefix(&table, &line, allowance).code();
                    assert!(code != Code::Work, "{length} {allowance}");
                    assert!(code != Code::Room, "{length} {allowance}");
                }
            }
        }
        let table = sheet_a().bytes();
        let refused = koskorbelu::check(&table[..45]).unwrap_err();
        assert_eq!(refused.to_string(), "LENGTH 0");
        let report = koskorbelu::report(&table).unwrap();
        assert_eq!((report.lowest, report.how_many), (Some(0), 1));
        assert!(!report.is_free());
        let free = koskorbelu::report(&sheet_b().bytes()).unwrap();
        assert!(free.is_free() && free.lowest.is_none());
    }

    /// It is refused before the line, the allowance and what is lent are looked at.
    #[test]
    fn a_repetition_of_nothing() {
        let mut sheet = sheet_b();
        let maybe = sheet.optional(0);
        sheet.repetition(maybe);
        let table = sheet.bytes();
        assert_eq!(face::check(&table), [17, 8]);
        assert_eq!(face::report(&table), [17, 8, 0, 0, 0, 64, 0]);
        let refused = koskorbelu::check(&table).unwrap_err();
        assert_eq!(refused.to_string(), "LOOP 8");
        assert_eq!(koskorbelu::report(&table), Err(refused));
        let answer = read_whole(&table, b"1,5", 2_500);
        assert_eq!(
            (answer.code(), answer.to_string().as_str()),
            (Code::Loop, "LOOP 8 0")
        );
        let (mut work, mut room) = ([7; 100], [7; 10]);
        for line in [b"1,5".as_slice(), &[b'1'; 4_001]] {
            let answer = read_prefix_with(&table, line, 0, &mut work, &mut room);
            assert_eq!(answer.to_string(), "LOOP 8 0");
            assert!(!answer.code().line_was_read());
            assert_eq!(answer.furthest(), 0);
            assert_eq!((work, room), ([7; 100], [7; 10]));
        }
    }

    /// A left-recursive rule counts from the moment it is used.
    #[test]
    fn a_rule_that_is_never_used() {
        let mut sheet = sheet_b();
        let itself = sheet.rule(2);
        sheet.root(itself);
        assert_eq!(face::report(&sheet.bytes()), [0, 0, 0, 4, 1, 2, 1]);
        let unused = koskorbelu::report(&sheet.bytes()).unwrap();
        assert!(unused.is_free() && unused.lowest == Some(2));
        let read = read_whole(&sheet.bytes(), b"1,5", 2_500);
        assert_eq!(read.to_string(), "READ 3 8 3");
        let not = sheet.not(itself);
        sheet.roots[1] = sheet.sequence(not, sheet.roots[1]);
        assert_eq!(face::report(&sheet.bytes()), [0, 0, 0, 4, 1, 2, 0]);
        assert!(!koskorbelu::report(&sheet.bytes()).unwrap().is_free());
    }
}
