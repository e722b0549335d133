//! The baseline answers every case as the independent reader does, buffers
//! included.

mod both;
mod long;

use both::{plain_readers, Asked};
use cases::{dear_sums, make, run, SEED};
use sheets::{sheet_a, sum};

fn all_equal(seed: u64) {
    let cases = make(seed);
    let answered = run(&cases.stdin, plain_readers());
    let expected = String::from_utf8(cases.stdout).unwrap();
    let given = String::from_utf8(answered).unwrap();
    for (number, (expected, given)) in expected.lines().zip(given.lines()).enumerate() {
        assert_eq!(given, expected, "answer {number} of seed {seed}");
    }
    assert_eq!(given.len(), expected.len());
}

#[test]
fn the_kept_cases() {
    all_equal(SEED);
}

#[test]
fn other_seeds() {
    for seed in 1..=2 {
        all_equal(seed);
    }
}

/// The largest allowances, whose working numbers the kept cases cannot lend.
#[test]
fn large_allowances() {
    for (sheet, allowance) in [(sum(), 5_000_000), (sum(), 300_000), (sheet_a(), 5_000_000)] {
        let table = sheet.bytes();
        for line in &dear_sums() {
            let asked = Asked::of(&table, line.as_bytes(), allowance);
            asked.both();
            asked.prefix().both();
        }
    }
}
