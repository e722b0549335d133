//! Where every rule becomes live, a line is read with the same match, the same
//! tree and the same furthest range, by as many visits or more.
//!
//! On random small grammars; so many as `KOSKORBELU_GRAMMARS` says if it is set.

use super::calls::*;
use super::random::*;
use super::sheets::table;
use independent::*;

/// How many readings there were of each sort.
#[derive(Debug, Default)]
struct Seen {
    free: u64,
    /// Not free, and neither way is refused.
    as_many_visits: u64,
    fewer_visits: u64,
    /// EFFORT by the older way, and read now, or FAIL and so on.
    effort_no_more: u64,
    /// EFFORT by the older way, and DEEP now.
    deep_now: u64,
    both_effort: u64,
    both_deep: u64,
}

#[test]
fn random_grammars_both_ways() {
    let grammars = how_many_grammars();
    let mut random = Random(205);
    let mut seen = Seen::default();
    for _ in 0..grammars {
        let table = accepted(&mut random);
        for _ in 0..3 {
            let line = some_line(&mut random);
            let whole = random.below(2) == 0;
            let most = random.pick(&[20, 80, 300, 1_000, 4_000]);
            let (now, before) = compare(&table, &line, most, whole, &mut seen);
            // At and about the edges of both ways.
            let edges = [now.visits.max(2) - 1, now.visits, now.visits + 1];
            for allowance in edges.into_iter().chain([before.visits.max(2) - 1]) {
                compare(&table, &line, allowance, whole, &mut seen);
            }
        }
    }
    println!("{seen:?}");
    for sort in [
        seen.free,
        seen.as_many_visits,
        seen.fewer_visits,
        seen.effort_no_more,
        seen.deep_now,
        seen.both_effort,
        seen.both_deep,
    ] {
        assert!(sort >= grammars / 1_000, "{seen:?}");
    }
}

/// Reads both ways and gives both answers, today's first.
fn compare(
    table: &[u8],
    line: &[u8],
    allowance: u64,
    whole: bool,
    seen: &mut Seen,
) -> (Answer, Answer) {
    let now = reads(table, line, allowance, whole);
    let before = reads_with(Ways::EVERY_LIVE, table, line, allowance, whole);
    let context = || format!("{table:?} on {line:?}, allowance {allowance}");
    let (new, old) = (now.answer, before.answer);
    if report(table).free {
        assert!(new == old && now.room == before.room, "{}", context());
        seen.free += 1;
        return (new, old);
    }
    assert!(new.visits <= old.visits, "{}", context());
    match (new.code, old.code) {
        (EFFORT, EFFORT) => seen.both_effort += 1,
        (DEEP, EFFORT) => seen.deep_now += 1,
        (DEEP, DEEP) => {
            assert_eq!((new.place, new.furthest), (old.place, old.furthest));
            seen.both_deep += 1;
        }
        (EFFORT | DEEP, _) | (_, DEEP) => panic!("{new:?}, {old:?}: {}", context()),
        (_, EFFORT) => seen.effort_no_more += 1,
        _ => {
            let visits = old.visits;
            assert_eq!(Answer { visits, ..new }, old, "{}", context());
            assert!(now.room == before.room, "{}", context());
            if new.visits < old.visits {
                seen.fewer_visits += 1;
            } else {
                seen.as_many_visits += 1;
            }
        }
    }
    (new, old)
}

/// A random table that the check accepts; mostly one that isn't free, in which
/// some rules grow and others don't.
fn accepted(random: &mut Random) -> Vec<u8> {
    loop {
        let rules = 1 + random.below(5);
        let nodes = 2 + random.below(10);
        let (roots, nodes) = some_grammar(random, nodes, rules);
        let table = table(&roots, &nodes);
        let report = report(&table);
        let mixed = !report.free && report.how_many < rules;
        if report.code == READ && (mixed || random.below(5) == 0) {
            return table;
        }
    }
}

/// Mostly short; a long one of one byte gets deep.
fn some_line(random: &mut Random) -> Vec<u8> {
    if random.below(12) == 0 {
        return vec![b'a'; 255];
    }
    let length = random.below(8);
    (0..length).map(|_| random.pick(b"aaab")).collect()
}
