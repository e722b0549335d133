//! The case maker: a seeded stream of commands and the independent reader's
//! answers to them.
//!
//! The same seed gives the same bytes on every machine: nothing here depends
//! on hash order, time or the size of a word.

mod command;
mod damage;
mod deep;
mod desk;
mod formed;
mod furthest;
mod growing;
mod long_lines;
mod maker;
mod nothing;
pub mod program;
mod random;
mod reach;
mod records;
mod rows;
mod soup;
mod tally;
mod textbook;
pub mod texts;
mod version;
mod worked;

pub use command::{decode, Command, Lending};
pub use desk::{run, Desk, Read, Readers};
pub use maker::Cases;
pub use random::Random;
pub use tally::{Formed, Furthest, Growth, LongLines, Tables, Tally, Turns};
pub use textbook::dear_sums;
pub use worked::text as worked_text;

use maker::Maker;

/// The seed of the cases that are kept with the sources.
pub const SEED: u64 = 20_260_401;

/// So many answered commands are made.
pub const COMMANDS: u64 = 34_000;

/// All cases of a seed.
pub fn make(seed: u64) -> Cases {
    let mut maker = Maker::new(seed);
    textbook::add(&mut maker);
    damage::add(&mut maker);
    records::add(&mut maker);
    deep::add(&mut maker);
    nothing::add(&mut maker);
    furthest::add(&mut maker);
    growing::add(&mut maker);
    rows::add(&mut maker);
    long_lines::add(&mut maker);
    formed::add(&mut maker);
    // Random sheets fill what is left.
    soup::add(&mut maker, COMMANDS);
    maker.finish()
}

#[cfg(test)]
mod tests {
    use super::*;

    #[test]
    fn a_seed_gives_the_same_bytes_again() {
        let (once, again) = (make(SEED), make(SEED));
        assert!(once.stdin == again.stdin && once.stdout == again.stdout);
        assert!(once.stdin != make(SEED + 1).stdin);
    }

    /// What is made to be read by is not refused for a repetition of nothing.
    #[test]
    fn repetitions_of_nothing_are_made_on_purpose() {
        let loops = |add: fn(&mut Maker)| {
            let mut maker = Maker::new(SEED);
            add(&mut maker);
            maker.finish().tally.codes[independent::LOOP as usize]
        };
        for add in [
            textbook::add,
            records::add,
            deep::add,
            furthest::add,
            growing::add,
            rows::add,
            long_lines::add,
            formed::add,
        ] {
            assert_eq!(loops(add), 0);
        }
        assert!(loops(nothing::add) > 300);
    }

    #[test]
    fn commands_survive_encoding() {
        let stdin = make(SEED).stdin;
        let mut encoded = Vec::new();
        for command in decode(&stdin) {
            command.encode(&mut encoded);
        }
        assert!(encoded == stdin);
    }
}
