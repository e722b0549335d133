//! How live uses are looked for.
//!
//! No part of the rules: they say what is held, not how it is found. It is
//! counted because a reader that keeps the live uses in a list and goes
//! through it takes time for each entry.

/// Sums over the searches of a reading: one for each use of a rule that grows,
/// the reading's own included. Other rules are not looked for.
#[derive(Clone, Copy, Debug, Default, PartialEq, Eq)]
pub struct Searches {
    pub made: u64,
    /// Those whose use is live.
    pub found: u64,
    /// The most uses live at a search.
    pub most_live: u64,
    /// The uses live at each search.
    pub live: u64,
    /// Entries gone through until a live use is found, from the newest on.
    pub found_from_newest: u64,
    /// The same from the oldest on.
    pub found_from_oldest: u64,
    /// Entries gone through for uses that are not live: all there are.
    pub in_vain: u64,
    /// The same from the newest on, no further than the first of an earlier
    /// position: live uses stand in the order of their positions.
    pub in_vain_here: u64,
}

impl Searches {
    /// A use that is live, with so many older ones.
    pub(crate) fn find(&mut self, live: u64, older: u64) {
        self.search(live);
        self.found += 1;
        self.found_from_newest += live - older;
        self.found_from_oldest += older + 1;
    }

    /// A use that is not live, with so many live at its position.
    pub(crate) fn miss(&mut self, live: u64, here: u64) {
        self.search(live);
        self.in_vain += live;
        self.in_vain_here += live.min(here + 1);
    }

    fn search(&mut self, live: u64) {
        self.made += 1;
        self.most_live = self.most_live.max(live);
        self.live += live;
    }
}
