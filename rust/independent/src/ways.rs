//! The rules as they are, and as they were: the older ways are only there to
//! compare with.

/// Which rules become live, and so grow, in a grammar that isn't free.
#[derive(Clone, Copy, Debug, PartialEq, Eq)]
pub enum Live {
    /// The left-recursive ones, as the rules say.
    LeftRecursive,
    /// Every one, as the rules said before. Only to compare with.
    Every,
}

/// Where a repetition makes its own next visit.
#[derive(Clone, Copy, Debug, PartialEq, Eq)]
pub enum Turns {
    /// In the place of the one before, so that no more visits are open, as the
    /// rules say.
    InPlace,
    /// While the one before is open, as the rules said before. Only to compare
    /// with.
    Nested,
}

/// These choices together.
#[derive(Clone, Copy, Debug, PartialEq, Eq)]
pub struct Ways {
    pub live: Live,
    pub turns: Turns,
    /// So many visits may be open at once.
    pub most_open: u64,
}

impl Ways {
    /// As the rules say.
    pub const NOW: Ways = Ways {
        live: Live::LeftRecursive,
        turns: Turns::InPlace,
        most_open: 512,
    };
    /// Every rule becomes live.
    pub const EVERY_LIVE: Ways = Ways {
        live: Live::Every,
        ..Ways::NOW
    };
    /// Each turn of a repetition opens one visit more.
    pub const NESTED: Ways = Ways {
        turns: Turns::Nested,
        ..Ways::NOW
    };
    /// The same, and however many are open it is not too deep.
    pub const NESTED_AT_ANY_DEPTH: Ways = Ways {
        most_open: u64::MAX,
        ..Ways::NESTED
    };
}
