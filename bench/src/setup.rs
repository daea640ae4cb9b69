//! How a survey store is set up, and how its recorder begins.

/// The threshold of the main tables.
const THRESHOLD: u64 = 4;

/// Tidies behind a flush in the first list of the main tables.
const FIRST_TIDIES: usize = 4;

#[derive(Clone, Copy, PartialEq, Eq, Debug)]
pub struct Setup {
    pub places: usize,
    pub threshold: u64,
    /// Tidies behind a flush in the first list; none where the recorder never tidies, so that flushed tables stay on level 0.
    pub tidies: Option<usize>,
}

impl Setup {
    /// As the stores of the main tables are.
    pub const fn of(places: usize) -> Setup {
        Setup { places, threshold: THRESHOLD, tidies: Some(FIRST_TIDIES) }
    }
}
