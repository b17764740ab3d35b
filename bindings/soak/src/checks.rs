//! The checks: a module for each promise, or for some that are alike, which asks the library and
//! checks its answers. `divisions` and `tables` reckon least costs in two ways, `lists` makes lines
//! of words by the rules, and `styled` reads escape sequences.
pub mod displaying;
pub mod divisions;
pub mod fitting;
pub mod in_place;
pub mod least_cost;
pub mod lists;
pub mod lossless;
pub mod paths;
pub mod refilling;
pub mod reflowing;
pub mod searching;
pub mod styled;
pub mod tables;

/// What a check of a promise found.
#[derive(Clone, Copy, Debug, PartialEq, Eq)]
pub enum Finding {
    /// The promise is kept.
    Kept,
    /// The promise is broken.
    Broken,
    /// The promise says nothing of this case.
    PassedOver,
}

impl Finding {
    /// Kept or broken.
    pub fn of(is_kept: bool) -> Self {
        if is_kept {
            Finding::Kept
        } else {
            Finding::Broken
        }
    }
}
