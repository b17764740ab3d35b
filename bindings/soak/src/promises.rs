//! The promises that each round checks.
use crate::answers::Answers;
use crate::cases::Case;
use crate::checks::{
    displaying, fitting, in_place, least_cost, lossless, paths, refilling, reflowing, searching,
    Finding,
};

/// A promise of the library.
#[derive(Clone, Copy, Debug, PartialEq, Eq)]
pub enum Promise {
    /// The lines of a text are the text.
    Lossless,
    /// The lines of first fit keep to their widths.
    Fitting,
    /// No division costs less than that of optimal fit.
    LeastCost,
    /// The search finds what the table has.
    Searching,
    /// `fill` joins the lines of the lists of words.
    Filled,
    /// `wrap` gives the lines of the lists of words.
    Listed,
    /// `wrap` wraps one paragraph after the other.
    Paragraphs,
    /// A short paragraph has the lines of the lists of words too.
    Shortcut,
    /// Filling in place makes the lines of first fit.
    InPlace,
    /// Refilling a plain text is filling it on one line.
    Refilled,
    /// Filling and refilling is filling once.
    Twice,
    /// Reflowing again changes nothing.
    ReflowedStays,
    /// Reflowing and reflowing otherwise is reflowing once.
    ReflowedOnce,
    /// Reflowing keeps the words, and the lines without any.
    ReflowedWords,
    /// Carried styles show each line by itself as the text shows it.
    Carried,
    /// And so do lines that carry attributes.
    Attributed,
    /// Justified lines are as wide as the width, and have the same words.
    Justified,
    /// The rows of a table have the lines of its cells, and are as wide as its columns.
    Rows,
    /// A shortened line is as much of the line as fits.
    Shortened,
    /// Blanks stand in the place of tabs, up to columns that the stop divides.
    Expanded,
    /// Balanced lines are those of the least width that takes no more of them.
    Balanced,
    /// Widths that fit two columns add up, and hold what has room.
    Fitted,
}

/// How many promises there are.
pub const PROMISES_LEN: usize = 22;

/// All promises and what the program calls them, in the order in which a round checks them.
pub const PROMISES: [(Promise, &str); PROMISES_LEN] = [
    (Promise::Lossless, "lossless"),
    (Promise::Fitting, "fitting"),
    (Promise::LeastCost, "least_cost"),
    (Promise::Searching, "searching"),
    (Promise::Filled, "filled"),
    (Promise::Listed, "listed"),
    (Promise::Paragraphs, "paragraphs"),
    (Promise::Shortcut, "shortcut"),
    (Promise::InPlace, "in_place"),
    (Promise::Refilled, "refilled"),
    (Promise::Twice, "twice"),
    (Promise::ReflowedStays, "reflowed_stays"),
    (Promise::ReflowedOnce, "reflowed_once"),
    (Promise::ReflowedWords, "reflowed_words"),
    (Promise::Carried, "carried"),
    (Promise::Attributed, "attributed"),
    (Promise::Justified, "justified"),
    (Promise::Rows, "rows"),
    (Promise::Shortened, "shortened"),
    (Promise::Expanded, "expanded"),
    (Promise::Balanced, "balanced"),
    (Promise::Fitted, "fitted"),
];

impl Promise {
    /// Checks the promise on a case and what a library answered. That a call did not return breaks
    /// the promise too.
    pub fn check(self, case: &Case, answers: &Answers<'_>) -> Finding {
        if self.is_of_reflow() && answers.reflows.is_none() {
            return Finding::PassedOver;
        }
        self.find(case, answers).unwrap_or(Finding::Broken)
    }

    /// Whether this is a promise of the program `reflow`, which is not asked in each round.
    fn is_of_reflow(self) -> bool {
        matches!(self, Promise::ReflowedStays | Promise::ReflowedOnce | Promise::ReflowedWords)
    }

    /// What the check finds, if there is an answer.
    fn find(self, case: &Case, answers: &Answers<'_>) -> Option<Finding> {
        let ways = answers.ways.as_ref();
        let refills = answers.refills.as_ref();
        let reflows = answers.reflows.as_ref().and_then(Option::as_ref);
        let displays = answers.displays.as_ref();
        Some(match self {
            Promise::Lossless => lossless::check(case, &ways?.wrapped),
            Promise::Fitting => fitting::check(case, &ways?.wrapped),
            Promise::LeastCost => least_cost::check(&case.few, answers.few.as_ref()?),
            Promise::Searching => searching::check(&case.many, answers.many.as_ref()?),
            Promise::Filled => paths::check_filled(case, ways?),
            Promise::Listed => paths::check_listed(ways?),
            Promise::Paragraphs => paths::check_paragraphs(ways?),
            Promise::Shortcut => paths::check_shortcut(case, ways?),
            Promise::InPlace => in_place::check(case, answers.in_place.as_ref()?),
            Promise::Refilled => refilling::check_refilled(refills?),
            Promise::Twice => refilling::check_twice(case, refills?),
            Promise::ReflowedStays => reflowing::check_stays(reflows?),
            Promise::ReflowedOnce => reflowing::check_once(reflows?),
            Promise::ReflowedWords => reflowing::check_words(case, reflows?),
            Promise::Carried => displaying::check_carried(case, displays?),
            Promise::Attributed => displaying::check_attributed(case, displays?),
            Promise::Justified => displaying::check_justified(case, displays?),
            Promise::Rows => displaying::check_rows(case, displays?),
            Promise::Shortened => displaying::check_shortened(case, displays?),
            Promise::Expanded => displaying::check_expanded(case, displays?),
            Promise::Balanced => displaying::check_balanced(case, displays?),
            Promise::Fitted => displaying::check_fitted(case, displays?),
        })
    }
}
