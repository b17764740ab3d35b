//! The promises of refilling plain texts, without indents.
use super::Finding;
use crate::cases::settings::Settings;
use crate::cases::Case;
use textwrap_proved::{fill, refill};

/// What the library makes of a case's plain text, by its settings without indents.
#[derive(Clone, Debug)]
pub struct Refills {
    /// The text, refilled.
    pub refilled: String,
    /// The text on one line, filled.
    pub once: String,
    /// The text on one line, filled at the first width with its words kept whole.
    pub first: String,
    /// That text, refilled.
    pub twice: String,
}

impl Refills {
    /// Asks the library.
    pub fn of_case(case: &Case) -> Self {
        let text = on_one_line(&case.plain);
        let settings = case.settings.without_indents();
        let unbroken = Settings::unbroken(case.first_width, settings.algorithm);
        let first = fill(&text, unbroken.options());
        Refills {
            refilled: refill(&case.plain, settings.options()),
            once: fill(&text, settings.options()),
            twice: refill(&first, settings.options()),
            first,
        }
    }
}

/// Checks that refilling a plain text is filling it on one line. This one was filled already: the
/// line feeds stand anywhere.
pub fn check_refilled(found: &Refills) -> Finding {
    Finding::of(found.refilled == found.once)
}

/// Checks that filling a plain text of one line, with its words kept whole, only makes some blanks
/// line feeds, and that refilling it at a second width is filling it once at that width.
pub fn check_twice(case: &Case, found: &Refills) -> Finding {
    let is_text = on_one_line(&found.first) == on_one_line(&case.plain);
    Finding::of(is_text && found.twice == found.once)
}

/// The text with a blank in the place of each line feed.
fn on_one_line(text: &str) -> String {
    text.replace('\n', " ")
}
