//! The promise that filling in place makes the lines of first fit, with words kept whole.
use super::Finding;
use crate::cases::settings::{Algorithm, Settings};
use crate::cases::Case;
use std::borrow::Cow;
use textwrap_proved::{fill_inplace, wrap};

/// What the library makes of a case's text.
#[derive(Clone, Debug)]
pub struct InPlace<'c> {
    /// The text, filled in place.
    pub filled: String,
    /// Its lines by first fit, with words kept whole.
    pub lines: Vec<Cow<'c, str>>,
}

impl<'c> InPlace<'c> {
    /// Asks the library.
    pub fn of_case(case: &'c Case) -> Self {
        let width = case.settings.width;
        let mut filled = case.text.clone();
        fill_inplace(&mut filled, width);
        let unbroken = Settings::unbroken(width, Algorithm::FirstFit);
        InPlace { filled, lines: wrap(&case.text, unbroken.options()) }
    }
}

/// Checks the text that filling in place leaves.
pub fn check(case: &Case, found: &InPlace<'_>) -> Finding {
    let only_blanks = only_blanks_change(&case.text, &found.filled);
    Finding::of(only_blanks && has_lines(&found.filled, &found.lines))
}

/// Whether all that changed is that some blanks became line feeds.
fn only_blanks_change(old: &str, new: &str) -> bool {
    let mut pairs = old.bytes().zip(new.bytes());
    old.len() == new.len() && pairs.all(|(old, new)| old == new || (old == b' ' && new == b'\n'))
}

/// Whether these are the lines of the text, without the blanks that they end in.
fn has_lines(filled: &str, lines: &[Cow<'_, str>]) -> bool {
    filled.split('\n').map(|part| part.trim_end_matches(' ')).eq(lines)
}
