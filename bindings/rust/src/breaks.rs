//! Where a line of text may or must end, by the Unicode line breaking algorithm
//! ([UAX #14](https://www.unicode.org/reports/tr14/)), with the rules of Unicode 15.0.
use crate::out_of_memory::{or_abort, OutOfMemory};
use crate::room::{in_place, list_by};
use crate::{guess, sys};
use alloc::vec::Vec;

/// How numbers are kept together: the two forms of a rule in the annex.
#[derive(Clone, Copy, Debug, Default, PartialEq, Eq)]
pub enum Numbers {
    /// By pairs of characters, so that no line ends within `.35`. This is what
    /// [`UnicodeBreakProperties`](crate::WordSeparator::UnicodeBreakProperties) goes by.
    #[default]
    ByPairs,
    /// By the expression of numbers, which later versions of the annex made the rule.
    ByExpression,
}

/// A place of a text where a line may or must end.
#[derive(Clone, Copy, Debug, PartialEq, Eq)]
pub struct LineBreak {
    /// How many bytes of the text come before it.
    pub offset: usize,
    /// Whether a line must end there: after a line feed or its like, and at the end of the text.
    pub is_mandatory: bool,
}

/// Where a line of the text may or must end, in order. The last place is the end, unless the text is
/// empty.
///
/// # Examples
///
/// ```
/// use textwrap_proved::breaks::{line_breaks, Numbers};
///
/// let breaks = line_breaks("foo bar\nbaz", Numbers::ByPairs);
/// let places: Vec<_> = breaks.iter().map(|place| (place.offset, place.is_mandatory)).collect();
/// assert_eq!(places, [(4, false), (8, true), (11, true)]);
/// assert_eq!(line_breaks("equals .35", Numbers::ByPairs).len(), 1);
/// assert_eq!(line_breaks("equals .35", Numbers::ByExpression).len(), 2);
/// ```
pub fn line_breaks(text: &str, numbers: Numbers) -> Vec<LineBreak> {
    or_abort(try_line_breaks(text, numbers))
}

/// The same, with running out of memory as an error.
///
/// # Errors
/// [`OutOfMemory`] if memory runs out.
pub fn try_line_breaks(text: &str, numbers: Numbers) -> Result<Vec<LineBreak>, OutOfMemory> {
    let unicode_breaks = match numbers {
        Numbers::ByPairs => 1,
        Numbers::ByExpression => 2,
    };
    let found = list_by!(guess::breaks(text), textwrap_line_breaks(text; unicode_breaks))?;
    in_place(found, |sys::LineBreak { offset, is_mandatory }| {
        Ok(LineBreak { offset, is_mandatory: is_mandatory != 0 })
    })
}
