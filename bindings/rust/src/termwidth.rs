//! The width of the terminal.
use crate::Options;
use terminal_size::{terminal_size, Width};

/// The columns of the terminal, or 80 if none is known, as where the output is no terminal.
///
/// The crate [`terminal_size`](https://docs.rs/terminal_size) asks for it. The call is there by the
/// feature of that name.
///
/// # Examples
///
/// With a margin of two columns at both sides:
///
/// ```
/// use textwrap_proved::{fill, termwidth, Options};
///
/// let width = termwidth().saturating_sub(2);
/// let options = Options::new(width).initial_indent("  ").subsequent_indent("  ");
/// println!("{}", fill("a short text", options));
/// ```
pub fn termwidth() -> usize {
    terminal_size().map_or(80, |(Width(columns), _)| columns.into())
}

impl Options<'_> {
    /// The defaults at the width of the terminal, as [`termwidth`] tells it. It is there by the
    /// feature `terminal_size`.
    ///
    /// ```
    /// use textwrap_proved::{termwidth, Options};
    ///
    /// assert_eq!(Options::with_termwidth().width, termwidth());
    /// ```
    pub fn with_termwidth() -> Self {
        Options::new(termwidth())
    }
}
