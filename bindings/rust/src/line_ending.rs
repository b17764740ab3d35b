//! What ends a paragraph.

/// What ends a paragraph, and joins the lines of a filled text.
///
/// # Examples
///
/// ```
/// use textwrap_proved::{fill, LineEnding, Options};
///
/// let options = Options::new(5).line_ending(LineEnding::CRLF);
/// assert_eq!(fill("foo bar\r\nbaz", options), "foo\r\nbar\r\nbaz");
/// ```
#[derive(Clone, Copy, Debug, PartialEq, Eq)]
pub enum LineEnding {
    /// A carriage return and a line feed, as in Windows.
    CRLF,
    /// A line feed, as in Unix.
    LF,
}

impl LineEnding {
    /// The ending itself: `"\r\n"` or `"\n"`.
    ///
    /// ```
    /// assert_eq!(textwrap_proved::LineEnding::CRLF.as_str(), "\r\n");
    /// ```
    #[inline]
    pub const fn as_str(&self) -> &'static str {
        match self {
            LineEnding::CRLF => "\r\n",
            LineEnding::LF => "\n",
        }
    }
}
