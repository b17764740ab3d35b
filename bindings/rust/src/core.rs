//! What wrapping is made of: fragments, words and the columns of a text.
//!
//! [`wrap()`](crate::wrap()) goes through these steps. A caller who wants something else between
//! them takes them one by one:
//!
//! 1. [`WordSeparator::find_words`](crate::WordSeparator::find_words) finds the words of a line.
//! 2. [`split_words`](crate::word_splitters::split_words) splits them at hyphens, or where else a
//!    [`WordSplitter`](crate::WordSplitter) says.
//! 3. [`break_words`] breaks those that are still too wide for a line.
//! 4. [`wrap_first_fit`](crate::wrap_algorithms::wrap_first_fit) or
//!    [`wrap_optimal_fit`](crate::wrap_algorithms::wrap_optimal_fit) divides them into lines. Both
//!    take any [`Fragment`], so also items that are no words.
//!
//! ```
//! use textwrap_proved::core::break_words;
//! use textwrap_proved::word_splitters::split_words;
//! use textwrap_proved::wrap_algorithms::wrap_first_fit;
//! use textwrap_proved::{WordSeparator, WordSplitter};
//!
//! let words = WordSeparator::AsciiSpace.find_words("A foo-bar, unbreakable");
//! let pieces = break_words(split_words(words, &WordSplitter::HyphenSplitter), 6);
//! let lines = wrap_first_fit(&pieces, &[6.0]);
//! let texts: Vec<Vec<&str>> =
//!     lines.iter().map(|line| line.iter().map(|piece| piece.word).collect()).collect();
//! assert_eq!(texts, [vec!["A", "foo-"], vec!["bar,"], vec!["unbrea"], vec!["kable"]]);
//! ```
use crate::out_of_memory::{or_abort, OutOfMemory};
use crate::room::{list_by, text_by, value_by};
use crate::sys;
use alloc::string::String;
use alloc::vec::Vec;
use core::fmt::Debug;
use core::ops::Deref;

/// The columns that a text takes in a terminal.
///
/// Escape sequences take none, as those for colours and links. Each other character counts by
/// itself: most count 1, wide ones such as `好` and most emoji 2, and combining accents and control
/// characters 0. So an emoji that several characters make up may count more than a terminal shows.
///
/// # Examples
///
/// ```
/// use textwrap_proved::core::display_width;
///
/// assert_eq!(display_width("Grüße"), 5);
/// assert_eq!(display_width("\u{1b}[32mgrün\u{1b}[0m"), 4);
/// assert_eq!(display_width("u\u{308}"), 1);
/// assert_eq!(display_width("你好"), 4);
/// ```
pub fn display_width(text: &str) -> usize {
    value_by!(textwrap_display_width_utf8(text))
}

/// The text without its escape sequences, as those for colours and links.
///
/// # Examples
///
/// ```
/// use textwrap_proved::core::strip_ansi_escape_sequences;
///
/// assert_eq!(strip_ansi_escape_sequences("\u{1b}[32mgrün\u{1b}[0m"), "grün");
/// ```
pub fn strip_ansi_escape_sequences(text: &str) -> String {
    or_abort(text_by!(text.len(), textwrap_strip_ansi_escape_sequences(text)))
}

/// An item that is placed on a line and never cut.
///
/// The widths are in a unit of the implementor's choice. They are `f64` as in the original, but
/// have to be whole numbers from 0 to `usize::MAX`; see
/// [`wrap_first_fit`](crate::wrap_algorithms::wrap_first_fit) and
/// [`wrap_optimal_fit`](crate::wrap_algorithms::wrap_optimal_fit) for what happens to others. A
/// caller with fractions counts in a smaller unit.
///
/// # Examples
///
/// ```
/// use textwrap_proved::core::Fragment;
/// use textwrap_proved::wrap_algorithms::wrap_first_fit;
///
/// /// A picture so many pixels wide, with 8 pixels between two of a row.
/// #[derive(Debug, PartialEq)]
/// struct Picture(u32);
///
/// impl Fragment for Picture {
///     fn width(&self) -> f64 { self.0.into() }
///     fn whitespace_width(&self) -> f64 { 8.0 }
///     fn penalty_width(&self) -> f64 { 0.0 }
/// }
///
/// let pictures = [Picture(100), Picture(80), Picture(100)];
/// let rows = wrap_first_fit(&pictures, &[200.0]);
/// assert_eq!(rows, [&[Picture(100), Picture(80)][..], &[Picture(100)]]);
/// ```
pub trait Fragment: Debug {
    /// What it takes.
    fn width(&self) -> f64;

    /// What the space after it takes, if another fragment follows on the line.
    fn whitespace_width(&self) -> f64;

    /// What it takes more at the end of a line, as a hyphen does.
    fn penalty_width(&self) -> f64;
}

/// A word, or a part of one, with the blanks after it. It derefs to its text.
#[derive(Clone, Copy, Debug, PartialEq, Eq)]
pub struct Word<'a> {
    /// Its text.
    pub word: &'a str,
    /// The blanks after it, which are shown if it does not end a line.
    pub whitespace: &'a str,
    /// What is shown after it if it ends a line: `"-"`, or nothing.
    pub penalty: &'a str,
    /// The columns of its text.
    pub width: usize,
}

impl Deref for Word<'_> {
    type Target = str;

    fn deref(&self) -> &str {
        self.word
    }
}

impl<'a> Word<'a> {
    /// A text as a word: the blanks (U+0020) at its end are its whitespace, and it has no penalty.
    ///
    /// # Examples
    ///
    /// ```
    /// use textwrap_proved::core::Word;
    ///
    /// let word = Word::from("pears   ");
    /// assert_eq!((word.word, word.whitespace, word.penalty, word.width), ("pears", "   ", "", 5));
    /// assert!(word.starts_with("pear"));
    /// ```
    pub fn from(word: &str) -> Word<'_> {
        let text = word.trim_end_matches(' ');
        Word {
            word: text,
            whitespace: &word[text.len()..],
            penalty: "",
            width: display_width(text),
        }
    }

    /// The parts of the word, each of so many columns at most. The last one has the whitespace and
    /// the penalty.
    ///
    /// No escape sequence is cut. A part is wider than `line_width` only if its first character
    /// with columns is. A word without text has no parts.
    ///
    /// # Examples
    ///
    /// ```
    /// use textwrap_proved::core::Word;
    ///
    /// let parts: Vec<Word> = Word::from("pears  ").break_apart(3).collect();
    /// assert_eq!(parts, [Word::from("pea"), Word::from("rs  ")]);
    /// ```
    pub fn break_apart<'b>(&'b self, line_width: usize) -> impl Iterator<Item = Word<'a>> + 'b {
        let pieces = or_abort(self.broken(line_width));
        let count = pieces.len();
        pieces.into_iter().enumerate().map(move |(i, piece)| {
            let is_last = i + 1 == count;
            Word {
                word: &self.word[piece.offset..piece.offset + piece.len],
                whitespace: if is_last { self.whitespace } else { "" },
                penalty: if is_last { self.penalty } else { "" },
                width: piece.width,
            }
        })
    }

    /// Where the parts stand in the text of the word.
    fn broken(&self, line_width: usize) -> Result<Vec<sys::Piece>, OutOfMemory> {
        let word = self.word;
        let guess = (self.width / line_width.max(1)).saturating_add(2).min(word.len());
        Ok(list_by!(guess, textwrap_break_apart(word; line_width))?)
    }

    /// What stands at this place of a text.
    pub(crate) fn at(text: &'a str, piece: &sys::Piece) -> Word<'a> {
        let end = piece.offset + piece.len;
        Word {
            word: &text[piece.offset..end],
            whitespace: &text[end..end + piece.whitespace_len],
            penalty: if piece.penalty_len > 0 { "-" } else { "" },
            width: piece.width,
        }
    }
}

/// The width is the field, and the others are lengths in bytes: blanks and hyphens are as wide as
/// long.
impl Fragment for Word<'_> {
    #[inline]
    fn width(&self) -> f64 {
        self.width as f64
    }

    #[inline]
    fn whitespace_width(&self) -> f64 {
        self.whitespace.len() as f64
    }

    #[inline]
    fn penalty_width(&self) -> f64 {
        self.penalty.len() as f64
    }
}

/// The words, of which those that are wider than `line_width` columns are broken, as by
/// [`Word::break_apart`]. No hyphens are added.
///
/// # Examples
///
/// ```
/// use textwrap_proved::core::{break_words, Word};
///
/// let words = [Word::from("ab "), Word::from("cdef ")];
/// assert_eq!(break_words(words, 2), [Word::from("ab "), Word::from("cd"), Word::from("ef ")]);
/// ```
pub fn break_words<'a, I>(words: I, line_width: usize) -> Vec<Word<'a>>
where
    I: IntoIterator<Item = Word<'a>>,
{
    let mut broken = Vec::new();
    for word in words {
        if word.width > line_width {
            broken.extend(word.break_apart(line_width));
        } else {
            broken.push(word);
        }
    }
    broken
}
