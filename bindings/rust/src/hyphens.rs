//! Hyphenation by the patterns of a language, as Liang's thesis (1983) describes it and TeX does it. The
//! original has it by the crate [`hyphenation`](https://docs.rs/hyphenation) alone.
//!
//! [`Patterns`] are read from a text, which the program brings: dictionaries of most languages come with
//! TeX (`hyph-utf8`) and with LibreOffice (`libhyphen`).
//!
//! ```
//! use textwrap_proved::hyphens::Patterns;
//! use textwrap_proved::{fill, Options, WordSplitter};
//!
//! let text = "hy3ph\nhe2n\nhena4\nhen5at\n1na\nn2at\n1tio\n2io\no2n\n";
//! let patterns = Patterns::parse(text)?;
//! assert_eq!(patterns.points("Hyphenation"), [2, 6]);
//!
//! let options = Options::new(11).word_splitter(WordSplitter::Patterns(patterns));
//! assert_eq!(fill("the hyphenation", &options), "the hyphen-\nation");
//! # Ok::<(), textwrap_proved::hyphens::PatternsError>(())
//! ```
//!
//! If memory runs out, a call [ends the program](crate#memory), and its twin, whose name begins with
//! `try_`, returns [`OutOfMemory`].
use crate::out_of_memory::{or_abort, OutOfMemory};
use crate::room::{listed, mapped, room_for, Refusal};
use crate::shared::Shared;
use crate::{guess, sys};
use alloc::vec::Vec;
use core::error::Error;
use core::fmt;

/// Patterns and exceptions of a language, which say where a word may have a hyphen.
///
/// Clones share what was read, so that options with patterns are cloned without a copy of it.
#[derive(Clone, PartialEq, Eq)]
pub struct Patterns {
    numbers: Shared,
    in_parts: bool,
    soft_hyphens: bool,
    left: usize,
    right: usize,
}

/// Why a text gives no patterns.
#[derive(Clone, Copy, Debug, PartialEq, Eq)]
#[non_exhaustive]
pub enum PatternsError {
    /// This line is wrong, counted from 1. Those before it are right.
    Line(usize),
}

impl fmt::Display for PatternsError {
    fn fmt(&self, f: &mut fmt::Formatter<'_>) -> fmt::Result {
        let PatternsError::Line(line) = self;
        write!(f, "line {line} of the patterns is wrong")
    }
}

impl Error for PatternsError {}

/// How many numbers they are, and what was set.
impl fmt::Debug for Patterns {
    fn fmt(&self, f: &mut fmt::Formatter<'_>) -> fmt::Result {
        f.debug_struct("Patterns")
            .field("numbers", &self.numbers.len())
            .field("in_parts", &self.in_parts)
            .field("soft_hyphens", &self.soft_hyphens)
            .field("left", &self.left)
            .field("right", &self.right)
            .finish()
    }
}

impl Patterns {
    /// Reads patterns from a text.
    ///
    /// It is one of TeX, which begins with `%` or a backslash; a dictionary of `libhyphen`, which
    /// begins with `UTF-8`; or a list with a pattern, such as `hy3ph`, or an exception, such as
    /// `ta-ble`, on each line. In the last two, `LEFTHYPHENMIN` and `RIGHTHYPHENMIN` say how many
    /// letters stay before the first hyphen and behind the last; without them these are 2 and 3.
    ///
    /// # Errors
    ///
    /// [`PatternsError::Line`] with the first line that is wrong.
    ///
    /// # Examples
    ///
    /// ```
    /// use textwrap_proved::hyphens::{Patterns, PatternsError};
    ///
    /// let patterns = Patterns::parse("% the words of a club\n\\hyphenation{ta-ble chairs}\n")?;
    /// assert_eq!(patterns.points("table"), [2]);
    /// assert_eq!(Patterns::parse("hy3ph\nhe/2n\n"), Err(PatternsError::Line(2)));
    /// # Ok::<(), PatternsError>(())
    /// ```
    pub fn parse(text: &str) -> Result<Patterns, PatternsError> {
        or_abort(Patterns::try_parse(text))
    }

    /// The same, with running out of memory as an error.
    ///
    /// # Errors
    ///
    /// [`OutOfMemory`] if memory runs out. The result within it is that of [`parse`](Patterns::parse).
    pub fn try_parse(text: &str) -> Result<Result<Patterns, PatternsError>, OutOfMemory> {
        let (at, at_len, mut line) = (text.as_ptr(), text.len(), 0);
        // SAFETY: a `str` with its length, room with its length, and a line, of which nothing else
        // borrows what is written to; by the header the call writes what it reports.
        let read = unsafe {
            listed(guess::patterns(text), |room, room_len, len| {
                sys::textwrap_patterns_read(at, at_len, room, room_len, len, &mut line)
            })
        };
        match read {
            Ok(numbers) => Ok(Ok(Patterns::of(fitted(numbers))?)),
            Err(Refusal::WrongPatterns) => Ok(Err(PatternsError::Line(line))),
            Err(refusal) => Err(refusal.into()),
        }
    }

    /// The patterns of these numbers, which are whole.
    fn of(numbers: Vec<usize>) -> Result<Patterns, OutOfMemory> {
        let numbers = Shared::of(numbers)?;
        Ok(Patterns { numbers, in_parts: false, soft_hyphens: false, left: 0, right: 0 })
    }

    /// The patterns as numbers, which [`from_numbers`](Patterns::from_numbers) takes in place of the
    /// text, in a small part of the time.
    ///
    /// They hold no address, so they may be kept in a file, for a machine with the same order of bytes.
    /// A later version of this crate may refuse them.
    ///
    /// # Examples
    ///
    /// ```
    /// use textwrap_proved::hyphens::Patterns;
    ///
    /// let patterns = Patterns::parse("ta-ble\n")?;
    /// let kept: Vec<u8> = patterns.as_numbers().iter().flat_map(|n| n.to_le_bytes()).collect();
    ///
    /// let number = |bytes: &[u8]| usize::from_le_bytes(bytes.try_into().unwrap());
    /// let numbers: Vec<usize> = kept.chunks(size_of::<usize>()).map(number).collect();
    /// assert_eq!(Patterns::from_numbers(&numbers), Some(patterns));
    /// # Ok::<(), textwrap_proved::hyphens::PatternsError>(())
    /// ```
    pub fn as_numbers(&self) -> &[usize] {
        &self.numbers
    }

    /// The patterns of these numbers, which [`as_numbers`](Patterns::as_numbers) gave. They do not tell
    /// what [`in_parts`](Patterns::in_parts), [`soft_hyphens`](Patterns::soft_hyphens) and
    /// [`minima`](Patterns::minima) set.
    ///
    /// It is `None` if the numbers are those of another version, or if a sum of all of them tells that
    /// they were damaged. Where it does not tell, words have other points, but none outside of a word.
    ///
    /// # Examples
    ///
    /// ```
    /// use textwrap_proved::hyphens::Patterns;
    ///
    /// let patterns = Patterns::parse("ta-ble\n")?;
    /// let mut numbers = patterns.as_numbers().to_vec();
    /// assert_eq!(Patterns::from_numbers(&numbers), Some(patterns));
    /// numbers[2] += 1;
    /// assert_eq!(Patterns::from_numbers(&numbers), None);
    /// # Ok::<(), textwrap_proved::hyphens::PatternsError>(())
    /// ```
    pub fn from_numbers(numbers: &[usize]) -> Option<Patterns> {
        or_abort(Patterns::try_from_numbers(numbers))
    }

    /// The same, with running out of memory as an error.
    ///
    /// # Errors
    ///
    /// [`OutOfMemory`] if memory runs out.
    pub fn try_from_numbers(numbers: &[usize]) -> Result<Option<Patterns>, OutOfMemory> {
        // SAFETY: a list with its length, which the call reads alone.
        let status = unsafe { sys::textwrap_patterns_check(numbers.as_ptr(), numbers.len()) };
        if status != sys::DONE {
            return Ok(None);
        }
        Ok(Some(Patterns::of(mapped(numbers, usize::clone)?)?))
    }

    /// Sets whether the parts of a word with hyphens are hyphenated too, which at first they are not: such
    /// a word is split behind its hyphens alone.
    ///
    /// # Examples
    ///
    /// ```
    /// use textwrap_proved::hyphens::Patterns;
    /// use textwrap_proved::WordSplitter;
    ///
    /// let patterns = Patterns::parse("ta-ble\n")?;
    /// let splitter = WordSplitter::Patterns(patterns.clone());
    /// assert_eq!(splitter.split_points("a table-table"), [8]);
    /// let splitter = WordSplitter::Patterns(patterns.in_parts(true));
    /// assert_eq!(splitter.split_points("a table-table"), [4, 8, 10]);
    /// # Ok::<(), textwrap_proved::hyphens::PatternsError>(())
    /// ```
    #[must_use]
    pub fn in_parts(mut self, in_parts: bool) -> Patterns {
        self.in_parts = in_parts;
        self
    }

    /// Sets whether soft hyphens (U+00AD) are the only points of a word in which a letter stands directly
    /// behind one. At first they are not: a word has the points that it has without them.
    ///
    /// # Examples
    ///
    /// ```
    /// use textwrap_proved::hyphens::Patterns;
    /// use textwrap_proved::{wrap, Options, WordSplitter};
    ///
    /// let patterns = Patterns::parse("ta-ble\n")?.soft_hyphens(true);
    /// assert_eq!(patterns.points("tab\u{ad}le"), [5]);
    /// assert_eq!(patterns.points("table"), [2]);
    /// let options = Options::new(4).word_splitter(WordSplitter::Patterns(patterns));
    /// assert_eq!(wrap("tab\u{ad}le", options), ["tab\u{ad}-", "le"]);
    /// # Ok::<(), textwrap_proved::hyphens::PatternsError>(())
    /// ```
    #[must_use]
    pub fn soft_hyphens(mut self, soft_hyphens: bool) -> Patterns {
        self.soft_hyphens = soft_hyphens;
        self
    }

    /// Sets how many letters stay before the first hyphen of a word and behind the last, whatever the
    /// text said. 0 stands for what it said.
    ///
    /// # Examples
    ///
    /// ```
    /// use textwrap_proved::hyphens::Patterns;
    ///
    /// let patterns = Patterns::parse("1b\n1l\n")?;
    /// assert_eq!(patterns.points("table"), [2]);
    /// assert_eq!(patterns.minima(3, 2).points("table"), [3]);
    /// # Ok::<(), textwrap_proved::hyphens::PatternsError>(())
    /// ```
    #[must_use]
    pub fn minima(mut self, left: usize, right: usize) -> Patterns {
        self.left = left;
        self.right = right;
        self
    }

    /// The offsets in bytes at which a word has a hyphen. They increase, and are character boundaries
    /// inside the word.
    ///
    /// Each longest run of letters is a word for itself, so the word may have quotation marks and
    /// commas around it. Capital letters count as small ones; escape sequences are not seen, nor are soft
    /// hyphens, unless they are [the points](Patterns::soft_hyphens). A word with a hyphen (`-` or U+2010)
    /// has points of the patterns only [in parts](Patterns::in_parts).
    ///
    /// # Examples
    ///
    /// ```
    /// use textwrap_proved::hyphens::Patterns;
    ///
    /// let patterns = Patterns::parse("ta-ble\n")?;
    /// assert_eq!(patterns.points("(Table),"), [3]);
    /// assert_eq!(patterns.points("chair"), []);
    /// # Ok::<(), textwrap_proved::hyphens::PatternsError>(())
    /// ```
    pub fn points(&self, word: &str) -> Vec<usize> {
        or_abort(self.try_points(word))
    }

    /// The same, with running out of memory as an error.
    ///
    /// # Errors
    ///
    /// [`OutOfMemory`] if memory runs out.
    pub fn try_points(&self, word: &str) -> Result<Vec<usize>, OutOfMemory> {
        let dictionary = self.to_sys();
        let (letters, letters_len) = (word.as_ptr(), word.len());
        // They are no more than the bytes of the word.
        // SAFETY: a dictionary that borrows its numbers from here, a `str` with its length, and room with
        // its length, of which nothing else borrows what is written to; by the header the call writes what
        // it reports.
        let points = unsafe {
            listed(word.len(), |room, room_len, count| {
                sys::textwrap_hyphen_points(&dictionary, letters, letters_len, room, room_len, count)
            })
        };
        Ok(points?)
    }

    /// The patterns as C has them. The library wrote their numbers, or has checked them, and nothing
    /// writes to them. So no call has to test them, which would take longer than to find the points of a
    /// word.
    pub(crate) fn to_sys(&self) -> sys::Dictionary {
        sys::Dictionary {
            numbers: self.numbers.as_ptr(),
            numbers_len: self.numbers.len(),
            in_parts: self.in_parts.into(),
            is_checked: 1,
            soft_hyphens: self.soft_hyphens.into(),
            reserved: 0,
            left: self.left,
            right: self.right,
        }
    }
}

impl sys::Dictionary {
    /// No dictionary.
    pub(crate) const NONE: sys::Dictionary = sys::Dictionary {
        numbers: [].as_ptr(),
        numbers_len: 0,
        in_parts: 0,
        is_checked: 0,
        soft_hyphens: 0,
        reserved: 0,
        left: 0,
        right: 0,
    };
}

/// The numbers in room of their length, if they leave much of theirs and there is memory for that.
fn fitted(numbers: Vec<usize>) -> Vec<usize> {
    if numbers.len() > numbers.capacity() / 8 * 7 {
        return numbers;
    }
    match room_for(numbers.len()) {
        Ok(mut copy) => {
            copy.extend_from_slice(&numbers);
            copy
        }
        Err(_) => numbers,
    }
}
