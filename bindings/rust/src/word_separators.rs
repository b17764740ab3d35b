//! Where a line is cut into words.
//!
//! [`WordSeparator`] says it. A caller with a line segmenter makes words of its offsets by
//! [`find_words_at`].
use crate::core::Word;
use crate::options::Options;
use crate::out_of_memory::{or_abort, OutOfMemory};
use crate::room::{list_by, reserve, room_for, Refusal};
use crate::word_splitters::WordSplitter;
use crate::{guess, sys};
use alloc::boxed::Box;
use alloc::vec::Vec;
use core::error::Error;
use core::fmt;

/// Where a line is cut into words.
///
/// The words do not change the text: one after another, each with its whitespace, they are the
/// line.
///
/// # Examples
///
/// ```
/// use textwrap_proved::core::Word;
/// use textwrap_proved::WordSeparator::AsciiSpace;
///
/// let words: Vec<Word> = AsciiSpace.find_words("apples   pears").collect();
/// assert_eq!(words, [Word::from("apples   "), Word::from("pears")]);
/// ```
#[derive(Clone, Copy, Debug)]
pub enum WordSeparator {
    /// Between a blank (U+0020) and a character that is no blank.
    ///
    /// ```
    /// use textwrap_proved::core::Word;
    /// use textwrap_proved::WordSeparator::AsciiSpace;
    ///
    /// let words: Vec<Word> = AsciiSpace.find_words("  foo\tbar baz").collect();
    /// assert_eq!(words, [Word::from("  "), Word::from("foo\tbar "), Word::from("baz")]);
    /// ```
    AsciiSpace,

    /// Where the Unicode line breaking algorithm
    /// ([UAX #14](https://www.unicode.org/reports/tr14/)) lets a line end, by its text without
    /// escape sequences; but not right after a hyphen `-` or a soft hyphen (U+00AD), which is left
    /// to a [`WordSplitter`]. The rules are those of Unicode 15.0.
    ///
    /// ```
    /// use textwrap_proved::core::Word;
    /// use textwrap_proved::WordSeparator::UnicodeBreakProperties;
    ///
    /// let words: Vec<Word> = UnicodeBreakProperties.find_words("foo-bar 你好！").collect();
    /// assert_eq!(words, [Word::from("foo-bar "), Word::from("你"), Word::from("好！")]);
    /// ```
    UnicodeBreakProperties,

    /// Where a function says, which returns the words of a line.
    ///
    /// `wrap` and `fill` panic unless the words tile the line: one after another they are the line,
    /// and each is what [`Word::from`] makes of its part of it. Words without text and without
    /// whitespace are left out, and the field `width` is not looked at.
    ///
    /// ```
    /// use textwrap_proved::core::Word;
    /// use textwrap_proved::{wrap, Options, WordSeparator};
    ///
    /// fn after_commas(line: &str) -> Box<dyn Iterator<Item = Word<'_>> + '_> {
    ///     Box::new(line.split_inclusive(',').map(Word::from))
    /// }
    ///
    /// let options = Options::new(12).word_separator(WordSeparator::Custom(after_commas));
    /// assert_eq!(wrap("a b,c d e,f g h,i", options), ["a b,c d e,", "f g h,i"]);
    /// ```
    Custom(fn(line: &str) -> Box<dyn Iterator<Item = Word<'_>> + '_>),
}

/// A `Custom` equals no value, not even itself, since functions cannot be compared.
///
/// ```
/// use textwrap_proved::core::Word;
/// use textwrap_proved::WordSeparator;
///
/// assert_ne!(WordSeparator::UnicodeBreakProperties, WordSeparator::AsciiSpace);
///
/// fn whole(line: &str) -> Box<dyn Iterator<Item = Word<'_>> + '_> {
///     Box::new(std::iter::once(Word::from(line)))
/// }
/// assert_ne!(WordSeparator::Custom(whole), WordSeparator::Custom(whole));
/// ```
impl PartialEq for WordSeparator {
    #[inline]
    fn eq(&self, other: &Self) -> bool {
        use WordSeparator::{AsciiSpace, UnicodeBreakProperties};
        matches!(
            (self, other),
            (AsciiSpace, AsciiSpace) | (UnicodeBreakProperties, UnicodeBreakProperties)
        )
    }
}

impl WordSeparator {
    /// The default: [`UnicodeBreakProperties`](WordSeparator::UnicodeBreakProperties), or
    /// [`AsciiSpace`](WordSeparator::AsciiSpace) without the feature `unicode-linebreak`.
    pub const fn new() -> Self {
        if cfg!(feature = "unicode-linebreak") {
            WordSeparator::UnicodeBreakProperties
        } else {
            WordSeparator::AsciiSpace
        }
    }

    /// The words of a line. A line ending in it is taken for a character. Those of a function of the
    /// caller are returned as they are.
    ///
    /// See [`WordSeparator`] for an example.
    ///
    /// # Panics
    ///
    /// If the function of a [`Custom`](WordSeparator::Custom) panics.
    pub fn find_words<'a>(&self, line: &'a str) -> Box<dyn Iterator<Item = Word<'a>> + 'a> {
        let words = match self {
            WordSeparator::AsciiSpace => words_between_blanks(line),
            WordSeparator::UnicodeBreakProperties => words_between_breaks(line),
            WordSeparator::Custom(function) => return function(line),
        };
        Box::new(or_abort(words).into_iter().map(move |place| Word::at(line, &place)))
    }

    /// Where a line is cut into its words.
    ///
    /// # Panics
    /// If a function of the caller gives other words than those of the line.
    pub(crate) fn cuts_of(&self, line: &str) -> Result<Vec<usize>, OutOfMemory> {
        match self {
            WordSeparator::AsciiSpace => {
                let places = words_between_blanks(line)?;
                let mut cuts = room_for(places.len())?;
                cuts.extend(places.iter().skip(1).map(|place| place.offset));
                Ok(cuts)
            }
            WordSeparator::UnicodeBreakProperties => unicode_cuts(line),
            WordSeparator::Custom(function) => cuts_between(function(line), line),
        }
    }
}

impl Default for WordSeparator {
    fn default() -> Self {
        WordSeparator::new()
    }
}

/// Where a line is cut into these words of a function of the caller. Words without text and without
/// whitespace are left out.
///
/// # Panics
/// If the words do not tile the line.
fn cuts_between<'a>(
    words: impl Iterator<Item = Word<'a>>,
    line: &str,
) -> Result<Vec<usize>, OutOfMemory> {
    let mut cuts = Vec::new();
    let mut start = 0;
    for word in words {
        assert_stands_at(&word, start, line);
        let len = word.word.len() + word.whitespace.len();
        if len > 0 && start > 0 {
            reserve(&mut cuts, 1)?;
            cuts.push(start);
        }
        start += len;
    }
    assert!(
        start == line.len(),
        "the words of a WordSeparator::Custom have to tile the line; the rest {:?} of {line:?} is in \
         no word",
        &line[start..]
    );
    Ok(cuts)
}

/// Panics unless a word is what `Word::from` makes of the part of the line at this place.
fn assert_stands_at(word: &Word<'_>, start: usize, line: &str) {
    let Word { word: text, whitespace, penalty, .. } = *word;
    let rest = line.get(start..).and_then(|rest| rest.strip_prefix(text));
    assert!(
        rest.is_some_and(|rest| rest.starts_with(whitespace)),
        "the words of a WordSeparator::Custom have to tile the line; {text:?} and {whitespace:?} \
         do not stand at byte {start} of {line:?}"
    );
    assert!(
        !text.ends_with(' ') && whitespace.trim_end_matches(' ').is_empty() && penalty.is_empty(),
        "the words of a WordSeparator::Custom have to be as Word::from makes them, with the blanks \
         at their end for whitespace and without a penalty; {word:?} is not"
    );
}

/// Where the words between blanks stand.
fn words_between_blanks(line: &str) -> Result<Vec<sys::Piece>, OutOfMemory> {
    let guess = guess::count(line, |byte| byte == b' ') + 1;
    words_by(WordSeparator::AsciiSpace, line, guess)
}

/// Where the words between Unicode line breaks stand.
fn words_between_breaks(line: &str) -> Result<Vec<sys::Piece>, OutOfMemory> {
    words_by(WordSeparator::UnicodeBreakProperties, line, guess::breaks(line))
}

/// Where the words of a line stand, of which there may be so many: they are the pieces if words are
/// neither split nor broken, and there is no indent.
fn words_by(
    separator: WordSeparator,
    line: &str,
    guess: usize,
) -> Result<Vec<sys::Piece>, OutOfMemory> {
    let options = Options::new(0)
        .word_separator(separator)
        .break_words(false)
        .word_splitter(WordSplitter::NoHyphenation)
        .to_sys();
    Ok(list_by!(guess, textwrap_pieces(line; &options))?)
}

/// Where a line is cut by its Unicode line breaks.
pub(crate) fn unicode_cuts(line: &str) -> Result<Vec<usize>, OutOfMemory> {
    Ok(list_by!(guess::breaks(line), textwrap_unicode_cuts(line))?)
}

/// Offsets that do not increase, or are no character boundaries of the line.
#[derive(Clone, Copy, Debug, PartialEq, Eq)]
pub struct WrongPlaces;

impl fmt::Display for WrongPlaces {
    fn fmt(&self, f: &mut fmt::Formatter<'_>) -> fmt::Result {
        f.write_str("the offsets do not increase, or are no character boundaries of the line")
    }
}

impl Error for WrongPlaces {}

/// The words of a line that may be broken at these offsets, as a line segmenter gives them.
///
/// The offsets count the bytes of the line without its escape sequences, increase, and are
/// character boundaries of that text. The line is not cut at its ends, nor right after a hyphen `-`
/// or a soft hyphen (U+00AD): there a [`WordSplitter`] decides. The words tile the line, so a
/// [`WordSeparator::Custom`] may return them. The original has no such call.
///
/// # Errors
///
/// [`WrongPlaces`] if the offsets are no such offsets.
///
/// # Examples
///
/// ```
/// use textwrap_proved::core::Word;
/// use textwrap_proved::word_separators::{find_words_at, WrongPlaces};
///
/// let words = find_words_at("foo-bar 你好", &[4, 8, 11]).unwrap();
/// assert_eq!(words, [Word::from("foo-bar "), Word::from("你"), Word::from("好")]);
/// assert_eq!(find_words_at("你好", &[1]), Err(WrongPlaces));
/// ```
pub fn find_words_at<'a>(line: &'a str, offsets: &[usize]) -> Result<Vec<Word<'a>>, WrongPlaces> {
    match list_by!(offsets.len() + 1, textwrap_find_words_at(line, offsets)) {
        Err(Refusal::WrongPlaces) => Err(WrongPlaces),
        places => {
            let places: Vec<sys::Piece> = or_abort(places.map_err(OutOfMemory::from));
            Ok(places.iter().map(|place| Word::at(line, place)).collect())
        }
    }
}
