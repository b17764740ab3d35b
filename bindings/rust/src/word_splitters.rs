//! Where words may be split.
//!
//! A piece of a word that ends a line ends in a hyphen: one that the word has there, or one that is
//! added. [`WordSplitter`] says where words may be split, and [`split_words`] splits them.
use crate::core::{display_width, Word};
use crate::hyphens::Patterns;
use crate::out_of_memory::{or_abort, OutOfMemory};
use crate::room::{list_by, reserve};
use crate::{guess, sys};
use alloc::vec::Vec;
use core::iter;
#[cfg(feature = "hyphenation")]
use hyphenation::Hyphenator;

/// Where words may be split.
#[derive(Clone, Debug)]
pub enum WordSplitter {
    /// Nowhere.
    ///
    /// ```
    /// use textwrap_proved::{wrap, Options, WordSplitter};
    ///
    /// let options = Options::new(8).word_splitter(WordSplitter::NoHyphenation);
    /// assert_eq!(wrap("foo bar-baz", options), ["foo", "bar-baz"]);
    /// ```
    NoHyphenation,

    /// After each hyphen between two letters or digits, so not in `--foo`.
    ///
    /// ```
    /// use textwrap_proved::WordSplitter;
    ///
    /// assert_eq!(WordSplitter::HyphenSplitter.split_points("--foo-bar"), [6]);
    /// ```
    HyphenSplitter,

    /// Where a function says, which returns offsets in bytes.
    ///
    /// The offsets must not decrease, and have to be character boundaries of the word; if they are
    /// not, `wrap`, `fill` and [`split_words`] panic. Repeated ones, 0 and the length of the word
    /// are left out. A hyphen is added where a line ends at a point without one.
    ///
    /// ```
    /// use textwrap_proved::{wrap, Options, WordSplitter};
    ///
    /// fn in_the_middle(word: &str) -> Vec<usize> {
    ///     vec![word.len() / 2]
    /// }
    ///
    /// let options = Options::new(6).word_splitter(WordSplitter::Custom(in_the_middle));
    /// assert_eq!(wrap("foo foobar", options), ["foo", "foobar"]);
    /// let options = Options::new(5).word_splitter(WordSplitter::Custom(in_the_middle));
    /// assert_eq!(wrap("foobar", options), ["foo-", "bar"]);
    /// ```
    Custom(fn(word: &str) -> Vec<usize>),

    /// Where a dictionary of the crate
    /// [`hyphenation`](https://docs.rs/hyphenation) hyphenates the word, which it finds by the
    /// patterns of a language. A hyphen is added where a line ends at such a point. It is there by
    /// the feature `hyphenation`.
    ///
    /// The dictionary gets each word with what stands around it, such as quotation marks and commas.
    /// A word with soft hyphens (U+00AD) it splits before these, and nowhere else. Its points are
    /// checked as those of a [`Custom`](WordSplitter::Custom) are, since a program may add words to
    /// it.
    ///
    /// ```no_run
    /// use hyphenation::{Language, Load, Standard};
    /// use textwrap_proved::{wrap, Options, WordSplitter};
    ///
    /// let english = Standard::from_path(Language::EnglishUS, "en-us.standard.bincode").unwrap();
    /// let options = Options::new(8).word_splitter(WordSplitter::Hyphenation(english));
    /// let lines = wrap("Oxidation is the loss of electrons.", options);
    /// assert_eq!(lines, ["Oxida-", "tion is", "the loss", "of elec-", "trons."]);
    /// ```
    #[cfg(feature = "hyphenation")]
    Hyphenation(hyphenation::Standard),

    /// After each hyphen between two letters or digits that stands within no escape sequence, as in the
    /// address of a link. The original has no such splitter.
    ///
    /// ```
    /// use textwrap_proved::WordSplitter;
    ///
    /// let link = "\x1b]8;;x-y\x1b\\b-c\x1b]8;;\x1b\\";
    /// assert_eq!(WordSplitter::HyphenSplitter.split_points(link), [7, 12]);
    /// assert_eq!(WordSplitter::OutsideSequences.split_points(link), [12]);
    /// ```
    OutsideSequences,

    /// Where [patterns](crate::hyphens) of the word's language say, and after each hyphen between two
    /// letters or digits that stands within no escape sequence. A hyphen is added where a line ends at a
    /// point of the patterns. Where words are broken, a part of a word that fits the line, but not with its hyphen, is broken, too, unless a
    /// function of the caller finds words or divides lines. The original has no such splitter.
    ///
    /// ```
    /// use textwrap_proved::hyphens::Patterns;
    /// use textwrap_proved::{wrap, Options, WordSplitter};
    ///
    /// let patterns = Patterns::parse("hy-phen-ation\n").unwrap();
    /// let options = Options::new(11).word_splitter(WordSplitter::Patterns(patterns));
    /// assert_eq!(wrap("The hyphenation!", &options), ["The hyphen-", "ation!"]);
    /// assert_eq!(wrap("non-hyphenation", options), ["non-", "hyphenation"]);
    /// ```
    Patterns(Patterns),
}

/// A `Custom` equals no value, not even itself, since functions cannot be compared. Two dictionaries
/// are equal if their languages are, and patterns if all that was read is the same.
impl PartialEq for WordSplitter {
    #[inline]
    fn eq(&self, other: &Self) -> bool {
        match (self, other) {
            (WordSplitter::NoHyphenation, WordSplitter::NoHyphenation)
            | (WordSplitter::HyphenSplitter, WordSplitter::HyphenSplitter)
            | (WordSplitter::OutsideSequences, WordSplitter::OutsideSequences) => true,
            #[cfg(feature = "hyphenation")]
            (WordSplitter::Hyphenation(one), WordSplitter::Hyphenation(other)) => {
                one.language == other.language
            }
            (WordSplitter::Patterns(one), WordSplitter::Patterns(other)) => one == other,
            _ => false,
        }
    }
}

impl WordSplitter {
    /// The offsets, in bytes, at which a word may be split. Those of a function of the caller, or of
    /// a dictionary, are returned as they are.
    ///
    /// # Panics
    ///
    /// If the function of a [`Custom`](WordSplitter::Custom) panics.
    ///
    /// # Examples
    ///
    /// ```
    /// use textwrap_proved::WordSplitter;
    ///
    /// assert_eq!(WordSplitter::NoHyphenation.split_points("can-be-split"), []);
    /// assert_eq!(WordSplitter::HyphenSplitter.split_points("can-be-split"), [4, 7]);
    /// let middle = WordSplitter::Custom(|word| vec![word.len() / 2]);
    /// assert_eq!(middle.split_points("middle"), [3]);
    /// ```
    pub fn split_points(&self, word: &str) -> Vec<usize> {
        or_abort(self.points_of(word))
    }

    /// The same, with running out of memory as an error.
    fn points_of(&self, word: &str) -> Result<Vec<usize>, OutOfMemory> {
        match self {
            WordSplitter::NoHyphenation => Ok(Vec::new()),
            WordSplitter::HyphenSplitter => points_at_hyphens(word),
            WordSplitter::OutsideSequences => points_outside(word),
            WordSplitter::Custom(function) => Ok(function(word)),
            #[cfg(feature = "hyphenation")]
            WordSplitter::Hyphenation(dictionary) => Ok(dictionary.hyphenate(word).breaks),
            WordSplitter::Patterns(patterns) => with_hyphens(patterns.try_points(word)?, word),
        }
    }

    /// Whether the points are found by the library, which finds right ones.
    #[inline]
    pub(crate) fn is_built_in(&self) -> bool {
        matches!(
            self,
            WordSplitter::NoHyphenation
                | WordSplitter::HyphenSplitter
                | WordSplitter::OutsideSequences
                | WordSplitter::Patterns(_)
        )
    }

    /// The dictionary as C has it: the patterns, which lend their numbers, or none.
    #[inline]
    pub(crate) fn to_sys(&self) -> sys::Dictionary {
        match self {
            WordSplitter::Patterns(patterns) => patterns.to_sys(),
            _ => sys::Dictionary::NONE,
        }
    }

    /// The offsets that cut something off, in order.
    ///
    /// # Panics
    /// If a function of the caller, or a dictionary, gives wrong ones.
    pub(crate) fn points_inside(&self, word: &str) -> Result<Vec<usize>, OutOfMemory> {
        let mut points = self.points_of(word)?;
        if !self.is_built_in() {
            let name = if matches!(self, WordSplitter::Custom(_)) { "Custom" } else { "Hyphenation" };
            for (i, &point) in points.iter().enumerate() {
                let before = if i > 0 { points[i - 1] } else { 0 };
                assert!(
                    before <= point && word.is_char_boundary(point),
                    "the points of a WordSplitter::{name} must not decrease, and have to be \
                     character boundaries of the word; {point} of {word:?} is not right"
                );
            }
            points.dedup();
            points.retain(|&point| 0 < point && point < word.len());
        }
        Ok(points)
    }
}

/// The offsets after the hyphens between letters or digits. They are no more than the hyphens.
fn points_at_hyphens(word: &str) -> Result<Vec<usize>, OutOfMemory> {
    let hyphens = guess::count(word, |byte| byte == b'-');
    if hyphens == 0 {
        return Ok(Vec::new());
    }
    Ok(list_by!(hyphens, textwrap_split_points(word))?)
}

/// Those of them that stand within no escape sequence.
fn points_outside(word: &str) -> Result<Vec<usize>, OutOfMemory> {
    let hyphens = guess::count(word, |byte| byte == b'-');
    if hyphens == 0 {
        return Ok(Vec::new());
    }
    Ok(list_by!(hyphens, textwrap_split_points_outside(word))?)
}

/// The points of a word by patterns together with those after its hyphens, in order.
fn with_hyphens(mut points: Vec<usize>, word: &str) -> Result<Vec<usize>, OutOfMemory> {
    let at_hyphens = points_outside(word)?;
    if points.is_empty() || at_hyphens.is_empty() {
        return Ok(if points.is_empty() { at_hyphens } else { points });
    }
    reserve(&mut points, at_hyphens.len())?;
    points.extend(at_hyphens);
    points.sort_unstable();
    points.dedup();
    Ok(points)
}

/// The words, each of them split at all its points, whatever its width.
///
/// The last piece of a word has its whitespace and its penalty. Each other piece has the penalty
/// `"-"`, unless it ends in a hyphen already.
///
/// # Panics
///
/// The iterator, at a word for which a [`WordSplitter::Custom`], or a dictionary, gives points that
/// decrease or are no character boundaries of it, or for which the function itself panics.
///
/// # Examples
///
/// ```
/// use textwrap_proved::core::Word;
/// use textwrap_proved::word_splitters::split_words;
/// use textwrap_proved::WordSplitter;
///
/// let words = vec![Word::from("foo-bar "), Word::from("baz")];
/// let pieces: Vec<Word> = split_words(words, &WordSplitter::HyphenSplitter).collect();
/// assert_eq!(pieces, [Word::from("foo-"), Word::from("bar "), Word::from("baz")]);
///
/// let after_3 = WordSplitter::Custom(|_| vec![3]);
/// let pieces: Vec<Word> = split_words(vec![Word::from("foobar")], &after_3).collect();
/// assert_eq!(pieces, [Word { penalty: "-", ..Word::from("foo") }, Word::from("bar")]);
/// ```
pub fn split_words<'a, I>(
    words: I,
    word_splitter: &'a WordSplitter,
) -> impl Iterator<Item = Word<'a>>
where
    I: IntoIterator<Item = Word<'a>>,
{
    words
        .into_iter()
        .flat_map(|word| pieces_of(word, or_abort(word_splitter.points_inside(word.word))))
}

/// The pieces of a word between its points, of which each cuts something off.
fn pieces_of<'a>(word: Word<'a>, points: Vec<usize>) -> impl Iterator<Item = Word<'a>> {
    let text = word.word;
    let rest = points.last().map_or(text, |&point| &text[point..]);
    let mut start = 0;
    let pieces = points.into_iter().map(move |end| {
        let piece = &text[start..end];
        start = end;
        let penalty = if piece.ends_with('-') { "" } else { "-" };
        Word { word: piece, whitespace: "", penalty, width: display_width(piece) }
    });
    pieces.chain(iter::once(Word { word: rest, width: display_width(rest), ..word }))
}
