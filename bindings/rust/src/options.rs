//! How a text is wrapped.
use crate::sys;
use crate::wrap_algorithms::Penalties;
use crate::{LineEnding, WordSeparator, WordSplitter, WrapAlgorithm};

/// How a text is wrapped. [`Options::new`] has the defaults, and each field has a method of its
/// name that changes it.
///
/// Where options are asked for, a width or a reference to options will do too.
///
/// # Functions of the caller
///
/// What a function in the options answers is checked. The calls that wrap a text by it panic if
///
/// - the words of a [`WordSeparator::Custom`] do not tile the line, or one is not as
///   [`Word::from`](crate::core::Word::from) makes it;
/// - the points of a [`WordSplitter::Custom`] decrease, or one is no character boundary of the word;
/// - the lines of a [`WrapAlgorithm::Custom`] are not the first words in their order;
/// - the function itself panics.
///
/// What is said of the points holds for those of a dictionary of the feature `hyphenation` too. Not
/// asked is a function for a paragraph that has fewer bytes than the width and a line without an
/// indent, since that is one line.
///
/// # Examples
///
/// ```
/// use textwrap_proved::{fill, Options};
///
/// let options = Options::new(12).initial_indent("* ").subsequent_indent("  ");
/// assert_eq!(fill("a list of a few words", &options), "* a list\n  of a few\n  words");
/// assert_eq!(fill("a list of a few words", 12), "a list of a\nfew words");
/// ```
#[derive(Clone, Debug)]
#[non_exhaustive]
pub struct Options<'a> {
    /// The columns of a line, with its indent.
    pub width: usize,
    /// What ends a paragraph, and joins the lines of a filled text.
    pub line_ending: LineEnding,
    /// What is printed before the first line.
    pub initial_indent: &'a str,
    /// What is printed before each later line.
    pub subsequent_indent: &'a str,
    /// Whether words that are too wide for a line are broken. Otherwise they stand out.
    pub break_words: bool,
    /// How words are divided into lines.
    pub wrap_algorithm: WrapAlgorithm,
    /// Where a paragraph is cut into words.
    pub word_separator: WordSeparator,
    /// Where words may be split.
    pub word_splitter: WordSplitter,
    /// Whether blanks at line ends are kept.
    pub preserve_trailing_space: bool,
    /// Whether the first line of a later paragraph is divided for the width that its own indent
    /// leaves. Otherwise it is divided for what the initial indent leaves, as in the original,
    /// which has no such field; such a line may be too wide.
    pub even_paragraphs: bool,
}

impl<'a> Options<'a> {
    /// The defaults at a width in columns.
    ///
    /// ```
    /// use textwrap_proved::{LineEnding, Options, WordSeparator, WordSplitter, WrapAlgorithm};
    ///
    /// let options = Options::new(80);
    /// assert_eq!(options.width, 80);
    /// assert_eq!(options.line_ending, LineEnding::LF);
    /// assert_eq!((options.initial_indent, options.subsequent_indent), ("", ""));
    /// assert!(options.break_words);
    /// assert_eq!(options.wrap_algorithm, WrapAlgorithm::new());
    /// assert_eq!(options.word_separator, WordSeparator::new());
    /// assert_eq!(options.word_splitter, WordSplitter::HyphenSplitter);
    /// assert!(!options.preserve_trailing_space && !options.even_paragraphs);
    /// ```
    pub const fn new(width: usize) -> Self {
        Options {
            width,
            line_ending: LineEnding::LF,
            initial_indent: "",
            subsequent_indent: "",
            break_words: true,
            wrap_algorithm: WrapAlgorithm::new(),
            word_separator: WordSeparator::new(),
            word_splitter: WordSplitter::HyphenSplitter,
            preserve_trailing_space: false,
            even_paragraphs: false,
        }
    }

    /// Sets [`width`](#structfield.width), in columns.
    pub const fn width(mut self, width: usize) -> Self {
        self.width = width;
        self
    }

    /// Sets [`line_ending`](#structfield.line_ending).
    ///
    /// ```
    /// use textwrap_proved::{refill, LineEnding, Options};
    ///
    /// let options = Options::new(10).line_ending(LineEnding::CRLF);
    /// assert_eq!(refill("foo bar\nbaz", options), "foo bar\r\nbaz");
    /// ```
    pub const fn line_ending(mut self, line_ending: LineEnding) -> Self {
        self.line_ending = line_ending;
        self
    }

    /// Sets [`initial_indent`](#structfield.initial_indent).
    ///
    /// ```
    /// use textwrap_proved::{wrap, Options};
    ///
    /// let options = Options::new(16).initial_indent("    ");
    /// let lines = wrap("This is a little example.", options);
    /// assert_eq!(lines, ["    This is a", "little example."]);
    /// ```
    pub const fn initial_indent(mut self, initial_indent: &'a str) -> Self {
        self.initial_indent = initial_indent;
        self
    }

    /// Sets [`subsequent_indent`](#structfield.subsequent_indent).
    ///
    /// ```
    /// use textwrap_proved::{wrap, Options};
    ///
    /// let options = Options::new(12).initial_indent("* ").subsequent_indent("  ");
    /// let lines = wrap("This is a little example.", options);
    /// assert_eq!(lines, ["* This is", "  a little", "  example."]);
    /// ```
    pub const fn subsequent_indent(mut self, subsequent_indent: &'a str) -> Self {
        self.subsequent_indent = subsequent_indent;
        self
    }

    /// Sets [`break_words`](#structfield.break_words).
    ///
    /// ```
    /// use textwrap_proved::{wrap, Options};
    ///
    /// assert_eq!(wrap("a little", Options::new(4)), ["a", "litt", "le"]);
    /// assert_eq!(wrap("a little", Options::new(4).break_words(false)), ["a", "little"]);
    /// ```
    pub const fn break_words(mut self, break_words: bool) -> Self {
        self.break_words = break_words;
        self
    }

    /// Sets [`word_separator`](#structfield.word_separator).
    pub const fn word_separator(mut self, word_separator: WordSeparator) -> Self {
        self.word_separator = word_separator;
        self
    }

    /// Sets [`wrap_algorithm`](#structfield.wrap_algorithm).
    ///
    /// ```
    /// use textwrap_proved::{wrap, Options, WrapAlgorithm};
    ///
    /// let text = "To be, or not to be: that is the question";
    /// let first_fit = Options::new(10).wrap_algorithm(WrapAlgorithm::FirstFit);
    /// let lines = wrap(text, first_fit);
    /// assert_eq!(lines, ["To be, or", "not to be:", "that is", "the", "question"]);
    /// assert_eq!(wrap(text, 10), ["To be,", "or not to", "be: that", "is the", "question"]);
    /// ```
    pub const fn wrap_algorithm(mut self, wrap_algorithm: WrapAlgorithm) -> Self {
        self.wrap_algorithm = wrap_algorithm;
        self
    }

    /// Sets [`word_splitter`](#structfield.word_splitter).
    ///
    /// ```
    /// use textwrap_proved::{wrap, Options, WordSplitter};
    ///
    /// assert_eq!(wrap("foo-bar-baz", Options::new(5)), ["foo-", "bar-", "baz"]);
    /// let whole = Options::new(5).word_splitter(WordSplitter::NoHyphenation);
    /// assert_eq!(wrap("foo-bar-baz", &whole), ["foo-b", "ar-ba", "z"]);
    /// assert_eq!(wrap("foo-bar-baz", whole.break_words(false)), ["foo-bar-baz"]);
    /// ```
    pub fn word_splitter(mut self, word_splitter: WordSplitter) -> Self {
        self.word_splitter = word_splitter;
        self
    }

    /// Sets [`preserve_trailing_space`](#structfield.preserve_trailing_space).
    ///
    /// ```
    /// use textwrap_proved::{wrap, Options};
    ///
    /// let options = Options::new(5).preserve_trailing_space(true);
    /// assert_eq!(wrap("foo  bar", options), ["foo  ", "bar"]);
    /// ```
    pub const fn preserve_trailing_space(mut self, preserve_trailing_space: bool) -> Self {
        self.preserve_trailing_space = preserve_trailing_space;
        self
    }

    /// Sets [`even_paragraphs`](#structfield.even_paragraphs).
    ///
    /// ```
    /// use textwrap_proved::{wrap, Options};
    ///
    /// let options = Options::new(7).subsequent_indent("    ");
    /// assert_eq!(wrap("aaa\nbbb ccc", &options), ["aaa", "    bbb ccc"]);
    /// let even = options.even_paragraphs(true);
    /// assert_eq!(wrap("aaa\nbbb ccc", even), ["aaa", "    bbb", "    ccc"]);
    /// ```
    pub const fn even_paragraphs(mut self, even_paragraphs: bool) -> Self {
        self.even_paragraphs = even_paragraphs;
        self
    }

    /// Whether a function of the caller takes part: then a text is wrapped paragraph by paragraph.
    #[inline]
    pub(crate) fn has_function(&self) -> bool {
        self.has_function_beside() || !self.word_splitter.is_built_in()
    }

    /// Whether one finds words, or divides them into lines.
    #[inline]
    fn has_function_beside(&self) -> bool {
        matches!(self.wrap_algorithm, WrapAlgorithm::Custom(_))
            || matches!(self.word_separator, WordSeparator::Custom(_))
    }

    /// The same as C has them, or as they are if a function of the caller takes part, or patterns, which
    /// have to outlive the call.
    #[inline]
    pub(crate) fn plain(self) -> Result<sys::Options, Self> {
        let is_plain =
            self.word_splitter.is_built_in() && !matches!(self.word_splitter, WordSplitter::Patterns(_));
        if is_plain && !self.has_function_beside() {
            Ok(self.to_sys_by(sys::Dictionary::NONE))
        } else {
            Err(self)
        }
    }

    /// The same as C has them, without the functions of the caller. They lend the indents and the patterns.
    #[inline]
    pub(crate) fn to_sys(&self) -> sys::Options {
        self.to_sys_by(self.word_splitter.to_sys())
    }

    #[inline]
    fn to_sys_by(&self, dictionary: sys::Dictionary) -> sys::Options {
        let (optimal_fit, penalties) = match self.wrap_algorithm {
            WrapAlgorithm::OptimalFit(penalties) => (1, penalties),
            WrapAlgorithm::FirstFit | WrapAlgorithm::Custom(_) => (0, Penalties::new()),
        };
        sys::Options {
            version: sys::VERSION,
            optimal_fit,
            split_at_hyphens: match self.word_splitter {
                WordSplitter::HyphenSplitter => 1,
                WordSplitter::OutsideSequences => 2,
                _ => 0,
            },
            break_words: self.break_words.into(),
            preserve_trailing_space: self.preserve_trailing_space.into(),
            even_paragraphs: self.even_paragraphs.into(),
            crlf: (self.line_ending == LineEnding::CRLF).into(),
            unicode_breaks: (self.word_separator == WordSeparator::UnicodeBreakProperties).into(),
            width: self.width,
            initial_indent: self.initial_indent.into(),
            subsequent_indent: self.subsequent_indent.into(),
            nline_penalty: penalties.nline_penalty,
            overflow_penalty: penalties.overflow_penalty,
            short_last_line_fraction: penalties.short_last_line_fraction,
            short_last_line_penalty: penalties.short_last_line_penalty,
            hyphen_penalty: penalties.hyphen_penalty,
            dictionary,
            reserved_sizes: [0; 4],
        }
    }
}

impl From<usize> for Options<'_> {
    #[inline]
    fn from(width: usize) -> Self {
        Options::new(width)
    }
}

impl<'a> From<&Options<'a>> for Options<'a> {
    #[inline]
    fn from(options: &Options<'a>) -> Self {
        options.clone()
    }
}
