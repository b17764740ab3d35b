//! Texts of many paragraphs, in which marks stand before the words: mails with what they quote,
//! comments of most languages, lists and Markdown.
//!
//! [`reflow`] fills their paragraphs again behind the marks, and lets stand what a reader takes as it
//! is: code, tables, headings, signatures and more. The original has no such call.
//!
//! ```
//! use textwrap_proved::reflow::{reflow, ReflowOptions};
//!
//! let mail = "> one two three four\n> five\nsix seven eight nine ten\n\n-- \nA. B.\n";
//! let filled = "> one two three\n> four five\nsix seven eight\nnine ten\n\n-- \nA. B.\n";
//! assert_eq!(reflow(mail, 16), filled);
//!
//! let options = ReflowOptions::new(16).justify(true);
//! assert_eq!(reflow("> one two three four\n", options), "> one  two three\n> four\n");
//! ```
//!
//! If memory runs out, the call [ends the program](crate#memory), and its twin
//! [`fallible::reflow`](crate::fallible::reflow) returns [`OutOfMemory`](crate::OutOfMemory).
use crate::out_of_memory::or_abort;
use crate::wrap_algorithms::Penalties;
use crate::{fallible, sys, LineEnding};
use alloc::string::String;

/// How the words of a paragraph are divided into lines.
#[derive(Clone, Copy, Debug, PartialEq, Eq)]
pub enum Algorithm {
    /// Each line takes words while they fit.
    FirstFit,
    /// The lines are those of least cost at these penalties.
    LeastCost(Penalties),
}

/// How a text of many paragraphs is laid out again. [`ReflowOptions::new`] has the defaults, and each
/// field has a method of its name that changes it.
///
/// Where options are asked for, a width or a reference to options will do too.
#[derive(Clone, Copy, Debug, PartialEq, Eq)]
#[non_exhaustive]
pub struct ReflowOptions<'a> {
    /// The columns of a line, with its prefix.
    pub width: usize,
    /// How the words of a paragraph are divided into lines.
    pub algorithm: Algorithm,
    /// How all lines end. Without one, each line that stays keeps its ending, and filled lines take
    /// that of the first line of the text.
    pub ending: Option<LineEnding>,
    /// Whether the text has no comments, and `#` is a heading.
    pub markdown: bool,
    /// Further words that mark a comment.
    pub markers: &'a [&'a str],
    /// Whether block comments have no margin of `*`: the later lines of one stand behind blanks.
    pub bare: bool,
    /// What the marks before a paragraph have to begin with, for one of them, so that it is filled.
    /// With none all are.
    pub prefixes: &'a [&'a str],
    /// Whether text is filled that is deeper than the text before it.
    pub indented: bool,
    /// Whether each line of a paragraph but its last has its gaps widened up to the width. Gaps of
    /// blanks in a text are then no columns, and no reason to let it stay.
    pub justify: bool,
}

impl<'a> ReflowOptions<'a> {
    /// The defaults at a width in columns: first fit, endings as the text has them, and nothing
    /// declared.
    ///
    /// ```
    /// use textwrap_proved::reflow::{Algorithm, ReflowOptions};
    ///
    /// let options = ReflowOptions::new(72);
    /// assert_eq!((options.width, options.algorithm), (72, Algorithm::FirstFit));
    /// assert_eq!(options.ending, None);
    /// assert!(options.markers.is_empty() && options.prefixes.is_empty());
    /// assert!(!(options.markdown || options.bare || options.indented || options.justify));
    /// ```
    pub const fn new(width: usize) -> Self {
        ReflowOptions {
            width,
            algorithm: Algorithm::FirstFit,
            ending: None,
            markdown: false,
            markers: &[],
            bare: false,
            prefixes: &[],
            indented: false,
            justify: false,
        }
    }

    /// Sets [`width`](#structfield.width), in columns.
    pub const fn width(mut self, width: usize) -> Self {
        self.width = width;
        self
    }

    /// Sets [`algorithm`](#structfield.algorithm).
    ///
    /// ```
    /// use textwrap_proved::reflow::{reflow, Algorithm, ReflowOptions};
    /// use textwrap_proved::wrap_algorithms::Penalties;
    ///
    /// let text = "that is the question\n";
    /// let least_cost = Algorithm::LeastCost(Penalties::new());
    /// let options = ReflowOptions::new(10).algorithm(least_cost);
    /// assert_eq!(reflow(text, options), "that\nis the\nquestion\n");
    /// ```
    pub const fn algorithm(mut self, algorithm: Algorithm) -> Self {
        self.algorithm = algorithm;
        self
    }

    /// Sets [`ending`](#structfield.ending).
    ///
    /// ```
    /// use textwrap_proved::reflow::{reflow, ReflowOptions};
    /// use textwrap_proved::LineEnding;
    ///
    /// let options = ReflowOptions::new(8).ending(Some(LineEnding::CRLF));
    /// assert_eq!(reflow("foo bar baz\n", options), "foo bar\r\nbaz\r\n");
    /// ```
    pub const fn ending(mut self, ending: Option<LineEnding>) -> Self {
        self.ending = ending;
        self
    }

    /// Sets [`markdown`](#structfield.markdown).
    ///
    /// ```
    /// use textwrap_proved::reflow::{reflow, ReflowOptions};
    ///
    /// assert_eq!(reflow("# foo bar\n", 6), "# foo\n# bar\n");
    /// assert_eq!(reflow("# foo bar\n", ReflowOptions::new(6).markdown(true)), "# foo bar\n");
    /// ```
    pub const fn markdown(mut self, markdown: bool) -> Self {
        self.markdown = markdown;
        self
    }

    /// Sets [`markers`](#structfield.markers).
    ///
    /// ```
    /// use textwrap_proved::reflow::{reflow, ReflowOptions};
    ///
    /// let options = ReflowOptions::new(8).markers(&["dnl"]);
    /// assert_eq!(reflow("dnl foo bar\n", options), "dnl foo\ndnl bar\n");
    /// ```
    pub const fn markers(mut self, markers: &'a [&'a str]) -> Self {
        self.markers = markers;
        self
    }

    /// Sets [`bare`](#structfield.bare).
    ///
    /// ```
    /// use textwrap_proved::reflow::{reflow, ReflowOptions};
    ///
    /// assert_eq!(reflow("/* foo bar */\n", 8), "/* foo\n * bar */\n");
    /// assert_eq!(reflow("/* foo bar */\n", ReflowOptions::new(8).bare(true)), "/* foo\n   bar */\n");
    /// ```
    pub const fn bare(mut self, bare: bool) -> Self {
        self.bare = bare;
        self
    }

    /// Sets [`prefixes`](#structfield.prefixes).
    ///
    /// ```
    /// use textwrap_proved::reflow::{reflow, ReflowOptions};
    ///
    /// let options = ReflowOptions::new(7).prefixes(&[">"]);
    /// assert_eq!(reflow("> foo bar\nfoo bar baz\n", options), "> foo\n> bar\nfoo bar baz\n");
    /// ```
    pub const fn prefixes(mut self, prefixes: &'a [&'a str]) -> Self {
        self.prefixes = prefixes;
        self
    }

    /// Sets [`indented`](#structfield.indented).
    ///
    /// ```
    /// use textwrap_proved::reflow::{reflow, ReflowOptions};
    ///
    /// let options = ReflowOptions::new(8).indented(true);
    /// assert_eq!(reflow("a:\n\n    foo bar\n", options), "a:\n\n    foo\n    bar\n");
    /// ```
    pub const fn indented(mut self, indented: bool) -> Self {
        self.indented = indented;
        self
    }

    /// Sets [`justify`](#structfield.justify).
    ///
    /// ```
    /// use textwrap_proved::reflow::{reflow, ReflowOptions};
    ///
    /// let options = ReflowOptions::new(10).justify(true);
    /// assert_eq!(reflow("> foo a bar baz\n", options), "> foo    a\n> bar baz\n");
    /// ```
    pub const fn justify(mut self, justify: bool) -> Self {
        self.justify = justify;
        self
    }

    /// The same as C has them. They lend the lists, which are those of the options.
    pub(crate) fn to_sys(
        self,
        markers: &[sys::Text],
        prefixes: &[sys::Text],
    ) -> sys::ReflowOptions {
        let (optimal_fit, penalties) = match self.algorithm {
            Algorithm::FirstFit => (0, Penalties::new()),
            Algorithm::LeastCost(penalties) => (1, penalties),
        };
        sys::ReflowOptions {
            version: sys::VERSION,
            optimal_fit,
            ending: match self.ending {
                None => 0,
                Some(LineEnding::LF) => 1,
                Some(LineEnding::CRLF) => 2,
            },
            markdown: self.markdown.into(),
            bare: self.bare.into(),
            indented: self.indented.into(),
            justify: self.justify.into(),
            reserved: 0,
            width: self.width,
            markers: markers.as_ptr(),
            markers_len: markers.len(),
            prefixes: prefixes.as_ptr(),
            prefixes_len: prefixes.len(),
            nline_penalty: penalties.nline_penalty,
            overflow_penalty: penalties.overflow_penalty,
            short_last_line_fraction: penalties.short_last_line_fraction,
            short_last_line_penalty: penalties.short_last_line_penalty,
            hyphen_penalty: penalties.hyphen_penalty,
            reserved_sizes: [0; 4],
        }
    }
}

impl From<usize> for ReflowOptions<'_> {
    fn from(width: usize) -> Self {
        ReflowOptions::new(width)
    }
}

impl<'a> From<&ReflowOptions<'a>> for ReflowOptions<'a> {
    fn from(options: &ReflowOptions<'a>) -> Self {
        *options
    }
}

/// The text with its paragraphs filled again, at a width in columns or by options.
///
/// Before the words of a line may stand marks: a comment mark, quote marks and bullets. A paragraph is
/// a line and those after it behind the hanging form of its prefix, which has blanks for the bullets.
/// Lines that a reader takes as they are stay so: code, tables, titles, headings, rules, and more.
///
/// # Panics
///
/// If the text would take more than `isize::MAX` bytes.
///
/// # Examples
///
/// ```
/// use textwrap_proved::reflow::reflow;
///
/// assert_eq!(reflow("> one two three four\n> five\n", 16), "> one two three\n> four five\n");
/// assert_eq!(reflow("- one two three four\n", 16), "- one two three\n  four\n");
/// assert_eq!(reflow("a | b\n--|--\n1 | 2\n", 4), "a | b\n--|--\n1 | 2\n");
/// ```
pub fn reflow<'a, Opt>(text: &str, width_or_options: Opt) -> String
where
    Opt: Into<ReflowOptions<'a>>,
{
    or_abort(fallible::reflow(text, width_or_options))
}
