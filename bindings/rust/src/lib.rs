//! Word wrapping and paragraph filling by a proved library.
//!
//! The calls are those of the crate `textwrap` 0.16.4, by the same names and with the same types,
//! so a program that uses it changes one line of its `Cargo.toml`:
//!
//! ```toml
//! textwrap = { package = "textwrap_proved", path = "bindings/rust" }
//! ```
//!
//! For all crates of a tree, such as `clap`, the folder `patch` has it under the original's name:
//!
//! ```toml
//! [patch.crates-io]
//! textwrap = { path = "bindings/rust/patch" }
//! ```
//!
//! Behind them stands a library written in Rattle, which this crate has within it as assembly for x86-64 and
//! aarch64 Linux, x86-64 Windows and macOS. Its contracts, which are proved, state the exact result of each call. What is
//! written in Rust here is the way there and back, and what functions of the caller take part in.
//!
//! # Lines of a width
//!
//! [`wrap()`] returns the lines of a text, and [`fill()`] joins them:
//!
//! ```
//! use textwrap_proved::{fill, wrap};
//!
//! let text = "textwrap: a small library for wrapping text.";
//! assert_eq!(wrap(text, 18), ["textwrap: a", "small library for", "wrapping text."]);
//! assert_eq!(fill(text, 18), "textwrap: a\nsmall library for\nwrapping text.");
//! ```
//!
//! [`Options`] say how: with which indents, by which algorithm, where words begin and where they
//! may be split. Functions of the caller may take the place of the last three, and a dictionary that
//! of the last. [`refill()`] and
//! [`unfill()`] take texts that are filled already, [`wrap_columns()`] lays a text out in columns,
//! and [`fill_inplace()`] fills a `String` in its own place.
//!
//! ## Columns and bytes
//!
//! A width counts columns of a terminal, not bytes: `é` takes one column and two bytes, `好` two
//! columns and three bytes. [`display_width`](core::display_width()) says what a text takes.
//! Offsets, such as the points of a [`WordSplitter`], count bytes.
//!
//! # Prefixes and margins
//!
//! [`indent()`] puts a prefix before each line, and [`dedent()`] takes away the whitespace that all
//! lines begin with:
//!
//! ```
//! use textwrap_proved::{dedent, indent};
//!
//! assert_eq!(indent("tea\nmilk\n", "+ "), "+ tea\n+ milk\n");
//! assert_eq!(dedent("    tea\n      green\n"), "tea\n  green\n");
//! ```
//!
//! # Lines for display
//!
//! The module [`display`] aligns, justifies, balances and shortens lines, carries their styles on from
//! line to line, and lays texts out in tables:
//!
//! ```
//! use textwrap_proved::display::{align, fill_justified, shorten, Alignment};
//!
//! assert_eq!(align("foo", 6, Alignment::Right), "   foo");
//! assert_eq!(fill_justified("foo bar baz", 10), "foo    bar\nbaz");
//! assert_eq!(shorten("foo bar baz", 10, " .."), "foo bar ..");
//! ```
//!
//! # Hyphenation
//!
//! The module [`hyphens`] finds where words have hyphens, by patterns of their language that the program
//! brings:
//!
//! ```
//! use textwrap_proved::hyphens::Patterns;
//! use textwrap_proved::{fill, Options, WordSplitter};
//!
//! let patterns = Patterns::parse("% patterns of TeX\n\\patterns{1na n2at 1phe 1tio}\n").unwrap();
//! let options = Options::new(10).word_splitter(WordSplitter::Patterns(patterns));
//! assert_eq!(fill("a hyphenation", options), "a hyphena-\ntion");
//! ```
//!
//! # Texts with marks
//!
//! The module [`reflow`] fills texts of many paragraphs behind the marks of quotes, comments and lists:
//!
//! ```
//! use textwrap_proved::reflow::reflow;
//!
//! assert_eq!(reflow("> one two three four\n> five\n", 16), "> one two three\n> four five\n");
//! ```
//!
//! # Differences from `textwrap`
//!
//! - Unicode line breaks are those of UAX #14 at Unicode 15.0. The original takes them from the crate
//!   `icu_segmenter`, with the rules and classes of its version of Unicode. Whoever has another line
//!   segmenter, such as that, gives its offsets to
//!   [`find_words_at`](word_separators::find_words_at).
//! - Widths of a [`Fragment`](core::Fragment) have to be whole numbers from 0 to `usize::MAX`.
//! - What a `Custom` function gives is checked, and a wrong answer panics with a message that says
//!   [what is wrong](Options#functions-of-the-caller).
//! - Of divisions that cost the same, the one whose lines start earliest is taken.
//! - [`Options::even_paragraphs`], [`WordSplitter::OutsideSequences`], [`WordSplitter::Patterns`] and the
//!   modules [`display`], [`hyphens`], [`reflow`] and [`fallible`] are new.
//! - Both algorithms and both separators are there without the features `smawk` and
//!   `unicode-linebreak` too, so a `match` has an arm for each; and one on a `WordSplitter` has an arm
//!   for each of those two.
//!
//! `docs/DIFFERENCES.md` of the repository has all of them, with those of the library itself.
//!
//! # Features
//!
//! They have the names that they have in the original. The first four are on by default.
//!
//! | Feature | With it | Without it |
//! |---|---|---|
//! | `smawk` | [`WrapAlgorithm::new`], and so [`Options::new`], takes the least cost | it takes first fit |
//! | `unicode-linebreak` | [`WordSeparator::new`], and so [`Options::new`], cuts at Unicode line breaks | it cuts at blanks |
//! | `unicode-width` | nothing changes | nothing changes: widths are always those of Unicode, where the original counts 2 for each character from U+1100 on, and 1 for any other |
//! | `std` | nothing changes | nothing changes: the crate always needs `alloc`, and no more |
//! | `unicode-linebreak-complex` | is `unicode-linebreak` | |
//! | `terminal_size` | `termwidth` and `Options::with_termwidth` are there, over the crate [terminal_size](https://docs.rs/terminal_size), 0.2.1 to 0.4 | |
//! | `hyphenation` | `WordSplitter::Hyphenation` is there, over the crate [hyphenation](https://docs.rs/hyphenation), 0.7.1 to 0.8 | |
//!
//! By `unicode-linebreak-complex` the original finds words of Thai, Lao, Khmer and Burmese by
//! dictionaries and models of these languages; here there are none, and text in these scripts is cut
//! only where it has blanks or other breaks.
//!
//! # Memory
//!
//! If memory runs out, a call ends the program as the standard library does: it aborts with a message
//! that names the size that was asked for, or panics if no allocation can have that size, which is
//! above `isize::MAX`. Its twin in [`fallible`] or in [`display::fallible`], or the one whose name has
//! `try_` before it, returns [`OutOfMemory`] in place of both. What the library allocates comes from Rust's allocator too, but where
//! `TEXTWRAP_LIBRARY` names an archive that is installed for C: this has a heap of its own, and the
//! message names 0 bytes.
#![no_std]
#![deny(missing_docs)]
#![deny(missing_debug_implementations)]
#![deny(unsafe_op_in_unsafe_fn)]

extern crate alloc;

use crate::out_of_memory::or_abort;
use alloc::borrow::Cow;
use alloc::string::String;
use alloc::vec::Vec;

pub mod breaks;
pub mod core;
mod custom;
pub mod display;
pub mod fallible;
mod guess;
// An archive that is installed for C has its heap in it.
#[cfg(not(library_has_heap))]
mod heap;
pub mod hyphens;
mod library;
mod line_ending;
mod options;
mod out_of_memory;
pub mod reflow;
mod room;
mod shared;
mod sys;
#[cfg(feature = "terminal_size")]
mod termwidth;
pub mod word_separators;
pub mod word_splitters;
pub mod wrap_algorithms;

pub use crate::line_ending::LineEnding;
pub use crate::options::Options;
pub use crate::out_of_memory::OutOfMemory;
#[cfg(feature = "terminal_size")]
pub use crate::termwidth::termwidth;
pub use crate::word_separators::WordSeparator;
pub use crate::word_splitters::WordSplitter;
pub use crate::wrap_algorithms::WrapAlgorithm;

/// The text with its lines filled to a width.
///
/// It is the lines of [`wrap()`], joined by [`Options::line_ending`].
///
/// # Panics
///
/// If a function of the caller, in the options, panics or
/// [gives what it must not](Options#functions-of-the-caller).
///
/// # Examples
///
/// ```
/// use textwrap_proved::{fill, Options};
///
/// let text = "The tide comes in and goes out by the moon.";
/// assert_eq!(fill(text, 15), "The tide comes\nin and goes out\nby the moon.");
///
/// let options = Options::new(18).initial_indent("1. ").subsequent_indent("   ");
/// assert_eq!(fill(text, &options), "1. The tide comes\n   in and goes out\n   by the moon.");
/// ```
#[inline]
pub fn fill<'a, Opt>(text: &str, width_or_options: Opt) -> String
where
    Opt: Into<Options<'a>>,
{
    or_abort(fallible::fill(text, width_or_options))
}

/// The lines of the text at a width in columns, or by options.
///
/// Each paragraph of the text is divided by itself; [`Options::line_ending`] says what stands
/// between them. A line without an indent and without an added hyphen borrows from the text, and
/// any other is a `String`.
///
/// # Which lines
///
/// By default, the lines are those of the least cost, whose gaps are even. First fit takes the
/// words that fit, line by line, and is faster. See [`WrapAlgorithm`].
///
/// ```
/// use textwrap_proved::{wrap, Options, WrapAlgorithm};
///
/// let text = "To be, or not to be: that is the question";
/// assert_eq!(wrap(text, 10), ["To be,", "or not to", "be: that", "is the", "question"]);
/// let first_fit = Options::new(10).wrap_algorithm(WrapAlgorithm::FirstFit);
/// assert_eq!(wrap(text, first_fit), ["To be, or", "not to be:", "that is", "the", "question"]);
/// ```
///
/// # Panics
///
/// If a function of the caller, in the options, panics or
/// [gives what it must not](Options#functions-of-the-caller).
///
/// # Examples
///
/// ```
/// use std::borrow::Cow::{Borrowed, Owned};
/// use textwrap_proved::{wrap, Options};
///
/// let options = Options::new(14).subsequent_indent(">>");
/// let lines = wrap("Shall we meet at noon or at one?", &options);
/// assert_eq!(lines, ["Shall we meet", ">>at noon or", ">>at one?"]);
/// assert!(matches!(lines[..], [Borrowed(_), Owned(_), Owned(_)]));
/// ```
///
/// # Blanks
///
/// Blanks between words are kept within a line, and left off at its end. Blanks that a paragraph
/// begins with are a word without text, which the next word follows if it fits:
///
/// ```
/// use textwrap_proved::wrap;
///
/// assert_eq!(wrap("one   two ten", 10), ["one   two", "ten"]);
/// assert_eq!(wrap("one   two ten", 8), ["one", "two ten"]);
/// assert_eq!(wrap("  one two", 8), ["  one", "two"]);
/// assert_eq!(wrap("  one two", 4), ["", "one", "two"]);
/// ```
pub fn wrap<'a, Opt>(text: &str, width_or_options: Opt) -> Vec<Cow<'_, str>>
where
    Opt: Into<Options<'a>>,
{
    or_abort(fallible::wrap(text, width_or_options))
}

/// The text in columns beside one another, row by row. The width is that of a row, with its gaps.
///
/// The lines go down the first column, then down the second, and so on. The columns are equally
/// wide, at least 1, and blanks that are left over stand before the right gap.
///
/// # Panics
///
/// - Without any columns.
/// - If a function of the caller, in the options, panics or
///   [gives what it must not](Options#functions-of-the-caller).
/// - If the rows would take more than `isize::MAX` bytes, as by a width near `usize::MAX`.
///
/// # Examples
///
/// ```
/// use textwrap_proved::wrap_columns;
///
/// let rows = wrap_columns("In how many columns does this text stand?", 3, 31, "| ", " | ", " |");
/// assert_eq!(rows, [
///     "| In how  | does    | stand?  |",
///     "| many    | this    |         |",
///     "| columns | text    |         |",
/// ]);
/// ```
pub fn wrap_columns<'a, Opt>(
    text: &str,
    columns: usize,
    total_width_or_options: Opt,
    left_gap: &str,
    middle_gap: &str,
    right_gap: &str,
) -> Vec<String>
where
    Opt: Into<Options<'a>>,
{
    let options = total_width_or_options;
    or_abort(fallible::wrap_columns(text, columns, options, left_gap, middle_gap, right_gap))
}

/// A filled text, filled again with the indents that it has, and at its end the line ending that it
/// has there. The indents of the options are not used.
///
/// # Panics
///
/// If a function of the caller, in the options, panics or
/// [gives what it must not](Options#functions-of-the-caller).
///
/// # Examples
///
/// ```
/// use textwrap_proved::refill;
///
/// let mail = "> Shall\n> we meet at noon\n> or at one?\n";
/// assert_eq!(refill(mail, 16), "> Shall we meet\n> at noon or at\n> one?\n");
/// assert_eq!(refill("- a pound of\n  flour\n", 20), "- a pound of flour\n");
/// ```
#[inline]
pub fn refill<'a, Opt>(filled_text: &str, new_width_or_options: Opt) -> String
where
    Opt: Into<Options<'a>>,
{
    or_abort(fallible::refill(filled_text, new_width_or_options))
}

/// The joined lines of a filled text, and how it seems to have been filled.
///
/// The options have the columns of the widest line, the indents and the line ending. An indent is
/// what a line begins with of blanks and `-`, `+`, `*`, `>`, `#` and `/`, and the subsequent indent
/// is what all lines but the first begin with. The text is taken for one paragraph.
///
/// # Examples
///
/// ```
/// use textwrap_proved::{unfill, LineEnding};
///
/// let (text, options) = unfill("+ salt, and\n  a little\n  sugar\n");
/// assert_eq!(text, "salt, and a little sugar\n");
/// assert_eq!((options.initial_indent, options.subsequent_indent), ("+ ", "  "));
/// assert_eq!((options.width, options.line_ending), (11, LineEnding::LF));
/// ```
pub fn unfill(text: &str) -> (String, Options<'_>) {
    or_abort(fallible::unfill(text))
}

/// The text with a prefix before each line. A blank line gets the prefix without the whitespace at
/// its end.
///
/// # Examples
///
/// ```
/// use textwrap_proved::indent;
///
/// assert_eq!(indent("width 40\n\nheight 3\n", "# "), "# width 40\n#\n# height 3\n");
/// ```
pub fn indent(s: &str, prefix: &str) -> String {
    or_abort(fallible::indent(s, prefix))
}

/// The text without the whitespace that all its lines begin with.
///
/// # Examples
///
/// ```
/// use textwrap_proved::dedent;
///
/// assert_eq!(dedent("   bread\n     rye\n   cheese\n"), "bread\n  rye\ncheese\n");
/// ```
pub fn dedent(s: &str) -> String {
    or_abort(fallible::dedent(s))
}

/// Fills a text in its own place, at a width in columns: blanks of it become line feeds, and all
/// else stays.
///
/// It does so by first fit, keeps words whole, and takes each line of the text for a paragraph. So
/// it does what [`fill()`] does by these options, except that further blanks before a line feed
/// stay:
///
/// ```
/// # use textwrap_proved::{Options, WordSplitter, WrapAlgorithm};
/// # let width = 80;
/// Options::new(width)
///     .break_words(false)
///     .wrap_algorithm(WrapAlgorithm::FirstFit)
///     .word_splitter(WordSplitter::NoHyphenation);
/// ```
///
/// # Examples
///
/// ```
/// let mut text = String::from("apples   pears");
/// textwrap_proved::fill_inplace(&mut text, 10);
/// assert_eq!(text, "apples  \npears");
/// ```
pub fn fill_inplace(text: &mut String, width: usize) {
    or_abort(fallible::fill_inplace(text, width))
}
