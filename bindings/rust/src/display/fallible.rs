//! The calls for display, with running out of memory as an error.
//!
//! What a function of the caller allocates, which is a part of the options, is its own affair.
//!
//! ```
//! use textwrap_proved::display::{fallible, Alignment};
//! use textwrap_proved::OutOfMemory;
//!
//! assert_eq!(fallible::align("foo", 5, Alignment::Right), Ok(String::from("  foo")));
//! let too_wide = fallible::align("foo", usize::MAX, Alignment::Right);
//! assert_eq!(too_wide, Err(OutOfMemory::default()));
//! ```
use super::{Alignment, Column, Gaps, Shortening};
use crate::room::{lines_by, list_by, mapped, number_by, text_by, texts_of};
use crate::{custom, guess, Options, WrapAlgorithm};
use alloc::borrow::Cow;
use alloc::string::String;
use alloc::vec::Vec;

pub use crate::out_of_memory::OutOfMemory;

/// [`crate::display::align`].
///
/// # Errors
/// [`OutOfMemory`] if memory runs out.
pub fn align(line: &str, width: usize, alignment: Alignment) -> Result<String, OutOfMemory> {
    text_by!(line.len().max(width), textwrap_align(line; width, alignment.to_sys()))
}

/// [`crate::display::justify`].
///
/// # Errors
/// [`OutOfMemory`] if memory runs out.
pub fn justify(line: &str, width: usize) -> Result<String, OutOfMemory> {
    text_by!(line.len().max(width), textwrap_justify(line; width))
}

/// [`crate::display::expand_tabs`].
///
/// # Errors
/// [`OutOfMemory`] if memory runs out.
pub fn expand_tabs(text: &str, stop: usize) -> Result<String, OutOfMemory> {
    text_by!(text.len(), textwrap_expand_tabs(text; stop))
}

/// [`crate::display::strip_other_sequences`].
///
/// # Errors
/// [`OutOfMemory`] if memory runs out.
pub fn strip_other_sequences(text: &str) -> Result<String, OutOfMemory> {
    text_by!(text.len(), textwrap_strip_other_sequences(text))
}

/// [`crate::display::fill_justified`].
///
/// # Errors
/// [`OutOfMemory`] if memory runs out.
///
/// # Panics
/// If a function of the caller, in the options, panics or
/// [gives what it must not](Options#functions-of-the-caller).
pub fn fill_justified<'a, Opt>(text: &str, width_or_options: Opt) -> Result<String, OutOfMemory>
where
    Opt: Into<Options<'a>>,
{
    justified(text, &width_or_options.into())
}

/// The same by borrowed options.
fn justified(text: &str, options: &Options<'_>) -> Result<String, OutOfMemory> {
    if options.has_function() {
        return custom::justified(text, options);
    }
    let with = options.to_sys();
    text_by!(guess::filled(text, 2, &with), textwrap_fill_justified(text; &with))
}

/// [`crate::display::shorten`].
///
/// # Errors
/// [`OutOfMemory`] if memory runs out.
pub fn shorten(line: &str, width: usize, placeholder: &str) -> Result<String, OutOfMemory> {
    let (end, end_len) = (placeholder.as_ptr(), placeholder.len());
    text_by!(line.len() + end_len, textwrap_shorten(line; width, end, end_len))
}

/// [`crate::display::shorten_by`].
///
/// # Errors
/// [`OutOfMemory`] if memory runs out.
pub fn shorten_by(line: &str, shortening: &Shortening<'_>) -> Result<String, OutOfMemory> {
    let &Shortening { width, placeholder, break_words } = shortening;
    let (end, end_len, breaks) = (placeholder.as_ptr(), placeholder.len(), break_words.into());
    text_by!(line.len() + end_len, textwrap_shorten_by(line; width, end, end_len, breaks))
}

/// [`crate::display::shorten_lines`].
///
/// # Errors
/// [`OutOfMemory`] if memory runs out.
pub fn shorten_lines<S>(
    lines: &[S],
    most: usize,
    width: usize,
    placeholder: &str,
) -> Result<Vec<String>, OutOfMemory>
where
    S: AsRef<str>,
{
    let texts = texts_of(lines)?;
    let (end, end_len) = (placeholder.as_ptr(), placeholder.len());
    let kept = &lines[..most.min(lines.len())];
    let bytes = guess::bytes_of(kept, end_len);
    lines_by!(kept.len(), bytes, textwrap_shorten_lines(texts; most, width, end, end_len))?.texts()
}

/// [`crate::display::shorten_lines_by`].
///
/// # Errors
/// [`OutOfMemory`] if memory runs out.
pub fn shorten_lines_by<S>(
    lines: &[S],
    most: usize,
    shortening: &Shortening<'_>,
) -> Result<Vec<String>, OutOfMemory>
where
    S: AsRef<str>,
{
    let texts = texts_of(lines)?;
    let &Shortening { width, placeholder, break_words } = shortening;
    let (end, end_len, breaks) = (placeholder.as_ptr(), placeholder.len(), break_words.into());
    let kept = &lines[..most.min(lines.len())];
    let bytes = guess::bytes_of(kept, end_len);
    lines_by!(kept.len(), bytes, textwrap_shorten_lines_by(texts; most, width, end, end_len, breaks))?
        .texts()
}

/// [`crate::display::carry_styles`].
///
/// # Errors
/// [`OutOfMemory`] if memory runs out.
pub fn carry_styles<'a, S, Opt>(
    lines: &[S],
    width_or_options: Opt,
) -> Result<Vec<String>, OutOfMemory>
where
    S: AsRef<str>,
    Opt: Into<Options<'a>>,
{
    let texts = texts_of(lines)?;
    let options = width_or_options.into();
    // To set a colour and to take it back takes so many bytes at most.
    let bytes = guess::bytes_of(lines, 23);
    lines_by!(lines.len(), bytes, textwrap_carry_styles(texts; &options.to_sys()))?.texts()
}

/// [`crate::display::carry_attributes`].
///
/// # Errors
/// [`OutOfMemory`] if memory runs out.
pub fn carry_attributes<'a, S, Opt>(
    lines: &[S],
    width_or_options: Opt,
) -> Result<Vec<String>, OutOfMemory>
where
    S: AsRef<str>,
    Opt: Into<Options<'a>>,
{
    carry_styles(lines, width_or_options)
}

/// [`crate::display::wrap_balanced`].
///
/// # Errors
/// [`OutOfMemory`] if memory runs out.
///
/// # Panics
/// If a function of the caller, or a dictionary, finds words or splits them.
pub fn wrap_balanced<'a, Opt>(
    text: &str,
    width_or_options: Opt,
) -> Result<Vec<Cow<'_, str>>, OutOfMemory>
where
    Opt: Into<Options<'a>>,
{
    let options = by_first_fit(width_or_options.into());
    let with = options.to_sys();
    let (lines, bytes) = guess::wrapped(text, &with);
    lines_by!(lines, bytes, textwrap_wrap_balanced(text; &with))?.cows(text)
}

/// [`crate::display::balanced_width`].
///
/// # Errors
/// [`OutOfMemory`] if memory runs out.
///
/// # Panics
/// If a function of the caller, or a dictionary, finds words or splits them.
pub fn balanced_width<'a, Opt>(text: &str, width_or_options: Opt) -> Result<usize, OutOfMemory>
where
    Opt: Into<Options<'a>>,
{
    let options = by_first_fit(width_or_options.into());
    let with = options.to_sys();
    number_by!(textwrap_balanced_width(text; &with))
}

/// The options by first fit, as their algorithm is not used.
///
/// # Panics
/// If a function of the caller, or a dictionary, finds words or splits them.
fn by_first_fit(options: Options<'_>) -> Options<'_> {
    let options = options.wrap_algorithm(WrapAlgorithm::FirstFit);
    assert!(!options.has_function(), "a text is balanced by the library's own words and points");
    options
}

/// [`crate::display::fitting_widths`].
///
/// # Errors
/// [`OutOfMemory`] if memory runs out.
pub fn fitting_widths<S>(
    cells: &[S],
    columns: usize,
    total: usize,
) -> Result<Vec<usize>, OutOfMemory>
where
    S: AsRef<str>,
{
    let texts = texts_of(cells)?;
    Ok(list_by!(columns, textwrap_fitting_widths(texts; columns, total))?)
}

/// [`crate::display::table`].
///
/// # Errors
/// [`OutOfMemory`] if memory runs out.
///
/// # Panics
/// If a function of the caller, in the options of a column, panics or
/// [gives what it must not](Options#functions-of-the-caller).
pub fn table<S>(
    cells: &[S],
    columns: &[Column<'_>],
    gaps: &Gaps<'_>,
) -> Result<Vec<String>, OutOfMemory>
where
    S: AsRef<str>,
{
    if columns.is_empty() {
        return Ok(Vec::new());
    }
    if columns.iter().any(|column| column.options.has_function()) {
        return custom::table(cells, columns, gaps);
    }
    let (texts, columns) = (texts_of(cells)?, mapped(columns, Column::to_sys)?);
    let (rows, bytes) = guess::table(cells, &columns, gaps);
    lines_by!(rows, bytes, textwrap_table(texts, columns; &gaps.to_sys()))?.texts()
}
