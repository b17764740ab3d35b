//! The calls on texts, with running out of memory as an error.
//!
//! What a function of the caller allocates, which is a part of the options, is its own affair.
//!
//! ```
//! use textwrap_proved::{fallible, OutOfMemory};
//!
//! fn shown(text: &str) -> Result<String, OutOfMemory> {
//!     fallible::fill(text, 10)
//! }
//! assert_eq!(shown("foo bar baz"), Ok(String::from("foo bar\nbaz")));
//! ```
use crate::display::Gaps;
use crate::out_of_memory::BeforeCall;
use crate::reflow::ReflowOptions;
use crate::room::{lines_by, text_by, texts_of, written};
use crate::{custom, guess, sys};
use crate::{LineEnding, Options};
use alloc::borrow::Cow;
use alloc::string::String;
use alloc::vec::Vec;

pub use crate::out_of_memory::OutOfMemory;

/// [`crate::fill`].
///
/// # Errors
/// [`OutOfMemory`] if memory runs out.
///
/// # Panics
/// If a function of the caller, in the options, panics or
/// [gives what it must not](Options#functions-of-the-caller).
#[inline]
pub fn fill<'a, Opt>(text: &str, width_or_options: Opt) -> Result<String, OutOfMemory>
where
    Opt: Into<Options<'a>>,
{
    // A short line takes so little time that it matters how the options get here. This is compiled where
    // it is called, and lends them to nothing; so they are written to memory once, as C has them.
    match width_or_options.into().plain() {
        Ok(with) => text_by!(guess::filled(text, 8, &with), textwrap_fill_utf8(text; &with)),
        Err(options) => custom::filled(text, options),
    }
}

/// [`crate::refill`].
///
/// # Errors
/// [`OutOfMemory`] if memory runs out.
///
/// # Panics
/// If a function of the caller, in the options, panics or
/// [gives what it must not](Options#functions-of-the-caller).
#[inline]
pub fn refill<'a, Opt>(filled_text: &str, new_width_or_options: Opt) -> Result<String, OutOfMemory>
where
    Opt: Into<Options<'a>>,
{
    // As in `fill`.
    match new_width_or_options.into().plain() {
        Ok(with) => text_by!(guess::refilled(filled_text), textwrap_refill_utf8(filled_text; &with)),
        Err(options) => custom::refilled(filled_text, options),
    }
}

/// [`crate::reflow::reflow`].
///
/// # Errors
/// [`OutOfMemory`] if memory runs out.
pub fn reflow<'a, Opt>(text: &str, width_or_options: Opt) -> Result<String, OutOfMemory>
where
    Opt: Into<ReflowOptions<'a>>,
{
    let options = width_or_options.into();
    let (markers, prefixes) = (texts_of(options.markers)?, texts_of(options.prefixes)?);
    let with = options.to_sys(&markers, &prefixes);
    // The prefixes of the text may be shown more often than in it.
    text_by!(text.len() + text.len() / 4, textwrap_reflow(text; &with))
}

/// [`crate::indent`].
///
/// # Errors
/// [`OutOfMemory`] if memory runs out.
pub fn indent(s: &str, prefix: &str) -> Result<String, OutOfMemory> {
    let guess = guess::with_more(s.len(), guess::line_feeds(s) + 1, prefix.len());
    text_by!(guess, textwrap_indent_utf8(s, prefix))
}

/// [`crate::dedent`].
///
/// # Errors
/// [`OutOfMemory`] if memory runs out.
pub fn dedent(s: &str) -> Result<String, OutOfMemory> {
    text_by!(s.len(), textwrap_dedent_utf8(s))
}

/// [`crate::fill_inplace`].
///
/// # Errors
/// [`OutOfMemory`] if memory runs out. Then the text is as it was.
// The type is that of the original's call.
#[allow(clippy::ptr_arg)]
pub fn fill_inplace(text: &mut String, width: usize) -> Result<(), OutOfMemory> {
    let before = BeforeCall::now();
    // SAFETY: the bytes of the text, which nothing else borrows. Blanks become line feeds, so they
    // stay UTF-8.
    let status = unsafe {
        let bytes = text.as_bytes_mut();
        sys::textwrap_fill_inplace(bytes.as_mut_ptr(), bytes.len(), width)
    };
    match status {
        sys::DONE => Ok(()),
        sys::OUT_OF_MEMORY => Err(before.out_of_memory()),
        _ => unreachable!("a String is UTF-8"),
    }
}

/// [`crate::unfill`].
///
/// # Errors
/// [`OutOfMemory`] if memory runs out.
#[inline]
pub fn unfill(text: &str) -> Result<(String, Options<'_>), OutOfMemory> {
    let mut layout = sys::Layout::default();
    // The joined text and the indents mostly stand in the text, with a line ending at each line.
    let guess = text.len() + LineEnding::CRLF.as_str().len();
    // SAFETY: a `str` with its length, room with its length, and a layout, of which nothing else borrows
    // what is written to; the call writes what it reports, in UTF-8.
    let mut parts = unsafe {
        written(guess, |room, room_len, len| {
            sys::textwrap_unfill_utf8(text.as_ptr(), text.len(), room, room_len, len, &mut layout)
        })?
    };
    let (initial, subsequent) = (layout.initial_indent_len, layout.subsequent_indent_len);
    parts.truncate(parts.len() - initial - subsequent);
    // The subsequent indent is what all later lines begin with, so the second line does.
    let second = if subsequent == 0 { 0 } else { text.find('\n').map_or(0, |at| at + 1) };
    let ending = if layout.crlf == 0 { LineEnding::LF } else { LineEnding::CRLF };
    let options = Options::new(layout.width)
        .line_ending(ending)
        .initial_indent(&text[..initial])
        .subsequent_indent(&text[second..second + subsequent]);
    Ok((parts, options))
}

/// [`crate::wrap`].
///
/// # Errors
/// [`OutOfMemory`] if memory runs out.
///
/// # Panics
/// If a function of the caller, in the options, panics or
/// [gives what it must not](Options#functions-of-the-caller).
pub fn wrap<'a, Opt>(text: &str, width_or_options: Opt) -> Result<Vec<Cow<'_, str>>, OutOfMemory>
where
    Opt: Into<Options<'a>>,
{
    wrapped(text, &width_or_options.into())
}

/// The same by borrowed options. What does not depend on their type is compiled once, and here.
pub(crate) fn wrapped<'t>(
    text: &'t str,
    options: &Options<'_>,
) -> Result<Vec<Cow<'t, str>>, OutOfMemory> {
    if options.has_function() {
        return custom::wrapped(text, options);
    }
    let with = options.to_sys();
    let (lines, bytes) = guess::wrapped(text, &with);
    lines_by!(lines, bytes, textwrap_wrap_utf8(text; &with))?.cows(text)
}

/// [`crate::wrap_columns`].
///
/// # Errors
/// [`OutOfMemory`] if memory runs out.
///
/// # Panics
/// Without any columns, or if a function of the caller, in the options, panics or
/// [gives what it must not](Options#functions-of-the-caller).
pub fn wrap_columns<'a, Opt>(
    text: &str,
    columns: usize,
    total_width_or_options: Opt,
    left_gap: &str,
    middle_gap: &str,
    right_gap: &str,
) -> Result<Vec<String>, OutOfMemory>
where
    Opt: Into<Options<'a>>,
{
    assert!(columns > 0, "there has to be a column");
    let gaps = Gaps { left: left_gap, middle: middle_gap, right: right_gap };
    rows(text, columns, &total_width_or_options.into(), &gaps)
}

/// The same by borrowed options.
fn rows(
    text: &str,
    columns: usize,
    options: &Options<'_>,
    gaps: &Gaps<'_>,
) -> Result<Vec<String>, OutOfMemory> {
    if options.has_function() {
        return custom::columns(text, columns, options, gaps);
    }
    let (with, around) = (options.to_sys(), gaps.to_sys());
    let rows = guess::lines(text, options.width / columns) / columns + 1;
    let row_len = options.width.saturating_add(gaps.bytes_in(columns));
    let bytes = guess::with_more(text.len(), rows, row_len);
    lines_by!(rows, bytes, textwrap_wrap_columns(text; columns, &with, &around))?.texts()
}
