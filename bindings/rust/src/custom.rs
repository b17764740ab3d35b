//! Texts in which functions of the caller take part; and those by patterns, which borrow.
//!
//! The functions give the words of a paragraph, their points or its lines. What they give is checked
//! here, and the library makes the lines of it, and the rows of these.
use crate::core::Word;
use crate::display::{Column, Gaps};
use crate::fallible::{self, unfill};
use crate::room::{
    lines_by, list_by, mapped, push, reserve, room_for, text_by, texts_of, value_by,
};
use crate::{guess, sys, Options, OutOfMemory, WordSplitter, WrapAlgorithm};
use alloc::borrow::Cow;
use alloc::string::String;
use alloc::vec::Vec;
use core::iter;

type Result<T> = core::result::Result<T, OutOfMemory>;

/// The filled text.
#[cold]
pub(crate) fn filled(text: &str, options: Options<'_>) -> Result<String> {
    let with = options.to_sys();
    if !options.has_function() {
        return text_by!(guess::filled(text, 8, &with), textwrap_fill_utf8(text; &with));
    }
    let found = steps_of(text, &options)?;
    let steps = mapped(&found, Steps::to_sys)?;
    text_by!(guess::filled(text, 8, &with), textwrap_fill_at(text, steps; &with))
}

/// The filled text, with all lines but the last of each paragraph justified after their indents.
pub(crate) fn justified(text: &str, options: &Options<'_>) -> Result<String> {
    let (found, with) = (steps_of(text, options)?, options.to_sys());
    let steps = mapped(&found, Steps::to_sys)?;
    text_by!(guess::filled(text, 2, &with), textwrap_fill_justified_at(text, steps; &with))
}

/// The lines of the text.
pub(crate) fn wrapped<'t>(text: &'t str, options: &Options<'_>) -> Result<Vec<Cow<'t, str>>> {
    let (found, with) = (steps_of(text, options)?, options.to_sys());
    let steps = mapped(&found, Steps::to_sys)?;
    let (lines, bytes) = guess::wrapped(text, &with);
    lines_by!(lines, bytes, textwrap_wrap_at(text, steps; &with))?.cows(text)
}

/// The filled text, filled again with the indents that it has.
#[cold]
pub(crate) fn refilled(filled_text: &str, options: Options<'_>) -> Result<String> {
    if !options.has_function() {
        let with = options.to_sys();
        return text_by!(guess::refilled(filled_text), textwrap_refill_utf8(filled_text; &with));
    }
    let (text, found) = unfill(filled_text)?;
    let joined = text.strip_suffix(found.line_ending.as_str());
    let ending = joined.map_or("", |_| options.line_ending.as_str());
    let Options { initial_indent, subsequent_indent, .. } = found;
    let with = Options { initial_indent, subsequent_indent, ..options };
    let mut refilled = filled(joined.unwrap_or(&text), with)?;
    push(&mut refilled, ending)?;
    Ok(refilled)
}

/// The rows of the text in columns. There is a column.
pub(crate) fn columns(
    text: &str,
    columns: usize,
    options: &Options<'_>,
    gaps: &Gaps<'_>,
) -> Result<Vec<String>> {
    let (width, around) = (options.width, gaps.to_sys());
    let column_width = value_by!(textwrap_column_width(; width, columns, &around));
    let wrapped = wrapped(text, &options.clone().width(column_width))?;
    let lines = texts_of(&wrapped)?;
    lines_by!(0, 0, textwrap_rows_of_lines(lines; columns, width, &around))?.texts()
}

/// The rows of a table. There is a column.
pub(crate) fn table<S: AsRef<str>>(
    cells: &[S],
    columns: &[Column<'_>],
    gaps: &Gaps<'_>,
) -> Result<Vec<String>> {
    let (mut lines, mut texts) = (room_for(cells.len())?, room_for(cells.len())?);
    for (cell, column) in cells.iter().zip(columns.iter().cycle()) {
        let wrapped = fallible::wrapped(cell.as_ref(), &column.options)?;
        texts.push(texts_of(&wrapped)?);
        lines.push(wrapped);
    }
    let cells = mapped(&texts, |lines| sys::Cell::from(&lines[..]))?;
    let columns = mapped(columns, Column::to_sys)?;
    lines_by!(0, 0, textwrap_table_of_lines(cells, columns; &gaps.to_sys()))?.texts()
}

/// What is found of a paragraph: offsets at which it is cut into words, and at which these are split,
/// and before how many of the pieces each line ends.
#[derive(Default)]
struct Steps {
    cuts: Vec<usize>,
    points: Vec<usize>,
    ends: Vec<usize>,
}

impl Steps {
    fn to_sys(&self) -> sys::Steps {
        let [(cuts, cuts_len), (points, points_len), (ends, ends_len)] =
            [&self.cuts, &self.points, &self.ends].map(|list| (list.as_ptr(), list.len()));
        sys::Steps { cuts, cuts_len, points, points_len, ends, ends_len }
    }
}

/// The steps of each paragraph of a text.
fn steps_of(text: &str, options: &Options<'_>) -> Result<Vec<Steps>> {
    let paragraphs = list_by!(1, textwrap_paragraphs(text; &options.to_sys()))?;
    let mut steps = room_for(paragraphs.len())?;
    let mut is_later = false;
    for sys::Paragraph { offset, len } in paragraphs {
        let found = paragraph_steps(&text[offset..offset + len], options, is_later)?;
        is_later = is_later || !found.ends.is_empty();
        steps.push(found);
    }
    Ok(steps)
}

/// What the functions find of a paragraph, before which a line stands or not. Where it is one line as
/// a whole they are not asked.
///
/// # Panics
/// If a function gives what it must not, or a cost needs more than 128 bits.
fn paragraph_steps(text: &str, options: &Options<'_>, is_later: bool) -> Result<Steps> {
    let (with, is_later) = (options.to_sys(), is_later.into());
    let widths: sys::Widths = value_by!(textwrap_paragraph_widths(text; &with, is_later));
    if widths.is_whole != 0 {
        // One line. The library does not look where it ends.
        return Ok(Steps { ends: mapped(&[0], usize::clone)?, ..Steps::default() });
    }
    let cuts = options.word_separator.cuts_of(text)?;
    let points = points_between(&cuts, text, &options.word_splitter)?;
    // The first piece, the empty one of an indent before it, and one after each place.
    let guess = cuts.len() + points.len() + 2;
    let ends = if let WrapAlgorithm::Custom(function) = options.wrap_algorithm {
        let pieces = list_by!(guess, textwrap_pieces_at(text, cuts, points; &with))?;
        let words = mapped(&pieces, |piece| Word::at(text, piece))?;
        ends_between(&words, &function(&words, &[widths.first, widths.later]))?
    } else {
        list_by!(guess, textwrap_ends_at(text, cuts, points; &with, is_later))?
    };
    Ok(Steps { cuts, points, ends })
}

/// The words between cuts of a paragraph, without the blanks at their ends, and where each begins. An
/// empty paragraph has none.
fn words_between<'t>(
    cuts: &'t [usize],
    text: &'t str,
) -> impl Iterator<Item = (usize, &'t str)> {
    let cuts = cuts.iter().copied();
    let last = Some(text.len()).filter(|&len| len > 0);
    iter::once(0)
        .chain(cuts.clone())
        .zip(cuts.chain(last))
        .map(|(start, end)| (start, text[start..end].trim_end_matches(' ')))
}

/// The points of the words between cuts of a paragraph.
fn points_between(cuts: &[usize], text: &str, splitter: &WordSplitter) -> Result<Vec<usize>> {
    let mut points = Vec::new();
    for (start, word) in words_between(cuts, text) {
        let inside = splitter.points_inside(word)?;
        reserve(&mut points, inside.len())?;
        points.extend(inside.iter().map(|point| start + point));
    }
    Ok(points)
}

/// Where lines of words end that a function of the caller gave.
fn ends_between<'a>(words: &[Word<'a>], lines: &[&[Word<'a>]]) -> Result<Vec<usize>> {
    let mut ends = room_for(lines.len())?;
    let mut end = 0;
    for line in lines {
        let start = end;
        end += line.len();
        assert!(
            words.get(start..end) == Some(line),
            "the lines of a WrapAlgorithm::Custom have to be the words in order; {line:?} does not \
             begin with word {start} of {}",
            words.len()
        );
        ends.push(end);
    }
    Ok(ends)
}
