//! How much room an answer mostly needs, so that one call suffices. Where a guess is too small, the
//! call says how much it is, and is made again.
use crate::display::Gaps;
use crate::sys;

/// How many bytes of a text are of a kind.
pub(crate) fn count(text: &str, is_counted: impl Fn(u8) -> bool) -> usize {
    // In parts whose count a byte holds, so that the processor looks at many bytes at once.
    let in_part = |part: &[u8]| part.iter().map(|&byte| u8::from(is_counted(byte))).sum::<u8>();
    text.as_bytes().chunks(192).map(|part| usize::from(in_part(part))).sum()
}

/// The places of a text where a line may end: at blanks and beside characters outside ASCII, and at
/// a few others.
pub(crate) fn breaks(text: &str) -> usize {
    count(text, |byte| byte == b' ' || byte >= 0xC0) + 4
}

/// The numbers of patterns in a text.
pub(crate) fn patterns(text: &str) -> usize {
    2 * text.len() + 16
}

/// The line feeds of a text. Those of a short one are not counted, but taken for many.
pub(crate) fn line_feeds(text: &str) -> usize {
    match text.len() {
        len @ ..=512 => len / 16,
        _ => count(text, |byte| byte == b'\n'),
    }
}

/// The lines of a text at a width, as if each was filled half.
pub(crate) fn lines(text: &str, width: usize) -> usize {
    line_feeds(text) + text.len() / (width / 2).max(1) + 1
}

/// So many bytes, and so many more for each line.
pub(crate) fn with_more(bytes: usize, lines: usize, more: usize) -> usize {
    lines.saturating_mul(more).saturating_add(bytes)
}

/// The bytes that an indent and an added hyphen give to each line but the first.
#[inline]
fn later(options: &sys::Options) -> usize {
    options.subsequent_indent.len + usize::from(options.dictionary.numbers_len > 0)
}

/// The bytes of a filled text that grows by one in so many. Line endings mostly come in the place of
/// blanks, so it grows little, and by hardly ever more than half if it is justified. Lines matter only
/// if indents stand before them, or hyphens behind them.
#[inline]
pub(crate) fn filled(text: &str, one_in: usize, options: &sys::Options) -> usize {
    let bytes = text.len() + text.len() / one_in + options.initial_indent.len;
    match later(options) {
        0 => bytes,
        more => with_more(bytes, lines(text, options.width), more),
    }
}

/// The bytes of a text that is filled again: its indents may be shown more often than in it.
#[inline]
pub(crate) fn refilled(filled_text: &str) -> usize {
    filled_text.len() + filled_text.len() / 4
}

/// The lines of a text, and the bytes of those that are texts of their own, for an indent or a hyphen.
pub(crate) fn wrapped(text: &str, options: &sys::Options) -> (usize, usize) {
    let lines = lines(text, options.width);
    let (initial, later) = (options.initial_indent.len, later(options));
    let bytes = if initial + later == 0 { 0 } else { text.len() + initial };
    (lines, with_more(bytes, lines, later))
}

/// The bytes of texts, with so many more for each.
pub(crate) fn bytes_of<S: AsRef<str>>(texts: &[S], more: usize) -> usize {
    texts.iter().map(|text| text.as_ref().len() + more).fold(0, usize::saturating_add)
}

/// The rows of a table, and their bytes. There is a column.
pub(crate) fn table<S: AsRef<str>>(
    cells: &[S],
    columns: &[sys::Column],
    gaps: &Gaps<'_>,
) -> (usize, usize) {
    let widths = columns.iter().map(|column| column.options.width);
    let lines_of = |(cell, width): (&S, usize)| lines(cell.as_ref(), width);
    let height = |row: &[S]| row.iter().zip(widths.clone()).map(lines_of).max().unwrap_or(0);
    let rows = cells.chunks(columns.len()).map(height).fold(0, usize::saturating_add);
    let row_len = widths.fold(gaps.bytes_in(columns.len()), usize::saturating_add);
    (rows, with_more(bytes_of(cells, 0), rows, row_len))
}
