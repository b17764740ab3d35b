//! The lines of a text by lists of its words, of their pieces and of lines, as the rules have them.
//! The library gives the words and what they are split, broken and divided into, step by step; it
//! makes none of the lines.
use crate::cases::settings::Settings;
use std::borrow::Cow;
use textwrap_proved::core::{break_words, display_width, Word};
use textwrap_proved::word_splitters::split_words;
use textwrap_proved::WordSeparator;

/// Whether paragraphs stay one line that are shorter than the width.
#[derive(Clone, Copy, Debug, PartialEq, Eq)]
pub enum Short {
    /// They stay whole, where they have no indent.
    Whole,
    /// They are divided like all others.
    Divided,
}

/// The lines of one paragraph of a text after the other.
pub fn wrap_by_lists<'t>(text: &'t str, settings: &Settings, short: Short) -> Vec<Cow<'t, str>> {
    let mut lines = Vec::new();
    for paragraph in text.split(settings.line_ending.as_str()) {
        let is_later = !lines.is_empty();
        if short == Short::Whole && settings.keeps_whole(paragraph, is_later) {
            lines.push(Cow::Borrowed(whole_line(paragraph, settings)));
            continue;
        }
        let pieces = pieces_of(paragraph, settings);
        let widths = line_widths(settings, is_later);
        let division = settings.wrap_algorithm().wrap(&pieces, &widths);
        push_lines(paragraph, &division, settings, &mut lines);
    }
    lines
}

/// A paragraph as one line.
fn whole_line<'t>(paragraph: &'t str, settings: &Settings) -> &'t str {
    if settings.preserve_trailing_space {
        paragraph
    } else {
        paragraph.trim_end_matches(' ')
    }
}

/// The widths of the first line of a paragraph and of its others. The first line is divided for
/// what the initial indent leaves, whatever stands before it, unless paragraphs are even.
fn line_widths(settings: &Settings, is_later: bool) -> [usize; 2] {
    let beside = |indent| settings.width.saturating_sub(display_width(indent));
    let first = settings.indent(!settings.has_own_width(is_later));
    [beside(first), beside(settings.subsequent_indent)]
}

/// The pieces of a paragraph. Where words are broken and there is an initial indent, an empty piece
/// stands in front, so that the first line can be the indent alone.
fn pieces_of<'t>(paragraph: &'t str, settings: &Settings) -> Vec<Word<'t>> {
    let words = WordSeparator::AsciiSpace.find_words(paragraph);
    let split = split_words(words, settings.word_splitter());
    if !settings.break_words {
        return split.collect();
    }
    let [_, later_width] = line_widths(settings, true);
    let mut pieces = break_words(split, later_width);
    if !settings.initial_indent.is_empty() {
        pieces.insert(0, Word::from(""));
    }
    pieces
}

/// Adds the lines of a paragraph that is divided so: of each line its indent, and the paragraph
/// from its first piece to its last, without the blanks after that unless these are preserved. (The
/// library's splitter adds no hyphens.) A line without pieces is empty, and has no indent.
fn push_lines<'t>(
    paragraph: &'t str,
    division: &[&[Word<'t>]],
    settings: &Settings,
    lines: &mut Vec<Cow<'t, str>>,
) {
    let mut rest = paragraph;
    for pieces in division {
        let len = pieces.iter().map(|piece| piece.word.len() + piece.whitespace.len()).sum();
        let (part, after) = rest.split_at(len);
        rest = after;
        let indent = if pieces.is_empty() { "" } else { settings.indent(!lines.is_empty()) };
        let blanks = pieces.last().map_or(0, |last| last.whitespace.len());
        let is_kept = settings.preserve_trailing_space;
        let slice = if is_kept { part } else { &part[..part.len() - blanks] };
        lines.push(if indent.is_empty() {
            Cow::Borrowed(slice)
        } else {
            Cow::Owned(format!("{indent}{slice}"))
        });
    }
}
