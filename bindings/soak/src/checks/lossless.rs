//! The promise that the lines of a text are the text: each is found at its place, and between two
//! of them only blanks and line endings are passed over.
use super::Finding;
use crate::cases::settings::Settings;
use crate::cases::Case;
use std::borrow::Cow;

/// A line at its place in the text.
#[derive(Clone, Copy, Debug)]
pub struct PlacedLine<'l> {
    /// The line without its indent.
    pub slice: &'l str,
    /// Whether it is the first line of its paragraph and, where paragraphs are even, of the text.
    pub is_first: bool,
    /// Whether its paragraph is one line as a whole.
    pub is_whole: bool,
}

/// Checks that these are lines of the case's text.
pub fn check(case: &Case, lines: &[Cow<'_, str>]) -> Finding {
    Finding::of(place_lines(&case.text, &case.settings, lines).is_some())
}

/// The lines at their places, if they are the text: if all are found, and nothing else is left of
/// the text than blanks at the ends of lines (none, where blanks are preserved) and line endings.
pub fn place_lines<'l>(
    text: &str,
    settings: &Settings,
    lines: &'l [Cow<'_, str>],
) -> Option<Vec<PlacedLine<'l>>> {
    let mut placed = Vec::new();
    for paragraph in text.split(settings.line_ending.as_str()) {
        if !place_paragraph(paragraph, settings, lines, &mut placed) {
            return None;
        }
    }
    (placed.len() == lines.len()).then_some(placed)
}

/// Places the lines of a paragraph, which follow those that were placed before, and returns whether
/// all are found. A paragraph has at least one line, and just one where it is kept whole; its last
/// is the first one after which nothing but blanks is left of it.
fn place_paragraph<'l>(
    paragraph: &str,
    settings: &Settings,
    lines: &'l [Cow<'_, str>],
    placed: &mut Vec<PlacedLine<'l>>,
) -> bool {
    let before = placed.len();
    let is_whole = settings.keeps_whole(paragraph, before > 0);
    let mut rest = paragraph;
    for line in lines.iter().skip(before) {
        let indent = indent_of(paragraph, settings, !placed.is_empty());
        let is_part = matches!(line, Cow::Borrowed(_));
        let slice = line.strip_prefix(indent).filter(|_| is_part == indent.is_empty());
        let Some(slice) = slice else {
            return false;
        };
        let Some(after) = after_slice(rest, slice, settings) else {
            return false;
        };
        let is_first = placed.len() == before && settings.has_own_width(before > 0);
        placed.push(PlacedLine { slice, is_first, is_whole });
        rest = after;
        if are_left_off(rest, settings) {
            return true;
        }
        if is_whole {
            return false;
        }
    }
    false
}

/// The indent that a line of a paragraph has to begin with. A line without pieces has none. Where
/// there is one, the line is a text of its own, and else a part of the text.
fn indent_of(paragraph: &str, settings: &Settings, is_later: bool) -> &'static str {
    if has_pieces(paragraph, settings) {
        settings.indent(is_later)
    } else {
        ""
    }
}

/// Whether a paragraph has pieces. An empty one has an empty word, where words are broken and there
/// is an initial indent.
fn has_pieces(paragraph: &str, settings: &Settings) -> bool {
    !paragraph.is_empty() || (settings.break_words && !settings.initial_indent.is_empty())
}

/// What follows the slice, which stands at the front of the text or, where blanks are not
/// preserved, after the blanks there.
fn after_slice<'t>(text: &'t str, slice: &str, settings: &Settings) -> Option<&'t str> {
    let at_front = text.strip_prefix(slice);
    if settings.preserve_trailing_space {
        return at_front;
    }
    at_front.or_else(|| text.trim_start_matches(' ').strip_prefix(slice))
}

/// Whether a last line may leave this off.
fn are_left_off(rest: &str, settings: &Settings) -> bool {
    if settings.preserve_trailing_space {
        return rest.is_empty();
    }
    rest.trim_start_matches(' ').is_empty()
}
