//! The promise that the lines of first fit keep to their widths, where words are broken.
use super::lossless::{place_lines, PlacedLine};
use super::styled::visible;
use super::Finding;
use crate::cases::settings::{Algorithm, Settings};
use crate::cases::texts::Alphabet;
use crate::cases::Case;
use std::borrow::Cow;
use textwrap_proved::core::display_width;

/// Checks the widths of these lines of the case's text. An escape sequence that is cut hides or
/// shows other characters in a line than in its pieces, so of such texts nothing is said.
pub fn check(case: &Case, lines: &[Cow<'_, str>]) -> Finding {
    let settings = &case.settings;
    let is_first_fit = matches!(settings.algorithm, Algorithm::FirstFit);
    let is_cut = matches!(case.alphabet, Alphabet::Cut);
    if !is_first_fit || !settings.break_words || is_cut {
        return Finding::PassedOver;
    }
    match place_lines(&case.text, settings, lines) {
        Some(placed) => Finding::of(placed.iter().all(|line| fits(settings, line))),
        None => Finding::Broken,
    }
}

/// Whether a line keeps to the width that it was divided for, or has a single character with
/// columns. Blanks at its end, which may be preserved, do not count.
fn fits(settings: &Settings, line: &PlacedLine<'_>) -> bool {
    let closed = line.slice.trim_end_matches(' ');
    display_width(closed) <= line_width(settings, line) || count_with_columns(closed) == 1
}

/// The width that a line was divided for: that of the settings where its paragraph is kept whole,
/// and else what the indent leaves. The first line of each paragraph is divided for what the
/// initial indent leaves, even if it bears the other; where paragraphs are even, that of the text
/// alone.
fn line_width(settings: &Settings, line: &PlacedLine<'_>) -> usize {
    if line.is_whole {
        return settings.width;
    }
    let indent = settings.indent(!line.is_first);
    settings.width.saturating_sub(display_width(indent))
}

/// How many visible characters take columns.
fn count_with_columns(text: &str) -> usize {
    let mut buffer = [0; 4];
    visible(text).chars().filter(|ch| display_width(ch.encode_utf8(&mut buffer)) > 0).count()
}
