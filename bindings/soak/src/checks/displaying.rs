//! The promises of texts for display: carried styles and attributes, justified lines, rows, shortened
//! lines, texts without tabs, balanced lines and widths of columns.
use super::styled::Reader;
use super::Finding;
use crate::cases::settings::{Algorithm, Settings};
use crate::cases::texts::Alphabet;
use crate::cases::Case;
use std::borrow::Cow;
use textwrap_proved::core::display_width;
use textwrap_proved::display::{
    balanced_width, carry_attributes, carry_styles, expand_tabs, fill_justified, fitting_widths,
    shorten, table, wrap_balanced, Alignment, Column, Gaps,
};
use textwrap_proved::{fill, wrap};

/// What the library makes of a case's text, by its settings for display.
#[derive(Clone, Debug)]
pub struct Displays<'c> {
    /// The lines of the text.
    pub lines: Vec<Cow<'c, str>>,
    /// Those lines, with their styles carried over their ends.
    pub carried: Vec<String>,
    /// The same by their attributes.
    pub attributed: Vec<String>,
    /// The text, filled.
    pub filled: String,
    /// The text, filled with its lines justified.
    pub justified: String,
    /// The lines of the plain text, by the settings of the column beside the text's.
    pub beside: Vec<Cow<'c, str>>,
    /// The rows of the text and the plain text in two columns.
    pub rows: Vec<String>,
    /// The text's first line, shortened.
    pub shortened: String,
    /// The text with blanks in the place of its tabs.
    pub expanded: String,
    /// The width at which the text is balanced.
    pub balanced_width: usize,
    /// Its lines at that width.
    pub balanced: Vec<Cow<'c, str>>,
    /// The widths of two columns that have the text and the plain text in them.
    pub widths: Vec<usize>,
}

/// The greatest width: what is justified or stands in a column is written with all its blanks.
const GREATEST: usize = 60;

const GAPS: Gaps<'static> = Gaps { left: "| ", middle: " | ", right: " |" };

/// The columns of all gaps.
const GAPS_WIDTH: u128 = 7;

const PLACEHOLDER: &str = " ..";

impl<'c> Displays<'c> {
    /// Asks the library.
    pub fn of_case(case: &'c Case) -> Self {
        let (text, plain) = (case.text.as_str(), case.plain.as_str());
        let settings = display_settings(case);
        let beside = beside_settings(case);
        let columns = [
            Column { options: settings.options(), alignment: Alignment::Left },
            Column { options: beside.options(), alignment: Alignment::Right },
        ];
        let lines = wrap(text, settings.options());
        Displays {
            carried: carry_styles(&lines, settings.options()),
            attributed: carry_attributes(&lines, settings.options()),
            lines,
            filled: fill(text, settings.options()),
            justified: fill_justified(text, settings.options()),
            beside: wrap(plain, beside.options()),
            rows: table(&[text, plain], &columns, &GAPS),
            shortened: shorten(first_line(case), settings.width, PLACEHOLDER),
            expanded: expand_tabs(&case.text, tab_stop(case)),
            balanced_width: balanced_width(text, settings.options()),
            balanced: wrap_balanced(text, settings.options()),
            widths: fitting_widths(&[text, plain], 2, settings.width),
        }
    }
}

/// The settings of a case at no great width, and without indents where one has an escape sequence.
fn display_settings(case: &Case) -> Settings {
    let settings = &case.settings;
    let has_sequence = [settings.initial_indent, settings.subsequent_indent]
        .iter()
        .any(|indent| indent.contains('\x1b'));
    let settings = if has_sequence { settings.without_indents() } else { *settings };
    Settings { width: settings.width.min(GREATEST), ..settings }
}

/// Those settings at the first width.
fn beside_settings(case: &Case) -> Settings {
    Settings { width: case.first_width.min(GREATEST), ..display_settings(case) }
}

/// How far tabs reach in a case: up to each column that this divides.
fn tab_stop(case: &Case) -> usize {
    case.first_width % 10
}

/// The text up to its first line ending.
fn first_line(case: &Case) -> &str {
    let ending = case.settings.line_ending.as_str();
    case.text.split(ending).next().unwrap_or("")
}

/// Whether each escape sequence of the case's text ends in its word.
fn has_whole_sequences(case: &Case) -> bool {
    !matches!(case.alphabet, Alphabet::Cut)
}

/// Checks that each carried line, read by itself, shows its indent plain and then what its line
/// shows where all lines are read in a row; that nothing is open at its end; and that it is as wide
/// as its line. Of texts with escape sequences that are cut nothing is said.
pub fn check_carried(case: &Case, found: &Displays<'_>) -> Finding {
    check_alone(case, &found.lines, &found.carried)
}

/// The same of lines whose attributes are carried.
pub fn check_attributed(case: &Case, found: &Displays<'_>) -> Finding {
    check_alone(case, &found.lines, &found.attributed)
}

/// The same of any lines in the place of those of the text.
fn check_alone(case: &Case, lines: &[Cow<'_, str>], carried_lines: &[String]) -> Finding {
    if !has_whole_sequences(case) {
        return Finding::PassedOver;
    }
    let settings = display_settings(case);
    let mut reader = Reader::new();
    for (number, (line, carried)) in lines.iter().zip(carried_lines).enumerate() {
        let (indent, text) = split_indent(line, settings.indent(number > 0));
        reader.shown.clear();
        reader.read(text);
        let mut wanted = Reader::new();
        wanted.show(indent);
        wanted.shown.push_str(&reader.shown);
        let mut alone = Reader::new();
        alone.read(carried);
        let is_shown = alone.is_plain() && alone.shown == wanted.shown;
        if !is_shown || display_width(carried) != display_width(line) {
            return Finding::Broken;
        }
    }
    Finding::of(carried_lines.len() == lines.len())
}

/// The indent of a line, if it begins with that, and what follows it.
fn split_indent<'l>(line: &'l str, indent: &'l str) -> (&'l str, &'l str) {
    match line.strip_prefix(indent) {
        Some(text) => (indent, text),
        None => ("", line),
    }
}

/// Checks that each justified line has the indent and the words of the line, and is that line or
/// exactly as wide as the width; and that no more lines are left narrow than there are paragraphs,
/// each of which has one last line. Where escape sequences are cut, blanks may be hidden, and only
/// the words are checked.
pub fn check_justified(case: &Case, found: &Displays<'_>) -> Finding {
    let settings = display_settings(case);
    let ending = settings.line_ending.as_str();
    let mut justified = found.justified.split(ending);
    let mut narrow = 0;
    for (number, line) in found.filled.split(ending).enumerate() {
        let Some(new) = justified.next() else {
            return Finding::Broken;
        };
        let indent = settings.indent(number > 0);
        if !is_spread(line, new, indent) {
            return Finding::Broken;
        }
        if !has_whole_sequences(case) {
            continue;
        }
        if new != line && display_width(new) != settings.width {
            return Finding::Broken;
        }
        let has_gap = split_indent(line, indent).1.trim_matches(' ').contains(' ');
        if new == line && has_gap && display_width(line) < settings.width {
            narrow += 1;
        }
    }
    let most = case.text.split(ending).count();
    Finding::of(justified.next().is_none() && narrow <= most)
}

/// Whether a line is another with no other change after the indent than blanks added between words.
fn is_spread(line: &str, new: &str, indent: &str) -> bool {
    let (old_indent, old_text) = split_indent(line, indent);
    let (new_indent, new_text) = split_indent(new, indent);
    let is_inside = narrowed(old_text) == narrowed(new_text);
    old_indent == new_indent && is_inside && new.len() >= line.len()
}

/// The text with one blank in the place of those between each two words. The blanks around all
/// words stay.
fn narrowed(text: &str) -> String {
    let inside = text.trim_matches(' ');
    let (before, after) = text.split_once(inside).unwrap_or(("", ""));
    let mut narrow = String::from(before);
    for word in inside.split(' ').filter(|word| !word.is_empty()) {
        narrow.push_str(word);
        narrow.push(' ');
    }
    narrow.push_str(after);
    narrow
}

/// Checks that the rows have the lines of the text at the left and those of the plain text at the
/// right, with as many blanks as the columns leave. A row with whole sequences is as wide as the
/// gaps and the columns, or the lines that are wider than these.
pub fn check_rows(case: &Case, found: &Displays<'_>) -> Finding {
    let widths = [display_settings(case).width, beside_settings(case).width];
    let is_measured = has_whole_sequences(case) && !case.plain.contains('\x1b');
    let count = found.lines.len().max(found.beside.len());
    let are_right = found.rows.iter().enumerate().all(|(number, row)| {
        let cells = [line_at(&found.lines, number), line_at(&found.beside, number)];
        has_cells(row, cells, widths) && (!is_measured || is_wide(row, cells, widths))
    });
    Finding::of(are_right && found.rows.len() == count)
}

/// The line of this number, or nothing where there is none.
fn line_at<'l>(lines: &'l [Cow<'_, str>], number: usize) -> &'l str {
    lines.get(number).map_or("", |line| line)
}

/// Whether a row is these lines between the gaps, with as many blanks as the columns leave: behind
/// the line at the left, and before that at the right.
fn has_cells(row: &str, [left, right]: [&str; 2], widths: [usize; 2]) -> bool {
    let Some((before, after)) = blanks_of_row(row, left, right) else {
        return false;
    };
    is_blank(before, widths[0].saturating_sub(display_width(left)))
        && is_blank(after, widths[1].saturating_sub(display_width(right)))
}

/// What stands in a row between the line at its left and the middle gap, and between that and the
/// line at its right.
fn blanks_of_row<'r>(row: &'r str, left: &str, right: &str) -> Option<(&'r str, &'r str)> {
    let cells = row.strip_prefix(GAPS.left)?.strip_suffix(GAPS.right)?;
    let between = cells.strip_prefix(left)?.strip_suffix(right)?;
    between.split_once(GAPS.middle)
}

/// Whether this is so many blanks.
fn is_blank(text: &str, count: usize) -> bool {
    text.len() == count && text.trim_matches(' ').is_empty()
}

/// Whether a row is as wide as the gaps and the columns, or the lines that are wider than these.
fn is_wide(row: &str, cells: [&str; 2], widths: [usize; 2]) -> bool {
    let columns = cells.iter().zip(widths).map(|(cell, width)| width.max(display_width(cell)));
    let sum: u128 = columns.map(|width| width as u128).sum();
    display_width(row) as u128 == sum + GAPS_WIDTH
}

/// What may end a style and a link.
const CLOSINGS: [&str; 4] = ["", "\x1b[0m", "\x1b]8;;\x1b\\", "\x1b[0m\x1b]8;;\x1b\\"];

/// Checks that the shortened line is the line where that fits, and else what is kept of it, what ends
/// a style and a link, and the placeholder.
pub fn check_shortened(case: &Case, found: &Displays<'_>) -> Finding {
    let line = first_line(case);
    let short = found.shortened.as_str();
    if display_width(line) <= display_settings(case).width {
        return Finding::of(short == line);
    }
    let Some(closed) = short.strip_suffix(PLACEHOLDER) else {
        return Finding::Broken;
    };
    let is_right = |closing: &&str| {
        closed.strip_suffix(*closing).is_some_and(|kept| is_kept(case, kept, closing))
    };
    Finding::of(CLOSINGS.iter().any(is_right))
}

/// Whether this is kept of the case's line before what ends a style and a link: nothing, or what the
/// line begins with, up to a blank and outside of escape sequences, with room for the placeholder.
/// Where no escape sequence is cut, one word more would be too wide, and nothing is open then.
fn is_kept(case: &Case, kept: &str, closing: &str) -> bool {
    let width = display_settings(case).width as u128;
    let Some(rest) = first_line(case).strip_prefix(kept) else {
        return false;
    };
    let taken = display_width(kept) + display_width(PLACEHOLDER);
    let is_at_blank = rest.starts_with(' ') && !kept.ends_with(' ');
    let is_outside = display_width(&format!("{kept}x")) == display_width(kept) + 1;
    let is_short = kept.is_empty() || (is_at_blank && is_outside && taken as u128 <= width);
    let is_needed = closing.is_empty() || kept.contains('\x1b');
    if !has_whole_sequences(case) {
        return is_short && is_needed;
    }
    let next = rest.trim_start_matches(' ');
    let word = next.split(' ').next().unwrap_or("");
    let needed = (taken + rest.len() - next.len() + display_width(word)) as u128;
    let has_room = !word.is_empty() && needed <= width;
    let mut reader = Reader::new();
    reader.read(kept);
    reader.read(closing);
    is_short && is_needed && reader.is_plain() && !has_room
}

/// Checks that each tab became blanks up to the next column that the stop divides, or nothing where
/// that is 0, and that all else stays. The columns of a line are counted from part to part.
pub fn check_expanded(case: &Case, found: &Displays<'_>) -> Finding {
    let stop = tab_stop(case);
    let mut wanted = String::new();
    for line in case.text.split_inclusive('\n') {
        let mut column = 0;
        for part in line.split_inclusive('\t') {
            let Some(text) = part.strip_suffix('\t') else {
                wanted.push_str(part);
                continue;
            };
            wanted.push_str(text);
            column += display_width(text);
            while stop > 0 {
                wanted.push(' ');
                column += 1;
                if column % stop == 0 {
                    break;
                }
            }
        }
    }
    Finding::of(found.expanded == wanted)
}

/// Checks that the balanced lines are those of first fit at the balanced width; that they are as many as
/// at the width of the settings; that each piece has room; and that a column less would leave some piece
/// without, or take more lines. Where some piece has no room anyway, the width is that of the settings.
/// Of texts with escape sequences that are cut nothing is said, since what these hide is measured
/// otherwise in a piece than in a line.
pub fn check_balanced(case: &Case, found: &Displays<'_>) -> Finding {
    if !has_whole_sequences(case) {
        return Finding::PassedOver;
    }
    let settings = display_settings(case);
    let lines_at = |width| {
        let first_fit = Settings { width, algorithm: Algorithm::FirstFit, ..settings };
        wrap(&case.text, first_fit.options())
    };
    let (least, width) = (least_width(case), found.balanced_width);
    if found.balanced != lines_at(width) {
        return Finding::Broken;
    }
    if least > settings.width {
        return Finding::of(width == settings.width);
    }
    let most = lines_at(settings.width).len();
    let has_room = least <= width && width <= settings.width;
    let is_least = width == least || lines_at(width.saturating_sub(1)).len() > most;
    Finding::of(has_room && is_least && found.balanced.len() == most)
}

/// The least width at which each piece of the text has room after the wider of the indents.
fn least_width(case: &Case) -> usize {
    let settings = display_settings(case);
    let apart = Settings {
        width: 0,
        break_words: false,
        algorithm: Algorithm::FirstFit,
        preserve_trailing_space: false,
        ..settings.without_indents()
    };
    let widest = widest_of(wrap(&case.text, apart.options()).iter().map(|piece| &**piece));
    widest_of([settings.initial_indent, settings.subsequent_indent]) + widest
}

/// How wide the widest of some texts is.
fn widest_of<'t>(texts: impl IntoIterator<Item = &'t str>) -> usize {
    texts.into_iter().map(display_width).max().unwrap_or(0)
}

/// Checks that the widths add up to the width of the settings; and that each column holds its lines,
/// where there is room for those of both; else that it holds its words and is no wider than its lines,
/// where there is room for the words of both; and else that it is no wider than its words.
pub fn check_fitted(case: &Case, found: &Displays<'_>) -> Finding {
    let total = display_settings(case).width;
    let &[first, second] = &found.widths[..] else {
        return Finding::Broken;
    };
    let texts = [&case.text, &case.plain];
    let words = texts.map(|text| widest_of(text.split(['\n', ' '])));
    // Where a blank stands inside an escape sequence, a word may be wider than its line.
    let lines = texts.map(|text| widest_of(text.split('\n')));
    let lines = [lines[0].max(words[0]), lines[1].max(words[1])];
    let have_lines = lines[0] + lines[1] <= total;
    let have_words = words[0] + words[1] <= total;
    let is_right = |width, line, word| {
        if have_lines {
            line <= width
        } else if have_words {
            word <= width && width <= line
        } else {
            width <= word
        }
    };
    let are_right = is_right(first, lines[0], words[0]) && is_right(second, lines[1], words[1]);
    Finding::of(first + second == total && are_right)
}
