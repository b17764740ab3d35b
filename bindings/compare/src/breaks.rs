//! Unicode line breaks for the original: those of the proved library, or its own, and why these are
//! others.
use crate::causes::Cause;
use crate::division;
use textwrap::core::{display_width, Word};
use textwrap::WordSeparator;
use textwrap_proved::WordSeparator::UnicodeBreakProperties;

type Words<'l> = Box<dyn Iterator<Item = Word<'l>> + 'l>;

/// Whether the original has line breaks of its own here: it does with its feature
/// `unicode-linebreak`, and then they are the default of both libraries.
pub const HAS_OWN: bool = cfg!(feature = "unicode-linebreak");

/// The words of a line between the breaks that the proved library finds.
pub fn by_our_cuts(line: &str) -> Words<'_> {
    let mut rest = line;
    Box::new(UnicodeBreakProperties.find_words(line).map(move |word| {
        let (part, later) = rest.split_at(word.word.len() + word.whitespace.len());
        rest = later;
        Word::from(part)
    }))
}

/// The same in place of the original's own breaks. It is noted why these are others.
pub fn by_mended_cuts(line: &str) -> Words<'_> {
    let (ours, originals) = (cuts(by_our_cuts(line)), cuts(own().find_words(line)));
    if ours != originals {
        division::note_cause(why(line, &ours, &originals));
    }
    by_our_cuts(line)
}

/// The original's separator at its own breaks.
#[cfg(feature = "unicode-linebreak")]
pub fn own() -> WordSeparator {
    WordSeparator::UnicodeBreakProperties
}

/// Without the feature it has none, and no separator of that kind is drawn.
#[cfg(not(feature = "unicode-linebreak"))]
pub fn own() -> WordSeparator {
    WordSeparator::Custom(by_our_cuts)
}

/// Where words begin, but for the first.
fn cuts(words: Words<'_>) -> Vec<usize> {
    let ends = words.scan(0, |end, word| {
        *end += word.word.len() + word.whitespace.len();
        Some(*end)
    });
    let mut ends: Vec<usize> = ends.collect();
    ends.pop();
    ends
}

/// Why the original cuts a line elsewhere.
fn why(line: &str, ours: &[usize], originals: &[usize]) -> Cause {
    let lacks_last = ours.split_last().is_some_and(|(_, others)| others == originals);
    if lacks_last && ends_in_hyphen(line) {
        Cause::LastBreak
    } else if line.is_ascii() {
        Cause::AsciiBreaks
    } else {
        Cause::Breaks
    }
}

/// Whether a line ends in a hyphen or a soft hyphen, with nothing but escape sequences after it.
fn ends_in_hyphen(line: &str) -> bool {
    line.match_indices(['-', '\u{ad}']).any(|(at, hyphen)| {
        let rest = &line[at + hyphen.len()..];
        rest.is_empty() || rest.starts_with('\u{1b}') && display_width(rest) == 0
    })
}
