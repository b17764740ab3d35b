//! The promises that all ways through the library lead to the same lines.
//!
//! The library has short ways for short paragraphs, and fast ways that need no list of words. Here
//! the lines are also made by such lists; and functions that are handed in where the library has
//! its own parts make the binding go paragraph by paragraph, by lists of offsets.
use super::lists::{wrap_by_lists, Short};
use super::Finding;
use crate::cases::settings::{Algorithm, Settings};
use crate::cases::Case;
use std::borrow::Cow;
use textwrap_proved::core::Word;
use textwrap_proved::{fill, wrap, Options, WordSeparator, WordSplitter, WrapAlgorithm};

/// The lines of a case's text, by each way.
#[derive(Clone, Debug)]
pub struct Ways<'c> {
    /// Those of `wrap`.
    pub wrapped: Vec<Cow<'c, str>>,
    /// Those of one paragraph after the other.
    pub by_paragraph: Vec<Cow<'c, str>>,
    /// Those of one paragraph after the other, by lists of words if it is not kept whole.
    pub by_lists: Vec<Cow<'c, str>>,
    /// Those of one paragraph after the other, by lists of words even if it could be kept whole.
    pub divided: Vec<Cow<'c, str>>,
    /// The text of `fill`.
    pub filled: String,
    /// The text of `fill`, with functions in the place of the library's parts.
    pub filled_slowly: String,
}

impl<'c> Ways<'c> {
    /// Asks the library.
    pub fn of_case(case: &'c Case) -> Self {
        let (text, settings) = (case.text.as_str(), &case.settings);
        Ways {
            wrapped: wrap(text, settings.options()),
            by_paragraph: wrap_paragraphs(text, settings),
            by_lists: wrap_by_lists(text, settings, Short::Whole),
            divided: wrap_by_lists(text, settings, Short::Divided),
            filled: fill(text, settings.options()),
            filled_slowly: fill(text, with_functions(settings)),
        }
    }
}

/// Checks that the texts of `fill`, with functions and without, are the lines of the lists, joined.
pub fn check_filled(case: &Case, ways: &Ways<'_>) -> Finding {
    let joined = ways.by_lists.join(case.settings.line_ending.as_str());
    Finding::of(ways.filled == joined && ways.filled_slowly == joined)
}

/// Checks that `wrap` gives the lines of the lists.
pub fn check_listed(ways: &Ways<'_>) -> Finding {
    Finding::of(ways.wrapped == ways.by_lists)
}

/// Checks that `wrap` gives the lines of one paragraph after the other.
pub fn check_paragraphs(ways: &Ways<'_>) -> Finding {
    Finding::of(ways.wrapped == ways.by_paragraph)
}

/// Checks that without an initial indent the lines are the same where no paragraph is kept whole.
pub fn check_shortcut(case: &Case, ways: &Ways<'_>) -> Finding {
    if !case.settings.initial_indent.is_empty() {
        return Finding::PassedOver;
    }
    Finding::of(ways.wrapped == ways.divided)
}

/// The lines of one paragraph after the other, each by a call of its own. A later one stands behind
/// an empty paragraph there, which has one line.
fn wrap_paragraphs<'t>(text: &'t str, settings: &Settings) -> Vec<Cow<'t, str>> {
    let ending = settings.line_ending.as_str();
    let options = settings.options();
    let mut paragraphs = text.split(ending);
    let mut lines = wrap(paragraphs.next().unwrap_or(""), &options);
    for paragraph in paragraphs {
        let behind_another = format!("{ending}{paragraph}");
        let wrapped = wrap(&behind_another, &options);
        lines.extend(wrapped.into_iter().skip(1).map(|line| Cow::Owned(line.into_owned())));
    }
    lines
}

/// The options, with a function in the place of each part that one can stand for: a function holds
/// no penalties.
fn with_functions(settings: &Settings) -> Options<'static> {
    let mut options = settings.options().word_separator(WordSeparator::Custom(between_blanks));
    if settings.split_words {
        options = options.word_splitter(WordSplitter::Custom(after_hyphens));
    }
    if matches!(settings.algorithm, Algorithm::FirstFit) {
        options = options.wrap_algorithm(WrapAlgorithm::Custom(by_first_fit));
    }
    options
}

fn between_blanks(line: &str) -> Box<dyn Iterator<Item = Word<'_>> + '_> {
    WordSeparator::AsciiSpace.find_words(line)
}

fn after_hyphens(word: &str) -> Vec<usize> {
    WordSplitter::HyphenSplitter.split_points(word)
}

fn by_first_fit<'a, 'b>(words: &'b [Word<'a>], line_widths: &'b [usize]) -> Vec<&'b [Word<'a>]> {
    WrapAlgorithm::FirstFit.wrap(words, line_widths)
}
