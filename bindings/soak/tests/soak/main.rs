//! That each check accepts right answers and notices wrong ones, and what the program makes of
//! that.
use std::borrow::Cow;
use textwrap_proved::wrap_algorithms::Penalties;
use textwrap_soak::answers::{Answers, Library, Textwrap};
use textwrap_soak::cases::blocks::{Block, Problem};
use textwrap_soak::cases::layouts::{Algorithm as Division, Layout, Layouts};
use textwrap_soak::cases::settings::{Algorithm, Settings};
use textwrap_soak::cases::texts::Alphabet;
use textwrap_soak::cases::Case;
use textwrap_soak::checks::reflowing::Reflows;

mod answers;
mod displaying;
mod lines;
mod problems;
mod program;
mod reflowing;

/// The library, without the program `reflow`.
const LIBRARY: Textwrap = Textwrap { reflow: None };

/// Lines of these texts, parts of a text or texts of their own.
fn lines_of<'t>(texts: &[&'t str], are_owned: bool) -> Vec<Cow<'t, str>> {
    let line = |&text: &&'t str| {
        if are_owned {
            Cow::Owned(text.into())
        } else {
            Cow::Borrowed(text)
        }
    };
    texts.iter().map(line).collect()
}

/// Fragments of these widths and whitespace widths, for lines of one width.
fn problem_of(sizes: &[(usize, usize)], width: usize, overflow_penalty: usize) -> Problem {
    let block = |&(width, whitespace): &(usize, usize)| Block { width, whitespace, penalty: 0 };
    Problem {
        blocks: sizes.iter().map(block).collect(),
        line_widths: vec![width],
        penalties: Penalties { overflow_penalty, ..Penalties::new() },
    }
}

/// The first fragments in lines of so many each.
fn lines_by<'b>(blocks: &'b [Block], lens: &[usize]) -> Vec<&'b [Block]> {
    let mut rest = blocks;
    let line = |&len: &usize| {
        let (line, after) = rest.split_at(rest.len().min(len));
        rest = after;
        line
    };
    lens.iter().map(line).collect()
}

/// Two words, the second of which is as wide as some lines.
const PAIR: &[(usize, usize)] = &[(3, 1), (50, 0)];

/// Lines of so many columns by first fit.
fn by_first_fit(width: usize) -> Layout {
    Layout { algorithm: Division::FirstFit, ..Layout::new(width) }
}

/// A case of which every promise says something: a text of two paragraphs, 8 columns, first fit,
/// two fragments, and a list before a quote.
fn small_case() -> Case {
    Case {
        seed: 1,
        alphabet: Alphabet::Prose,
        text: "foo  bar baz\nqux".into(),
        plain: "foo bar baz\nqux".into(),
        settings: Settings { break_words: true, ..Settings::unbroken(8, Algorithm::FirstFit) },
        first_width: 3,
        few: problem_of(PAIR, 53, 2500),
        many: problem_of(PAIR, 53, 2500),
        paragraphs: "- foo\n  bar baz\n\n> qux -1\n".into(),
        layouts: Layouts { first: by_first_fit(8), other: Layout::new(12) },
        is_reflowed: true,
    }
}

/// The paragraphs of the small case in 8 columns.
const IN_8_COLUMNS: &str = "- foo\n  bar\n  baz\n\n> qux -1\n";

/// Those in 12.
const IN_12_COLUMNS: &str = "- foo bar\n  baz\n\n> qux -1\n";

/// The paragraphs of the small case, reflowed.
fn small_reflows() -> Reflows {
    Reflows {
        reflowed: IN_8_COLUMNS.into(),
        again: IN_8_COLUMNS.into(),
        once: IN_12_COLUMNS.into(),
        twice: IN_12_COLUMNS.into(),
        filled: IN_8_COLUMNS.into(),
    }
}

/// What the library answers on a case that has the paragraphs of the small one.
fn right_answers(case: &Case) -> Answers<'_> {
    Answers { reflows: Some(Some(small_reflows())), ..LIBRARY.answers(case) }
}
