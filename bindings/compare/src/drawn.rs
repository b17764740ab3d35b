//! What is drawn for a round: a text, the options, and what the calls need beyond these.
use crate::characters;
use crate::choices::{Algorithm, Penalties, Separator, Splitter, HUGE};
use crate::random::Random;
use crate::texts;
use textwrap_proved as proved;

/// More columns than this for a row would make rows too long to print, and so are rare.
const WIDEST_ROW: usize = 120;

/// Now and then a row has as many.
const WIDEST_RARE_ROW: usize = 4_000;

/// What stands around the cells of a row.
#[derive(Clone, Debug)]
pub struct Gaps {
    /// Before the first cell.
    pub left: String,
    /// Between each two cells.
    pub middle: String,
    /// After the last cell.
    pub right: String,
}

/// What the calls of one round are given.
#[derive(Clone, Debug)]
pub struct Drawn {
    /// The text of every call.
    pub text: String,
    /// The columns of a line, but in `wrap_columns`.
    pub width: usize,
    /// What is printed before the first line.
    pub initial_indent: String,
    /// What is printed before each later line.
    pub subsequent_indent: String,
    /// Whether words that are too wide for a line are broken.
    pub break_words: bool,
    /// How words are divided into lines.
    pub algorithm: Algorithm,
    /// Where words stand.
    pub separator: Separator,
    /// Where words may be split.
    pub splitter: Splitter,
    /// Whether CRLF is the line ending, in place of LF.
    pub crlf: bool,
    /// Whether blanks at line ends are kept.
    pub preserve_trailing_space: bool,
    /// An option that the original lacks.
    pub even_paragraphs: bool,
    /// The prefix of `indent`.
    pub prefix: String,
    /// The columns of `wrap_columns`.
    pub columns: usize,
    /// The width of `wrap_columns`, whose rows are as long as that.
    pub row_width: usize,
    /// What stands around the cells of its rows.
    pub gaps: Gaps,
}

impl Drawn {
    /// What the numbers say.
    pub fn new(random: &mut Random) -> Drawn {
        let text = texts::text(random);
        let width = width(random, &text);
        let (columns, row_width) = table(random, width);
        let drawn = Drawn {
            width,
            initial_indent: texts::indent(random),
            subsequent_indent: texts::indent(random),
            break_words: !random.one_in(4),
            algorithm: Algorithm::drawn(random),
            separator: Separator::drawn(random),
            splitter: Splitter::drawn(random),
            crlf: random.one_in(3),
            preserve_trailing_space: random.one_in(3),
            even_paragraphs: random.one_in(4),
            prefix: texts::indent(random),
            columns,
            row_width,
            gaps: Gaps {
                left: texts::gap(random),
                middle: texts::gap(random),
                right: texts::gap(random),
            },
            text,
        };
        let drawn = drawn.with_texts(characters::comparable);
        if drawn.separator.is_breaks() { drawn.with_texts(characters::agreed) } else { drawn }
    }

    /// The line ending of the options.
    pub fn line_ending(&self) -> &'static str {
        if self.crlf { "\r\n" } else { "\n" }
    }

    /// The options of the proved library.
    pub fn proved_options(&self) -> proved::Options<'_> {
        use proved::LineEnding;
        proved::Options::new(self.width)
            .line_ending(if self.crlf { LineEnding::CRLF } else { LineEnding::LF })
            .initial_indent(&self.initial_indent)
            .subsequent_indent(&self.subsequent_indent)
            .break_words(self.break_words)
            .wrap_algorithm(self.algorithm.proved())
            .word_separator(self.separator.proved())
            .word_splitter(self.splitter.proved())
            .preserve_trailing_space(self.preserve_trailing_space)
            .even_paragraphs(self.even_paragraphs)
    }

    /// The same for the original, as far as it has them.
    pub fn original_options(&self) -> textwrap::Options<'_> {
        use textwrap::LineEnding;
        textwrap::Options::new(self.width)
            .line_ending(if self.crlf { LineEnding::CRLF } else { LineEnding::LF })
            .initial_indent(&self.initial_indent)
            .subsequent_indent(&self.subsequent_indent)
            .break_words(self.break_words)
            .wrap_algorithm(self.algorithm.original())
            .word_separator(self.separator.original())
            .word_splitter(self.splitter.original())
            .preserve_trailing_space(self.preserve_trailing_space)
    }

    /// The same with the options that the original has if it is given a width alone.
    pub fn with_default_options(&self) -> Drawn {
        let separator = Separator::default_of_both();
        let text = if separator.is_breaks() { characters::agreed(&self.text) } else { self.text.clone() };
        let usual = textwrap::wrap_algorithms::Penalties::new();
        Drawn {
            text,
            initial_indent: String::new(),
            subsequent_indent: String::new(),
            break_words: true,
            algorithm: Algorithm::OptimalFit(Penalties {
                nline_penalty: usual.nline_penalty,
                overflow_penalty: usual.overflow_penalty,
                short_last_line_fraction: usual.short_last_line_fraction,
                short_last_line_penalty: usual.short_last_line_penalty,
                hyphen_penalty: usual.hyphen_penalty,
            }),
            separator,
            splitter: Splitter::Hyphens,
            crlf: false,
            preserve_trailing_space: false,
            even_paragraphs: false,
            ..self.clone()
        }
    }

    /// The same where paragraphs are even, or not.
    pub fn evenly(&self, is_even: bool) -> Drawn {
        Drawn { even_paragraphs: is_even, ..self.clone() }
    }

    /// Every text in it, changed: no call is given any other.
    pub fn with_texts(&self, change: impl Fn(&str) -> String) -> Drawn {
        Drawn {
            text: change(&self.text),
            initial_indent: change(&self.initial_indent),
            subsequent_indent: change(&self.subsequent_indent),
            prefix: change(&self.prefix),
            gaps: Gaps {
                left: change(&self.gaps.left),
                middle: change(&self.gaps.middle),
                right: change(&self.gaps.right),
            },
            ..self.clone()
        }
    }

    /// Its characters.
    pub fn characters(&self) -> impl Iterator<Item = char> + '_ {
        let gaps = [&self.gaps.left, &self.gaps.middle, &self.gaps.right];
        let others = [&self.text, &self.initial_indent, &self.subsequent_indent, &self.prefix];
        others.into_iter().chain(gaps).flat_map(|text| text.chars())
    }
}

/// A width: small, or about as many columns as a line of the text has bytes, or huge.
fn width(random: &mut Random, text: &str) -> usize {
    match random.below(32) {
        0 => 0,
        1 => 1,
        2..=5 => random.below(8),
        6..=8 => (text.len() + random.below(4)).saturating_sub(1),
        9..=11 => {
            let lines: Vec<usize> = text.split('\n').map(str::len).collect();
            (random.pick(&lines) + random.below(4)).saturating_sub(1)
        }
        12 => random.pick(HUGE),
        13 => random.below(200),
        _ => random.below(30),
    }
}

/// The columns and the width of a table. A row is huge only if it has one column of all the width
/// that there is: a shorter one may find memory, and then it would take all of it.
fn table(random: &mut Random, width: usize) -> (usize, usize) {
    let columns = match random.below(64) {
        0 => 0,
        1..=3 => random.below(40),
        4..=23 => 1 + random.below(5),
        _ => 1 + random.below(2),
    };
    if width == usize::MAX && random.one_in(2) {
        return (1, width);
    }
    if width <= WIDEST_ROW && random.one_in(3) {
        return (columns, width);
    }
    let widest = if random.one_in(128) { WIDEST_RARE_ROW } else { WIDEST_ROW };
    (columns, random.below(widest))
}
