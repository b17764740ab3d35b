//! Options as plain values.
use super::random::Random;
use textwrap_proved::wrap_algorithms::Penalties;
use textwrap_proved::{LineEnding, Options, WordSeparator, WordSplitter, WrapAlgorithm};

/// How words are divided into lines.
#[derive(Clone, Copy, Debug)]
pub enum Algorithm {
    /// Each line takes the words that fit.
    FirstFit,
    /// The lines cost the least by these penalties.
    LeastCost(Penalties),
}

/// Built-in options.
#[derive(Clone, Copy, Debug)]
pub struct Settings {
    /// The columns of a line, with its indent.
    pub width: usize,
    /// What ends a paragraph.
    pub line_ending: LineEnding,
    /// What stands before the first line.
    pub initial_indent: &'static str,
    /// What stands before each later line.
    pub subsequent_indent: &'static str,
    /// Whether words that are too wide are broken.
    pub break_words: bool,
    /// How words are divided into lines.
    pub algorithm: Algorithm,
    /// Whether words are split after hyphens.
    pub split_words: bool,
    /// Whether blanks at line ends are kept.
    pub preserve_trailing_space: bool,
    /// Whether the first line of a later paragraph has the width that its own indent leaves.
    pub even_paragraphs: bool,
}

/// Indents, most of them short: one takes more columns than most widths have, and one takes none.
const INDENTS: &[&str] = &["", "", "", "", "", "> ", "  ", "-->", "あ ", "\x1b[1m", "............"];

/// Penalties that are all the same number: small ones, the greatest of the fast search and the
/// next, and the greatest of all.
const PENALTIES: &[usize] = &[0, 1, 1 << 62, (1 << 62) + 1, usize::MAX];

impl Settings {
    /// Random settings.
    pub fn random(random: &mut Random) -> Self {
        let algorithm = if random.is_one_in(2) {
            Algorithm::FirstFit
        } else {
            Algorithm::LeastCost(random_penalties(random))
        };
        Settings {
            width: random_width(random),
            line_ending: random.pick(&[LineEnding::LF, LineEnding::LF, LineEnding::CRLF]),
            initial_indent: random.pick(INDENTS),
            subsequent_indent: random.pick(INDENTS),
            break_words: !random.is_one_in(4),
            algorithm,
            split_words: random.is_one_in(2),
            preserve_trailing_space: random.is_one_in(4),
            even_paragraphs: random.is_one_in(2),
        }
    }

    /// Words neither split nor broken, no indents, and all else by default.
    pub fn unbroken(width: usize, algorithm: Algorithm) -> Self {
        Settings {
            width,
            line_ending: LineEnding::LF,
            initial_indent: "",
            subsequent_indent: "",
            break_words: false,
            algorithm,
            split_words: false,
            preserve_trailing_space: false,
            even_paragraphs: false,
        }
    }

    /// The settings without indents.
    pub fn without_indents(&self) -> Self {
        Settings { initial_indent: "", subsequent_indent: "", ..*self }
    }

    /// The settings as options of the library.
    pub fn options(&self) -> Options<'static> {
        Options::new(self.width)
            .line_ending(self.line_ending)
            .initial_indent(self.initial_indent)
            .subsequent_indent(self.subsequent_indent)
            .break_words(self.break_words)
            .wrap_algorithm(self.wrap_algorithm())
            .word_separator(WordSeparator::AsciiSpace)
            .word_splitter(self.word_splitter().clone())
            .preserve_trailing_space(self.preserve_trailing_space)
            .even_paragraphs(self.even_paragraphs)
    }

    /// The algorithm of the library.
    pub fn wrap_algorithm(&self) -> WrapAlgorithm {
        match self.algorithm {
            Algorithm::FirstFit => WrapAlgorithm::FirstFit,
            Algorithm::LeastCost(penalties) => WrapAlgorithm::OptimalFit(penalties),
        }
    }

    /// The splitter of the library.
    pub fn word_splitter(&self) -> &'static WordSplitter {
        if self.split_words {
            &WordSplitter::HyphenSplitter
        } else {
            &WordSplitter::NoHyphenation
        }
    }

    /// The indent of the first line, or of a later one.
    pub fn indent(&self, is_later: bool) -> &'static str {
        if is_later {
            self.subsequent_indent
        } else {
            self.initial_indent
        }
    }

    /// Whether the first line of a paragraph is divided for what the initial indent leaves, where the
    /// paragraph is the first of a text or a later one.
    pub fn has_own_width(&self, is_later: bool) -> bool {
        !(is_later && self.even_paragraphs)
    }

    /// Whether a paragraph is one line as a whole, as the first line of a text or as a later one.
    pub fn keeps_whole(&self, paragraph: &str, is_later: bool) -> bool {
        self.indent(is_later).is_empty() && paragraph.len() < self.width
    }
}

/// A width of 0 to 40 columns, or now and then the greatest.
pub fn random_width(random: &mut Random) -> usize {
    if random.is_one_in(24) {
        return usize::MAX;
    }
    random.below(41)
}

/// The default penalties, or one number for each, or small random ones.
pub fn random_penalties(random: &mut Random) -> Penalties {
    match random.below(4) {
        0 | 1 => Penalties::new(),
        2 => {
            let each = random.pick(PENALTIES);
            Penalties {
                nline_penalty: each,
                overflow_penalty: each,
                short_last_line_fraction: each,
                short_last_line_penalty: each,
                hyphen_penalty: each,
            }
        }
        _ => Penalties {
            nline_penalty: random.below(60),
            overflow_penalty: random.below(60),
            short_last_line_fraction: random.below(6),
            short_last_line_penalty: random.below(60),
            hyphen_penalty: random.below(60),
        },
    }
}
