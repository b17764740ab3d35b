//! Texts and options that are drawn at random, the same ones in each run.
use textwrap_proved::core::Word;
use textwrap_proved::wrap_algorithms::Penalties;
use textwrap_proved::{LineEnding, Options, WordSeparator, WordSplitter, WrapAlgorithm};

/// A source of numbers, by xorshift.
pub struct Random(u64);

impl Random {
    /// The seed is not 0.
    pub fn new(seed: u64) -> Self {
        Random(seed)
    }

    /// A number from 0 on that is below this one.
    pub fn below(&mut self, end: usize) -> usize {
        self.0 ^= self.0 << 13;
        self.0 ^= self.0 >> 7;
        self.0 ^= self.0 << 17;
        (self.0 % end as u64) as usize
    }

    fn one_of<T: Clone>(&mut self, list: &[T]) -> T {
        list[self.below(list.len())].clone()
    }

    fn coin(&mut self) -> bool {
        self.below(2) == 0
    }
}

/// Words, and all that may be taken for white space or for the end of a line somewhere.
const PARTS: [&str; 24] = [
    "foo", "a", "be", "unbreakable", "hyphen-ated", "--", " ", " ", " ", "  ", "\t", "\r", "\n",
    "\r\n", "\u{3000}", "\u{a0}", "\u{2003}", "日本", "é", "│", "😂", "\u{1b}[1m", "> ", "*",
];

/// What may stand before a line or between two cells. Most of it has more bytes than columns.
const AROUND: [&str; 9] =
    ["", "", "* ", "    ", "│ ", "日", "\u{3000}", "\u{1b}[1m│\u{1b}[0m", "é\t"];

/// A text of up to 15 parts.
pub fn text(random: &mut Random) -> String {
    let parts = random.below(16);
    (0..parts).map(|_| random.one_of(&PARTS)).collect()
}

/// An indent or a gap.
pub fn around(random: &mut Random) -> &'static str {
    random.one_of(&AROUND)
}

fn algorithm(random: &mut Random) -> WrapAlgorithm {
    let mut penalties = Penalties::new();
    match random.below(4) {
        0 => return WrapAlgorithm::FirstFit,
        1 => penalties.nline_penalty = 0,
        2 => penalties.overflow_penalty = 0,
        _ => {}
    }
    WrapAlgorithm::OptimalFit(penalties)
}

/// Options up to 29 columns, with the default separator.
pub fn options(random: &mut Random) -> Options<'static> {
    let splitter = [WordSplitter::HyphenSplitter, WordSplitter::NoHyphenation];
    Options::new(random.below(30))
        .line_ending(random.one_of(&[LineEnding::LF, LineEnding::CRLF]))
        .initial_indent(around(random))
        .subsequent_indent(around(random))
        .break_words(random.coin())
        .preserve_trailing_space(random.coin())
        .even_paragraphs(random.coin())
        .word_splitter(random.one_of(&splitter))
        .wrap_algorithm(algorithm(random))
}

fn at_blanks(line: &str) -> Box<dyn Iterator<Item = Word<'_>> + '_> {
    WordSeparator::AsciiSpace.find_words(line)
}

fn at_breaks(line: &str) -> Box<dyn Iterator<Item = Word<'_>> + '_> {
    WordSeparator::UnicodeBreakProperties.find_words(line)
}

/// A function that gives the words of a built-in separator.
pub fn own(separator: WordSeparator) -> WordSeparator {
    let is_at_blanks = separator == WordSeparator::AsciiSpace;
    WordSeparator::Custom(if is_at_blanks { at_blanks } else { at_breaks })
}
