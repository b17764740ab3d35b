//! Random texts.
use super::random::Random;

/// What a text has beside words, blanks, hyphens, wide characters and line endings.
#[derive(Clone, Copy, Debug, PartialEq, Eq)]
pub enum Alphabet {
    /// Punctuation.
    Prose,
    /// Whole escape sequences.
    Coloured,
    /// Escape sequences that are cut, and those that have a blank or a hyphen in them.
    Cut,
}

const WORDS: &[&str] = &[
    "a",
    "I",
    "to",
    "of",
    "and",
    "the",
    "word",
    "lines",
    "column",
    "3",
    "x7",
    "_",
    "A1b2",
    "fitting",
    "paragraph",
    "typesetting",
    "characteristically",
    "pneumonoultramicroscopicsilicovolcanoconiosis",
];

const BLANKS: &[&str] = &[" ", " ", " ", "  ", "   ", "         "];

const HYPHENS: &[&str] = &["-", "-", "--", "a-b", "1-2", "-x", "²-b"];

/// Characters of two columns, of one, and of none.
const WIDE: &[&str] = &[
    "あ", "안녕", "漢字", "😂", "é", "²", "\u{301}", "e\u{301}", "\u{200b}", "\u{a0}", "\u{ad}",
    "\t",
];

const ENDINGS: &[&str] = &["\n", "\n", "\r\n", "\r\n", "\r", "\n\n", "\r\n\r\n"];

const PUNCTUATION: &[&str] = &[".", ",", "?", ": ", "(", ")", "#", "> ", "* "];

const SEQUENCES: &[&str] = &[
    "\x1b[31m",
    "\x1b[0m",
    "\x1b[1;4m",
    "\x1b!",
    "\x1b]a\x07",
    "\x1b]8;;http://example.com\x1b\\",
    "\x1b]8;;\x1b\\",
];

const CUT_SEQUENCES: &[&str] = &[
    "\x1b",
    "\x1b[",
    "\x1b[12",
    "\x1b[3-1m",
    "\x1b[3 1m",
    "\x1b]",
    "\x1b]x y",
    "\x1b]x-y\x07",
    "\x1b]x\x1b",
    "\x1b[31m",
    "\x07",
    "\\",
];

/// What a plain word may begin with or go on with, beside letters.
const PLAIN_PARTS: &[&str] =
    &["あ", "é", "\u{301}", "\t", "\x1b[31m", "\x1b[0m", "\x1b[12", "\x1b", ".", "²", "7"];

/// What the first line of a paragraph begins with, and what its later lines do.
const PREFIXES: &[(&str, &str)] = &[
    ("", ""),
    ("", ""),
    ("> ", "> "),
    ("> > ", "> > "),
    ("- ", "  "),
    ("+ ", "  "),
    (" * ", "   "),
    ("> - ", ">   "),
    ("  ", "  "),
    ("// ", "// "),
    ("# ", "# "),
    ("    ", "    "),
    ("-   ", "    "),
    ("    - ", "      "),
    ("/*", "/ "),
    ("/* ", " * "),
    ("/** ", "    "),
    ("/// ", "/// "),
    ("-- ", "-- "),
    (";; ", ";; "),
    ("1. ", "   "),
    ("(a) ", "    "),
    ("\t// ", "\t// "),
    ("// - ", "//   "),
    ("- [ ] ", "      "),
    (">", ">"),
    ("-", " "),
];

/// What stands apart, or opens or ends what does.
const FENCES: &[&str] = &[
    "```", "```rust", "~~~", "~~~~ x", "<pre>", "</pre>", "$ ls", ">>> f()", "*/", "===", "---", "foo */",
    "Note: foo", "@param foo", "a | b", "Fixes-it: bar",
];

const WHITESPACE: &[&str] = &["  ", "\t", " \t ", "\r ", "\u{3000}", "\x0c"];

/// Words that begin like a prefix or a fence.
const MARKED: &[&str] =
    &["-1", "*note*", "#tag", "/path", "-", "+", "*", ">", "--", "```", "```x", "~~~"];

/// Words with whitespace in them that is no blank.
const SPACED: &[&str] =
    &["\t", "a\tb", "\tb", "b\t", "\r", "a\rb", "\rb", "b\r", "\u{3000}", "\u{a0}b", "b\u{2028}"];

/// What stands between a line and the next prefix. Where it has no line feed, the line goes on.
const LINE_ENDS: &[&str] = &[
    "\n", "\n", "\n", "\n", "\r\n", "\r\n", "\n\n", "\r\r\n", " \n", "  \r\n", "\r \n", "\t\n",
    "\r", " ", "",
];

/// A text of this alphabet, sometimes empty.
pub fn random_text(random: &mut Random, alphabet: Alphabet) -> String {
    let mut text = String::new();
    let most = random.pick(&[1, 4, 12, 40, 120]);
    for _ in 0..random.below(most) {
        text.push_str(random_part(random, alphabet));
    }
    text
}

/// A word, blanks or another part.
fn random_part(random: &mut Random, alphabet: Alphabet) -> &'static str {
    match random.below(16) {
        0..=5 => random.pick(WORDS),
        6..=10 => random.pick(BLANKS),
        11 => random.pick(HYPHENS),
        12 => random.pick(ENDINGS),
        13 => random.pick(WIDE),
        _ => random.pick(rare_parts(alphabet)),
    }
}

/// The parts that this alphabet alone has.
fn rare_parts(alphabet: Alphabet) -> &'static [&'static str] {
    match alphabet {
        Alphabet::Prose => PUNCTUATION,
        Alphabet::Coloured => SEQUENCES,
        Alphabet::Cut => CUT_SEQUENCES,
    }
}

/// A plain text: words with one blank or one line feed between each two, none of which begins like
/// an indent. Sometimes it is empty.
pub fn random_plain_text(random: &mut Random) -> String {
    let mut text = String::new();
    for word in 0..random.below(30) {
        if word > 0 {
            text.push(random.pick(&[' ', ' ', ' ', '\n']));
        }
        push_plain_word(random, &mut text);
    }
    text
}

/// Adds a plain word.
fn push_plain_word(random: &mut Random, text: &mut String) {
    if random.is_one_in(4) {
        text.push_str(random.pick(PLAIN_PARTS));
    }
    text.push_str(random.pick(WORDS));
    match random.below(4) {
        0 => text.push_str(random.pick(HYPHENS)),
        1 => text.push_str(random.pick(PLAIN_PARTS)),
        _ => {}
    }
}

/// A text of many paragraphs, with words of this alphabet. Sometimes it is empty.
pub fn random_paragraphs(random: &mut Random, alphabet: Alphabet) -> String {
    let mut text = String::new();
    let mut prefixes = ("", "");
    let most = random.pick(&[1, 3, 10, 30]);
    for _ in 0..random.below(most) {
        let is_first = random.is_one_in(3);
        if is_first {
            prefixes = random.pick(PREFIXES);
        }
        let (first, later) = prefixes;
        let is_repeated = random.is_one_in(4);
        text.push_str(if is_first || is_repeated { first } else { later });
        push_line(random, alphabet, &mut text);
        text.push_str(random.pick(LINE_ENDS));
    }
    text
}

/// Adds what stands behind a prefix: a fence, nothing, whitespace or words.
fn push_line(random: &mut Random, alphabet: Alphabet, text: &mut String) {
    match random.below(12) {
        0 => text.push_str(random.pick(FENCES)),
        1 => {}
        2 => text.push_str(random.pick(WHITESPACE)),
        _ => push_words(random, alphabet, text),
    }
}

/// Adds words with blanks between them.
fn push_words(random: &mut Random, alphabet: Alphabet, text: &mut String) {
    for word in 0..=random.below(6) {
        if word > 0 {
            text.push_str(random.pick(BLANKS));
        }
        text.push_str(random_word(random, alphabet));
        if random.is_one_in(6) {
            text.push_str(random_word(random, alphabet));
        }
    }
}

/// A word, or now and then what looks like the beginning of a line, or has whitespace in it.
fn random_word(random: &mut Random, alphabet: Alphabet) -> &'static str {
    match random.below(12) {
        0 => random.pick(WIDE),
        1 => random.pick(MARKED),
        2 => random.pick(SPACED),
        3 => random.pick(rare_parts(alphabet)),
        _ => random.pick(WORDS),
    }
}
