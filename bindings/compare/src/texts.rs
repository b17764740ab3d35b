//! Random texts: what they are made of, and how they are put together.
use crate::random::Random;

/// Parts of one kind that a text may have.
type Alphabet = &'static [&'static str];

/// Words of ASCII. Short ones are frequent, so that divisions often cost the same.
const WORDS: Alphabet = &[
    "a", "I", "x1", "foo", "bar", "foo", "quux", "Memory", "question", "supercalifragilistic",
];

/// The only characters that words stand between.
const BLANKS: Alphabet = &[" ", " ", " ", " ", "  ", "     "];

/// Hyphens at which words are split, and others at which they are not.
const HYPHENS: Alphabet = &["-", "--", "bar-baz", "x-1-y", "--foo-bar", "(-)", "be-split"];

/// Letters of more bytes than columns.
const ACCENTS: Alphabet = &["é", "naïve", "ß", "×", "²-b", "a-é", "Ångström", "д"];

/// Letters of two columns.
const WIDE: Alphabet = &["안녕", "日本語", "あ", "Ａ-Ｂ", "안-녕", "、"];

/// Characters that take no column, or none by themselves.
const MARKS: Alphabet = &[
    "\u{301}", "e\u{301}", "a\u{301}-b", "\u{200d}", "\u{feff}", "\u{345}", "\u{ad}", "\u{200b}",
    "\u{fe0f}", "\u{1160}",
];

/// Emoji, of one character and of several.
const EMOJI: Alphabet = &["😍", "⚽", "⓶", "❤\u{fe0f}", "👩\u{200d}🔬", "🇩🇪", "👍🏽", "1\u{20e3}"];

/// Control characters.
const CONTROLS: Alphabet =
    &["\0", "\u{7}", "\u{8}", "\u{b}", "\u{c}", "\u{7f}", "\u{85}", "\u{9b}", "\u{1f}"];

/// Tabs, which are whitespace but no blanks.
const TABS: Alphabet = &["\t", "\t\t", " \t", "a\tb"];

/// Whole escape sequences, some of them with what could end a word or a line inside.
const ESCAPES: Alphabet = &[
    "\u{1b}[31m", "\u{1b}[0m", "\u{1b}[1mbold\u{1b}[0m", "\u{1b}]8;;http://example.com\u{1b}\\",
    "\u{1b}]a\u{7}", "\u{1b}!", "\u{1b}[3-1m", "\u{1b}[3 1m", "\u{1b}]a b\u{7}", "\u{1b}\u{1b}[1m",
    "\u{1b}é", "\u{1b}[é안m",
];

/// Escape sequences without their ends: each goes on in what comes next, or ends the text.
const CUT_ESCAPES: Alphabet =
    &["\u{1b}", "\u{1b}[", "\u{1b}[12", "\u{1b}[;", "\u{1b}]", "\u{1b}]8;;", "\u{1b}]a\u{1b}"];

/// Blanks of other kinds, which part no words.
const OTHER_BLANKS: Alphabet = &[
    "\u{a0}", "\u{3000}", "\u{2003}", "\u{2028}", "\u{1680}", "a\u{a0}b", "\u{2029}", "\u{202f}",
];

/// Words with slashes, after which a function cuts.
const PATHS: Alphabet = &["and/or", "a/b/c", "/usr/share/", "http://example.com/a-b", "//", "é/안"];

/// What line breaks depend on: brackets, quotes, numbers, joiners, scripts without blanks, and what
/// versions of Unicode or of its rules have otherwise.
const BREAKS: Alphabet = &[
    "(", ")", "[a]", "“a”", "«", "!", "?", "…", "—", "1,000.50", "$5", "10%", "a\u{2060}b", "א-ב", "、。",
    "（a）", "a（", "🇩🇪🇫🇷", "กำลัง", "ភាសា", "\u{1f02c}\u{1f3fb}", "日本」", "\u{34f}", "-",
];

/// What later lines of a filled text begin with.
const PREFIXES: Alphabet = &["> ", "* ", "// ", "# ", "- ", "+", "/", "  ", "    ", "\t", " > "];

/// The alphabets of which a text has some.
const ALPHABETS: &[Alphabet] = &[
    HYPHENS, ACCENTS, WIDE, MARKS, EMOJI, CONTROLS, TABS, ESCAPES, CUT_ESCAPES, OTHER_BLANKS,
    PREFIXES, PATHS, BREAKS,
];

/// What lines may end in, one list for a text.
const ENDINGS: &[Alphabet] = &[
    &["\n"],
    &["\n", "\n\n"],
    &["\r\n"],
    &["\n", "\r\n", "\r", "\n\n", "\r\r\n", "\n\r", " \n ", "\r\n\r\n"],
];

/// What the lines of a text may begin with, so that they have indents or margins in common.
const MARGINS: Alphabet =
    &["", "", "", "  ", "    ", "\t", "> ", "* ", "// ", "# ", "- ", " \t", "\u{3000}", "   > "];

/// Indents and prefixes: plain, wide, with escape sequences whole and cut, and with line endings.
const INDENTS: Alphabet = &[
    "* ", "  ", "> ", "안 ", "😍 ", "e\u{301} ", "\t", "\u{3000}", "#\u{a0}", "~~~~~~~~ ", " \t ",
    "\u{1b}[31m> \u{1b}[0m", "\u{1b}[1", "\u{1b}", "\u{1b}]a", "- ", "\n", ">\r\n", "-->", " ",
];

/// What stands around the cells of a row: as various as the indents.
const GAPS: Alphabet = &[
    "|", " | ", "✨ ", "안", "\u{1b}[31m|\u{1b}[0m", "\u{1b}[", "\u{1b}", "-----> ", "e\u{301}", "\t",
];

/// What the parts of one text are taken from.
struct Style {
    alphabets: Vec<Alphabet>,
    endings: Alphabet,
    margins: [&'static str; 2],
    has_any_characters: bool,
}

impl Style {
    fn new(random: &mut Random) -> Style {
        let frequency = random.pick(&[2, 4, 8, 64]);
        let chosen = ALPHABETS.iter().copied().filter(|_| random.one_in(frequency));
        Style {
            alphabets: chosen.collect(),
            endings: random.pick(ENDINGS),
            margins: [random.pick(MARGINS), random.pick(MARGINS)],
            has_any_characters: random.one_in(8),
        }
    }

    fn add_part(&self, random: &mut Random, text: &mut String) {
        match random.below(16) {
            0..=5 => text.push_str(random.pick(BLANKS)),
            6 => {
                text.push_str(random.pick(self.endings));
                text.push_str(random.pick(&self.margins));
            }
            7 if self.has_any_characters => text.push(any_character(random)),
            8..=12 if !self.alphabets.is_empty() => {
                let alphabet = random.pick(&self.alphabets);
                text.push_str(random.pick(alphabet));
            }
            _ => text.push_str(random.pick(WORDS)),
        }
    }
}

/// Any character of the planes that have text in them: many of these have other columns, or another
/// class, in another version of Unicode.
fn any_character(random: &mut Random) -> char {
    let last = random.pick(&[0x800, 0x3000, 0x1_0000, 0x2_0000, 0x11_0000]);
    char::from_u32(random.below(last) as u32).unwrap_or('\u{fffd}')
}

/// Short words with one blank between each two, of which many divisions cost the same.
fn prose(random: &mut Random) -> String {
    let longest = random.pick(&[1, 2, 3, 5, 8]);
    let most = if random.one_in(16) { 400 } else { 60 };
    let words = (0..random.below(most)).map(|_| &"abcdefgh"[..1 + random.below(longest)]);
    words.collect::<Vec<_>>().join(" ")
}

/// More than a thousand short lines.
fn many_lines(random: &mut Random) -> String {
    let ending = random.pick(&["\n", "\r\n"]);
    let lines = (0..1_001 + random.below(400)).map(|_| random.pick(WORDS));
    lines.collect::<Vec<_>>().join(ending)
}

/// A text, mostly of some lines.
pub fn text(random: &mut Random) -> String {
    if random.one_in(2048) {
        return many_lines(random);
    }
    if random.one_in(4) {
        return prose(random);
    }
    let style = Style::new(random);
    let most = random.pick(&[4, 12, 24, 24, 60]);
    let mut text = String::from(if random.one_in(2) { style.margins[0] } else { "" });
    for _ in 0..random.below(most) {
        style.add_part(random, &mut text);
    }
    text
}

/// One of the items, or now and then a short text.
fn one_or_text(random: &mut Random, items: Alphabet) -> String {
    if random.one_in(8) {
        let style = Style::new(random);
        let mut text = String::new();
        for _ in 0..random.below(4) {
            style.add_part(random, &mut text);
        }
        return text;
    }
    String::from(random.pick(items))
}

/// An indent, which is often empty. Of some columns, it gives the first line a width of its own.
pub fn indent(random: &mut Random) -> String {
    match random.below(8) {
        0..=3 => String::new(),
        4 => ".".repeat(random.below(24)),
        _ => one_or_text(random, INDENTS),
    }
}

/// A gap between the cells of a row.
pub fn gap(random: &mut Random) -> String {
    if random.one_in(3) {
        return String::new();
    }
    one_or_text(random, GAPS)
}
