//! Writes the help of random commands by clap 3, one file for each: `clap_help FOLDER COUNT`.
//!
//! The commands depend on their number alone. So two builds of this program, over two libraries that
//! wrap, can be compared file by file.
use clap::{Arg, Command};
use std::path::Path;
use std::{env, fs, io};

/// U+00AD, whose columns the original counts otherwise.
const SOFT_HYPHEN: char = '\u{ad}';

/// What texts are made of: short and long words, with hyphens, digits and wide characters.
const WORDS: [&str; 32] = [
    "a", "to", "of", "the", "file", "prints", "reads", "archive", "standard", "output", "recursively",
    "command-line", "--no-check", "UTF-8", "well-known", "state-of-the-art", "3.14", "0x7fff", "1024",
    "2026-11-26", "https://example.org/index.html", "internationalization", "e.g.", "(default)",
    "naïve", "façade", "好", "你好", "日本語の文章", "プログラム", "한국어", "中文，文字。",
];

fn main() -> io::Result<()> {
    let words: Vec<String> = env::args().skip(1).collect();
    let [folder, count] = &words[..] else {
        return Err(io::Error::other("usage: clap_help FOLDER COUNT"));
    };
    let count = count.parse().map_err(io::Error::other)?;
    for number in 0..count {
        let drawn = Drawn::new(&mut Random::new(number));
        fs::write(Path::new(folder).join(number.to_string()), drawn.help()?)?;
    }
    Ok(())
}

/// Random numbers by xorshift64*, the same for the same seed.
struct Random(u64);

impl Random {
    fn new(seed: u64) -> Self {
        // The state must not be 0. By the odd factor, near seeds are far from each other.
        let mut random = Random((seed + 1).wrapping_mul(0x9E37_79B9_7F4A_7C15));
        random.next();
        random
    }

    fn next(&mut self) -> u64 {
        self.0 ^= self.0 >> 12;
        self.0 ^= self.0 << 25;
        self.0 ^= self.0 >> 27;
        self.0.wrapping_mul(0x2545_F491_4F6C_DD1D)
    }

    /// A number from 0 on that is less than this one.
    fn below(&mut self, end: usize) -> usize {
        // The high bits are the better ones.
        ((self.next() >> 32) as usize) % end
    }

    /// Whether one of so many cases is met.
    fn one_in(&mut self, cases: usize) -> bool {
        self.below(cases) == 0
    }
}

/// An option or an argument of a command.
struct DrawnArg {
    name: String,
    help: String,
    is_positional: bool,
    takes_value: bool,
}

impl DrawnArg {
    fn new(random: &mut Random, number: usize, has_soft_hyphens: bool) -> Self {
        DrawnArg {
            name: name(random, number),
            help: text(random, 24, has_soft_hyphens),
            is_positional: random.one_in(4),
            takes_value: random.one_in(2),
        }
    }

    fn to_clap(&self) -> Arg<'_> {
        let arg = Arg::new(self.name.as_str()).help(self.help.as_str());
        if self.is_positional {
            return arg;
        }
        arg.long(self.name.as_str()).takes_value(self.takes_value)
    }
}

/// A command.
struct Drawn {
    about: String,
    after_help: String,
    args: Vec<DrawnArg>,
    subcommand: (String, String),
    term_width: usize,
}

impl Drawn {
    fn new(random: &mut Random) -> Self {
        let has_soft_hyphens = random.one_in(4);
        let count = random.below(6);
        Drawn {
            about: text(random, 40, has_soft_hyphens),
            after_help: text(random, 60, has_soft_hyphens),
            args: (0..count).map(|i| DrawnArg::new(random, i, has_soft_hyphens)).collect(),
            subcommand: (name(random, count), text(random, 20, has_soft_hyphens)),
            term_width: 20 + random.below(100),
        }
    }

    fn help(&self) -> io::Result<Vec<u8>> {
        let (name, about) = &self.subcommand;
        let mut command = Command::new("drawn")
            .about(self.about.as_str())
            .after_help(self.after_help.as_str())
            .term_width(self.term_width)
            .args(self.args.iter().map(DrawnArg::to_clap))
            .subcommand(Command::new(name.as_str()).about(about.as_str()));
        let mut help = Vec::new();
        command.write_long_help(&mut help)?;
        Ok(help)
    }
}

/// A name that no other has of this command.
fn name(random: &mut Random, number: usize) -> String {
    let letters = (0..1 + random.below(12)).map(|_| char::from(b'a' + random.below(26) as u8));
    letters.chain(format!("-{number}").chars()).collect()
}

/// Up to so many words, now and then with further blanks or a line feed between them.
fn text(random: &mut Random, most: usize, has_soft_hyphens: bool) -> String {
    let mut text = String::new();
    for _ in 0..random.below(most + 1) {
        if !text.is_empty() {
            text.push(if random.one_in(24) { '\n' } else { ' ' });
        }
        if random.one_in(24) {
            text.push(' ');
        }
        let has_soft_hyphen = has_soft_hyphens && random.one_in(4);
        push_word(&mut text, random, has_soft_hyphen);
    }
    text
}

/// Adds a word, after whose first character there may be a soft hyphen.
fn push_word(text: &mut String, random: &mut Random, has_soft_hyphen: bool) {
    let word = WORDS[random.below(WORDS.len())];
    let first = word.chars().next().map_or(0, char::len_utf8);
    text.push_str(&word[..first]);
    if has_soft_hyphen {
        text.push(SOFT_HYPHEN);
    }
    text.push_str(&word[first..]);
}
