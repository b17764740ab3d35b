//! How long each call takes here and in the original, in one process.
//!
//! What it prints is a table of Markdown, by the length of a text: the processor time of a call here, the
//! least of many runs, and what part of the original's it is. Below 1 the call is faster here. A row says
//! what words stand between. At line breaks each library finds them itself, as it does by default; without
//! its feature `unicode-linebreak` the original has none, and a time stands alone.
use std::hint::black_box;
use textwrap_proved as proved;

/// How often a call is measured; the least time counts.
const RUNS: usize = 15;

/// Roughly how many bytes a run works through, so that short texts are done many times in it.
const BYTES_A_RUN: usize = 400_000;

#[repr(C)]
struct Time {
    seconds: i64,
    nanoseconds: i64,
}

extern "C" {
    fn clock_gettime(clock: i32, time: *mut Time) -> i32;
}

/// The processor time of this process, in nanoseconds.
fn now() -> f64 {
    const PROCESS: i32 = 2;
    let mut time = Time { seconds: 0, nanoseconds: 0 };
    // SAFETY: the clock is one of POSIX, and the time is written to.
    let status = unsafe { clock_gettime(PROCESS, &mut time) };
    assert_eq!(status, 0, "the clock of this process can be read");
    time.seconds as f64 * 1e9 + time.nanoseconds as f64
}

/// The least times of two calls, in nanoseconds. They are measured in turn, so that a machine that is
/// slow for a while is so for both.
fn least_times<A, B>(len: usize, ours: impl Fn() -> A, theirs: impl Fn() -> B) -> (f64, f64) {
    let repeats = 1 + BYTES_A_RUN / (len + 1);
    let mut least = (f64::INFINITY, f64::INFINITY);
    for _ in 0..RUNS {
        least.0 = least.0.min(time_of(repeats, &ours));
        least.1 = least.1.min(time_of(repeats, &theirs));
    }
    least
}

/// The time of a call that is made so many times.
fn time_of<T>(repeats: usize, call: impl Fn() -> T) -> f64 {
    let start = now();
    for _ in 0..repeats {
        black_box(call());
    }
    (now() - start) / repeats as f64
}

/// Words of prose, so that the text has at least so many bytes: a paragraph ends after a hundred.
fn prose(len: usize) -> String {
    const WORDS: &[&str] = &[
        "the", "evening", "was", "half-lit", "and", "nobody", "spoke", "of", "it,", "not", "even",
        "in", "passing;", "a", "well-kept", "secret", "remains", "one.",
    ];
    let mut text = String::new();
    for (i, word) in WORDS.iter().cycle().enumerate() {
        if text.len() >= len {
            break;
        }
        if i > 0 {
            text.push(if i % 100 == 0 { '\n' } else { ' ' });
        }
        text.push_str(word);
    }
    text.truncate(len);
    text
}

/// The same with a wide character after every third word.
fn wide(len: usize) -> String {
    prose(len).replace("and", "안녕").replace("nobody", "你好")
}

/// Japanese of as many bytes, or up to two more. There are no blanks in it, and a paragraph ends after some
/// 900 characters.
fn japanese(len: usize) -> String {
    const SENTENCE: &str = "夕方の港は半ば暗く、誰も口をきかなかった。「船はもう出た」と老人が言った。";
    let mut text = String::new();
    for (i, ch) in SENTENCE.chars().cycle().enumerate() {
        if text.len() >= len {
            break;
        }
        if i > 0 && i % 900 == 0 {
            text.push('\n');
        }
        text.push(ch);
    }
    text
}

/// What words stand between.
#[derive(Clone, Copy, PartialEq, Eq)]
enum Separator {
    Blanks,
    Breaks,
}

impl Separator {
    fn name(self) -> &'static str {
        match self {
            Separator::Blanks => "at blanks",
            Separator::Breaks => "at line breaks",
        }
    }

    fn ours(self) -> proved::WordSeparator {
        match self {
            Separator::Blanks => proved::WordSeparator::AsciiSpace,
            Separator::Breaks => proved::WordSeparator::UnicodeBreakProperties,
        }
    }

    /// The same for the original, or `None` if it has no such separator.
    fn theirs(self) -> Option<textwrap::WordSeparator> {
        match self {
            Separator::Blanks => Some(textwrap::WordSeparator::AsciiSpace),
            #[cfg(feature = "unicode-linebreak")]
            Separator::Breaks => Some(textwrap::WordSeparator::UnicodeBreakProperties),
            #[cfg(not(feature = "unicode-linebreak"))]
            Separator::Breaks => None,
        }
    }
}

/// What a call is measured on.
struct Work {
    text: String,
    separator: Separator,
    width: usize,
    is_optimal: bool,
    has_indents: bool,
}

impl Work {
    fn ours(&self) -> proved::Options<'static> {
        let indents = if self.has_indents { ["* ", "  "] } else { ["", ""] };
        proved::Options::new(self.width)
            .initial_indent(indents[0])
            .subsequent_indent(indents[1])
            .word_separator(self.separator.ours())
            .wrap_algorithm(if self.is_optimal {
                proved::WrapAlgorithm::new()
            } else {
                proved::WrapAlgorithm::FirstFit
            })
    }

    fn theirs(&self) -> textwrap::Options<'static> {
        let indents = if self.has_indents { ["* ", "  "] } else { ["", ""] };
        textwrap::Options::new(self.width)
            .initial_indent(indents[0])
            .subsequent_indent(indents[1])
            .word_separator(self.separator.theirs().unwrap_or(textwrap::WordSeparator::AsciiSpace))
            .wrap_algorithm(if self.is_optimal {
                textwrap::WrapAlgorithm::new()
            } else {
                textwrap::WrapAlgorithm::FirstFit
            })
    }
}

/// The times of a call, here and in the original.
type Measure = fn(&Work) -> (f64, f64);

macro_rules! measure {
    ($work:ident, $ours:expr, $theirs:expr) => {
        |$work: &Work| least_times($work.text.len(), || $ours, || $theirs)
    };
}

/// Calls that depend on what words stand between, and on the other options.
const BY_OPTIONS: &[(&str, Measure)] = &[
    ("fill", measure!(w, proved::fill(&w.text, w.ours()), textwrap::fill(&w.text, w.theirs()))),
    (
        "wrap",
        measure!(w, proved::wrap(&w.text, w.ours()).len(), textwrap::wrap(&w.text, w.theirs()).len()),
    ),
    (
        "wrap_columns",
        measure!(
            w,
            proved::wrap_columns(&w.text, 2, w.ours(), "|", "|", "|"),
            textwrap::wrap_columns(&w.text, 2, w.theirs(), "|", "|", "|")
        ),
    ),
    ("refill", measure!(w, proved::refill(&w.text, w.ours()), textwrap::refill(&w.text, w.theirs()))),
];

/// Calls that do not.
const BY_TEXT: &[(&str, Measure)] = &[
    (
        "display_width",
        measure!(
            w,
            proved::core::display_width(&w.text),
            textwrap::core::display_width(&w.text)
        ),
    ),
    ("indent", measure!(w, proved::indent(&w.text, "  "), textwrap::indent(&w.text, "  "))),
    ("dedent", measure!(w, proved::dedent(&w.text), textwrap::dedent(&w.text))),
    (
        "unfill",
        measure!(w, proved::unfill(&w.text).0.len(), textwrap::unfill(&w.text).0.len()),
    ),
    (
        "fill_inplace",
        |w: &Work| {
            let len = w.text.len();
            let in_place = |fill: fn(&mut String, usize)| {
                let mut copy = w.text.clone();
                fill(&mut copy, w.width);
                copy
            };
            let theirs = || in_place(textwrap::fill_inplace);
            least_times(len, || in_place(proved::fill_inplace), theirs)
        },
    ),
];

/// A time in nanoseconds, with a unit of its size.
fn shown(time: f64) -> String {
    match time {
        0.0..1e4 => format!("{time:.0} ns"),
        1e4..1e6 => format!("{:.0} µs", time / 1e3),
        _ => format!("{:.1} ms", time / 1e6),
    }
}

/// Prints a row: the call, and its times at each length of text.
fn print_row(name: &str, measure: Measure, make: MakeText, work: &dyn Fn(String) -> Work) {
    print!("| {name} |");
    for len in [60, 500, 1_000_000] {
        let work = work(make(len));
        let (ours, theirs) = measure(&work);
        match work.separator.theirs() {
            Some(_) => print!(" {}, {:.2} |", shown(ours), ours / theirs),
            None => print!(" {} |", shown(ours)),
        }
    }
    println!();
}

/// A text of a length in bytes.
type MakeText = fn(usize) -> String;

/// The algorithm, the width and whether there are indents, of each row of a call.
const OPTIONS: &[(bool, usize, bool)] = &[
    (false, 20, false), (false, 80, false), (false, 80, true), (true, 20, false), (true, 80, false),
    (true, 80, true),
];

/// Prints the rows of a call by its options. Refilling takes its indents from the text, and makes one
/// paragraph of it, on whose many short lines the original takes seconds.
fn print_by_options(separator: Separator, (kind, make): (&str, MakeText), name: &str, measure: Measure) {
    for &(is_optimal, width, has_indents) in OPTIONS {
        let algorithm = if is_optimal { "least cost" } else { "first fit" };
        let indents = if has_indents { ", indents" } else { "" };
        let row = format!("`{name}`{kind}, {}, {algorithm}, {width}{indents}", separator.name());
        let work = |text| Work { text, separator, width, is_optimal, has_indents };
        if name != "refill" || width == 80 && !has_indents {
            print_row(&row, measure, make, &work);
        }
    }
}

fn main() {
    println!("| Call | 60 bytes | 500 bytes | 1 MB |");
    println!("|---|---|---|---|");
    for separator in [Separator::Blanks, Separator::Breaks] {
        for text in [("", prose as MakeText), (", Japanese", japanese)] {
            for &(name, measure) in BY_OPTIONS {
                print_by_options(separator, text, name, measure);
            }
        }
    }
    for (kind, make) in [("", prose as MakeText), (", wide", wide)] {
        for (name, measure) in BY_TEXT {
            let separator = Separator::Blanks;
            let work = |text| Work { text, separator, width: 80, is_optimal: false, has_indents: false };
            print_row(&format!("`{name}`{kind}"), *measure, make, &work);
        }
    }
}
