//! The program, over libraries that fail in one round.
use super::LIBRARY;
use std::io;
use std::io::{ErrorKind, Write};
use textwrap_soak::answers::{Answers, Library};
use textwrap_soak::cases::Case;
use textwrap_soak::program::execute;

/// The library, but for the round of one seed, where a call does not return.
#[derive(Clone, Copy, Debug)]
struct Faulty {
    seed: u64,
}

impl Library for Faulty {
    fn answers<'c>(&self, case: &'c Case) -> Answers<'c> {
        let mut answers = LIBRARY.answers(case);
        if case.seed == self.seed {
            answers.ways = None;
        }
        answers
    }
}

/// A writer whose every call fails.
struct Closed;

impl Write for Closed {
    fn write(&mut self, _bytes: &[u8]) -> io::Result<usize> {
        Err(ErrorKind::BrokenPipe.into())
    }

    fn flush(&mut self) -> io::Result<()> {
        Err(ErrorKind::BrokenPipe.into())
    }
}

/// The words as strings.
fn strings(words: &[&str]) -> Vec<String> {
    words.iter().map(|&word| word.into()).collect()
}

/// Whether a text was written that begins in this way, and nothing where it is empty.
fn begins(written: &[u8], head: &str) -> bool {
    if head.is_empty() {
        return written.is_empty();
    }
    written.starts_with(head.as_bytes()) && written.ends_with(b"\n")
}

const KEPT: &str = "rounds=3 lossless=3 fitting=";

const BROKEN: &str = "broken promise: lossless\nseed of the round: 7\ntext: ";

/// After the greatest seed comes 0.
const BROKEN_AT_0: &str = "broken promise: lossless\nseed of the round: 0\ntext: ";

const USAGE: &str = "usage: textwrap_soak SEED ROUNDS\n";

/// The words, the seed that fails, how the output and the messages begin, and the status.
const RUNS: &[(&[&str], u64, &str, &str, u8)] = &[
    (&["5", "3"], 4, KEPT, "", 0),
    (&["5", "3"], 7, "", BROKEN, 1),
    (&["5", "3"], 8, KEPT, "", 0),
    (&["18446744073709551615", "2"], 0, "", BROKEN_AT_0, 1),
    (&[], 5, "", USAGE, 2),
    (&["5"], 5, "", USAGE, 2),
    (&["5", "x"], 5, "", USAGE, 2),
    (&["x", "3"], 5, "", USAGE, 2),
    (&["5", "3", "1"], 5, "", USAGE, 2),
];

/// The status is 0 where all promises are kept, 1 where one is broken, and 2 where the words ask
/// for nothing. The round that failed is named.
#[test]
fn words_and_answers_give_output_messages_and_status() {
    for &(words, seed, output, messages, status) in RUNS {
        let (mut written, mut said) = (Vec::new(), Vec::new());
        let ended = execute(&strings(words), &Faulty { seed }, &mut written, &mut said);
        assert_eq!(ended, status, "{words:?}");
        assert!(begins(&written, output), "{words:?}");
        assert!(begins(&said, messages), "{words:?}");
    }
}

/// All that a round is made of is told where a promise is broken in it.
#[test]
fn the_report_has_all_of_the_case() {
    let mut said = Vec::new();
    execute(&strings(&["7", "1"]), &Faulty { seed: 7 }, &mut io::sink(), &mut said);
    let report = String::from_utf8(said).expect("the report is UTF-8");
    let heads: Vec<&str> = report.lines().filter_map(|line| line.split(':').next()).collect();
    assert_eq!(
        heads,
        [
            "broken promise",
            "seed of the round",
            "text",
            "plain text",
            "options",
            "first width",
            "few fragments",
            "many fragments",
            "paragraphs",
            "reflowed by",
        ]
    );
}

/// What cannot be written is told by the status.
#[test]
fn closed_writers_are_told_by_the_status() {
    let mut said = Vec::new();
    let ended = execute(&strings(&["5", "3"]), &LIBRARY, &mut Closed, &mut said);
    assert_eq!(ended, 1);
    assert_eq!(said, b"textwrap_soak: cannot write output\n");
    let ended = execute(&[], &LIBRARY, &mut io::sink(), &mut Closed);
    assert_eq!(ended, 2);
}
