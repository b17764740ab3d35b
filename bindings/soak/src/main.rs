//! `textwrap_soak SEED ROUNDS` makes random texts, options and fragments, and checks promises of
//! the library on them, through its public calls alone. Its last line says how many checks it made.
//!
//! The round number k, counted from 0, has the seed `SEED + k`. So `textwrap_soak SEED 1` repeats
//! the one round of a seed, which the program names where a promise is broken.
//!
//! If the program `reflow` is not built, nothing is said of reflowing, and its counts are 0.
#![forbid(unsafe_code)]

use std::env;
use std::io;
use std::process::ExitCode;
use textwrap_soak::answers::Textwrap;
use textwrap_soak::checks::reflowing::Reflow;
use textwrap_soak::program::execute;

fn main() -> ExitCode {
    // A word that is not UTF-8 is no number either.
    let words = env::args_os().skip(1).map(|word| word.to_string_lossy().into_owned());
    let words: Vec<String> = words.collect();
    let library = Textwrap { reflow: Reflow::find() };
    ExitCode::from(execute(&words, &library, &mut io::stdout(), &mut io::stderr()))
}
