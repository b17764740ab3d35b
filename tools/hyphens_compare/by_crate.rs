//! Hyphenates words by the crate `hyphenation`: PATTERNS EXCEPTIONS LEFT RIGHT
//!
//! It reads one word a line from standard input, and prints the offsets in bytes of its points, one line a
//! word. The patterns and exceptions are files of one a line, as TeX has them. They are read and made into a
//! dictionary as the crate does it where it is built.
use atlatl::fst::{Builder, FST};
use hyphenation::{Hyphenator, Language, Standard};
use hyphenation_commons::dictionary::{Exceptions, Locus, Patterns};
use hyphenation_commons::parse::Parse;
use std::collections::HashMap;
use std::error::Error;
use std::io::{self, BufRead, Write};

/// The patterns of a file. Of two with the same letters the first is kept.
fn read_patterns(path: &str) -> Result<Patterns, Box<dyn Error>> {
    let mut numbers: HashMap<Vec<Locus>, u16> = HashMap::new();
    let mut tallies = Vec::new();
    let mut pairs = Vec::new();
    for line in std::fs::read_to_string(path)?.lines() {
        let (letters, tally) = <Patterns as Parse>::pair(line, str::to_owned);
        let number = *numbers.entry(tally.clone()).or_insert_with(|| {
            tallies.push(tally);
            (tallies.len() - 1) as u16
        });
        pairs.push((letters, number));
    }
    pairs.sort_by(|one, other| one.0.cmp(&other.0));
    pairs.dedup_by(|one, other| one.0 == other.0);
    let builder = Builder::from_iter(pairs)?;
    Ok(Patterns {
        tallies,
        automaton: FST::from_builder(&builder)?,
    })
}

fn read_exceptions(path: &str) -> Result<Exceptions, Box<dyn Error>> {
    let text = std::fs::read_to_string(path)?;
    let pairs = text.lines().map(|line| <Exceptions as Parse>::pair(line, str::to_owned));
    Ok(Exceptions(pairs.collect()))
}

fn main() -> Result<(), Box<dyn Error>> {
    let given: Vec<String> = std::env::args().skip(1).collect();
    let [patterns, exceptions, left, right] = given.as_slice() else {
        return Err("usage: by_crate PATTERNS EXCEPTIONS LEFT RIGHT".into());
    };
    let dictionary = Standard {
        language: Language::EnglishUS,
        patterns: read_patterns(patterns)?,
        exceptions: read_exceptions(exceptions)?,
        minima: (left.parse()?, right.parse()?),
    };
    let mut output = io::BufWriter::new(io::stdout().lock());
    for word in io::stdin().lock().lines() {
        let word = word?;
        let breaks = dictionary.hyphenate(&word).breaks;
        let shown: Vec<String> = breaks.iter().map(usize::to_string).collect();
        writeln!(output, "{}", shown.join(" "))?;
    }
    Ok(())
}
