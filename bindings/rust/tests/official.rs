//! The official cases of Unicode line breaking, by both forms of numbers. They are those of the tests of
//! the library, whose tables are read from their sources.
use std::collections::BTreeSet;
use std::path::PathBuf;
use std::{env, fs};
use textwrap_proved::breaks::{line_breaks, Numbers};

/// A table's source: what stands between its name and the line that ends it.
fn table(file: &str, name: &str) -> String {
    let root = env::var_os("TEXTWRAP_REPOSITORY")
        .map_or_else(|| PathBuf::from(env!("CARGO_MANIFEST_DIR")).join("../.."), PathBuf::from);
    let path = root.join("crates/vectors_beside/src/tests/breaks").join(file);
    let text = fs::read_to_string(&path).expect("the tests of the library are at hand");
    let (_, rest) = text.split_once(&format!("pub const {name}: ")).expect("a table");
    let (_, rest) = rest.split_once('=').expect("its value");
    rest.split_once(";\n").expect("its end").0.to_owned()
}

/// The next string literal of a source, and what follows it.
fn literal(source: &str) -> Option<(String, &str)> {
    let rest = source.split_once('"')?.1;
    let mut text = String::new();
    let mut chars = rest.char_indices();
    loop {
        match chars.next()? {
            (at, '"') => return Some((text, &rest[at + 1..])),
            (_, '\\') => text.push(match chars.next()?.1 {
                'u' => code_point(&mut chars)?,
                't' => '\t',
                'n' => '\n',
                'r' => '\r',
                other => other,
            }),
            (_, other) => text.push(other),
        }
    }
}

/// The character of an escape such as `\u{308}`, read from its opening brace on.
fn code_point(chars: &mut impl Iterator<Item = (usize, char)>) -> Option<char> {
    let digits: String =
        chars.map(|(_, c)| c).skip_while(|&c| c == '{').take_while(|&c| c != '}').collect();
    char::from_u32(u32::from_str_radix(&digits, 16).ok()?)
}

/// All literals of a source.
fn literals(mut source: &str) -> Vec<String> {
    let mut all = Vec::new();
    while let Some((text, rest)) = literal(source) {
        all.push(text);
        source = rest;
    }
    all
}

/// The cases of the official file, with the mark `÷` wherever a line may end.
fn official_cases() -> BTreeSet<String> {
    let seconds = literals(&table("official.rt", "SECONDS")).concat();
    let mut cases = BTreeSet::from_iter(literals(&table("official.rt", "OTHERS")));
    let beginnings = table("official.rt", "BEGINNINGS");
    let mut source = beginnings.as_str();
    while let Some((beginning, rest)) = literal(source) {
        let digits = rest.trim_start_matches(", 0x").split(')').next().expect("bits");
        let ends = u64::from_str_radix(digits, 16).expect("bits");
        cases.extend(seconds.chars().enumerate().map(|(bit, second)| {
            let mark = if ends >> bit & 1 == 1 { "÷" } else { "" };
            format!("{beginning}{mark}{second}÷")
        }));
        source = rest;
    }
    cases
}

/// The text of a case with the marks that its breaks ask for.
fn marked(case: &str, numbers: Numbers) -> String {
    let text = case.replace('÷', "");
    let mut marked = String::new();
    let mut start = 0;
    for place in line_breaks(&text, numbers) {
        let line = &text[start..place.offset];
        let ends = line.ends_with(['\n', '\u{b}', '\u{c}', '\r', '\u{85}', '\u{2028}', '\u{2029}']);
        assert_eq!(place.is_mandatory, ends || place.offset == text.len(), "{case:?}");
        marked += line;
        marked += "÷";
        start = place.offset;
    }
    marked
}

#[test]
fn official_cases_have_their_breaks() {
    let mut cases = official_cases();
    assert_eq!(cases.len(), 7625);
    for case in &cases {
        assert_eq!(marked(case, Numbers::ByExpression), *case);
    }
    // A part of the rules, an official case, and what it is by pairs.
    for row in literals(&table("differing.rt", "BY_PAIRS")).chunks(3) {
        assert!(cases.remove(&row[1]), "{:?}", row[1]);
        assert_eq!(marked(&row[1], Numbers::ByPairs), row[2]);
    }
    for case in &cases {
        assert_eq!(marked(case, Numbers::ByPairs), *case);
    }
}
