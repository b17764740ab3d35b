//! What a call answers, in a form in which the answers of both libraries can be compared.
use std::borrow::Cow;
use std::panic::{self, AssertUnwindSafe};

/// Where the bytes of a line lie.
#[derive(Clone, Copy, Debug, PartialEq, Eq)]
pub enum Place {
    /// The line is a text of its own.
    Owned,
    /// It is borrowed from the text, at this offset.
    BorrowedAt(usize),
    /// It is borrowed from elsewhere.
    BorrowedElsewhere,
}

/// A line of `wrap`.
#[derive(Clone, Debug, PartialEq, Eq)]
pub struct Line {
    /// Its bytes.
    pub text: String,
    /// Where these lie.
    pub place: Place,
}

impl Line {
    /// Whether it is an empty line that is borrowed, but not from the text.
    pub fn is_empty_elsewhere(&self) -> bool {
        self.text.is_empty() && self.place == Place::BorrowedElsewhere
    }
}

/// A line ending.
#[derive(Clone, Copy, Debug, PartialEq, Eq)]
pub enum Ending {
    Lf,
    CrLf,
}

/// What `unfill` answers: the joined text, and each option.
#[derive(Clone, Debug, PartialEq, Eq)]
pub struct Unfilled {
    /// The joined lines.
    pub text: String,
    /// The columns of the widest line.
    pub width: usize,
    /// What the first line began with.
    pub initial_indent: String,
    /// What all later lines began with.
    pub subsequent_indent: String,
    /// What the lines ended in.
    pub ending: Ending,
    /// Whether the options that no text shows are the defaults.
    pub others_are_default: bool,
}

/// The answer of a call.
#[derive(Clone, Debug, PartialEq, Eq)]
pub enum Answer {
    Panic,
    OutOfMemory,
    Number(usize),
    Text(String),
    Lines(Vec<Line>),
    Rows(Vec<String>),
    Unfilled(Unfilled),
}

impl Answer {
    /// What the call answers, or that it panics.
    pub fn of(call: impl FnOnce() -> Answer) -> Answer {
        panic::catch_unwind(AssertUnwindSafe(call)).unwrap_or(Answer::Panic)
    }

    /// The same with its texts changed, and every place as it is.
    pub fn with_texts(&self, change: impl Fn(&str) -> String) -> Answer {
        match self {
            Answer::Panic | Answer::OutOfMemory | Answer::Number(_) => self.clone(),
            Answer::Text(text) => Answer::Text(change(text)),
            Answer::Rows(rows) => Answer::Rows(rows.iter().map(|row| change(row)).collect()),
            Answer::Lines(lines) => {
                let changed = |line: &Line| Line { text: change(&line.text), ..*line };
                Answer::Lines(lines.iter().map(changed).collect())
            }
            Answer::Unfilled(unfilled) => Answer::Unfilled(Unfilled {
                text: change(&unfilled.text),
                initial_indent: change(&unfilled.initial_indent),
                subsequent_indent: change(&unfilled.subsequent_indent),
                ..*unfilled
            }),
        }
    }
}

/// The lines of a text, each with its place.
pub fn placed(text: &str, lines: &[Cow<'_, str>]) -> Vec<Line> {
    let placed = |line: &Cow<'_, str>| Line {
        text: line.to_string(),
        place: match line {
            Cow::Borrowed(line) => place_in(text, line),
            Cow::Owned(_) => Place::Owned,
        },
    };
    lines.iter().map(placed).collect()
}

/// Where a borrowed line lies, told from the addresses of its bytes.
fn place_in(text: &str, line: &str) -> Place {
    let (start, end) = (text.as_ptr() as usize, text.as_ptr() as usize + text.len());
    let (first, last) = (line.as_ptr() as usize, line.as_ptr() as usize + line.len());
    if start <= first && last <= end {
        Place::BorrowedAt(first - start)
    } else {
        Place::BorrowedElsewhere
    }
}
