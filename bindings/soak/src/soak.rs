//! Rounds, one after the other, up to the first broken promise.
use crate::answers::{Answers, Library};
use crate::arguments::Request;
use crate::cases::Case;
use crate::checks::Finding;
use crate::promises::{PROMISES, PROMISES_LEN};

/// What the rounds came to, in words.
#[derive(Clone, Debug, PartialEq, Eq)]
pub enum Outcome {
    /// All promises are kept. The text counts the checks.
    Kept(String),
    /// A promise is broken. The text says which, and on what.
    Broken(String),
}

/// How often each promise was checked, in their order.
pub type Counts = [u64; PROMISES_LEN];

/// Makes the rounds of a request, or fewer if one breaks a promise. Their seeds follow each other.
pub fn soak(library: &impl Library, request: Request) -> Outcome {
    let mut counts = [0; PROMISES_LEN];
    for round in 0..request.rounds {
        let case = Case::of_seed(request.seed.wrapping_add(round));
        let answers = library.answers(&case);
        if let Some(name) = broken_promise(&case, &answers, &mut counts) {
            return Outcome::Broken(describe_broken(name, &case));
        }
    }
    Outcome::Kept(describe_kept(request.rounds, &counts))
}

/// The name of the first promise that these answers break, if any. Those that are kept before it
/// are counted.
pub fn broken_promise(
    case: &Case,
    answers: &Answers<'_>,
    counts: &mut Counts,
) -> Option<&'static str> {
    for ((promise, name), count) in PROMISES.iter().zip(counts) {
        match promise.check(case, answers) {
            Finding::Kept => *count += 1,
            Finding::Broken => return Some(name),
            Finding::PassedOver => {}
        }
    }
    None
}

/// The line that counts the rounds, and the checks of each promise.
pub fn describe_kept(rounds: u64, counts: &Counts) -> String {
    let mut line = format!("rounds={rounds}");
    for ((_, name), count) in PROMISES.iter().zip(counts) {
        line.extend([" ", name, "=", &count.to_string()]);
    }
    line
}

/// What a reader needs to repeat the round of this case, and to find why this promise is broken.
fn describe_broken(name: &str, case: &Case) -> String {
    let Case { seed, text, plain, first_width, few, many, paragraphs, layouts, .. } = case;
    let options = case.settings.options();
    [
        format!("broken promise: {name}"),
        format!("seed of the round: {seed}"),
        format!("text: {text:?}"),
        format!("plain text: {plain:?}"),
        format!("options: {options:?}"),
        format!("first width: {first_width}"),
        format!("few fragments: {few:?}"),
        format!("many fragments: {many:?}"),
        format!("paragraphs: {paragraphs:?}"),
        format!("reflowed by: {layouts:?}"),
    ]
    .join("\n")
}
