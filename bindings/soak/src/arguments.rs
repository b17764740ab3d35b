//! The program's arguments.

/// What the arguments ask for.
#[derive(Clone, Copy, Debug, PartialEq, Eq)]
pub struct Request {
    /// The seed of the first round.
    pub seed: u64,
    /// How many rounds to make.
    pub rounds: u64,
}

/// The request that the words after the program's name mean: a seed and a number of rounds.
pub fn arguments(words: &[String]) -> Option<Request> {
    let [seed, rounds] = words else {
        return None;
    };
    Some(Request { seed: seed.parse().ok()?, rounds: rounds.parse().ok()? })
}
