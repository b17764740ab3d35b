//! The checks of the soak: random texts, options and fragments from a seed, and promises of the
//! library checked on them. Of the library they know the calls of the Rust binding, which lead to
//! the proved archive, and of texts of many paragraphs the program `reflow`.
//!
//! The program `textwrap_soak` runs them. The tests hand each check right answers and wrong ones.
#![forbid(unsafe_code)]
#![warn(missing_docs)]

pub mod arguments;
pub mod program;
pub mod soak;

// What a round checks: its numbers, texts, options and fragments, which are a case.
pub mod cases;

// How it checks them: the library is asked for all its answers, and then each promise is checked.
pub mod answers;
pub mod checks;
pub mod promises;
