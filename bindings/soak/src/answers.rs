//! What the library answers on a case.
use crate::cases::Case;
use crate::checks::displaying::Displays;
use crate::checks::in_place::InPlace;
use crate::checks::least_cost::{least_lines, LeastLines};
use crate::checks::paths::Ways;
use crate::checks::refilling::Refills;
use crate::checks::reflowing::{Reflow, Reflows};
use std::panic::{catch_unwind, AssertUnwindSafe};

/// An answer, if the calls returned.
pub type Answer<T> = Option<T>;

/// The answer of calls that may panic. The message of a panic goes to the standard error.
pub fn unless_panic<T>(ask: impl FnOnce() -> T) -> Answer<T> {
    catch_unwind(AssertUnwindSafe(ask)).ok()
}

/// All answers that the promises of a round speak of.
#[derive(Clone, Debug)]
pub struct Answers<'c> {
    /// The lines of the text.
    pub ways: Answer<Ways<'c>>,
    /// The lines of the few fragments.
    pub few: Answer<LeastLines<'c>>,
    /// The lines of the many fragments.
    pub many: Answer<LeastLines<'c>>,
    /// The text, filled in place.
    pub in_place: Answer<InPlace<'c>>,
    /// The plain text, filled and refilled.
    pub refills: Answer<Refills>,
    /// The paragraphs, reflowed, if the program `reflow` was asked.
    pub reflows: Option<Answer<Reflows>>,
    /// The text, for display.
    pub displays: Answer<Displays<'c>>,
}

/// A library that can be checked. The tests have some that answer wrongly.
pub trait Library {
    /// What it answers on a case.
    fn answers<'c>(&self, case: &'c Case) -> Answers<'c>;
}

/// The proved library, with the program `reflow` if that is built.
#[derive(Clone, Debug)]
pub struct Textwrap {
    /// The program, which is not asked if there is none.
    pub reflow: Option<Reflow>,
}

impl Library for Textwrap {
    fn answers<'c>(&self, case: &'c Case) -> Answers<'c> {
        Answers {
            ways: unless_panic(|| Ways::of_case(case)),
            few: unless_panic(|| least_lines(&case.few)),
            many: unless_panic(|| least_lines(&case.many)),
            in_place: unless_panic(|| InPlace::of_case(case)),
            refills: unless_panic(|| Refills::of_case(case)),
            reflows: self.reflow.as_ref().filter(|_| case.is_reflowed).map(|reflow| {
                let reflows = Reflows::of_case(case, reflow);
                reflows.inspect_err(|error| eprintln!("textwrap_soak: reflow: {error}")).ok()
            }),
            displays: unless_panic(|| Displays::of_case(case)),
        }
    }
}
