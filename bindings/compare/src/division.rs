//! How the original divides words, with differences of this put right: it takes a function of the
//! caller for that, and its words, their pieces and the lines made of them stay its own.
use crate::causes::Cause;
use crate::choices::{original_penalties, Algorithm, Penalties};
use crate::functions::there::{in_pairs, two_that_fit};
use crate::least_cost::{Pieces, Ties};
use std::cell::RefCell;
use std::cmp::Ordering;
use std::collections::BTreeSet;
use textwrap::core::Word;
use textwrap::wrap_algorithms::{wrap_first_fit, wrap_optimal_fit};

/// How the paragraphs of the next call are divided.
#[derive(Clone, Copy, Debug)]
pub struct Rule {
    /// By which of the algorithms.
    pub algorithm: Algorithm,
    /// The least cost is found in whole numbers, with ties settled so. Else the original finds it.
    pub whole_costs: Option<Ties>,
    /// How many paragraphs are divided whose first line has a width of its own. All later ones have
    /// even lines.
    pub own_first_lines: usize,
}

/// What was found out while words were divided.
#[derive(Clone, Debug, Default)]
pub struct Findings {
    /// Why the original divides them otherwise.
    pub causes: BTreeSet<Cause>,
    /// Where it does, and nothing that is documented says why.
    pub riddles: Vec<String>,
}

#[derive(Default)]
struct State {
    /// A function of the caller can hold nothing, so its rule stands here.
    rule: Option<Rule>,
    findings: Findings,
}

thread_local! {
    static STATE: RefCell<State> = RefCell::default();
}

/// The original's algorithm that keeps to this rule until the next one is set.
pub fn by(rule: Rule) -> textwrap::WrapAlgorithm {
    STATE.with_borrow_mut(|state| state.rule = Some(rule));
    textwrap::WrapAlgorithm::Custom(divide)
}

/// What was found since this was last asked.
pub fn take_findings() -> Findings {
    STATE.with_borrow_mut(|state| std::mem::take(&mut state.findings))
}

/// Notes why an answer of the original differs.
pub fn note_cause(cause: Cause) {
    STATE.with_borrow_mut(|state| state.findings.causes.insert(cause));
}

/// The rule of the paragraph that is divided now.
fn rule() -> Rule {
    STATE.with_borrow(|state| state.rule.expect("a rule is set before words are divided"))
}

/// Counts a paragraph that has lines: one without any leaves the next where it was itself.
fn count_paragraph() {
    STATE.with_borrow_mut(|state| {
        if let Some(rule) = &mut state.rule {
            rule.own_first_lines = rule.own_first_lines.saturating_sub(1);
        }
    });
}

/// Divides the words of a paragraph by the rule.
fn divide<'a, 'b>(words: &'b [Word<'a>], line_widths: &'b [usize]) -> Vec<&'b [Word<'a>]> {
    let rule = rule();
    let &[first, later] = line_widths else {
        panic!("the original gives a first width and a later one, and not {line_widths:?}")
    };
    let is_even = rule.own_first_lines == 0;
    let widths = if is_even { [later, later] } else { [first, later] };
    let lines = match (rule.algorithm, rule.whole_costs) {
        (Algorithm::InPairs, _) => in_pairs(words, &widths),
        (Algorithm::TwoThatFit, _) => two_that_fit(words, &widths),
        (Algorithm::FirstFit, _) => wrap_first_fit(words, &widths.map(|width| width as f64)),
        (Algorithm::OptimalFit(penalties), None) => by_the_original(words, widths, penalties),
        (Algorithm::OptimalFit(penalties), Some(ties)) => {
            let pieces = Pieces::new(words, widths, penalties);
            let ends = pieces.least(ties).expect("the least cost of a text fits 128 bits");
            let originals = ends_of(&by_the_original(words, widths, penalties));
            note_why(&pieces, &ends, &originals);
            lines_at(words, &ends)
        }
    };
    if !lines.is_empty() {
        count_paragraph();
    }
    lines
}

fn by_the_original<'a, 'b>(
    words: &'b [Word<'a>],
    widths: [usize; 2],
    penalties: Penalties,
) -> Vec<&'b [Word<'a>]> {
    let widths = widths.map(|width| width as f64);
    wrap_optimal_fit(words, &widths, &original_penalties(penalties))
        .expect("widths of 64 bits lead to no infinite cost")
}

/// Where each line of a division ends. No words are no line with a word.
fn ends_of(lines: &[&[Word<'_>]]) -> Vec<usize> {
    let ends = lines.iter().scan(0, |end, line| {
        *end += line.len();
        Some(*end)
    });
    ends.filter(|&end| end > 0).collect()
}

/// The words between the ends. No words are one empty line.
fn lines_at<'a, 'b>(words: &'b [Word<'a>], ends: &[usize]) -> Vec<&'b [Word<'a>]> {
    if words.is_empty() {
        return vec![words];
    }
    let starts = std::iter::once(0).chain(ends.iter().copied());
    starts.zip(ends).map(|(start, &end)| &words[start..end]).collect()
}

/// Notes why the original has another division than that of the least cost.
fn note_why(pieces: &Pieces<'_, '_>, least: &[usize], originals: &[usize]) {
    if least == originals {
        return;
    }
    let (originals_cost, least_cost) = (pieces.cost(originals), pieces.cost(least));
    let cause = match cost_order(originals_cost, least_cost) {
        Ordering::Equal => Some(Cause::Tie),
        Ordering::Greater if !pieces.is_rounded() => {
            pieces.has_falling_widths().then_some(Cause::FallingWidths)
        }
        Ordering::Greater if pieces.rounded_cost(originals) <= pieces.rounded_cost(least) => {
            Some(Cause::RoundedCosts)
        }
        // The order of costs on which its search relies holds for exact ones alone.
        Ordering::Greater => Some(Cause::RoundedSearch),
        Ordering::Less => None,
    };
    STATE.with_borrow_mut(|state| match cause {
        Some(cause) => {
            state.findings.causes.insert(cause);
        }
        None => state.findings.riddles.push(format!(
            "the original's lines end at {originals:?} and cost {originals_cost:?}, while lines \
             that end at {least:?} cost {least_cost:?}"
        )),
    });
}

/// Which of two costs is greater. One that passes 128 bits, and so is none, is above every other.
fn cost_order(one: Option<u128>, other: Option<u128>) -> Ordering {
    one.map_or((true, 0), |cost| (false, cost)).cmp(&other.map_or((true, 0), |cost| (false, cost)))
}
