//! Divisions of fragments into lines, what they cost, and the least that one can cost, found by
//! trying all of them.
use crate::cases::blocks::{Block, Problem};
use textwrap_proved::wrap_algorithms::Penalties;

/// A division, and what it costs.
#[derive(Clone, Debug, PartialEq, Eq)]
pub struct Division<'p> {
    /// Its lines.
    pub lines: Vec<&'p [Block]>,
    /// What they cost together.
    pub cost: u128,
}

/// The cheapest division of the first `end` fragments, if there is one whose cost fits 128 bits. Of
/// several, the last line starts as early as it can, then the line before it, and so on.
///
/// The divisions are numbered so that one with an earlier last line comes first: the binary digits
/// of the number say, from the lowest to the highest, after which fragments a line ends. So the
/// first of the cheapest is the right one.
pub fn cheapest_division(problem: &Problem, end: usize) -> Option<Division<'_>> {
    let blocks = problem.blocks.get(..end)?;
    let is_whole = end == problem.blocks.len();
    let mut cheapest: Option<Division<'_>> = None;
    for number in 0..division_count(end) {
        let lines = division_of_number(number, blocks);
        let Some(cost) = division_cost(problem, &lines, is_whole) else {
            continue;
        };
        if cheapest.as_ref().is_none_or(|found| cost < found.cost) {
            cheapest = Some(Division { lines, cost });
        }
    }
    cheapest
}

/// How many divisions so many fragments have: 2 to the number of places between two of them.
fn division_count(blocks: usize) -> u64 {
    let places = blocks.saturating_sub(1).min(30);
    1 << places
}

/// The lines of the division of this number.
fn division_of_number(number: u64, blocks: &[Block]) -> Vec<&[Block]> {
    let mut lines = Vec::new();
    let mut digits = number;
    let mut start = 0;
    for end in 1..blocks.len() {
        if digits % 2 == 1 {
            lines.push(&blocks[start..end]);
            start = end;
        }
        digits /= 2;
    }
    lines.push(&blocks[start..]);
    lines
}

/// What a division costs, if that fits 128 bits. `is_whole` says that it divides all fragments, and
/// not only a prefix of them, so that its last line is the last of all.
fn division_cost(problem: &Problem, lines: &[&[Block]], is_whole: bool) -> Option<u128> {
    let mut cost = 0u128;
    for (number, line) in lines.iter().enumerate() {
        let is_last = is_whole && number + 1 == lines.len();
        let width = problem.line_width(number);
        cost = cost.checked_add(line_cost(line, width, is_last, &problem.penalties)?)?;
    }
    Some(cost)
}

/// What a line costs, if that fits 128 bits. A line without fragments costs nothing.
pub fn line_cost(
    line: &[Block],
    width: usize,
    is_last: bool,
    penalties: &Penalties,
) -> Option<u128> {
    let Some(last) = line.last() else {
        return Some(0);
    };
    let is_single = line.len() == 1;
    let target = width.max(1) as u128;
    let fit = fit_cost(closed_width(line)?, target, is_last, is_single, penalties)?;
    let hyphen = if last.penalty > 0 { penalties.hyphen_penalty } else { 0 };
    let cost = fit.checked_add(penalties.nline_penalty as u128)?;
    cost.checked_add(hyphen as u128)
}

/// What it costs that the closed width of a line misses its target.
fn fit_cost(
    closed: u128,
    target: u128,
    is_last: bool,
    is_single: bool,
    penalties: &Penalties,
) -> Option<u128> {
    if closed > target {
        return (closed - target).checked_mul(penalties.overflow_penalty as u128);
    }
    if !is_last {
        return (target - closed).checked_mul(target - closed);
    }
    let grown = closed.checked_mul(penalties.short_last_line_fraction as u128)?;
    if is_single && grown < target {
        return Some(penalties.short_last_line_penalty as u128);
    }
    Some(0)
}

/// The widths of all fragments, the whitespace of all but the last, and the penalty of the last.
fn closed_width(line: &[Block]) -> Option<u128> {
    let Some((last, others)) = line.split_last() else {
        return Some(0);
    };
    let mut open = 0u128;
    for block in others {
        open = open.checked_add(block.width as u128 + block.whitespace as u128)?;
    }
    open.checked_add(last.width as u128 + last.penalty as u128)
}
