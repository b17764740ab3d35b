//! The table of least costs: for each number of fragments from the front, what they cost at least,
//! and where their last line starts.
use super::divisions::line_cost;
use crate::cases::blocks::{Block, Problem};

/// What some first fragments cost at least.
#[derive(Clone, Copy, Debug, PartialEq, Eq)]
pub struct Entry {
    /// The cost.
    pub cost: u128,
    /// Where their last line starts.
    pub start: usize,
    /// How many lines they have.
    pub lines: usize,
}

/// The table, unless one of its costs passes 128 bits. Of last lines at the same cost the one that
/// starts earliest is taken.
pub fn least_costs(problem: &Problem) -> Option<Vec<Entry>> {
    let mut table = vec![Entry { cost: 0, start: 0, lines: 0 }];
    for end in 1..=problem.blocks.len() {
        let candidates = (0..end).filter_map(|start| candidate(problem, &table, start, end));
        table.push(candidates.min_by_key(|entry| entry.cost)?);
    }
    Some(table)
}

/// What the fragments up to an end cost if their last line starts there, if that fits 128 bits.
fn candidate(problem: &Problem, table: &[Entry], start: usize, end: usize) -> Option<Entry> {
    let before = &table[start];
    let line = &problem.blocks[start..end];
    let is_last = end == problem.blocks.len();
    let width = problem.line_width(before.lines);
    let cost = line_cost(line, width, is_last, &problem.penalties)?;
    Some(Entry { cost: before.cost.checked_add(cost)?, start, lines: before.lines + 1 })
}

/// The lines that the table leads to, from the last one to the first. No fragments are one empty
/// line.
pub fn lines_of_table<'p>(problem: &'p Problem, table: &[Entry]) -> Vec<&'p [Block]> {
    let mut end = problem.blocks.len();
    if end == 0 {
        return vec![&problem.blocks];
    }
    let mut lines = Vec::new();
    while end > 0 {
        let start = table[end].start;
        lines.push(&problem.blocks[start..end]);
        end = start;
    }
    lines.reverse();
    lines
}
