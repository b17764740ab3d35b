//! The promise that the lines of many fragments are those of the table of least costs. In most
//! cases the library finds them by a search, and has no table.
use super::least_cost::LeastLines;
use super::tables::{least_costs, lines_of_table};
use super::Finding;
use crate::cases::blocks::Problem;

/// Checks the division of many fragments against the table. It has to be refused where a cost of
/// the table passes 128 bits.
pub fn check(problem: &Problem, found: &LeastLines<'_>) -> Finding {
    let right = least_costs(problem).map(|table| lines_of_table(problem, &table));
    Finding::of(found.as_ref().ok() == right.as_ref())
}
