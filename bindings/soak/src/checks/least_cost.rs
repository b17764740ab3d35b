//! The promise that no division costs less than that of optimal fit.
use super::divisions::{cheapest_division, Division};
use super::Finding;
use crate::cases::blocks::{Block, Problem};
use textwrap_proved::wrap_algorithms::{wrap_optimal_fit, OverflowError};

/// The lines of a division that costs least, unless it is refused.
pub type LeastLines<'p> = Result<Vec<&'p [Block]>, OverflowError>;

/// Asks the library.
pub fn least_lines(problem: &Problem) -> LeastLines<'_> {
    let widths: Vec<f64> = problem.line_widths.iter().map(|&width| width as f64).collect();
    wrap_optimal_fit(&problem.blocks, &widths, &problem.penalties)
}

/// Checks the division of few fragments against all divisions. It has to be refused where a prefix
/// of the fragments has no division whose cost fits 128 bits.
pub fn check(problem: &Problem, found: &LeastLines<'_>) -> Finding {
    let right = right_division(problem).map(|division| division.lines);
    Finding::of(found.as_ref().ok() == right.as_ref())
}

/// The cheapest division, with ties settled, if each prefix has a division whose cost fits 128
/// bits.
fn right_division(problem: &Problem) -> Option<Division<'_>> {
    let ends = 0..=problem.blocks.len();
    let divisions: Option<Vec<_>> = ends.map(|end| cheapest_division(problem, end)).collect();
    divisions?.pop()
}
