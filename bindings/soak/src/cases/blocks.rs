//! Random fragments and line widths.
use super::random::Random;
use super::settings::{random_penalties, random_width};
use textwrap_proved::core::Fragment;
use textwrap_proved::wrap_algorithms::Penalties;

/// The greatest width that the binding takes of a fragment or a line: the greatest whole number
/// below 2^64 that a `f64` holds.
pub const GREATEST: usize = usize::MAX - 2047;

/// A fragment of these widths, which a `f64` holds.
#[derive(Clone, Copy, Debug, PartialEq, Eq)]
pub struct Block {
    /// What it takes.
    pub width: usize,
    /// What the space after it takes, where another follows on the line.
    pub whitespace: usize,
    /// What it takes more at the end of a line.
    pub penalty: usize,
}

impl Fragment for Block {
    fn width(&self) -> f64 {
        self.width as f64
    }

    fn whitespace_width(&self) -> f64 {
        self.whitespace as f64
    }

    fn penalty_width(&self) -> f64 {
        self.penalty as f64
    }
}

/// Fragments that are divided at the least cost.
#[derive(Clone, Debug)]
pub struct Problem {
    /// The fragments.
    pub blocks: Vec<Block>,
    /// The line widths, which are equal from the second on.
    pub line_widths: Vec<usize>,
    /// What lines cost.
    pub penalties: Penalties,
}

/// The numbers below which the three widths of fragments are drawn.
const BOUNDS: &[[usize; 3]] =
    &[[12, 2, 1], [8, 3, 1], [2, 2, 1], [30, 1, 1], [10, 3, 2], [6, 2, 5]];

/// Widths at which sums and costs pass their types. The last two are the greatest that the binding
/// takes.
const HUGE: &[usize] = &[0, 1, 7, 1 << 62, 1 << 63, GREATEST - 2048, GREATEST];

impl Problem {
    /// A random problem of fewer than `bound` fragments.
    pub fn random(random: &mut Random, bound: usize) -> Self {
        Problem {
            blocks: random_blocks(random, bound),
            line_widths: random_line_widths(random),
            penalties: random_penalties(random),
        }
    }

    /// The width of a line, counted from 0: the last width serves all later lines, and without any
    /// it is 0.
    pub fn line_width(&self, number: usize) -> usize {
        let last = self.line_widths.len().saturating_sub(1);
        self.line_widths.get(number.min(last)).copied().unwrap_or(0)
    }
}

/// Fewer than `bound` fragments, all small or now and then huge.
fn random_blocks(random: &mut Random, bound: usize) -> Vec<Block> {
    let are_huge = random.is_one_in(12);
    let bounds = random.pick(BOUNDS);
    let count = random.below(bound);
    let block = || if are_huge { huge_block(random) } else { small_block(random, bounds) };
    std::iter::repeat_with(block).take(count).collect()
}

/// A fragment whose widths are below these bounds.
fn small_block(random: &mut Random, bounds: [usize; 3]) -> Block {
    let [width, whitespace, penalty] = bounds.map(|bound| random.below(bound));
    Block { width, whitespace, penalty }
}

/// A fragment whose widths may pass what costs can hold.
fn huge_block(random: &mut Random) -> Block {
    Block { width: random.pick(HUGE), whitespace: random.pick(HUGE), penalty: random.pick(HUGE) }
}

/// No width, one, or a first one and one or two that are equal.
fn random_line_widths(random: &mut Random) -> Vec<usize> {
    match random.below(12) {
        0 => Vec::new(),
        1..=6 => vec![random_line_width(random)],
        _ => {
            let first = random_line_width(random);
            let later = random_line_width(random);
            vec![first, later, later]
        }
    }
}

/// A width that a `f64` holds.
fn random_line_width(random: &mut Random) -> usize {
    random_width(random).min(GREATEST)
}
