//! Checks of divisions at the least cost.
use super::{lines_by, problem_of, PAIR};
use textwrap_proved::wrap_algorithms::OverflowError;
use textwrap_soak::cases::blocks::{Problem, GREATEST};
use textwrap_soak::cases::random::Random;
use textwrap_soak::checks::divisions::cheapest_division;
use textwrap_soak::checks::least_cost::{least_lines, LeastLines};
use textwrap_soak::checks::tables::{least_costs, lines_of_table};
use textwrap_soak::checks::{least_cost, searching, Finding};

/// The widths of fragments, and of the whitespace after them.
type Sizes = &'static [(usize, usize)];

/// The words of `To be, or not to be: that is the question`.
const HAMLET: Sizes =
    &[(2, 1), (3, 1), (2, 1), (3, 1), (2, 1), (3, 1), (4, 1), (2, 1), (3, 1), (8, 0)];

/// Two words whose cost passes 128 bits, where each column past the width costs the most.
const WIDEST: Sizes = &[(GREATEST, 0), (GREATEST, 0)];

/// What both checks find, each of which reckons in its own way.
fn findings(problem: &Problem, found: &LeastLines<'_>) -> [Finding; 2] {
    [least_cost::check(problem, found), searching::check(problem, found)]
}

/// Fragments, the width of lines, how many each line has, and whether that is the right division.
const DIVISIONS: &[(Sizes, usize, &[usize], bool)] = &[
    (HAMLET, 10, &[2, 3, 2, 2, 1], true),
    // This one costs 5037 too, and the next 5059.
    (HAMLET, 10, &[3, 2, 2, 2, 1], false),
    (HAMLET, 10, &[3, 3, 2, 1, 1], false),
    (HAMLET, 10, &[2, 3, 2, 2], false),
    (PAIR, 53, &[2], true),
    (PAIR, 53, &[1, 1], false),
    (PAIR, 52, &[1, 1], true),
    (PAIR, 52, &[2], false),
    (&[], 10, &[0], true),
    (&[], 10, &[], false),
];

/// Of all divisions only one is right: the cheapest, and of several that cost the same the one
/// whose last line starts earliest, then the line before it, and so on.
#[test]
fn other_divisions_are_noticed() {
    for &(sizes, width, lens, is_right) in DIVISIONS {
        let problem = problem_of(sizes, width, 2500);
        let found = Ok(lines_by(&problem.blocks, lens));
        let finding = Finding::of(is_right);
        assert_eq!(findings(&problem, &found), [finding, finding], "{lens:?} at {width}");
    }
}

/// Fragments, the width of lines, and what their lines cost at least.
const LEAST_COSTS: &[(Sizes, usize, u128)] =
    &[(HAMLET, 10, 5037), (PAIR, 53, 3500), (PAIR, 52, 4401), (&[], 10, 0)];

/// Both reckonings know what the lines cost.
#[test]
fn costs_are_known() {
    for &(sizes, width, cost) in LEAST_COSTS {
        let problem = problem_of(sizes, width, 2500);
        let division = cheapest_division(&problem, sizes.len());
        assert_eq!(division.map(|division| division.cost), Some(cost), "{width}");
        let table = least_costs(&problem).unwrap_or_default();
        assert_eq!(table.last().map(|entry| entry.cost), Some(cost), "{width}");
    }
    let table = least_costs(&problem_of(PAIR, 53, 2500)).unwrap_or_default();
    let entries: Vec<(usize, u128)> = table.iter().map(|entry| (entry.start, entry.cost)).collect();
    assert_eq!(entries, [(0, 0), (0, 3500), (0, 3500)]);
}

/// There is no division where the cost of a prefix passes 128 bits.
#[test]
fn divisions_past_128_bits_are_noticed() {
    let problem = problem_of(WIDEST, 0, usize::MAX);
    assert_eq!(findings(&problem, &Err(OverflowError)), [Finding::Kept; 2]);
    let lines = lines_by(&problem.blocks, &[1, 1]);
    assert_eq!(findings(&problem, &Ok(lines)), [Finding::Broken; 2]);
    // One of them can be divided.
    let problem = problem_of(&WIDEST[..1], 0, usize::MAX);
    assert_eq!(findings(&problem, &Err(OverflowError)), [Finding::Broken; 2]);
    assert_eq!(findings(&problem, &least_lines(&problem)), [Finding::Kept; 2]);
}

/// The two reckonings, by all divisions and by a table, agree on each prefix of random fragments:
/// on what it costs, on where its last line starts, and on whether it can be divided.
#[test]
fn both_reckonings_agree() {
    for seed in 0..500 {
        let problem = Problem::random(&mut Random::new(seed), 9);
        let ends = 0..=problem.blocks.len();
        let divisions: Option<Vec<_>> = ends.map(|end| cheapest_division(&problem, end)).collect();
        let costs = divisions
            .as_ref()
            .map(|divisions| divisions.iter().map(|division| division.cost).collect::<Vec<u128>>());
        let table = least_costs(&problem);
        let table_costs =
            table.as_ref().map(|table| table.iter().map(|entry| entry.cost).collect());
        assert_eq!(costs, table_costs, "{problem:?}");
        let lines = divisions.and_then(|mut divisions| divisions.pop()).map(|last| last.lines);
        let table_lines = table.map(|table| lines_of_table(&problem, &table));
        assert_eq!(lines, table_lines, "{problem:?}");
    }
}
