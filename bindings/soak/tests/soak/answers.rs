//! Checks of all answers on one case, of which one answer at a time is another.
use super::{
    lines_by, lines_of, problem_of, right_answers, small_case, IN_12_COLUMNS, IN_8_COLUMNS, LIBRARY,
};
use textwrap_proved::wrap_algorithms::OverflowError;
use textwrap_soak::answers::{unless_panic, Answers, Library};
use textwrap_soak::arguments::Request;
use textwrap_soak::cases::settings::{Algorithm, Settings};
use textwrap_soak::cases::Case;
use textwrap_soak::checks::displaying::Displays;
use textwrap_soak::checks::paths::{check_shortcut, Ways};
use textwrap_soak::checks::refilling::Refills;
use textwrap_soak::checks::reflowing::Reflows;
use textwrap_soak::checks::Finding;
use textwrap_soak::promises::{Promise, PROMISES, PROMISES_LEN};
use textwrap_soak::soak::{broken_promise, describe_kept, soak, Outcome};

type Texts = &'static [&'static str];

/// Another answer than that of the library, or the same one written out.
#[derive(Clone, Copy, Debug)]
enum Change {
    Nothing,
    Way(WayChange),
    Problem(ProblemChange),
    InPlace(&'static str),
    LinesInPlace(Texts),
    Refill(RefillChange),
    Reflow(ReflowChange),
    Display(DisplayChange),
    /// The program `reflow` is not asked.
    NoReflow,
    /// It fails.
    FailedReflow,
    /// No call of the library returns.
    NoAnswer,
}

/// Another way through the library.
#[derive(Clone, Copy, Debug)]
enum WayChange {
    Wrapped(Texts),
    ByParagraph(Texts),
    ByLists(Texts),
    Divided(Texts),
    Filled(&'static str),
    FilledSlowly(&'static str),
}

/// Another answer on fragments: a division into lines of so many of them, or none.
#[derive(Clone, Copy, Debug)]
enum ProblemChange {
    Few(&'static [usize]),
    NoFew,
    Many(&'static [usize]),
    NoMany,
}

/// Another text of those that are filled and refilled.
#[derive(Clone, Copy, Debug)]
enum RefillChange {
    Refilled(&'static str),
    Once(&'static str),
    First(&'static str),
    Twice(&'static str),
}

/// Another text of those that are reflowed.
#[derive(Clone, Copy, Debug)]
enum ReflowChange {
    Reflowed(&'static str),
    Again(&'static str),
    Once(&'static str),
    Twice(&'static str),
    Filled(&'static str),
}

/// Another text of those for display.
#[derive(Clone, Copy, Debug)]
enum DisplayChange {
    Carried(Texts),
    Attributed(Texts),
    Filled(&'static str),
    Justified(&'static str),
    Beside(Texts),
    Rows(Texts),
    Shortened(&'static str),
    Expanded(&'static str),
    BalancedWidth(usize),
    Balanced(Texts),
    Widths(&'static [usize]),
}

impl Change {
    fn put_into<'c>(self, case: &'c Case, answers: &mut Answers<'c>) {
        let has_all = "the library answers on the small case";
        match self {
            Change::Nothing => {}
            Change::Way(change) => change.put_into(answers.ways.as_mut().expect(has_all)),
            Change::Problem(change) => change.put_into(case, answers),
            Change::InPlace(text) => {
                answers.in_place.as_mut().expect(has_all).filled = text.into();
            }
            Change::LinesInPlace(texts) => {
                answers.in_place.as_mut().expect(has_all).lines = lines_of(texts, false);
            }
            Change::Refill(change) => change.put_into(answers.refills.as_mut().expect(has_all)),
            Change::Reflow(change) => {
                let reflows = answers.reflows.as_mut().and_then(Option::as_mut);
                change.put_into(reflows.expect(has_all));
            }
            Change::Display(change) => change.put_into(answers.displays.as_mut().expect(has_all)),
            Change::NoReflow => answers.reflows = None,
            Change::FailedReflow => answers.reflows = Some(None),
            Change::NoAnswer => *answers = no_answers(),
        }
    }
}

/// As if no call of the library returned.
fn no_answers<'c>() -> Answers<'c> {
    Answers {
        ways: None,
        few: None,
        many: None,
        in_place: None,
        refills: None,
        reflows: Some(None),
        displays: None,
    }
}

impl WayChange {
    fn put_into(self, ways: &mut Ways<'_>) {
        match self {
            WayChange::Wrapped(texts) => ways.wrapped = lines_of(texts, false),
            WayChange::ByParagraph(texts) => ways.by_paragraph = lines_of(texts, false),
            WayChange::ByLists(texts) => ways.by_lists = lines_of(texts, false),
            WayChange::Divided(texts) => ways.divided = lines_of(texts, false),
            WayChange::Filled(text) => ways.filled = text.into(),
            WayChange::FilledSlowly(text) => ways.filled_slowly = text.into(),
        }
    }
}

impl ProblemChange {
    fn put_into<'c>(self, case: &'c Case, answers: &mut Answers<'c>) {
        match self {
            ProblemChange::Few(lens) => answers.few = Some(Ok(lines_by(&case.few.blocks, lens))),
            ProblemChange::NoFew => answers.few = Some(Err(OverflowError)),
            ProblemChange::Many(lens) => answers.many = Some(Ok(lines_by(&case.many.blocks, lens))),
            ProblemChange::NoMany => answers.many = Some(Err(OverflowError)),
        }
    }
}

impl RefillChange {
    fn put_into(self, refills: &mut Refills) {
        match self {
            RefillChange::Refilled(text) => refills.refilled = text.into(),
            RefillChange::Once(text) => refills.once = text.into(),
            RefillChange::First(text) => refills.first = text.into(),
            RefillChange::Twice(text) => refills.twice = text.into(),
        }
    }
}

impl ReflowChange {
    fn put_into(self, reflows: &mut Reflows) {
        match self {
            ReflowChange::Reflowed(text) => reflows.reflowed = text.into(),
            ReflowChange::Again(text) => reflows.again = text.into(),
            ReflowChange::Once(text) => reflows.once = text.into(),
            ReflowChange::Twice(text) => reflows.twice = text.into(),
            ReflowChange::Filled(text) => reflows.filled = text.into(),
        }
    }
}

impl DisplayChange {
    fn put_into(self, displays: &mut Displays<'_>) {
        let strings = |texts: Texts| texts.iter().map(|&text| text.into()).collect();
        match self {
            DisplayChange::Carried(texts) => displays.carried = strings(texts),
            DisplayChange::Attributed(texts) => displays.attributed = strings(texts),
            DisplayChange::Filled(text) => displays.filled = text.into(),
            DisplayChange::Justified(text) => displays.justified = text.into(),
            DisplayChange::Beside(texts) => displays.beside = lines_of(texts, false),
            DisplayChange::Rows(texts) => displays.rows = strings(texts),
            DisplayChange::Shortened(text) => displays.shortened = text.into(),
            DisplayChange::Expanded(text) => displays.expanded = text.into(),
            DisplayChange::BalancedWidth(width) => displays.balanced_width = width,
            DisplayChange::Balanced(texts) => displays.balanced = lines_of(texts, false),
            DisplayChange::Widths(widths) => displays.widths = widths.into(),
        }
    }
}

/// The two texts of the small case side by side.
const ROWS_OF_TEXTS: Texts =
    &["| foo  bar | foo |", "| baz      | bar |", "| qux      | baz |", "|          | qux |"];

/// Changes of the answers on the small case, and the promises that are broken then.
const ROWS: &[(Change, &str)] = &[
    (Change::Nothing, ""),
    (Change::Way(WayChange::Wrapped(&["foo  bar", "baz", "qux"])), ""),
    (
        Change::Way(WayChange::Wrapped(&["foo  baz", "bar", "qux"])),
        "lossless fitting listed paragraphs shortcut",
    ),
    (
        Change::Way(WayChange::Wrapped(&["foo  bar baz", "qux"])),
        "fitting listed paragraphs shortcut",
    ),
    (Change::Way(WayChange::Wrapped(&["foo", "bar baz", "qux"])), "listed paragraphs shortcut"),
    (Change::Way(WayChange::ByParagraph(&["foo  bar", "baz", "qux"])), ""),
    (Change::Way(WayChange::ByParagraph(&["foo  bar", "baz", "quz"])), "paragraphs"),
    (Change::Way(WayChange::ByLists(&["foo  bar", "baz", "qux"])), ""),
    (Change::Way(WayChange::ByLists(&["foo  baz", "baz", "qux"])), "filled listed"),
    (Change::Way(WayChange::Divided(&["foo  bar", "baz", "qux"])), ""),
    (Change::Way(WayChange::Divided(&["foo  bar", "bar", "qux"])), "shortcut"),
    (Change::Way(WayChange::Filled("foo  bar\nbaz\nqux")), ""),
    (Change::Way(WayChange::Filled("foo  bar\nbaz qux")), "filled"),
    (Change::Way(WayChange::FilledSlowly("foo  bar\nbaz\nqux")), ""),
    (Change::Way(WayChange::FilledSlowly("foo  baz\nbaz\nqux")), "filled"),
    (Change::Problem(ProblemChange::Few(&[2])), ""),
    (Change::Problem(ProblemChange::Few(&[1, 1])), "least_cost"),
    (Change::Problem(ProblemChange::Few(&[1])), "least_cost"),
    (Change::Problem(ProblemChange::NoFew), "least_cost"),
    (Change::Problem(ProblemChange::Many(&[2])), ""),
    (Change::Problem(ProblemChange::Many(&[1, 1])), "searching"),
    (Change::Problem(ProblemChange::Many(&[1])), "searching"),
    (Change::Problem(ProblemChange::NoMany), "searching"),
    (Change::InPlace("foo  bar\nbaz\nqux"), ""),
    (Change::InPlace("foo \nbar baz\nqux"), "in_place"),
    (Change::InPlace("foo  bar baz\nqux"), "in_place"),
    (Change::InPlace("foo  bar\nbaz\nquz"), "in_place"),
    (Change::InPlace("foo  bar\nbaz\nqux "), "in_place"),
    (Change::InPlace("foo--bar\nbaz\nqux"), "in_place"),
    (Change::LinesInPlace(&["foo  bar", "baz", "qux"]), ""),
    (Change::LinesInPlace(&["foo  bar", "baz", "quz"]), "in_place"),
    (Change::LinesInPlace(&["foo  bar", "baz"]), "in_place"),
    (Change::LinesInPlace(&["foo  bar", "baz", "qux", ""]), "in_place"),
    (Change::Refill(RefillChange::Refilled("foo bar\nbaz qux")), ""),
    (Change::Refill(RefillChange::Refilled("foo baz\nbar qux")), "refilled"),
    (Change::Refill(RefillChange::Once("foo bar\nbaz qux")), ""),
    (Change::Refill(RefillChange::Once("foo baz\nbar qux")), "refilled twice"),
    (Change::Refill(RefillChange::First("foo\nbar\nbaz\nqux")), ""),
    (Change::Refill(RefillChange::First("foo\nbaz\nbar\nqux")), "twice"),
    (Change::Refill(RefillChange::Twice("foo bar\nbaz qux")), ""),
    (Change::Refill(RefillChange::Twice("foo baz\nbar qux")), "twice"),
    (Change::Reflow(ReflowChange::Reflowed(IN_8_COLUMNS)), ""),
    (Change::Reflow(ReflowChange::Reflowed(IN_12_COLUMNS)), "reflowed_stays"),
    (
        Change::Reflow(ReflowChange::Reflowed("- foo\n  bar\n\n> qux -1\n")),
        "reflowed_stays reflowed_words",
    ),
    (Change::Reflow(ReflowChange::Again(IN_8_COLUMNS)), ""),
    (Change::Reflow(ReflowChange::Again(IN_12_COLUMNS)), "reflowed_stays"),
    (Change::Reflow(ReflowChange::Once(IN_12_COLUMNS)), ""),
    (Change::Reflow(ReflowChange::Once(IN_8_COLUMNS)), "reflowed_once"),
    (Change::Reflow(ReflowChange::Twice(IN_12_COLUMNS)), ""),
    (Change::Reflow(ReflowChange::Twice("- foo bar\n  baz\n> qux -1\n")), "reflowed_once"),
    (Change::Reflow(ReflowChange::Filled(IN_8_COLUMNS)), ""),
    (Change::Reflow(ReflowChange::Filled(IN_12_COLUMNS)), ""),
    (Change::Reflow(ReflowChange::Filled("- foo\n  bar\n  baz > qux -1\n")), "reflowed_words"),
    (Change::Display(DisplayChange::Carried(&["foo  bar", "baz", "qux"])), ""),
    (Change::Display(DisplayChange::Carried(&["foo  bar", "quz", "qux"])), "carried"),
    (Change::Display(DisplayChange::Carried(&["foo  bar", "baz"])), "carried"),
    (Change::Display(DisplayChange::Attributed(&["foo  bar", "baz", "qux"])), ""),
    (Change::Display(DisplayChange::Attributed(&["foo  bar", "quz", "qux"])), "attributed"),
    (Change::Display(DisplayChange::Attributed(&["foo  bar", "baz"])), "attributed"),
    (Change::Display(DisplayChange::Justified("foo  bar\nbaz\nqux")), ""),
    (Change::Display(DisplayChange::Justified("foo   bar\nbaz\nqux")), "justified"),
    (Change::Display(DisplayChange::Filled("foo bar\nbaz\nqux")), ""),
    (Change::Display(DisplayChange::Filled("foo baz\nbaz\nqux")), "justified"),
    (Change::Display(DisplayChange::Rows(ROWS_OF_TEXTS)), ""),
    (Change::Display(DisplayChange::Rows(&["| foo  bar | foo |"])), "rows"),
    (Change::Display(DisplayChange::Beside(&["foo", "bar", "baz"])), "rows"),
    (Change::Display(DisplayChange::Shortened("foo ..")), ""),
    (Change::Display(DisplayChange::Shortened(" ..")), "shortened"),
    (Change::Display(DisplayChange::Expanded("foo\tbar")), "expanded"),
    (Change::Display(DisplayChange::BalancedWidth(7)), ""),
    (Change::Display(DisplayChange::BalancedWidth(8)), "balanced"),
    (Change::Display(DisplayChange::BalancedWidth(6)), "balanced"),
    (Change::Display(DisplayChange::Balanced(&["foo", "bar baz", "qux"])), ""),
    (Change::Display(DisplayChange::Balanced(&["foo  bar", "baz", "qux"])), "balanced"),
    (Change::Display(DisplayChange::Widths(&[5, 3])), ""),
    (Change::Display(DisplayChange::Widths(&[5, 4])), "fitted"),
    (Change::Display(DisplayChange::Widths(&[2, 6])), "fitted"),
    (Change::Display(DisplayChange::Widths(&[8])), "fitted"),
    (Change::NoReflow, ""),
    (Change::FailedReflow, "reflowed_stays reflowed_once reflowed_words"),
    (
        Change::NoAnswer,
        "lossless fitting least_cost searching filled listed paragraphs shortcut in_place \
         refilled twice reflowed_stays reflowed_once reflowed_words carried attributed justified \
         rows shortened expanded balanced fitted",
    ),
];

/// The names of all promises that are broken.
fn broken_names(case: &Case, answers: &Answers<'_>) -> String {
    let is_broken = |promise: Promise| promise.check(case, answers) == Finding::Broken;
    let broken = PROMISES.iter().filter(|&&(promise, _)| is_broken(promise));
    let names: Vec<&str> = broken.map(|&(_, name)| name).collect();
    names.join(" ")
}

/// Each check accepts the right answer and refuses a wrong one, and the first promise that is
/// broken is named.
#[test]
fn wrong_answers_are_noticed() {
    let case = small_case();
    for &(change, broken) in ROWS {
        let mut answers = right_answers(&case);
        change.put_into(&case, &mut answers);
        assert_eq!(broken_names(&case, &answers), broken, "{change:?}");
        let name = broken_promise(&case, &answers, &mut [0; PROMISES_LEN]);
        let first = broken.split(' ').next().filter(|name| !name.is_empty());
        assert_eq!(name, first, "{change:?}");
    }
}

/// A call that panics is no answer.
#[test]
fn a_panic_is_no_answer() {
    assert_eq!(unless_panic(|| 1), Some(1));
    assert_eq!(unless_panic(|| [1][std::hint::black_box(1)]), None);
}

/// A case of which some promises say nothing, and on which two are broken: a list is no plain text.
fn list_case() -> Case {
    Case {
        plain: "- foo\n- bar".into(),
        first_width: 5,
        settings: Settings { initial_indent: "> ", ..Settings::unbroken(20, Algorithm::FirstFit) },
        // Too wide for the search: the library takes the table.
        many: problem_of(&[(1 << 63, 0)], 0, 2500),
        ..small_case()
    }
}

/// Promises that are kept are counted, up to the first that is broken, and those that say nothing
/// of the case are not.
#[test]
fn kept_promises_are_counted() {
    let case = small_case();
    let mut counts = [0; PROMISES_LEN];
    for _ in 0..2 {
        assert_eq!(broken_promise(&case, &right_answers(&case), &mut counts), None);
    }
    assert_eq!(counts, [2; PROMISES_LEN]);
    let list = list_case();
    assert_eq!(broken_promise(&list, &right_answers(&list), &mut counts), Some("refilled"));
    assert_eq!(counts, [3, 2, 3, 3, 3, 3, 3, 2, 3, 2, 2, 2, 2, 2, 2, 2, 2, 2, 2, 2, 2, 2]);
    assert_eq!(
        describe_kept(3, &counts),
        "rounds=3 lossless=3 fitting=2 least_cost=3 searching=3 filled=3 listed=3 paragraphs=3 \
         shortcut=2 in_place=3 refilled=2 twice=2 reflowed_stays=2 reflowed_once=2 \
         reflowed_words=2 carried=2 attributed=2 justified=2 rows=2 shortened=2 expanded=2 \
         balanced=2 fitted=2"
    );
}

/// A short paragraph is divided only where that is asked for, and the settings are the case's.
#[test]
fn each_way_is_asked() {
    let small = small_case();
    let settings = Settings { width: 10, initial_indent: ">>>", ..small.settings };
    let case = Case { text: "\nfoobar ba".into(), settings, ..small };
    let ways = Ways::of_case(&case);
    let whole = [">>>", "foobar ba"];
    assert_eq!(ways.wrapped, whole);
    assert_eq!(ways.by_paragraph, whole);
    assert_eq!(ways.by_lists, whole);
    assert_eq!(ways.divided, [">>>", "foobar", "ba"]);
    assert_eq!(ways.filled, ">>>\nfoobar ba");
    assert_eq!(ways.filled_slowly, ">>>\nfoobar ba");
}

/// An indent of later lines alone does not excuse the shortcut: what it answers is judged.
#[test]
fn the_shortcut_is_judged_behind_a_subsequent_indent() {
    let small = small_case();
    let settings = Settings { width: 10, subsequent_indent: "  ", ..small.settings };
    let case = Case { text: "foobar ba".into(), settings, ..small };
    let mut ways = Ways::of_case(&case);
    assert_eq!(check_shortcut(&case, &ways), Finding::Kept);
    ways.divided = vec!["foobar".into(), "  ba".into()];
    assert_eq!(check_shortcut(&case, &ways), Finding::Broken);
}

/// In some hundred rounds each promise of the library says something, and is kept.
#[test]
fn each_promise_is_checked_in_some_round() {
    let report = match soak(&LIBRARY, Request { seed: 1, rounds: 300 }) {
        Outcome::Kept(report) => report,
        Outcome::Broken(report) => panic!("{report}"),
    };
    let unchecked: Vec<&str> = report.split(' ').filter(|count| count.ends_with("=0")).collect();
    // Nobody asked the program.
    assert_eq!(unchecked, ["reflowed_stays=0", "reflowed_once=0", "reflowed_words=0"]);
}

/// One round in 16 or so asks the program `reflow`.
#[test]
fn some_rounds_are_reflowed() {
    let reflowed = (0..1600).filter(|&seed| Case::of_seed(seed).is_reflowed).count();
    assert!((50..150).contains(&reflowed), "{reflowed}");
    assert!(LIBRARY.answers(&small_case()).reflows.is_none());
}
