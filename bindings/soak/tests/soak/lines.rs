//! Checks of lines alone, under many settings.
use super::{lines_of, small_case};
use textwrap_proved::wrap_algorithms::Penalties;
use textwrap_soak::cases::settings::{Algorithm, Settings};
use textwrap_soak::cases::texts::Alphabet;
use textwrap_soak::cases::Case;
use textwrap_soak::checks::{fitting, lossless, Finding};

/// A text, the indent of its lines, whether blanks are preserved, lines, and whether these are the
/// text.
const FOUND_LINES: &[(&str, &str, bool, &[&str], bool)] = &[
    ("foo bar", "", false, &["foo", "bar"], true),
    ("foo bar", "", false, &["foo bar"], true),
    ("foo bar", "", false, &["foo"], false),
    ("foo bar", "", false, &["foo", "ba"], false),
    ("foo bar", "", false, &["foo", "baz"], false),
    ("foo bar", "", false, &["foo", "bar", ""], false),
    ("foo bar", "", false, &["bar", "foo"], false),
    ("foo bar", "", false, &["foobar"], false),
    ("foo bar", "", false, &["foo-", "bar"], false),
    ("foo  bar", "", true, &["foo  ", "bar"], true),
    ("foo  bar", "", true, &["foo", "bar"], false),
    ("  foo", "", false, &["", "foo"], true),
    ("a\n\nb", "", false, &["a", "", "b"], true),
    ("a\n\nb", "", false, &["a", "b"], false),
    ("", "", false, &[""], true),
    ("", "", false, &[], false),
    ("foo bar", "> ", false, &["> foo", "> bar"], true),
    ("foo bar", "> ", false, &["> foo", "bar"], false),
    ("foo bar", "> ", false, &["foo", "bar"], false),
];

/// Each line has to be found at its place: no letter, line or inner blank may be lost, changed,
/// moved or added, and no blank at all where blanks are preserved. A line has to begin with its
/// indent, and then it is a text of its own.
#[test]
fn lines_that_are_not_the_text_are_noticed() {
    for &(text, indent, preserves, texts, is_text) in FOUND_LINES {
        let settings = Settings {
            initial_indent: indent,
            subsequent_indent: indent,
            preserve_trailing_space: preserves,
            ..Settings::unbroken(3, Algorithm::FirstFit)
        };
        let case = Case { text: text.into(), settings, ..small_case() };
        for are_owned in [false, true] {
            let is_right = is_text && are_owned != indent.is_empty();
            let found = lossless::check(&case, &lines_of(texts, are_owned));
            assert_eq!(found, Finding::of(is_right), "{text:?} {texts:?}");
        }
    }
}

/// A text, a width, the initial indent, lines, and whether they fit.
const FITTING_LINES: &[(&str, usize, &str, &[&str], bool)] = &[
    ("foo bar", 7, "", &["foo bar"], true),
    ("foo bar", 6, "", &["foo bar"], false),
    ("foo bar", 7, "", &["foo baz"], false),
    ("foo bar", 9, "> ", &["> foo bar"], true),
    ("foo bar", 8, "> ", &["> foo bar"], false),
    ("foo bar  ", 7, "", &["foo bar  "], true),
    ("foo barbaz", 6, "", &["foo", "barbaz"], true),
    ("foo barbaz", 5, "", &["foo", "barbaz"], false),
    ("\x1b[31mfoo\x1b[0m", 3, "", &["\x1b[31mfoo\x1b[0m"], true),
    ("あ\u{301}", 1, "", &["あ\u{301}"], true),
    ("あい", 3, "", &["あい"], false),
    // What is said of characters holds of those outside escape sequences.
    ("\x1b[31mあ\x1b[0m", 1, "", &["\x1b[31mあ\x1b[0m"], true),
    ("\x1b[31mい\x1b!あ\x1b[0m", 1, "", &["\x1b[31mい\x1b!あ\x1b[0m"], false),
    ("\x1b]8;;x\x1b\\あ\x1b]a\x07", 1, "", &["\x1b]8;;x\x1b\\あ\x1b]a\x07"], true),
];

/// A line may have the columns that its indent leaves, without the blanks at its end and without
/// escape sequences; only a single character may have more.
#[test]
fn wide_lines_are_noticed() {
    for &(text, width, indent, texts, fit) in FITTING_LINES {
        let small = small_case();
        let settings = Settings { width, initial_indent: indent, ..small.settings };
        let case = Case { text: text.into(), settings, ..small };
        let found = fitting::check(&case, &lines_of(texts, !indent.is_empty()));
        assert_eq!(found, Finding::of(fit), "{text:?} at {width}");
    }
}

/// The first line of a later paragraph is divided for what the initial indent leaves, unless
/// paragraphs are even.
#[test]
fn first_lines_of_later_paragraphs_are_checked() {
    for (initial_indent, is_even, fit) in
        [("", false, true), ("", true, false), ("- ", false, false)]
    {
        let small = small_case();
        let settings = Settings {
            initial_indent,
            subsequent_indent: "> ",
            even_paragraphs: is_even,
            ..small.settings
        };
        let case = Case { text: "\nfoo bar".into(), settings, ..small };
        let mut lines = lines_of(&[initial_indent], !initial_indent.is_empty());
        lines.extend(lines_of(&["> foo bar"], true));
        assert_eq!(fitting::check(&case, &lines), Finding::of(fit), "{initial_indent:?} {is_even}");
    }
}

/// Where words are whole, costs are least or escape sequences are cut, nothing is said of widths.
#[test]
fn other_lines_are_passed_over() {
    let first_fit = Algorithm::FirstFit;
    let least_cost = Algorithm::LeastCost(Penalties::new());
    for (algorithm, break_words, alphabet, finding) in [
        (first_fit, true, Alphabet::Prose, Finding::Broken),
        (first_fit, true, Alphabet::Coloured, Finding::Broken),
        (first_fit, true, Alphabet::Cut, Finding::PassedOver),
        (first_fit, false, Alphabet::Prose, Finding::PassedOver),
        (least_cost, true, Alphabet::Prose, Finding::PassedOver),
    ] {
        let small = small_case();
        let settings = Settings { algorithm, break_words, ..small.settings };
        let case = Case { alphabet, settings, ..small };
        let lines = lines_of(&["foo  bar baz", "qux"], false);
        assert_eq!(fitting::check(&case, &lines), finding, "{settings:?} {alphabet:?}");
    }
}
