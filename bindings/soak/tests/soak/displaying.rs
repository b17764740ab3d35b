//! Checks of texts for display alone.
use super::{lines_of, small_case};
use textwrap_soak::cases::settings::Settings;
use textwrap_soak::cases::texts::Alphabet;
use textwrap_soak::cases::Case;
use textwrap_soak::checks::displaying::{
    check_attributed, check_balanced, check_carried, check_expanded, check_fitted, check_justified,
    check_rows, check_shortened, Displays,
};
use textwrap_soak::checks::Finding;

/// A case of this text in so many columns, with an indent of later lines.
fn case_of(text: &str, width: usize, indent: &'static str) -> Case {
    let small = small_case();
    Case {
        alphabet: Alphabet::Coloured,
        text: text.into(),
        settings: Settings { width, subsequent_indent: indent, ..small.settings },
        ..small
    }
}

/// A red word, a link and a bold word, over lines of 4 columns. The link is ended, and the styles
/// are not.
const STYLED: &str =
    "\x1b[31mred red\x1b[m \x1b]8;;x\x1b\\link\x1b]a\x07 \x1b[1mbold\x1b]8;;\x1b\\ end";

/// The indent of later lines, a carried line in the place of the right one, its number, and whether
/// that is right too.
const CARRIED: &[(&str, usize, &str, bool)] = &[
    ("", 0, "\x1b[31mred\x1b[0m", true),
    ("", 0, "\x1b[31mred\x1b[m", true),
    ("", 0, "\x1b[31mred", false),
    ("", 0, "red", false),
    ("", 0, "\x1b[31mred \x1b[0m", false),
    ("", 0, "\x1b[32mred\x1b[0m", false),
    ("", 1, "\x1b[31mred\x1b[m", true),
    ("", 1, "red\x1b[m", false),
    ("", 1, "\x1b[31mre\x1b[md", false),
    ("", 2, "\x1b]8;;x\x1b\\link\x1b]8;;\x1b\\", true),
    ("", 2, "\x1b]8;;x\x07link\x1b]8;;\x07", true),
    ("", 2, "\x1b]8;id=w1;x\x07link\x1b]8;;\x07", true),
    ("", 2, "\x1b]8;;x\x1b\\link", false),
    ("", 2, "\x1b]8;;y\x1b\\link\x1b]8;;\x1b\\", false),
    ("", 3, "\x1b]8;;x\x1b\\\x1b[1mbold\x1b[0m\x1b]8;;\x1b\\", true),
    ("", 3, "\x1b[1mbold\x1b[0m", false),
    ("", 4, "\x1b[1mend\x1b[0m", true),
    ("", 4, "\x1b[1mend\x1b[0m\x1b]8;;x\x1b\\", false),
    (">", 1, ">\x1b[31mred\x1b[m", true),
    (">", 1, "\x1b[31m>red\x1b[m", false),
    (">", 1, "\x1b[31mred\x1b[m", false),
];

/// Each carried line has to show its characters as the text does, and to leave nothing open.
#[test]
fn lost_styles_are_noticed() {
    for &(indent, number, carried, is_right) in CARRIED {
        let case = case_of(STYLED, 4 + indent.len(), indent);
        let mut found = Displays::of_case(&case);
        assert_eq!(check_carried(&case, &found), Finding::Kept);
        assert_eq!(found.carried.len(), 5);
        found.carried[number] = carried.into();
        assert_eq!(check_carried(&case, &found), Finding::of(is_right), "{carried:?}");
    }
    let case = Case { alphabet: Alphabet::Cut, ..case_of(STYLED, 4, "") };
    assert_eq!(check_carried(&case, &Displays::of_case(&case)), Finding::PassedOver);
}

/// And so has each line that carries attributes.
#[test]
fn lost_attributes_are_noticed() {
    for &(indent, number, carried, is_right) in CARRIED {
        let case = case_of(STYLED, 4 + indent.len(), indent);
        let mut found = Displays::of_case(&case);
        assert_eq!(check_attributed(&case, &found), Finding::Kept);
        assert_eq!(found.attributed.len(), 5);
        found.attributed[number] = carried.into();
        assert_eq!(check_attributed(&case, &found), Finding::of(is_right), "{carried:?}");
    }
}

/// A text, a width and an indent of later lines, another balanced width, and whether it is the balanced
/// one.
const BALANCED: &[(&str, usize, &str, usize, bool)] = &[
    ("aa bb c\nd e f g", 6, "", 4, true),
    ("aa bb c\nd e f g", 6, "", 3, false),
    ("aa bb c\nd e f g", 6, "", 5, false),
    ("a wonderful word", 12, "", 11, true),
    ("a wonderful word", 12, "", 12, false),
    // The widest word bounds it, after the indent.
    ("a wonderful word", 10, "", 9, true),
    ("a wonderful word", 10, "", 10, false),
    ("a wonderful word", 12, "> ", 11, true),
    ("a wonderful word", 12, "> ", 12, false),
    ("a wonderful word", 5, "", 5, true),
    ("a wonderful word", 5, "", 4, false),
];

/// No other width is balanced, and at the balanced one the lines are those of first fit.
#[test]
fn unbalanced_lines_are_noticed() {
    for &(text, width, indent, balanced, is_right) in BALANCED {
        let case = case_of(text, width, indent);
        let mut found = Displays::of_case(&case);
        assert_eq!(check_balanced(&case, &found), Finding::Kept, "{text:?}");
        found.balanced_width = balanced;
        assert_eq!(check_balanced(&case, &found), Finding::of(is_right), "{text:?} {balanced}");
        found.balanced.pop();
        assert_eq!(check_balanced(&case, &found), Finding::Broken, "{text:?} {balanced}");
    }
    let case = Case { alphabet: Alphabet::Cut, ..case_of(STYLED, 4, "") };
    assert_eq!(check_balanced(&case, &Displays::of_case(&case)), Finding::PassedOver);
}

/// A total, widths of columns in which `foo bar` and `ab` stand, and whether they may be right.
const WIDTHS: &[(usize, &[usize], bool)] = &[
    (12, &[9, 3], true),
    (12, &[10, 2], true),
    (12, &[11, 1], false),
    (12, &[8, 3], false),
    (8, &[6, 2], true),
    (8, &[5, 3], false),
    (8, &[8, 0], false),
    (4, &[2, 2], true),
    (4, &[4, 0], false),
    (4, &[4], false),
];

/// Widths have to add up, and to hold what has room.
#[test]
fn other_widths_are_noticed() {
    for &(total, widths, is_right) in WIDTHS {
        let case = Case { plain: "ab".into(), ..case_of("foo bar", total, "") };
        let mut found = Displays::of_case(&case);
        assert_eq!(check_fitted(&case, &found), Finding::Kept, "{total}");
        found.widths = widths.into();
        assert_eq!(check_fitted(&case, &found), Finding::of(is_right), "{widths:?} of {total}");
    }
}

/// What the library makes of `"aa bb c\nd e f g"` in 6 columns, justified otherwise, and whether
/// that may be right.
const JUSTIFIED: &[(&str, bool)] = &[
    ("aa  bb\n-c\n-d e f\n-g", true),
    ("aa bb\n-c\n-d e f\n-g", true),
    ("aa  bb\n-c\n-d e f", false),
    ("aa  bb\n-c\n-d e f\n-g\n", false),
    ("aa   bb\n-c\n-d e f\n-g", false),
    (" aa bb\n-c\n-d e f\n-g", false),
    ("aa bb \n-c\n-d e f\n-g", false),
    ("a a bb\n-c\n-d e f\n-g", false),
    ("aa  cc\n-c\n-d e f\n-g", false),
    ("aa  bb\n-c\n- d e f\n-g", false),
    ("aa  bb\n -c\n-d e f\n-g", false),
    ("aa  bb\n-c\n-d e f\n-    g", false),
];

/// No blank may stand elsewhere than between words, and no line may be too wide or too narrow.
#[test]
fn wrong_gaps_are_noticed() {
    let case = case_of("aa bb c\nd e f g", 6, "-");
    for &(justified, is_right) in JUSTIFIED {
        let mut found = Displays::of_case(&case);
        assert_eq!(found.justified, "aa  bb\n-c\n-d e f\n-g");
        found.justified = justified.into();
        assert_eq!(check_justified(&case, &found), Finding::of(is_right), "{justified:?}");
    }
    // Of so many narrow lines some are not the last of a paragraph.
    let case = case_of("a a aa b b bb c", 5, "");
    let mut found = Displays::of_case(&case);
    found.filled = "a a\nb b\nc".into();
    found.justified = "a a\nb b\nc".into();
    assert_eq!(check_justified(&case, &found), Finding::Broken);
}

/// The row of `"foo"` in 4 columns and `"ab"` in 3, otherwise, and whether that is right.
const ROWS: &[(&str, bool)] = &[
    ("| foo  |  ab |", true),
    ("| foo |  ab |", false),
    ("| foo   | ab |", false),
    ("| foo  | ab  |", false),
    ("|  foo |  ab |", false),
    ("| foo  |  ab", false),
    ("foo  |  ab |", false),
    ("| foo  :  ab |", false),
    ("| fo   |  ab |", false),
    ("| foo  |  abc |", false),
];

/// Each line has to stand in its cell.
#[test]
fn other_rows_are_noticed() {
    let case = Case { plain: "ab".into(), ..case_of("foo", 4, "") };
    for &(row, is_right) in ROWS {
        let found = Displays { rows: vec![row.into()], ..Displays::of_case(&case) };
        assert_eq!(check_rows(&case, &found), Finding::of(is_right), "{row:?}");
    }
    let lines = lines_of(&["foo", "foo"], false);
    let found = Displays { lines, ..Displays::of_case(&case) };
    assert_eq!(check_rows(&case, &found), Finding::Broken);
}

/// A text, a width, its line shortened, and whether that is right.
const SHORTENED: &[(&str, usize, &str, bool)] = &[
    ("foo bar\nbaz", 7, "foo bar", true),
    ("foo bar\nbaz", 7, "foo ..", false),
    ("foo bar\nbaz", 7, "foo bar\nbaz", false),
    ("foo bar", 6, "foo ..", true),
    ("foo bar", 6, "foo bar", false),
    ("foo bar", 6, "fo ..", false),
    ("foo bar", 6, "bar ..", false),
    ("foo bar", 6, "foo", false),
    ("foo bar", 6, " ..", false),
    ("foo bar", 5, " ..", true),
    ("foo bar", 5, "foo ..", false),
    ("foo bar", 5, "..", false),
    ("foo", 2, " ..", true),
    ("a b c d e", 8, "a b c ..", true),
    ("a b c d e", 8, "a b ..", false),
    ("a  b  c", 6, "a ..", true),
    ("a  b  c", 6, "a  ..", false),
    ("\x1b[1mfoo bar", 6, "\x1b[1mfoo\x1b[0m ..", true),
    ("\x1b[1mfoo bar", 6, "\x1b[1mfoo ..", false),
    ("\x1b[1mfoo bar", 6, "\x1b[1mfoo\x1b]8;;\x1b\\ ..", false),
    ("foo bar", 6, "foo\x1b[0m ..", false),
    ("\x1b]8;;u\x07foo bar", 6, "\x1b]8;;u\x07foo\x1b]8;;\x1b\\ ..", true),
    ("\x1b]8;;u\x07foo bar", 6, "\x1b]8;;u\x07foo ..", false),
];

/// A shortened line has to be as much of the line as fits.
#[test]
fn other_cuts_are_noticed() {
    for &(text, width, shortened, is_right) in SHORTENED {
        let case = case_of(text, width, "");
        let mut found = Displays::of_case(&case);
        assert_eq!(check_shortened(&case, &found), Finding::Kept, "{text:?}");
        found.shortened = shortened.into();
        let finding = Finding::of(is_right);
        assert_eq!(check_shortened(&case, &found), finding, "{text:?} {shortened:?}");
    }
}

/// What the library makes of `"a\tb\n\tc"`, whose tabs reach to each third column, and whether that is
/// right.
const EXPANDED: &[(&str, bool)] = &[
    ("a  b\n   c", true),
    ("a   b\n   c", false),
    ("a  b\n  c", false),
    ("a  b\nc", false),
    ("a\tb\n   c", false),
    ("a  b   c", false),
];

/// Blanks have to reach just to the next column that the stop divides.
#[test]
fn other_columns_are_noticed() {
    let case = Case { first_width: 3, ..case_of("a\tb\n\tc", 4, "") };
    for &(expanded, is_right) in EXPANDED {
        let mut found = Displays::of_case(&case);
        assert_eq!(check_expanded(&case, &found), Finding::Kept);
        found.expanded = expanded.into();
        assert_eq!(check_expanded(&case, &found), Finding::of(is_right), "{expanded:?}");
    }
}
