//! Each call on a worked example, and each option with an answer that it alone gives.
use std::borrow::Cow;
use textwrap_proved::core::display_width;
use textwrap_proved::wrap_algorithms::Penalties;
use textwrap_proved::{
    dedent, fill, fill_inplace, indent, refill, unfill, wrap, wrap_columns, LineEnding, Options,
    WordSplitter, WrapAlgorithm,
};

const HAMLET: &str = "To be, or not to be: that is the question";

/// Optimal fit by these penalties.
fn by(penalties: Penalties) -> WrapAlgorithm {
    WrapAlgorithm::OptimalFit(penalties)
}

#[test]
fn each_option_has_its_effect() {
    let defaults = Penalties::new();
    assert_eq!(fill(HAMLET, 10), "To be,\nor not to\nbe: that\nis the\nquestion");
    let first = Options::new(10).wrap_algorithm(WrapAlgorithm::FirstFit);
    assert_eq!(fill(HAMLET, &first), "To be, or\nnot to be:\nthat is\nthe\nquestion");
    let few = by(Penalties { nline_penalty: 1_000_000, ..defaults });
    assert_eq!(fill(HAMLET, Options::new(10).wrap_algorithm(few)), HAMLET);
    let wide = by(Penalties { overflow_penalty: 0, ..defaults });
    assert_eq!(fill(HAMLET, Options::new(10).wrap_algorithm(wide)), HAMLET);
    assert_eq!(fill("foo bar baz a", 11), "foo bar\nbaz a");
    let short = by(Penalties { short_last_line_penalty: 0, ..defaults });
    let options = Options::new(11).wrap_algorithm(short);
    assert_eq!(fill("foo bar baz a", options), "foo bar baz\na");
    let shorter = by(Penalties { short_last_line_fraction: 20, ..defaults });
    let options = Options::new(11).wrap_algorithm(shorter);
    assert_eq!(fill("foo bar baz a", options), "foo bar baz\na");
    assert_eq!(fill("foo-bar", 5), "foo-\nbar");
    let whole = Options::new(5).word_splitter(WordSplitter::NoHyphenation);
    assert_eq!(fill("foo-bar", whole), "foo-b\nar");
    assert_eq!(fill("foobarbaz", Options::new(5).break_words(false)), "foobarbaz");
    assert_eq!(fill("foo bar", Options::new(5).preserve_trailing_space(true)), "foo \nbar");
    let crlf = Options::new(5).line_ending(LineEnding::CRLF);
    assert_eq!(fill("foo bar\r\nbaz", crlf), "foo\r\nbar\r\nbaz");
    let indented = Options::new(9).initial_indent("* ").subsequent_indent("    ");
    assert_eq!(fill("foo bar\nbaz qu", &indented), "* foo bar\n    baz qu");
    let even = indented.even_paragraphs(true);
    assert_eq!(fill("foo bar\nbaz qu", even), "* foo bar\n    baz\n    qu");
}

#[test]
fn lines_are_borrowed_where_they_have_no_indent() {
    let options = Options::new(5).subsequent_indent("> ");
    let lines = wrap("foo  bar", options);
    assert!(matches!(lines[..], [Cow::Borrowed("foo"), Cow::Owned(_)]));
    assert_eq!(lines[1], "> bar");
    assert_eq!(wrap("", 5), [""]);
}

#[test]
fn long_texts_need_a_second_call() {
    let text = "abcdefgh".repeat(99);
    assert_eq!(fill(&text, 1).len(), 99 * 16 - 1);
    assert_eq!(wrap(&text, 1).len(), 99 * 8);
}

#[test]
fn each_call_has_its_answer() {
    assert_eq!(display_width("Café"), 4);
    let rows = wrap_columns("Foo Bar Baz Quux", 4, 24, "|", "|", "|");
    assert_eq!(rows, ["|Foo |Bar |Baz |Quux   |"]);
    assert_eq!(refill("* foo\n  bar\n", 20), "* foo bar\n");
    let (text, options) = unfill("* foo\r\n  bar\r\n");
    assert_eq!(text, "foo bar\r\n");
    assert_eq!((options.width, options.line_ending), (5, LineEnding::CRLF));
    assert_eq!((options.initial_indent, options.subsequent_indent), ("* ", "  "));
    assert_eq!(indent("a\n\nb\n", "> "), "> a\n>\n> b\n");
    assert_eq!(dedent("  a\n    b\n"), "a\n  b\n");
    let mut text = String::from("foo  bar");
    fill_inplace(&mut text, 5);
    assert_eq!(text, "foo \nbar");
}

#[test]
#[should_panic(expected = "there has to be a column")]
fn no_columns_are_refused() {
    wrap_columns("foo", 0, 10, "", "", "");
}
