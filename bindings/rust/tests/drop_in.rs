//! Uses of the original's calls, as its users write them. Only the name of the crate differs.
mod drawn;

use drawn::Random;
use std::borrow::Cow;
use std::cell::{Cell, RefCell};
use std::error::Error;
use textwrap_proved as textwrap;

use textwrap::core::{break_words, display_width, Fragment, Word};
use textwrap::word_splitters::{split_words, WordSplitter};
use textwrap::wrap_algorithms::{
    wrap_first_fit, wrap_optimal_fit, OverflowError, Penalties, WrapAlgorithm,
};
use textwrap::{
    dedent, fill, fill_inplace, indent, refill, unfill, wrap, wrap_columns, LineEnding, Options,
    WordSeparator,
};

const HAMLET: &str = "To be, or not to be: that is the question";

// ---- Options

#[test]
fn options_by_width_by_value_and_by_reference() {
    assert_eq!(fill("foo bar baz", 7), "foo bar\nbaz");
    assert_eq!(fill("foo bar baz", Options::new(7)), "foo bar\nbaz");
    let options = Options::new(7).initial_indent("- ");
    assert_eq!(fill("foo bar baz", &options), "- foo\nbar baz");
    assert_eq!(wrap("foo bar baz", &options), ["- foo", "bar baz"]);
    assert_eq!(wrap("foo bar baz", options), ["- foo", "bar baz"]);
}

#[test]
fn options_from_a_width_and_from_a_reference() {
    let options = Options::from(12);
    assert_eq!(options.width, 12);
    let copy = Options::from(&options);
    assert_eq!(copy.width, 12);
    let into: Options = 7.into();
    assert_eq!(into.width, 7);
}

#[test]
fn options_in_constants_and_in_a_struct() {
    static NARROW: Options = Options::new(5);
    struct Printer<'a> {
        options: Options<'a>,
    }
    impl Printer<'_> {
        fn print(&self, text: &str) -> String {
            fill(text, &self.options)
        }
    }
    let prefix = String::from("# ");
    let printer = Printer { options: Options::new(7).initial_indent(&prefix) };
    assert_eq!(printer.print("foo bar"), "# foo\nbar");
    assert_eq!(fill("foo bar", &NARROW), "foo\nbar");
    let clone = NARROW.clone();
    assert_eq!(clone.width, 5);
}

#[test]
fn options_have_public_fields() {
    let mut options = Options::new(20);
    options.width -= 13;
    options.subsequent_indent = "> ";
    options.break_words = false;
    options.preserve_trailing_space = true;
    options.line_ending = LineEnding::CRLF;
    options.word_separator = WordSeparator::AsciiSpace;
    options.word_splitter = WordSplitter::NoHyphenation;
    options.wrap_algorithm = WrapAlgorithm::FirstFit;
    assert_eq!(fill("foo bar baz-quux", &options), "foo bar \r\n> baz-quux");
}

#[test]
fn options_have_a_builder_for_each_field() {
    let options = Options::new(80)
        .width(7)
        .line_ending(LineEnding::CRLF)
        .initial_indent("")
        .subsequent_indent("> ")
        .break_words(false)
        .wrap_algorithm(WrapAlgorithm::FirstFit)
        .word_separator(WordSeparator::AsciiSpace)
        .word_splitter(WordSplitter::NoHyphenation)
        .preserve_trailing_space(true);
    assert_eq!(fill("foo bar baz-quux", &options), "foo bar \r\n> baz-quux");
}

#[test]
fn line_endings_are_texts() {
    const ENDING: &str = LineEnding::CRLF.as_str();
    assert_eq!((ENDING, LineEnding::LF.as_str()), ("\r\n", "\n"));
    let crlf = Options::new(5).line_ending(LineEnding::CRLF);
    assert_eq!(wrap("a\nb\r\nfoo bar", crlf), ["a\nb", "foo", "bar"]);
}

#[test]
fn the_types_are_shared_between_threads_and_printed() {
    fn shared<T: Send + Sync + Clone + std::fmt::Debug>(value: T) -> String {
        format!("{value:?}")
    }
    assert!(shared(Options::new(5)).starts_with("Options { width: 5"));
    assert_eq!(shared(WordSeparator::AsciiSpace), "AsciiSpace");
    assert_eq!(shared(WordSplitter::HyphenSplitter), "HyphenSplitter");
    assert_eq!(shared(WrapAlgorithm::FirstFit), "FirstFit");
    assert_eq!(shared(LineEnding::LF), "LF");
    assert!(shared(WordSplitter::Custom(|_| vec![])).starts_with("Custom("));
}

// ---- Texts

/// The lines of a text that outlive the options they were wrapped by.
fn lines_of<'t>(text: &'t str, indent: &str) -> Vec<Cow<'t, str>> {
    let options = Options::new(9).subsequent_indent(indent);
    textwrap::wrap(text, &options)
}

#[test]
fn lines_borrow_where_they_can() {
    let text = String::from("foo bar baz");
    let lines = lines_of(&text, &String::from("> "));
    let kinds: Vec<&str> = lines
        .iter()
        .map(|line| match line {
            Cow::Borrowed(_) => "borrowed",
            Cow::Owned(_) => "owned",
        })
        .collect();
    assert_eq!((lines.as_slice(), kinds.as_slice()), (
        &[Cow::from("foo bar"), Cow::from("> baz")][..],
        &["borrowed", "owned"][..],
    ));
    assert_eq!(lines.join("\n"), "foo bar\n> baz");
    let owned: Vec<String> = lines.into_iter().map(Cow::into_owned).collect();
    assert_eq!(owned, vec!["foo bar", "> baz"]);
}

#[test]
fn calls_are_functions() {
    let call: fn(&str, usize) -> String = fill;
    assert_eq!(call("foo bar", 3), "foo\nbar");
    let filled: Vec<String> = ["foo bar", "baz"].iter().map(|text| fill(text, 3)).collect();
    assert_eq!(filled, ["foo\nbar", "baz"]);
}

#[test]
fn wrapping_keeps_to_the_original() {
    assert_eq!(wrap("foo", 10), vec!["foo"]);
    assert_eq!(wrap("", 10), vec![""]);
    assert_eq!(wrap("foo bar baz", 0), vec!["f", "o", "o", "b", "a", "r", "b", "a", "z"]);
    assert_eq!(wrap("foo", usize::MAX), vec!["foo"]);
    assert_eq!(wrap("foo     bar     baz  ", 5), vec!["foo", "bar", "baz"]);
    assert_eq!(wrap("Hello, World!", 15), vec!["Hello, World!"]);
    let whole = Options::new(3).break_words(false);
    assert_eq!(wrap("small  large   tiny", &whole), vec!["small", "large", "tiny"]);
    let indented = Options::new(10).initial_indent("!!!");
    assert_eq!(wrap("", &indented), vec!["!!!"]);
    let colours = "\u{1b}[31mfoo\u{1b}[0m bar";
    assert_eq!(wrap(colours, 4), vec!["\u{1b}[31mfoo\u{1b}[0m", "bar"]);
}

#[test]
fn filling_keeps_to_the_original() {
    assert_eq!(fill("foo\nbar", 80), "foo\nbar");
    assert_eq!(fill("test\n\na\n\n", 80), "test\n\na\n\n");
    assert_eq!(fill("1 3 5 7\n1 3 5 7", Options::new(7)), "1 3 5 7\n1 3 5 7");
    let crlf = Options::new(4).line_ending(LineEnding::CRLF);
    assert_eq!(fill("foo bar\r\nfoobar", crlf), "foo\r\nbar\r\nfoob\r\nar");
    assert_eq!(fill("foo   ", 80), "foo");
    let mut text = String::from("Hello   World!");
    fill_inplace(&mut text, 10);
    assert_eq!(text, "Hello  \nWorld!");
}

/// The built-in separators. By either a call goes another way through the crate.
const SEPARATORS: [WordSeparator; 2] =
    [WordSeparator::UnicodeBreakProperties, WordSeparator::AsciiSpace];

/// Asserts that a word with white space at its end stays whole, wherever it stands.
fn assert_is_kept(word: &str, separator: WordSeparator) {
    let options = Options::new(80).word_separator(separator).break_words(false);
    let narrow = options.clone().width(3);
    assert_eq!(wrap(word, &options), [word], "by {separator:?}");
    assert_eq!(wrap(word, &narrow), [word], "by {separator:?}");
    assert_eq!(fill(word, &narrow), word, "by {separator:?}");
    assert_eq!(refill(word, &narrow), word, "by {separator:?}");
    assert_eq!(wrap(&format!("{word}  "), &options), [word], "by {separator:?}");
    let before_another = format!("a {word}  \nb");
    assert_eq!(wrap(&before_another, &options), [&format!("a {word}"), "b"], "by {separator:?}");
}

#[test]
fn white_space_other_than_blanks_is_kept() {
    for word in ["foo\t", "foo\r", "foo\u{3000}", "foo\u{a0}", "\t", "foo\t\u{3000}"] {
        SEPARATORS.into_iter().for_each(|separator| assert_is_kept(word, separator));
    }
    for separator in SEPARATORS {
        let options = Options::new(80).word_separator(separator);
        assert_eq!(fill("a\u{3000}\r", &options), "a\u{3000}\r");
        assert_eq!(refill("foo\t\n", &options), "foo\t\n");
        assert_eq!(refill("foo\nbar\u{3000}\n", options), "foo bar\u{3000}\n");
    }
}

#[test]
fn a_carriage_return_by_itself_ends_no_paragraph() {
    for separator in SEPARATORS {
        let options = Options::new(80).word_separator(separator);
        let text = "a\rb cccc\r\ndd\r";
        assert_eq!(wrap(text, &options), ["a\rb cccc\r", "dd\r"]);
        let crlf = options.line_ending(LineEnding::CRLF);
        assert_eq!(wrap(text, &crlf), ["a\rb cccc", "dd\r"]);
        assert_eq!(fill(text, &crlf), text);
    }
}

#[test]
fn an_empty_line_is_borrowed() {
    for separator in SEPARATORS {
        for width in [0, 1, 80] {
            let text = "foo\n\nbar";
            let options = Options::new(width).word_separator(separator).break_words(false);
            let lines = wrap(text, &options);
            assert!(lines.iter().all(|line| matches!(line, Cow::Borrowed(_))), "{options:?}");
            assert_eq!(lines, ["foo", "", "bar"]);
            assert_eq!(lines[1].as_ptr(), text[4..].as_ptr(), "it stands at its own paragraph");
        }
    }
}

#[test]
fn gaps_and_indents_take_their_columns() {
    for separator in SEPARATORS {
        let options = Options::new(14).word_separator(separator);
        let rows = ["│ foo │ baz  │", "│ bar │      │"];
        assert_eq!(wrap_columns("foo bar baz", 2, &options, "│ ", " │ ", " │"), rows);
        let wide = options.clone().width(11);
        assert_eq!(wrap_columns("a b c", 3, &wide, "日", "│", "é"), ["日a │b │c é"]);
        let indented = options.width(6).initial_indent("│ ").subsequent_indent("日");
        assert_eq!(wrap("ab cd ef", &indented), ["│ ab", "日cd", "日ef"]);
        assert_eq!(wrap("a b cd ef", indented.width(7)), ["│ a b", "日cd ef"]);
    }
}

#[test]
fn texts_are_unfilled_and_refilled() {
    let (text, options) = unfill("* foo bar\r\n  baz\r\n");
    assert_eq!(text, "foo bar baz\r\n");
    assert_eq!(options.initial_indent, "* ");
    assert_eq!(options.subsequent_indent, "  ");
    assert_eq!(options.line_ending, LineEnding::CRLF);
    assert_eq!(options.width, 9);
    assert_eq!(refill("> foo\n> bar\n", 20), "> foo bar\n");
    let crlf = Options::new(5).line_ending(LineEnding::CRLF);
    assert_eq!(refill("foo bar\n", crlf), "foo\r\nbar\r\n");
    // What was found is handed on.
    let (text, options) = unfill("- foo\n  bar");
    assert_eq!(fill(&text, options.width(8)), "- foo\n  bar");
}

#[test]
fn texts_are_indented_and_dedented() {
    assert_eq!(indent("foo\n\nbar\n", "  "), "  foo\n\n  bar\n");
    assert_eq!(indent("foo\n\nbar", "// "), "// foo\n//\n// bar");
    assert_eq!(dedent("    foo\n      bar\n    baz"), "foo\n  bar\nbaz");
    assert_eq!(indent(&dedent("  a\n  b"), "> "), "> a\n> b");
}

#[test]
fn texts_are_laid_out_in_columns() {
    let rows: Vec<String> = wrap_columns("foo bar baz", 2, 14, "| ", " | ", " |");
    assert_eq!(rows, vec!["| foo | baz  |", "| bar |      |"]);
    let options = Options::new(8).wrap_algorithm(WrapAlgorithm::FirstFit);
    assert_eq!(wrap_columns("a b c d", 2, &options, "", "  ", ""), ["a b  c d"]);
}

#[test]
fn columns_of_texts() {
    assert_eq!(display_width("Café Plain"), 10);
    assert_eq!(display_width("\u{1b}[31mCafé Rouge\u{1b}[0m"), 10);
    assert_eq!(display_width("안녕하세요"), 10);
    assert_eq!(textwrap::core::display_width("😂😍"), 4);
}

// ---- Words

#[test]
fn words_have_fields_and_are_texts() {
    let word = Word::from("foo  ");
    assert_eq!((word.word, word.whitespace, word.penalty, word.width), ("foo", "  ", "", 3));
    assert_eq!(&*word, "foo");
    assert_eq!(word.len(), 3);
    assert!(word.starts_with('f'));
    let copy = word;
    assert_eq!(copy, word);
    assert_eq!(word, Word { word: "foo", whitespace: "  ", penalty: "", width: 3 });
    assert_ne!(word, Word { penalty: "-", ..word });
    let fragment: &dyn Fragment = &Word { penalty: "-", ..word };
    assert_eq!((fragment.width(), fragment.whitespace_width()), (3.0, 2.0));
    assert_eq!(fragment.penalty_width(), 1.0);
}

#[test]
fn words_are_broken() {
    let parts = |text, width| Word::from(text).break_apart(width).collect::<Vec<_>>();
    assert_eq!(parts("Hello!  ", 3), vec![Word::from("Hel"), Word::from("lo!  ")]);
    assert_eq!(parts("ab\u{1b}[0mcd", 2), vec![Word::from("ab\u{1b}[0m"), Word::from("cd")]);
    assert_eq!(parts("   ", 0), vec![]);
    let blanks = Word { word: "a  ", whitespace: "", penalty: "-", width: 3 };
    assert_eq!(blanks.break_apart(2).collect::<Vec<_>>(), vec![
        Word { word: "a ", whitespace: "", penalty: "", width: 2 },
        Word { word: " ", whitespace: "", penalty: "-", width: 1 },
    ]);
    let words = vec![Word::from("ab "), Word::from("cdef ")];
    let expected = vec![Word::from("ab "), Word::from("cd"), Word::from("ef ")];
    assert_eq!(break_words(words, 2), expected);
}

#[test]
fn words_are_found() {
    let words = WordSeparator::AsciiSpace.find_words("  foo\tbar  baz").collect::<Vec<_>>();
    assert_eq!(words, vec![Word::from("  "), Word::from("foo\tbar  "), Word::from("baz")]);
    assert_eq!(WordSeparator::new().find_words("").count(), 0);
    fn longest<'a>(line: &'a str, separator: &WordSeparator) -> Option<Word<'a>> {
        separator.find_words(line).max_by_key(|word| word.width)
    }
    assert_eq!(longest("a foo ab", &WordSeparator::AsciiSpace), Some(Word::from("foo ")));
}

#[test]
fn words_are_split() {
    let splitter = WordSplitter::HyphenSplitter;
    assert_eq!(splitter.split_points("can-be-split"), vec![4, 7]);
    assert_eq!(WordSplitter::NoHyphenation.split_points("can-be-split"), vec![]);
    let pieces = split_words(vec![Word::from("foo-bar ")], &splitter).collect::<Vec<_>>();
    assert_eq!(pieces, vec![Word::from("foo-"), Word::from("bar ")]);
    let blank = split_words(vec![Word::from("   ")], &splitter).collect::<Vec<_>>();
    assert_eq!(blank, vec![Word::from("   ")]);
    let words = WordSeparator::AsciiSpace.find_words("a-b c-d");
    let texts: Vec<&str> = split_words(words, &splitter).map(|piece| piece.word).collect();
    assert_eq!(texts, ["a-", "b", "c-", "d"]);
    // It asks for no more words than it gives.
    let endless = std::iter::repeat(Word::from("a-b "));
    assert_eq!(split_words(endless, &splitter).nth(99), Some(Word::from("b ")));
}

#[test]
fn splitting_adds_hyphens() {
    let after_3 = |_: &str| vec![3];
    let splitter = WordSplitter::Custom(after_3);
    let pieces = |text| split_words(vec![Word::from(text)], &splitter).collect::<Vec<_>>();
    let foo = Word { word: "foo", whitespace: "", penalty: "-", width: 3 };
    assert_eq!(pieces("foobar "), vec![foo, Word::from("bar ")]);
    assert_eq!(pieces("fo-bar"), vec![Word::from("fo-"), Word::from("bar")]);
    // The end of a word is no point.
    assert_eq!(pieces("foo "), vec![Word::from("foo ")]);
}

#[test]
fn parts_are_compared() {
    assert_eq!(WordSplitter::NoHyphenation, WordSplitter::NoHyphenation);
    assert_ne!(WordSplitter::NoHyphenation, WordSplitter::HyphenSplitter);
    assert_eq!(WrapAlgorithm::default(), WrapAlgorithm::OptimalFit(Penalties::default()));
    assert!(matches!(WrapAlgorithm::new(), WrapAlgorithm::OptimalFit(_)));
    let is_at_breaks = WordSeparator::new() == WordSeparator::UnicodeBreakProperties;
    assert_eq!(is_at_breaks, cfg!(feature = "unicode-linebreak"));
    let custom = WrapAlgorithm::Custom(in_pairs);
    assert_ne!(custom, custom);
    assert_ne!(WordSeparator::Custom(after_commas), WordSeparator::Custom(after_commas));
    assert_ne!(WordSplitter::Custom(at_underscores), WordSplitter::Custom(at_underscores));
}

// ---- Fragments and algorithms

/// An item with a width, what stands after it, and what it has more at the end of a line.
#[derive(Debug, PartialEq)]
struct Plain(f64, f64, f64);

impl Fragment for Plain {
    fn width(&self) -> f64 {
        self.0
    }

    fn whitespace_width(&self) -> f64 {
        self.1
    }

    fn penalty_width(&self) -> f64 {
        self.2
    }
}

/// How many of the fragments stand on each line.
fn counts<T>(lines: &[&[T]]) -> Vec<usize> {
    lines.iter().map(|line| line.len()).collect()
}

#[test]
fn each_width_is_that_of_its_line() {
    let items: Vec<Plain> = (0..12).map(|_| Plain(3.0, 0.0, 0.0)).collect();
    let words: Vec<Word> = (0..12).map(|_| Word::from("foo")).collect();
    let optimal = WrapAlgorithm::new();
    for (widths, expected) in [
        (vec![3, 3, 30], vec![1, 1, 10]),
        (vec![3, 6, 3, 6, 9], vec![1, 2, 1, 2, 3, 3]),
        (vec![6], vec![2; 6]),
        (vec![], vec![1; 12]),
    ] {
        let whole: Vec<f64> = widths.iter().map(|&width| width as f64).collect();
        assert_eq!(counts(&wrap_first_fit(&items, &whole)), expected);
        assert_eq!(counts(&WrapAlgorithm::FirstFit.wrap(&words, &widths)), expected);
        let lines = wrap_optimal_fit(&items, &whole, &Penalties::new());
        assert_eq!(lines.map(|lines| counts(&lines)), Ok(expected.clone()));
        assert_eq!(counts(&optimal.wrap(&words, &widths)), expected);
    }
}

#[test]
fn what_stands_after_a_fragment_counts() {
    let divided = |whitespace: f64, penalty: f64| {
        let items = [(); 4].map(|()| Plain(2.0, whitespace, penalty));
        let first_fit = counts(&wrap_first_fit(&items, &[6.0]));
        let optimal = counts(&wrap_optimal_fit(&items, &[6.0], &Penalties::new()).unwrap());
        (first_fit, optimal)
    };
    assert_eq!(divided(0.0, 0.0), (vec![3, 1], vec![3, 1]));
    assert_eq!(divided(1.0, 0.0), (vec![2, 2], vec![2, 2]));
    assert_eq!(divided(3.0, 0.0), (vec![1; 4], vec![1; 4]));
    assert_eq!(divided(0.0, 1.0), (vec![2, 2], vec![2, 2]));
    assert_eq!(divided(0.0, 3.0), (vec![1; 4], vec![1; 4]));
}

#[test]
fn the_penalty_of_a_word_takes_its_columns() {
    let words = ["foo", "bar", "baz"].map(|word| Word { penalty: "---", ..Word::from(word) });
    for algorithm in [WrapAlgorithm::FirstFit, WrapAlgorithm::new()] {
        assert_eq!(counts(&algorithm.wrap(&words, &[8])), [1, 1, 1]);
        assert_eq!(counts(&algorithm.wrap(&words, &[9])), [2, 1]);
    }
    assert_eq!(counts(&wrap_first_fit(&words, &[8.0])), [1, 1, 1]);
}

#[test]
fn penalties_of_0() {
    let divided = |items: &[Plain], penalties: &Penalties| {
        let lines = wrap_optimal_fit(items, &[4.0], penalties);
        lines.map(|lines| counts(&lines))
    };
    // On two lines they leave a gap of 1, and on one they pass the width by 4.
    let gap = [Plain(3.0, 1.0, 0.0), Plain(4.0, 1.0, 0.0)];
    let free = Penalties { nline_penalty: 0, overflow_penalty: 0, ..Penalties::new() };
    assert_eq!(divided(&gap, &free), Ok(vec![2]));
    assert_eq!(divided(&gap, &Penalties { overflow_penalty: 1, ..free }), Ok(vec![1, 1]));
    // A last fragment as wide as its line is short by a fraction of 0, and not by one of 1.
    let steep = Penalties { short_last_line_penalty: 1_000_000, ..Penalties::new() };
    let short = |short_last_line_fraction| {
        divided(&gap, &Penalties { short_last_line_fraction, ..steep })
    };
    assert_eq!((short(0), short(1), short(2)), (Ok(vec![2]), Ok(vec![1, 1]), Ok(vec![1, 1])));
}

/// An item with a width, one unit after it, and a counter of what it is asked.
#[derive(Debug, PartialEq)]
struct Item<'c>(f64, &'c Cell<usize>);

impl Fragment for Item<'_> {
    fn width(&self) -> f64 {
        self.1.set(self.1.get() + 1);
        self.0
    }

    fn whitespace_width(&self) -> f64 {
        1.0
    }

    fn penalty_width(&self) -> f64 {
        0.0
    }
}

#[test]
fn fragments_are_divided_by_first_fit() {
    let asked = Cell::new(0);
    let items = [Item(4.0, &asked), Item(4.0, &asked), Item(4.0, &asked)];
    let lines: Vec<&[Item]> = wrap_first_fit(&items, &[4.0, 9.0]);
    assert_eq!(lines, vec![&items[..1], &items[1..]]);
    assert_eq!(asked.get(), 3, "each is asked once");
    assert_eq!(wrap_first_fit(&items, &[]).len(), 3);
    assert_eq!(wrap_first_fit::<Item>(&[], &[9.0]), vec![&[] as &[Item]]);
}

#[test]
fn fragments_are_divided_by_least_cost() -> Result<(), Box<dyn Error>> {
    let asked = Cell::new(0);
    let items = [Item(4.0, &asked), Item(4.0, &asked), Item(4.0, &asked)];
    let lines = wrap_optimal_fit(&items, &[9.0], &Penalties::new())?;
    assert_eq!(lines, vec![&items[..2], &items[2..]]);
    assert_eq!(asked.get(), 3, "each is asked once");
    let none = wrap_optimal_fit::<Item>(&[], &[9.0], &Penalties::new())?;
    assert_eq!(none, vec![&[] as &[Item]]);
    Ok(())
}

#[test]
fn numbers_that_cannot_be_counted_are_an_error() {
    let asked = Cell::new(0);
    let divided = |width: f64, line: f64| {
        let items = [Item(width, &asked)];
        wrap_optimal_fit(&items, &[line], &Penalties::new()).map(|lines| lines.len())
    };
    for width in [f64::INFINITY, f64::NAN, -1.0, 0.5, 1e155, 18_446_744_073_709_551_616.0] {
        assert_eq!(divided(width, 9.0), Err(OverflowError));
        assert_eq!(divided(9.0, width), Err(OverflowError));
    }
    // The greatest below 2^64.
    let greatest = 18_446_744_073_709_549_568.0;
    assert_eq!(divided(greatest, 9.0), Ok(1));
    assert_eq!(divided(-0.0, 9.0), Ok(1));
    let steep = Penalties { overflow_penalty: usize::MAX, ..Penalties::new() };
    let two = [Item(greatest, &asked), Item(greatest, &asked)];
    assert_eq!(wrap_optimal_fit(&two, &[0.0], &steep), Err(OverflowError));
    let error: Box<dyn Error> = Box::new(OverflowError);
    assert!(error.to_string().contains("128 bits"));
}

#[test]
#[should_panic(expected = "whole numbers from 0 to usize::MAX, not 0.5")]
fn first_fit_takes_no_fractions() {
    wrap_first_fit(&[Item(0.5, &Cell::new(0))], &[9.0]);
}

#[test]
#[should_panic(expected = "whole numbers from 0 to usize::MAX, not inf")]
fn first_fit_takes_no_infinite_lines() {
    wrap_first_fit(&[Word::from("foo")], &[f64::INFINITY]);
}

#[test]
fn penalties_of_the_callers_own() {
    let mut penalties = Penalties::new();
    penalties.nline_penalty = 1_000_000;
    let options = Options::new(10).wrap_algorithm(WrapAlgorithm::OptimalFit(penalties));
    assert_eq!(fill(HAMLET, &options), HAMLET);
    // A hyphen that is added costs more, so the word stays whole.
    let pieces = [Word { penalty: "-", ..Word::from("foo") }, Word::from("bar "), Word::from("x")];
    let lines = |hyphen_penalty| {
        let penalties = Penalties { hyphen_penalty, ..Penalties::new() };
        let lines = wrap_optimal_fit(&pieces, &[5.0], &penalties).unwrap();
        lines.iter().map(|line| line.len()).collect::<Vec<_>>()
    };
    assert_eq!((lines(0), lines(10_000)), (vec![1, 2], vec![2, 1]));
}

#[test]
fn algorithms_divide_words() {
    let words = WordSeparator::AsciiSpace.find_words(HAMLET).collect::<Vec<_>>();
    let counts = |algorithm: WrapAlgorithm| -> Vec<usize> {
        algorithm.wrap(&words, &[10]).iter().map(|line| line.len()).collect()
    };
    assert_eq!(counts(WrapAlgorithm::FirstFit), [3, 3, 2, 1, 1]);
    assert_eq!(counts(WrapAlgorithm::new_optimal_fit()), [2, 3, 2, 2, 1]);
    assert_eq!(counts(WrapAlgorithm::Custom(in_pairs)), [2, 2, 2, 2, 2]);
    assert_eq!(WrapAlgorithm::FirstFit.wrap(&[], &[10]), [[]]);
}

// ---- Functions of the caller

fn after_commas(line: &str) -> Box<dyn Iterator<Item = Word<'_>> + '_> {
    Box::new(line.split_inclusive(',').map(Word::from))
}

fn at_underscores(word: &str) -> Vec<usize> {
    word.match_indices('_').map(|(i, _)| i + 1).collect()
}

fn in_pairs<'a, 'b>(words: &'b [Word<'a>], _: &'b [usize]) -> Vec<&'b [Word<'a>]> {
    words.chunks(2).collect()
}

#[test]
fn a_separator_of_the_callers_own() {
    let options = Options::new(6).word_separator(WordSeparator::Custom(after_commas));
    assert_eq!(wrap("a,b c,d,e", &options), ["a,b c,", "d,e"]);
    assert_eq!(fill("a,b c,d,e\n\nf", &options), "a,b c,\nd,e\n\nf");
    assert_eq!(wrap("foo-bar,baz", &options), ["foo-", "bar,", "baz"]);
    assert_eq!(options.word_separator.find_words("a,b").count(), 2);
    let indented = options.initial_indent("* ").subsequent_indent("  ");
    assert_eq!(fill("a,b c,d,e", &indented), "* a,\n  b c,\n  d,e");
}

#[test]
fn a_splitter_of_the_callers_own() {
    let options = Options::new(8).word_splitter(WordSplitter::Custom(at_underscores));
    assert_eq!(options.word_splitter.split_points("a_long_identifier"), [2, 7]);
    let lines = wrap("an a_long_identifier_", &options);
    assert_eq!(lines, ["an a_-", "long_-", "identifi", "er_"]);
    let kinds = [false, false, true, true];
    assert!(lines.iter().zip(kinds).all(|(line, kind)| matches!(line, Cow::Borrowed(_)) == kind));
    let in_the_middle = WordSplitter::Custom(|word| vec![word.len() / 2]);
    let by_closure = Options::new(5).word_splitter(in_the_middle);
    assert_eq!(fill("foobar x", &by_closure), "foo-\nbar x");
}

#[test]
fn hyphens_that_are_added_cost_what_the_penalties_say() {
    let filled = |hyphen_penalty| {
        let penalties = Penalties { hyphen_penalty, ..Penalties::new() };
        let options = Options::new(7)
            .word_splitter(WordSplitter::Custom(|word| vec![word.len() / 2]))
            .wrap_algorithm(WrapAlgorithm::OptimalFit(penalties));
        fill("ab foobar", options)
    };
    assert_eq!((filled(24).as_str(), filled(26).as_str()), ("ab foo-\nbar", "ab\nfoobar"));
}

#[test]
fn an_algorithm_of_the_callers_own() {
    fn stairs<'a, 'b>(words: &'b [Word<'a>], _: &'b [usize]) -> Vec<&'b [Word<'a>]> {
        let (mut lines, mut rest) = (Vec::new(), words);
        for step in 1.. {
            if step > rest.len() {
                break;
            }
            let (line, later) = rest.split_at(step);
            lines.push(line);
            rest = later;
        }
        lines
    }
    let options = Options::new(10).wrap_algorithm(WrapAlgorithm::Custom(stairs));
    assert_eq!(
        wrap("First, second, third, fourth, fifth, sixth", &options),
        ["First,", "second, third,", "fourth, fifth, sixth"]
    );
    // What is in no line is lost.
    assert_eq!(wrap("First, second, third, fourth", &options), ["First,", "second, third,"]);
    let by_closure = options.wrap_algorithm(WrapAlgorithm::Custom(|words, _| vec![&[], words]));
    assert_eq!(wrap("one two three", by_closure.initial_indent("* ")), ["", "one two three"]);
}

#[test]
fn an_algorithm_gets_pieces_and_widths() {
    fn checked<'a, 'b>(words: &'b [Word<'a>], widths: &'b [usize]) -> Vec<&'b [Word<'a>]> {
        assert_eq!(widths, [6, 7]);
        let hyphened = Word { penalty: "-", ..Word::from("foo_") };
        assert_eq!(words, [
            Word::from(""), hyphened, Word::from("bar "), Word::from("unbreak"), Word::from("able"),
        ]);
        WrapAlgorithm::FirstFit.wrap(words, widths)
    }
    let options = Options::new(8)
        .initial_indent("* ")
        .subsequent_indent(" ")
        .word_splitter(WordSplitter::Custom(at_underscores))
        .wrap_algorithm(WrapAlgorithm::Custom(checked));
    assert_eq!(wrap("foo_bar unbreakable", &options), ["* foo_-", " bar", " unbreak", " able"]);
}

#[test]
fn an_algorithm_gets_all_widths_and_words() {
    fn checked<'a, 'b>(words: &'b [Word<'a>], widths: &'b [usize]) -> Vec<&'b [Word<'a>]> {
        assert_eq!(widths, [4, 3, 2, 1]);
        let hyphened = Word { penalty: "--", ..Word::from("c") };
        assert_eq!(words, [Word::from("a "), Word::from("b  "), hyphened]);
        vec![&words[..1], &[], &words[1..]]
    }
    let hyphened = Word { penalty: "--", ..Word::from("c") };
    let words = [Word::from("a "), Word::from("b  "), hyphened];
    let lines = WrapAlgorithm::Custom(checked).wrap(&words, &[4, 3, 2, 1]);
    assert_eq!(lines, [&words[..1], &[], &words[1..]]);
}

#[test]
fn an_algorithm_is_asked_unless_the_text_is_shorter_than_the_width() {
    let none_first = WrapAlgorithm::Custom(|words, _| vec![&[], words]);
    for separator in SEPARATORS {
        let options = Options::new(3).word_separator(separator).wrap_algorithm(none_first);
        assert_eq!(wrap("fo", &options), ["fo"]);
        assert_eq!(wrap("foo", &options), ["", "foo"]);
        assert_eq!(wrap("é", &options), ["é"]);
        assert_eq!(wrap("éa", &options), ["", "éa"]);
        assert_eq!(fill("fo\nfoo", &options), "fo\n\nfoo");
        assert_eq!(wrap("fo", options.initial_indent(" ")), ["", "fo"]);
    }
}

#[test]
fn no_function_is_asked_for_a_text_that_is_shorter_than_the_width() {
    for options in [
        Options::new(4).word_separator(WordSeparator::Custom(|_| panic!("it is asked"))),
        Options::new(4).word_splitter(WordSplitter::Custom(|_| panic!("it is asked"))),
        Options::new(4).wrap_algorithm(WrapAlgorithm::Custom(|_, _| panic!("it is asked"))),
    ] {
        assert_eq!(wrap("foo", &options), ["foo"]);
        assert_eq!(fill("foo\n\nab ", options), "foo\n\nab");
    }
}

thread_local! {
    /// The words that a splitter was handed.
    static NOTED: RefCell<Vec<String>> = const { RefCell::new(Vec::new()) };
}

fn noting(word: &str) -> Vec<usize> {
    NOTED.with_borrow_mut(|noted| noted.push(word.into()));
    vec![]
}

#[test]
fn a_splitter_gets_words_without_the_blanks_after_them() {
    fn at_breaks(line: &str) -> Box<dyn Iterator<Item = Word<'_>> + '_> {
        WordSeparator::UnicodeBreakProperties.find_words(line)
    }
    let [breaks, blanks] = SEPARATORS;
    for (separator, text, words) in [
        (blanks, "foo  bar\t baz\u{3000}  ", &["foo", "bar\t", "baz\u{3000}"][..]),
        (blanks, "  foo-bar\rbaz", &["", "foo-bar\rbaz"]),
        (breaks, "foo  bar\t baz\u{3000}  ", &["foo", "bar\t", "baz\u{3000}"]),
        (breaks, "foo-bar 日本", &["foo-bar", "日", "本"]),
        (WordSeparator::Custom(at_breaks), "foo\t bar ", &["foo\t", "bar"]),
        (WordSeparator::Custom(after_commas), "a, b ,c", &["a,", " b ,", "c"]),
    ] {
        let splitter = WordSplitter::Custom(noting);
        fill(text, Options::new(3).word_separator(separator).word_splitter(splitter));
        assert_eq!(NOTED.take(), words, "{text:?} by {separator:?}");
        // A paragraph without a byte has no words, even if its line is more than that.
        let indented = Options::new(3).word_separator(separator).initial_indent("*");
        assert_eq!(fill("", indented.word_splitter(WordSplitter::Custom(noting))), "*");
        assert_eq!(NOTED.take(), [""; 0]);
    }
}

#[test]
fn a_word_without_a_byte_is_left_out() {
    fn with_empty_words(line: &str) -> Box<dyn Iterator<Item = Word<'_>> + '_> {
        let parts = ["", &line[..4], "", "", &line[4..], ""];
        Box::new(parts.into_iter().map(Word::from))
    }
    let options = Options::new(5).word_separator(WordSeparator::Custom(with_empty_words));
    assert_eq!(wrap("foo barbaz", &options), ["foo", "barba", "z"]);
    let split = options.word_splitter(WordSplitter::Custom(noting));
    assert_eq!(fill("foo bar", split), "foo\nbar");
    assert_eq!(NOTED.take(), ["foo", "bar"]);
}

#[test]
fn paragraphs_with_functions_of_the_caller() {
    let options = Options::new(6)
        .subsequent_indent("> ")
        .line_ending(LineEnding::CRLF)
        .preserve_trailing_space(true)
        .word_separator(WordSeparator::Custom(after_commas));
    // The first paragraph is kept whole, and the second has no words.
    assert_eq!(fill("a\n \r\n\r\nb, c, d ", &options), "a\n \r\n\r\n> b, c,\r\n>  d ");
    let none = Options::new(3).wrap_algorithm(WrapAlgorithm::Custom(|_, _| vec![]));
    // There is no line yet when the second paragraph begins.
    assert_eq!(wrap("foo bar\nx", none.initial_indent("")), ["x"]);
    // So its first line has the initial indent, behind which an empty word stands before its text.
    let few_alone = WrapAlgorithm::Custom(|words, _| match words.len() {
        ..=2 => words.chunks(1).collect(),
        _ => vec![],
    });
    let options = Options::new(8).initial_indent(">>>>").wrap_algorithm(few_alone);
    assert_eq!(wrap("none of it here\nfoo", &options), [">>>>", "foo"]);
    assert_eq!(fill("none of it here\nfoo", options), ">>>>\nfoo");
}

#[test]
fn even_paragraphs_with_functions_of_the_caller() {
    let first_fit = WrapAlgorithm::FirstFit;
    let built_in = Options::new(7).subsequent_indent("    ").wrap_algorithm(first_fit);
    let own = built_in.clone().wrap_algorithm(WrapAlgorithm::Custom(|words, widths| {
        WrapAlgorithm::FirstFit.wrap(words, widths)
    }));
    for options in [built_in, own] {
        assert_eq!(wrap("aaa\nbbb ccc", &options), ["aaa", "    bbb ccc"]);
        let even = options.even_paragraphs(true);
        assert_eq!(wrap("aaa\nbbb ccc", even), ["aaa", "    bbb", "    ccc"]);
    }
}

#[test]
fn lines_end_where_unicode_lets_them() {
    let options = Options::new(8)
        .word_separator(WordSeparator::UnicodeBreakProperties)
        .wrap_algorithm(WrapAlgorithm::FirstFit);
    assert_eq!(wrap("これは「ペン」です。", &options), ["これは", "「ペン」", "です。"]);
    assert_eq!(fill("foo\u{a0}bar b\u{200b}c d", &options), "foo\u{a0}bar\nb\u{200b}c d");
    let blanks = options.word_separator(WordSeparator::AsciiSpace).break_words(false);
    assert_eq!(wrap("これは「ペン」です。", blanks), ["これは「ペン」です。"]);
    let words = WordSeparator::UnicodeBreakProperties.find_words("foo-bar 日本").collect::<Vec<_>>();
    assert_eq!(words, [Word::from("foo-bar "), Word::from("日"), Word::from("本")]);
    assert_eq!(WordSeparator::UnicodeBreakProperties.find_words("").count(), 0);
}

/// Whether lines are the same, borrowed or not, and from where.
fn are_alike(lines: &[Cow<str>], others: &[Cow<str>]) -> bool {
    lines.len() == others.len()
        && lines.iter().zip(others).all(|pair| match pair {
            (Cow::Borrowed(a), Cow::Borrowed(b)) => a == b && a.as_ptr() == b.as_ptr(),
            (Cow::Owned(a), Cow::Owned(b)) => a == b,
            _ => false,
        })
}

#[test]
fn a_separator_of_the_callers_own_may_be_a_built_in_one() {
    let random = &mut Random::new(1);
    for _ in 0..4_000 {
        let (text, plain) = (drawn::text(random), drawn::options(random));
        let [left, middle, right] = [(); 3].map(|()| drawn::around(random));
        let columns = random.below(4) + 1;
        for separator in SEPARATORS {
            let options = plain.clone().word_separator(separator);
            let own = options.clone().word_separator(drawn::own(separator));
            let lines = wrap(&text, &own);
            assert!(are_alike(&lines, &wrap(&text, &options)), "{text:?} by {options:?}");
            assert_eq!(fill(&text, &own), fill(&text, &options), "{text:?} by {options:?}");
            assert_eq!(refill(&text, &own), refill(&text, &options), "{text:?} by {options:?}");
            assert_eq!(
                wrap_columns(&text, columns, &own, left, middle, right),
                wrap_columns(&text, columns, &options, left, middle, right),
                "{text:?} by {options:?} between {left:?}, {middle:?} and {right:?}"
            );
        }
    }
}

/// Functions that do what the built-in parts do.
fn as_built_in<'a>(options: &'a Options<'a>) -> Options<'a> {
    Options::from(options)
        .word_separator(drawn::own(options.word_separator))
        .word_splitter(WordSplitter::Custom(|word| WordSplitter::HyphenSplitter.split_points(word)))
        .wrap_algorithm(WrapAlgorithm::Custom(|words, widths| {
            WrapAlgorithm::new().wrap(words, widths)
        }))
}

#[test]
fn functions_may_do_what_the_built_in_parts_do() {
    let text = "Words,  a hyphen-ated one, 안녕하세요 and\n\n  supercalifragilistic \
                \u{1b}[1mends\u{1b}[0m  ";
    for width in 0..60 {
        let plain = Options::new(width);
        let crlf = plain.clone().line_ending(LineEnding::CRLF).preserve_trailing_space(true);
        let indented = plain.clone().initial_indent("* ").subsequent_indent("    ");
        let unbroken = indented.clone().break_words(false);
        let blanks = unbroken.clone().word_separator(WordSeparator::AsciiSpace);
        for options in [plain, crlf, indented, unbroken, blanks] {
            let own = as_built_in(&options);
            assert_eq!(wrap(text, &own), wrap(text, &options));
            assert_eq!(fill(text, &own), fill(text, &options));
            assert_eq!(refill(text, &own), refill(text, &options));
            assert_eq!(
                wrap_columns(text, 3, &own, "| ", " ", ""),
                wrap_columns(text, 3, &options, "| ", " ", "")
            );
        }
    }
}

#[test]
fn refilling_and_columns_with_functions_of_the_caller() {
    let options = Options::new(7).word_splitter(WordSplitter::Custom(|word| vec![word.len() / 2]));
    assert_eq!(refill("> foobar\n> x y\n", &options), "> foo-\n> bar\n> x y\n");
    assert_eq!(refill("", &options), "");
    let options = options.line_ending(LineEnding::CRLF);
    assert_eq!(refill("foobar foobar\n", &options), "foobar\r\nfoobar\r\n");
    let rows = wrap_columns("foobar x", 2, options.clone().width(13), "[", "|", "]");
    assert_eq!(rows, ["[foo- |bar x]"]);
    assert_eq!(wrap_columns("", 2, options.width(5), "[", "|", "]"), ["[ | ]"]);
}

#[test]
#[should_panic(expected = "words of a WordSeparator::Custom have to tile the line")]
fn a_separator_must_not_skip() {
    fn skipping(line: &str) -> Box<dyn Iterator<Item = Word<'_>> + '_> {
        Box::new(line.split(',').map(Word::from))
    }
    wrap("foo,bar", Options::new(5).word_separator(WordSeparator::Custom(skipping)));
}

#[test]
#[should_panic(expected = "have to tile the line; the rest \"bar\" of \"foo,bar\" is in no word")]
fn a_separator_must_not_stop() {
    fn stopping(line: &str) -> Box<dyn Iterator<Item = Word<'_>> + '_> {
        Box::new(std::iter::once(Word::from(&line[..4])))
    }
    wrap("foo,bar", Options::new(5).word_separator(WordSeparator::Custom(stopping)));
}

#[test]
#[should_panic(expected = "as Word::from makes them")]
fn a_separator_must_not_give_penalties() {
    fn hyphened(line: &str) -> Box<dyn Iterator<Item = Word<'_>> + '_> {
        Box::new(std::iter::once(Word { penalty: "-", ..Word::from(line) }))
    }
    wrap("foobar", Options::new(5).word_separator(WordSeparator::Custom(hyphened)));
}

#[test]
#[should_panic(expected = "as Word::from makes them")]
fn a_separator_must_not_leave_a_blank_in_a_word() {
    fn blank_inside(line: &str) -> Box<dyn Iterator<Item = Word<'_>> + '_> {
        Box::new(std::iter::once(Word { word: line, whitespace: "", penalty: "", width: 7 }))
    }
    wrap("foobar ", Options::new(5).word_separator(WordSeparator::Custom(blank_inside)));
}

#[test]
#[should_panic(expected = "as Word::from makes them")]
fn a_separator_must_not_take_a_tab_for_a_blank() {
    fn tab_behind(line: &str) -> Box<dyn Iterator<Item = Word<'_>> + '_> {
        let (word, whitespace) = line.split_at(6);
        Box::new(std::iter::once(Word { word, whitespace, penalty: "", width: 6 }))
    }
    wrap("foobar\t", Options::new(5).word_separator(WordSeparator::Custom(tab_behind)));
}

#[test]
#[should_panic(expected = "points of a WordSplitter::Custom must not decrease")]
fn a_splitter_must_not_go_back() {
    wrap("foobar", Options::new(5).word_splitter(WordSplitter::Custom(|_| vec![3, 2])));
}

#[test]
#[should_panic(expected = "character boundaries of the word; 1 of \"é\"")]
fn a_splitter_must_not_cut_characters() {
    let splitter = WordSplitter::Custom(|_| vec![1]);
    split_words(vec![Word::from("é")], &splitter).for_each(drop);
}

#[test]
#[should_panic(expected = "lines of a WrapAlgorithm::Custom have to be the words in order")]
fn an_algorithm_must_not_skip() {
    let skipping = WrapAlgorithm::Custom(|words, _| vec![&words[1..]]);
    wrap("foo bar", Options::new(5).wrap_algorithm(skipping));
}

#[test]
fn words_at_the_offsets_of_a_segmenter() {
    use textwrap::word_separators::{find_words_at, WrongPlaces};
    fn between_wide_characters(line: &str) -> Box<dyn Iterator<Item = Word<'_>> + '_> {
        let wide = |&(_, ch): &(usize, char)| ch > '\u{1100}';
        let offsets: Vec<usize> = line.char_indices().filter(wide).map(|(i, _)| i).collect();
        Box::new(find_words_at(line, &offsets).expect("they increase").into_iter())
    }
    let separator = WordSeparator::Custom(between_wide_characters);
    let options = Options::new(6).word_separator(separator).break_words(false);
    assert_eq!(wrap("ab 你好吗", &options), ["ab 你", "好吗"]);
    assert_eq!(find_words_at("foo bar", &[4, 4]), Err(WrongPlaces));
    assert_eq!(find_words_at("foo bar", &[9]), Err(WrongPlaces));
    assert_eq!(find_words_at("", &[]), Ok(vec![]));
}

#[test]
fn the_twins_with_functions_of_the_caller() {
    use textwrap::fallible;
    let options = Options::new(6).word_separator(WordSeparator::Custom(after_commas));
    assert_eq!(fallible::fill("a,b c,d,e", &options).as_deref(), Ok("a,b c,\nd,e"));
    assert_eq!(fallible::wrap("a,b c,d,e", &options).unwrap().len(), 2);
    assert_eq!(fallible::refill("a,b c,\nd,e", &options).as_deref(), Ok("a,b c,\n d,e"));
    for options in [options, Options::new(6)] {
        let rows = fallible::wrap_columns("a,b", usize::MAX, &options, "", "|", "");
        assert_eq!(rows, Err(textwrap::OutOfMemory::default()));
    }
}

// ---- Long texts

#[test]
fn a_long_line_behind_an_indent_is_whole() {
    let word = "x".repeat(200_000);
    for separator in SEPARATORS {
        for separator in [separator, drawn::own(separator)] {
            let options = Options::new(300_000).word_separator(separator).initial_indent("> ");
            let lines = textwrap::fallible::wrap(&word, &options).unwrap();
            assert_eq!(lines.len(), 1);
            assert_eq!(lines[0], format!("> {word}"));
            assert_eq!(fill(&word, &options), lines[0]);
        }
    }
}

#[test]
fn a_filled_text_may_be_much_longer_than_the_text() {
    let indent = "x".repeat(100_000);
    for separator in SEPARATORS {
        for separator in [separator, drawn::own(separator)] {
            let options = Options::new(indent.len() + 1)
                .word_separator(separator)
                .initial_indent(&indent)
                .subsequent_indent(&indent);
            let filled = textwrap::fallible::fill(&"a ".repeat(50), options).unwrap();
            assert!(filled == [format!("{indent}a").as_str(); 50].join("\n"));
        }
    }
}

#[test]
fn many_rows_and_wide_columns() {
    let text = vec!["ab"; 3_000].join(" ");
    for separator in SEPARATORS {
        for separator in [separator, drawn::own(separator)] {
            let options = Options::new(6).word_separator(separator);
            let rows = wrap_columns(&text, 2, &options, "", "|", "!");
            assert_eq!(rows.len(), 1_500);
            assert!(rows.iter().all(|row| row == "ab|ab!"));
            let rows = wrap_columns("a\nb", 2, options.width(10_003), "<", "|", ">");
            let blanks = " ".repeat(4_999);
            assert_eq!(rows, [format!("<a{blanks}|b{blanks}>")]);
        }
    }
}
