//! Lines for display: each call on worked examples, and with functions of the caller.
mod drawn;

use drawn::Random;
use textwrap_proved::core::{display_width, Word};
use textwrap_proved::display::{
    align, balanced_width, carry_attributes, carry_styles, expand_tabs, fallible, fill_justified,
    fitting_widths, justify, shorten, shorten_by, shorten_lines, shorten_lines_by,
    strip_other_sequences, table, terminal_width, wrap_balanced, Alignment, Column, Gaps,
    Shortening,
};
use textwrap_proved::{
    wrap, LineEnding, Options, OutOfMemory, WordSeparator, WordSplitter, WrapAlgorithm,
};

const HAMLET: &str = "To be, or not to be: that is the question";
const BOLD: &str = "\u{1b}[1m";
const RED: &str = "\u{1b}[31m";
const RESET: &str = "\u{1b}[0m";
const LINK: &str = "\u{1b}]8;;http://example.com\u{1b}\\";
// The same, as the first link of a text is set anew.
const LINK_AGAIN: &str = "\u{1b}]8;id=w1;http://example.com\u{1b}\\";
const LINK_END: &str = "\u{1b}]8;;\u{1b}\\";

fn first_fit<'a>(width: usize) -> Options<'a> {
    Options::new(width).wrap_algorithm(WrapAlgorithm::FirstFit)
}

/// By default words end at Unicode line breaks, and else at blanks, where the library does it all.
fn at_breaks_and_at_blanks<'a>(options: &Options<'a>) -> [Options<'a>; 2] {
    [WordSeparator::UnicodeBreakProperties, WordSeparator::AsciiSpace]
        .map(|separator| options.clone().word_separator(separator))
}

// ---- Lines

#[test]
fn lines_are_aligned_and_justified() {
    for (line, width, left, right, centre, justified) in [
        ("ab", 5, "ab   ", "   ab", " ab  ", "ab"),
        ("a few words", 12, "a few words ", " a few words", "a few words ", "a  few words"),
        ("  a b c", 9, "  a b c  ", "    a b c", "   a b c ", "  a  b  c"),
        ("日 本", 7, "日 本  ", "  日 本", " 日 本 ", "日   本"),
        ("a b", 3, "a b", "a b", "a b", "a b"),
        ("a b", 0, "a b", "a b", "a b", "a b"),
        ("", 3, "   ", "   ", "   ", ""),
        ("\u{1b}[1ma b", 5, "\u{1b}[1ma b  ", "  \u{1b}[1ma b", " \u{1b}[1ma b ", "\u{1b}[1ma   b"),
    ] {
        assert_eq!(align(line, width, Alignment::Left), left);
        assert_eq!(align(line, width, Alignment::Right), right);
        assert_eq!(align(line, width, Alignment::Centre), centre);
        assert_eq!(justify(line, width), justified);
    }
    assert_eq!(justify("words", usize::MAX), "words");
}

#[test]
fn terminals_are_told() {
    for (text, width, left) in [
        ("ab", 2, "ab"),
        ("\u{1b}(Ba\u{1b}[1mb", 2, "a\u{1b}[1mb"),
        ("a\u{1b}P1q\u{7}x\u{1b}\\b", 2, "ab"),
        ("a\u{1b}]8;;x\u{7}b\u{1b}]8;;\u{7}", 2, "a\u{1b}]8;;x\u{7}b\u{1b}]8;;\u{7}"),
        ("a\u{9b}1m日\u{85}", 3, "a日"),
        ("a\u{1b}_no end", 1, "a"),
    ] {
        assert_eq!(terminal_width(text), width);
        assert_eq!(strip_other_sequences(text), left);
        assert_eq!(display_width(left), width);
    }
}

#[test]
fn tabs_are_expanded() {
    for (text, stop, expanded) in [
        ("a\tbc", 4, "a   bc"),
        ("abcd\te", 4, "abcd    e"),
        ("\t\tx", 3, "      x"),
        ("ab\n\tc\r\n\u{1b}[1m\td", 2, "ab\n  c\r\n\u{1b}[1m  d"),
        ("日\t本", 4, "日  本"),
        ("a\t\tb", 0, "ab"),
        ("a b", 8, "a b"),
        ("", 8, ""),
    ] {
        assert_eq!(expand_tabs(text, stop), expanded);
        assert_eq!(expand_tabs(expanded, 1), expanded);
    }
}

#[test]
fn lines_are_shortened() {
    for (line, width, placeholder, short) in [
        ("Hello world", 10, "...", "Hello..."),
        ("Hello world", 11, "...", "Hello world"),
        ("Hello  world!", 12, " [...]", "Hello [...]"),
        ("one two   ", 9, "..", "one two.."),
        ("three two", 6, "..", ".."),
        ("three two", 1, "..", ".."),
        ("three two", 5, "", "three"),
        ("日本 語", 6, "…", "日本…"),
        ("", 0, "..", ""),
    ] {
        assert_eq!(shorten(line, width, placeholder), short);
    }
}

#[test]
fn words_are_cut_where_that_is_asked() {
    for (line, width, short) in [
        ("Supercalifragilistic", 10, "Supercal.."),
        ("a Supercalifragilistic", 10, "a Superc.."),
        ("Hello wonderful", 12, "Hello.."),
        ("日本語日本語", 7, "日本.."),
        ("\x1b[1mHello", 5, "\x1b[1mHello"),
        ("\x1b[1mHello", 4, "\x1b[1mHe\x1b[0m.."),
    ] {
        let shortening = Shortening::new(width, "..").break_words(true);
        assert_eq!(shorten_by(line, &shortening), short);
        assert_eq!(fallible::shorten_by(line, &shortening).as_deref(), Ok(short));
        assert_eq!(shorten_lines_by(&["", line, ""], 3, &shortening), ["", line, ""]);
    }
    let shortening = Shortening::new(9, "..").break_words(true);
    assert_eq!(shorten_lines_by(&["an abracadabra", "b"], 1, &shortening), ["an abra.."]);
    let whole = Shortening { break_words: false, ..Shortening::new(10, "..").break_words(true) };
    assert_eq!(shorten_by("Supercalifragilistic", &whole), "..");
    assert_eq!(whole, Shortening::new(10, ".."));
}

#[test]
fn what_is_open_is_ended_before_the_placeholder() {
    assert_eq!(shorten("\x1b[1mHello world", 9, " ..."), "\x1b[1mHello\x1b[0m ...");
    let link = "\x1b]8;;http://x\x07one two\x1b]8;;\x07";
    assert_eq!(shorten(link, 5, ".."), "\x1b]8;;http://x\x07one\x1b]8;;\x1b\\..");
}

#[test]
fn lists_of_lines_are_shortened() {
    let lines = ["one", "two three", "four"];
    assert_eq!(shorten_lines(&lines, 2, 8, " .."), ["one", "two .."]);
    assert_eq!(shorten_lines(&lines, 1, 8, " .."), ["one .."]);
    assert_eq!(shorten_lines(&lines, 1, 5, " .."), [" .."]);
    assert_eq!(shorten_lines(&lines, 3, 8, " .."), lines);
    assert_eq!(shorten_lines(&lines, usize::MAX, 0, " .."), lines);
    assert!(shorten_lines(&lines, 0, 8, " ..").is_empty());
    assert!(shorten_lines::<&str>(&[], 2, 8, " ..").is_empty());
    let texts = vec![String::from("foo bar"), String::from("baz")];
    assert_eq!(shorten_lines(&texts, 1, 7, ".."), ["foo.."]);
    let many = ["foo bar"; 5_000];
    let kept = [vec!["foo bar"; 2_999], vec!["foo .."]].concat();
    assert_eq!(shorten_lines(&many, 3_000, 7, " .."), kept);
    assert_eq!(shorten_lines_by(&many, 3_000, &Shortening::new(7, " ..")), kept);
    assert_eq!(shorten_lines(&wrap("foo bar baz", 7), 1, 9, ".."), ["foo bar.."]);
}

#[test]
fn styles_are_carried() {
    let carried = |lines: [String; 2]| carry_styles(&lines, 10);
    let plain = [String::from("a"), String::from("b")];
    assert_eq!(carried(plain.clone()), plain);
    assert_eq!(
        carried([format!("a {BOLD}b"), "c".into()]),
        [format!("a {BOLD}b{RESET}"), format!("{BOLD}c{RESET}")]
    );
    assert_eq!(
        carried([format!("{BOLD}{RED}a"), "b\u{1b}[m c".into()]),
        [format!("{BOLD}{RED}a{RESET}"), format!("{BOLD}{RED}b\u{1b}[m c")]
    );
    assert_eq!(
        carried([format!("{LINK}a"), format!("b{LINK_END} c")]),
        [format!("{LINK}a{LINK_END}"), format!("{LINK_AGAIN}b{LINK_END} c")]
    );
    // The link is set before the styles, and taken back after them.
    assert_eq!(
        carried([format!("{BOLD}{LINK}a"), "b".into()]),
        [
            format!("{BOLD}{LINK}a{RESET}{LINK_END}"),
            format!("{LINK_AGAIN}{BOLD}b{RESET}{LINK_END}"),
        ]
    );
}

#[test]
fn styles_are_carried_after_indents() {
    let options = Options::new(7).initial_indent("* ").subsequent_indent("> ");
    let lines = wrap("\u{1b}[1mfoo bar\nbaz", &options);
    assert_eq!(lines, ["* \u{1b}[1mfoo", "> bar", "> baz"]);
    assert_eq!(carry_styles(&lines, &options), [
        format!("* {BOLD}foo{RESET}"),
        format!("> {BOLD}bar{RESET}"),
        format!("> {BOLD}baz{RESET}"),
    ]);
    // A line that does not begin with its indent.
    assert_eq!(carry_styles(&[BOLD, "a"], &options)[1], format!("{BOLD}a{RESET}"));
    assert!(carry_styles::<&str, _>(&[], 7).is_empty());
    // Of equal styles the last.
    let lines = [RED.repeat(20) + BOLD + RED, String::new()];
    assert_eq!(carry_styles(&lines, 7)[1], format!("{BOLD}{RED}{RESET}"));
}

#[test]
fn settings_are_carried() {
    let carried = |lines: &[&str]| carry_styles(lines, 10);
    assert_eq!(
        carried(&["a \u{1b}[1;31mb", "c\u{1b}[39md", "e"]),
        [
            format!("a \u{1b}[1;31mb{RESET}"),
            format!("{BOLD}{RED}c\u{1b}[39md{RESET}"),
            format!("{BOLD}e{RESET}"),
        ]
    );
    // A colour takes the place of the one before it, however many there were.
    let colours: String = (0..20).map(|number| format!("\u{1b}[38;5;{number}m")).collect();
    assert_eq!(carried(&[&colours, "a"])[1], format!("\u{1b}[38;5;19ma{RESET}"));
    // After the indent, and with a link.
    let options = Options::new(7).subsequent_indent("> ");
    let lines = [format!("{LINK}{RED}{BOLD}foo"), String::from("> bar")];
    assert_eq!(
        carry_attributes(&lines, &options)[1],
        format!("> {LINK_AGAIN}{RED}{BOLD}bar{RESET}{LINK_END}")
    );
    // More than the room that is made at first.
    let attributes = "\u{1b}[1;3;4;5;7;8;9;31;41;51;53m";
    let all = "\u{1b}[1m\u{1b}[3m\u{1b}[4m\u{1b}[5m\u{1b}[7m\u{1b}[8m\u{1b}[9m\u{1b}[31m\u{1b}[41m\
               \u{1b}[51m\u{1b}[53m";
    assert_eq!(carried(&[attributes, "", "a"])[2], format!("{all}a{RESET}"));
}

#[test]
fn lines_are_balanced() {
    let title = "It was the best of times, it was the worst";
    for options in at_breaks_and_at_blanks(&Options::new(40)) {
        assert_eq!(balanced_width(title, &options), 23);
        assert_eq!(
            wrap_balanced(title, &options),
            ["It was the best of", "times, it was the worst"]
        );
        let quoted = options.clone().subsequent_indent("> ");
        assert_eq!(balanced_width(title, &quoted), 25);
        assert_eq!(
            wrap_balanced(title, &quoted),
            ["It was the best of times,", "> it was the worst"]
        );
        // The algorithm is not used.
        for algorithm in [WrapAlgorithm::FirstFit, WrapAlgorithm::Custom(|words, _| vec![words])] {
            assert_eq!(balanced_width(title, options.clone().wrap_algorithm(algorithm)), 23);
        }
        assert_eq!(
            (balanced_width("", &options), wrap_balanced("", &options)),
            (0, vec!["".into()])
        );
        // A word that has no room at the width.
        let narrow = options.clone().width(5);
        assert_eq!(balanced_width("a wonderful word", &narrow), 5);
        assert_eq!(wrap_balanced("a wonderful word", narrow), ["a", "wonde", "rful", "word"]);
    }
    assert_eq!(balanced_width("either/or not", 12), 7);
    assert_eq!(wrap_balanced("either/or not", 12), ["either/", "or not"]);
}

/// No wider than first fit has it, as many lines, and each narrower width takes more.
#[test]
fn the_balanced_width_is_the_least() {
    for options in at_breaks_and_at_blanks(&first_fit(20).initial_indent("* ")) {
        let count = |width| wrap(HAMLET, options.clone().width(width)).len();
        let width = balanced_width(HAMLET, &options);
        assert_eq!(wrap_balanced(HAMLET, &options), wrap(HAMLET, options.clone().width(width)));
        assert!(width <= 20 && count(width) == count(20) && count(width - 1) > count(20));
    }
}

#[test]
#[should_panic(expected = "balanced by the library's own words")]
fn no_function_finds_words_to_balance() {
    let halves = WordSplitter::Custom(|word| vec![word.len() / 2]);
    balanced_width(HAMLET, Options::new(20).word_splitter(halves));
}

#[test]
fn columns_are_fitted() {
    let cells = ["-h", "Print this help.", "--width N", "Wrap at N columns."];
    // Where not even the widest words have room, in proportion to these.
    for (total, widths) in [(20, [8, 12]), (27, [9, 18]), (40, [14, 26]), (15, [7, 8]), (5, [3, 2])]
    {
        assert_eq!(fitting_widths(&cells, 2, total), widths, "{total}");
    }
    assert_eq!(fitting_widths(&cells[..3], 2, 20).iter().sum::<usize>(), 20);
    assert_eq!(fitting_widths::<&str>(&[], 3, 10), [4, 3, 3]);
    assert!(fitting_widths(&cells, 0, 10).is_empty());
    assert_eq!(fitting_widths(&[String::from("日本語"), String::new()], 2, 6), [6, 0]);
}

// ---- Texts

#[test]
fn texts_are_filled_and_justified() {
    let justified = "To     be,\nor  not to\nbe:   that\nis     the\nquestion";
    assert_eq!(fill_justified(HAMLET, 10), justified);
    for options in at_breaks_and_at_blanks(&Options::new(10)) {
        assert_eq!(fill_justified(HAMLET, &options), justified);
        // The last line of each paragraph stays, and so does a line without gaps.
        assert_eq!(fill_justified("a b\n\nfoobars foo bar", &options), "a b\n\nfoobars\nfoo bar");
        assert_eq!(fill_justified("", &options), "");
    }
    for options in at_breaks_and_at_blanks(&first_fit(12)) {
        let filled = "To   be,  or\nnot  to  be:\nthat  is the\nquestion";
        assert_eq!(fill_justified(HAMLET, options), filled);
    }
}

#[test]
fn indents_are_not_justified() {
    let indented = first_fit(12)
        .initial_indent("- - ")
        .subsequent_indent("  ")
        .line_ending(LineEnding::CRLF);
    let text = "foo ba qu\r\na b foobar";
    for options in at_breaks_and_at_blanks(&indented) {
        // The first line of the later paragraph is divided at 8 columns, and justified in the 10
        // that its indent leaves.
        let filled = "- - foo   ba\r\n  qu\r\n  a        b\r\n  foobar";
        assert_eq!(fill_justified(text, &options), filled);
        let even = options.even_paragraphs(true);
        assert_eq!(fill_justified(text, &even), "- - foo   ba\r\n  qu\r\n  a b foobar");
    }
}

#[test]
fn lines_are_justified_beside_indents_of_other_characters() {
    let indented = first_fit(9).initial_indent("│ ").subsequent_indent("日");
    for options in at_breaks_and_at_blanks(&indented) {
        let filled = "│ foo   b\n日cde  fg\n日hijklmn";
        assert_eq!(fill_justified("foo b cde fg hijklmn", &options), filled);
        assert_eq!(fill_justified("foo\t b cde", &options), "│ foo\t   b\n日cde");
    }
}

#[test]
fn many_lines_are_justified() {
    let text = vec!["a b"; 1_001].join(" ");
    let filled = vec!["a  b"; 1_000].join("\n");
    for options in at_breaks_and_at_blanks(&first_fit(4)) {
        let own = options.clone().word_separator(drawn::own(options.word_separator));
        for options in [options, own] {
            assert_eq!(fill_justified(&text, &options), format!("{filled}\na b"));
            let longer = fill_justified(&format!("{text} a b"), &options);
            assert_eq!(longer, format!("{filled}\na  b\na b"));
        }
    }
}

#[test]
fn blanks_at_line_ends_are_no_gaps() {
    for options in at_breaks_and_at_blanks(&first_fit(6).preserve_trailing_space(true)) {
        assert_eq!(fill_justified("a b cdef", options), "a   b \ncdef");
    }
}

#[test]
fn lines_that_end_at_unicode_breaks_are_justified() {
    let [at_breaks, at_blanks] = at_breaks_and_at_blanks(&first_fit(8));
    assert_eq!(fill_justified("日 本語これは", at_breaks), "日  本語\nこれは");
    assert_eq!(fill_justified("日 本語これは", at_blanks), "日\n本語これ\nは");
}

// ---- Tables

/// Two columns, the first of 4 columns at the left, and the second of 6 at the right.
fn two_columns<'a>(separator: WordSeparator) -> [Column<'a>; 2] {
    [(4, Alignment::Left), (6, Alignment::Right)].map(|(width, alignment)| Column {
        options: first_fit(width).word_separator(separator),
        alignment,
    })
}

const AROUND: Gaps = Gaps { left: "[ ", middle: " | ", right: " ]" };

#[test]
fn tables_are_laid_out() {
    for separator in [WordSeparator::UnicodeBreakProperties, WordSeparator::AsciiSpace] {
        let columns = two_columns(separator);
        assert_eq!(table(&["one two", "1.50", "three"], &columns, &AROUND), [
            "[ one  |   1.50 ]",
            "[ two  |        ]",
            "[ thre |        ]",
            "[ e    |        ]",
        ]);
        assert_eq!(table(&["日本", "é"], &columns, &Gaps::default()), ["日本     é"]);
        assert_eq!(table(&["", ""], &columns, &AROUND), ["[      |        ]"]);
        assert!(table::<&str>(&[], &columns, &AROUND).is_empty());
        assert!(table(&["a"], &[], &AROUND).is_empty());
    }
}

#[test]
fn wide_columns_are_aligned() {
    let blanks = " ".repeat(1_999);
    let half = " ".repeat(999);
    for separator in [WordSeparator::UnicodeBreakProperties, WordSeparator::AsciiSpace] {
        for (alignment, row) in [
            (Alignment::Left, format!("[ a{blanks} ]")),
            (Alignment::Right, format!("[ {blanks}a ]")),
            (Alignment::Centre, format!("[ {half}a{half}  ]")),
        ] {
            let options = Options::new(2_000).word_separator(separator);
            assert_eq!(table(&["a"], &[Column { options, alignment }], &AROUND), [row]);
        }
    }
}

#[test]
fn columns_have_options_of_their_own() {
    for separator in [WordSeparator::UnicodeBreakProperties, WordSeparator::AsciiSpace] {
        let [mut left, mut right] = two_columns(separator);
        left.alignment = Alignment::Centre;
        left.options = left.options.initial_indent("*").break_words(false);
        right.options = right.options.subsequent_indent("> ");
        let rows = table(&[String::from("ab foobar"), "one two".into()], &[left, right], &AROUND);
        // A line that is wider than its column is not cut.
        assert_eq!(rows, ["[ *ab  |    one ]", "[ foobar |  > two ]"]);
    }
}

#[test]
fn one_column_with_breaks_is_enough() {
    let [at_breaks, _] = two_columns(WordSeparator::UnicodeBreakProperties);
    let [_, at_blanks] = two_columns(WordSeparator::AsciiSpace);
    let rows = table(&["a 日本", "ab 日本語"], &[at_breaks, at_blanks], &AROUND);
    assert_eq!(rows, ["[ a 日 |     ab ]", "[ 本   | 日本語 ]"]);
}

// ---- Functions of the caller

fn after_commas(line: &str) -> Box<dyn Iterator<Item = Word<'_>> + '_> {
    Box::new(line.split_inclusive(',').map(Word::from))
}

#[test]
fn functions_of_the_caller_take_part() {
    let by_commas = first_fit(9).word_separator(WordSeparator::Custom(after_commas));
    assert_eq!(fill_justified("a b,c d e,f", &by_commas), "a      b,\nc d e,f");
    let in_the_middle = WordSplitter::Custom(|word| vec![word.len() / 2]);
    let split = first_fit(8).word_splitter(in_the_middle);
    assert_eq!(fill_justified("an foobar", &split), "an  foo-\nbar");
    let columns =
        [by_commas, split].map(|options| Column { options, alignment: Alignment::Right });
    assert_eq!(table(&["a b,c d e,f", "an foobar"], &columns, &AROUND), [
        "[      a b, |  an foo- ]",
        "[   c d e,f |      bar ]",
    ]);
}

#[test]
fn one_function_beside_many_columns_is_asked() {
    let mut columns = vec![Column { options: first_fit(5), alignment: Alignment::Left }; 40];
    columns[39].options.word_splitter = WordSplitter::Custom(|_| vec![3]);
    let rows = table(&["foobar"; 40], &columns, &Gaps { middle: " ", ..Gaps::default() });
    assert_eq!(rows, [["fooba"; 39].join(" ") + " foo- ", ["r    "; 39].join(" ") + " bar  "]);
}

#[test]
fn lines_of_an_algorithm_of_the_callers_own() {
    let lines = WrapAlgorithm::Custom(|words, _| vec![&words[..2], &words[2..2], &words[2..]]);
    let options = Options::new(9).subsequent_indent("> ").wrap_algorithm(lines);
    // A line without words has no indent.
    assert_eq!(fill_justified("one two three", &options), "one   two\n\n> three");
    let none = Options::new(3).wrap_algorithm(WrapAlgorithm::Custom(|_, _| vec![]));
    assert_eq!(fill_justified("foo bar\nx", &none), "x");
    let column = Column { options: none, alignment: Alignment::Left };
    assert_eq!(table(&["foo bar", "x"], &[column], &AROUND), ["[ x   ]"]);
}

#[test]
#[should_panic(expected = "words of a WordSeparator::Custom have to tile the line")]
fn a_separator_must_not_skip_in_a_table() {
    fn skipping(line: &str) -> Box<dyn Iterator<Item = Word<'_>> + '_> {
        Box::new(line.split(',').map(Word::from))
    }
    let options = Options::new(5).word_separator(WordSeparator::Custom(skipping));
    table(&["foo,bar"], &[Column { options, alignment: Alignment::Left }], &AROUND);
}

#[test]
#[should_panic(expected = "points of a WordSplitter::Custom must not decrease")]
fn a_splitter_must_not_go_back_in_a_filled_text() {
    let going_back = WordSplitter::Custom(|_| vec![3, 2]);
    fill_justified("foobar", Options::new(5).word_splitter(going_back));
}

#[test]
fn functions_may_do_what_the_built_in_parts_do() {
    let text = "Words,  a hyphen-ated one, 안녕하세요 and\n\n  supercalifragilistic \
                \u{1b}[1mends\u{1b}[0m  \na last one";
    let cells = [text, "foo bar baz", "", "안녕", text];
    for width in 0..60 {
        let plain = Options::new(width).word_separator(WordSeparator::AsciiSpace);
        let crlf = plain.clone().line_ending(LineEnding::CRLF).preserve_trailing_space(true);
        let indented = plain.clone().initial_indent("* * ").subsequent_indent("    ");
        let even = indented.clone().even_paragraphs(true);
        let unbroken = indented.clone().break_words(false);
        let greedy = unbroken.clone().wrap_algorithm(WrapAlgorithm::FirstFit);
        for options in [plain, crlf, indented, even, unbroken, greedy] {
            let own = options.clone().word_separator(drawn::own(options.word_separator));
            assert_eq!(fill_justified(text, &own), fill_justified(text, &options));
            for alignment in [Alignment::Left, Alignment::Right, Alignment::Centre] {
                // The last row of cells lacks one.
                assert_eq!(
                    table(&cells, &three_columns(&own, &options, alignment), &AROUND),
                    table(&cells, &three_columns(&options, &options, alignment), &AROUND)
                );
            }
        }
    }
}

#[test]
fn a_separator_of_the_callers_own_may_be_a_built_in_one() {
    let random = &mut Random::new(2);
    for _ in 0..3_000 {
        let (text, plain) = (drawn::text(random), drawn::options(random));
        let cells = [(); 4].map(|()| drawn::text(random));
        let [left, middle, right] = [(); 3].map(|()| drawn::around(random));
        let gaps = Gaps { left, middle, right };
        let alignments = [Alignment::Left, Alignment::Right, Alignment::Centre];
        let alignment = alignments[random.below(3)];
        for options in at_breaks_and_at_blanks(&plain) {
            let own = options.clone().word_separator(drawn::own(options.word_separator));
            assert_eq!(
                fill_justified(&text, &own),
                fill_justified(&text, &options),
                "{text:?} by {options:?}"
            );
            assert_eq!(
                table(&cells, &three_columns(&own, &options, alignment), &gaps),
                table(&cells, &three_columns(&options, &options, alignment), &gaps),
                "{cells:?} by {options:?}, {alignment:?} between {gaps:?}"
            );
        }
    }
}

/// A column of the first options between two of the others.
fn three_columns<'a>(
    first: &Options<'a>,
    others: &Options<'a>,
    alignment: Alignment,
) -> [Column<'a>; 3] {
    [others, first, others].map(|options| Column { options: options.clone(), alignment })
}

// ---- Memory

#[test]
fn the_twins_return_the_same() {
    assert_eq!(fallible::align("a", 3, Alignment::Right).as_deref(), Ok("  a"));
    assert_eq!(fallible::justify("a b", 5).as_deref(), Ok("a   b"));
    assert_eq!(fallible::expand_tabs("a\tb", 3).as_deref(), Ok("a  b"));
    assert_eq!(fallible::shorten("a b", 2, ".").as_deref(), Ok("a."));
    assert_eq!(fallible::shorten_lines(&["a", "b"], 1, 2, "."), Ok(vec![String::from("a.")]));
    assert_eq!(fallible::carry_styles(&["a"], 1), Ok(vec![String::from("a")]));
    assert_eq!(fallible::carry_attributes(&["a"], 1), Ok(vec![String::from("a")]));
    assert_eq!(fallible::fitting_widths(&["a", "b"], 2, 5), Ok(vec![3, 2]));
    for options in at_breaks_and_at_blanks(&Options::new(5)) {
        assert_eq!(fallible::fill_justified("a b foo", &options).as_deref(), Ok("a   b\nfoo"));
        assert_eq!(fallible::balanced_width("a b foo", &options), Ok(3));
        assert_eq!(
            fallible::wrap_balanced("a b foo", &options),
            Ok(vec!["a b".into(), "foo".into()])
        );
        let column = Column { options, alignment: Alignment::Left };
        let rows = fallible::table(&["a"], &[column], &AROUND);
        assert_eq!(rows, Ok(vec![String::from("[ a     ]")]));
    }
}

#[test]
fn the_twins_return_that_memory_ran_out() {
    assert_eq!(fallible::align("a", usize::MAX, Alignment::Centre), Err(OutOfMemory::default()));
    assert_eq!(fallible::justify("a b", usize::MAX), Err(OutOfMemory::default()));
    assert_eq!(fallible::expand_tabs("\t", usize::MAX), Err(OutOfMemory::default()));
    assert_eq!(fallible::fitting_widths(&["a"], usize::MAX, 9), Err(OutOfMemory::default()));
    // The words are an empty one before the indent's text, and three.
    let two_lines = WrapAlgorithm::Custom(|words, _| vec![&words[..3], &words[3..]]);
    let wide = Options::new(usize::MAX).initial_indent("*");
    let own = wide.clone().wrap_algorithm(two_lines);
    assert_eq!(fallible::fill_justified("a b c", own), Err(OutOfMemory::default()));
    for options in at_breaks_and_at_blanks(&wide) {
        let column = Column { options, alignment: Alignment::Left };
        assert_eq!(fallible::table(&["a"], &[column], &AROUND), Err(OutOfMemory::default()));
    }
}
