//! What each feature of the crate brings about, and what it leaves as it is. The tests stand for
//! any set of features.
use textwrap_proved as textwrap;

use textwrap::core::{display_width, Word};
use textwrap::wrap_algorithms::{OverflowError, Penalties};
use textwrap::{fill, wrap, LineEnding, Options, WordSeparator, WordSplitter, WrapAlgorithm};

const HAMLET: &str = "To be, or not to be: that is the question";

#[test]
fn smawk_makes_the_least_cost_the_default() {
    let lines = wrap(HAMLET, Options::new(10).word_separator(WordSeparator::AsciiSpace));
    if cfg!(feature = "smawk") {
        assert_eq!(WrapAlgorithm::new(), WrapAlgorithm::OptimalFit(Penalties::new()));
        assert_eq!(lines, ["To be,", "or not to", "be: that", "is the", "question"]);
    } else {
        assert_eq!(WrapAlgorithm::new(), WrapAlgorithm::FirstFit);
        assert_eq!(lines, ["To be, or", "not to be:", "that is", "the", "question"]);
    }
    assert_eq!(WrapAlgorithm::default(), WrapAlgorithm::new());
    assert_eq!(Options::new(10).wrap_algorithm, WrapAlgorithm::new());
    assert_eq!(Options::from(10).wrap_algorithm, WrapAlgorithm::new());
}

#[test]
fn both_algorithms_are_always_there() {
    let first = Options::new(10).wrap_algorithm(WrapAlgorithm::FirstFit);
    assert_eq!(fill(HAMLET, first), "To be, or\nnot to be:\nthat is\nthe\nquestion");
    let optimal = Options::new(10).wrap_algorithm(WrapAlgorithm::new_optimal_fit());
    assert_eq!(fill(HAMLET, optimal), "To be,\nor not to\nbe: that\nis the\nquestion");
}

#[test]
fn unicode_linebreak_makes_its_breaks_the_default() {
    let words: Vec<Word> = WordSeparator::new().find_words("CJK: 你好").collect();
    if cfg!(feature = "unicode-linebreak") {
        assert_eq!(WordSeparator::new(), WordSeparator::UnicodeBreakProperties);
        assert_eq!(words, [Word::from("CJK: "), Word::from("你"), Word::from("好")]);
    } else {
        assert_eq!(WordSeparator::new(), WordSeparator::AsciiSpace);
        assert_eq!(words, [Word::from("CJK: "), Word::from("你好")]);
    }
    assert_eq!(WordSeparator::default(), WordSeparator::new());
    assert_eq!(Options::new(10).word_separator, WordSeparator::new());
}

#[test]
fn both_separators_are_always_there() {
    let whole = Options::new(2).break_words(false);
    let at_blanks = whole.clone().word_separator(WordSeparator::AsciiSpace);
    assert_eq!(wrap("你好", at_blanks), ["你好"]);
    let at_breaks = whole.word_separator(WordSeparator::UnicodeBreakProperties);
    assert_eq!(wrap("你好", at_breaks), ["你", "好"]);
}

#[test]
#[cfg(feature = "unicode-linebreak-complex")]
fn unicode_linebreak_complex_has_no_dictionary() {
    assert_eq!(WordSeparator::new(), WordSeparator::UnicodeBreakProperties);
    // Two words of Thai, which stand without a blank between them.
    let words: Vec<Word> = WordSeparator::new().find_words("ภาษาไทย").collect();
    assert_eq!(words, [Word::from("ภาษาไทย")]);
}

#[test]
fn columns_are_the_same_without_unicode_width() {
    assert_eq!(display_width("Café Plain"), 10);
    assert_eq!(display_width("u\u{308}"), 1);
    assert_eq!(display_width("你好"), 4);
    assert_eq!(display_width("😂"), 2);
}

#[test]
fn matches_need_no_other_arm_than_the_original_has_but_for_patterns() {
    let separator = match WordSeparator::AsciiSpace {
        WordSeparator::AsciiSpace => "blanks",
        WordSeparator::UnicodeBreakProperties => "breaks",
        WordSeparator::Custom(_) => "a function",
    };
    let splitter = match WordSplitter::HyphenSplitter {
        WordSplitter::NoHyphenation => "nowhere",
        WordSplitter::HyphenSplitter => "hyphens",
        WordSplitter::Custom(_) => "a function",
        #[cfg(feature = "hyphenation")]
        WordSplitter::Hyphenation(_) => "a dictionary",
        WordSplitter::OutsideSequences => "outside sequences",
        WordSplitter::Patterns(_) => "patterns",
    };
    let algorithm = match WrapAlgorithm::FirstFit {
        WrapAlgorithm::FirstFit => "first fit",
        WrapAlgorithm::OptimalFit(_) => "least cost",
        WrapAlgorithm::Custom(_) => "a function",
    };
    let ending = match LineEnding::CRLF {
        LineEnding::CRLF => "CRLF",
        LineEnding::LF => "LF",
    };
    assert_eq!((separator, splitter), ("blanks", "hyphens"));
    assert_eq!((algorithm, ending), ("first fit", "CRLF"));
}

#[test]
fn structs_are_built_and_taken_apart_as_in_the_original() {
    let word = Word { word: "foo", whitespace: " ", penalty: "", width: 3 };
    let Word { word: text, whitespace, penalty, width } = word;
    assert_eq!((text, whitespace, penalty, width), ("foo", " ", "", 3));
    let penalties = Penalties {
        nline_penalty: 1000,
        overflow_penalty: 50 * 50,
        short_last_line_fraction: 4,
        short_last_line_penalty: 25,
        hyphen_penalty: 25,
    };
    assert_eq!(penalties, Penalties::default());
    let OverflowError = OverflowError;
}

#[test]
fn options_are_built_in_constants() {
    const OPTIONS: Options = Options::new(80)
        .width(9)
        .line_ending(LineEnding::LF)
        .initial_indent("* ")
        .subsequent_indent("  ")
        .break_words(true)
        .wrap_algorithm(WrapAlgorithm::FirstFit)
        .word_separator(WordSeparator::AsciiSpace)
        .preserve_trailing_space(false)
        .even_paragraphs(true);
    let options = OPTIONS.word_splitter(WordSplitter::NoHyphenation);
    assert_eq!(fill("foo bar ba-z", options), "* foo bar\n  ba-z");
}

#[cfg(feature = "terminal_size")]
mod terminal {
    use std::process::{Command, Stdio};
    use textwrap_proved::{termwidth, Options};

    #[test]
    fn options_have_the_width_of_the_terminal() {
        let asked = terminal_size::terminal_size();
        let columns = asked.map_or(80, |(terminal_size::Width(columns), _)| columns.into());
        assert_eq!(termwidth(), columns);
        let options = Options::with_termwidth();
        assert_eq!(options.width, columns);
        assert_eq!(options.wrap_algorithm, Options::new(1).wrap_algorithm);
        assert_eq!(options.word_separator, Options::new(1).word_separator);
    }

    /// This program runs this test anew, without a terminal.
    #[test]
    fn without_a_terminal_the_width_is_80() {
        const IS_ALONE: &str = "TEXTWRAP_TEST_WITHOUT_TERMINAL";
        if std::env::var_os(IS_ALONE).is_some() {
            assert_eq!(termwidth(), 80);
            return;
        }
        let output = Command::new(std::env::current_exe().unwrap())
            .args(["--exact", "terminal::without_a_terminal_the_width_is_80"])
            .env(IS_ALONE, "")
            .stdin(Stdio::null())
            .output()
            .unwrap();
        assert!(output.status.success(), "{}", String::from_utf8_lossy(&output.stdout));
        assert!(String::from_utf8_lossy(&output.stdout).contains("1 passed"));
    }
}

/// They ask for the dictionary of American English, in the folder that the variable
/// HYPHENATION_DICTIONARIES names: that is `dictionaries` of the package `hyphenation`.
#[cfg(feature = "hyphenation")]
mod hyphenation_by_patterns {
    use hyphenation::{Hyphenator, Language, Load, Standard};
    use std::borrow::Cow::{Borrowed, Owned};
    use std::path::PathBuf;
    use textwrap_proved::core::Word;
    use textwrap_proved::display::{fill_justified, wrap_balanced};
    use textwrap_proved::word_splitters::split_words;
    use textwrap_proved::wrap_algorithms::Penalties;
    use textwrap_proved::{fill, refill, wrap, wrap_columns, Options, WordSplitter, WrapAlgorithm};

    fn english() -> Standard {
        let folder = std::env::var_os("HYPHENATION_DICTIONARIES").expect(
            "HYPHENATION_DICTIONARIES has to name the folder `dictionaries` of the package hyphenation",
        );
        let path = PathBuf::from(folder).join("en-us.standard.bincode");
        Standard::from_path(Language::EnglishUS, path).unwrap()
    }

    /// The least cost at a width, with words split by the dictionary.
    fn hyphenated(width: usize) -> Options<'static> {
        Options::new(width)
            .word_splitter(WordSplitter::Hyphenation(english()))
            .wrap_algorithm(WrapAlgorithm::new_optimal_fit())
    }

    #[test]
    fn words_are_split_where_the_dictionary_says() {
        let splitter = WordSplitter::Hyphenation(english());
        assert_eq!(splitter.split_points("hyphenation"), [2, 6, 7]);
        assert_eq!(splitter.split_points("the"), []);
        let pieces: Vec<Word> = split_words([Word::from("hyphenation ")], &splitter).collect();
        assert_eq!(pieces, [
            Word { penalty: "-", ..Word::from("hy") },
            Word { penalty: "-", ..Word::from("phen") },
            Word { penalty: "-", ..Word::from("a") },
            Word::from("tion "),
        ]);
    }

    #[test]
    fn a_hyphen_is_added_where_a_line_ends_in_a_word() {
        let lines = wrap("Internationalization", hyphenated(10));
        assert!(
            matches!(lines[..], [Owned(_), Owned(_), Borrowed(_)]),
            "a line with an added hyphen is a text of its own"
        );
        assert_eq!(lines, ["Interna-", "tionaliza-", "tion"]);
        assert_eq!(wrap("garbage   collection", hyphenated(15)), ["garbage   col-", "lection"]);
        let oxidation = "Oxidation is the loss of electrons.";
        assert_eq!(fill(oxidation, hyphenated(8)), "Oxida-\ntion is\nthe loss\nof elec-\ntrons.");
    }

    #[test]
    fn a_hyphen_of_the_word_is_not_doubled() {
        let whole = hyphenated(8).break_words(false);
        assert_eq!(wrap("over-caffinated", whole), ["over-", "caffi-", "nated"]);
    }

    #[test]
    fn soft_hyphens_are_the_only_points_of_their_word() {
        let splitter = WordSplitter::Hyphenation(english());
        assert_eq!(splitter.split_points("hyphen\u{ad}ation"), [6]);
    }

    #[test]
    fn a_line_that_ends_in_a_hyphen_costs_its_penalty() {
        let text = "textwrap: a small library for wrapping text.";
        let lines = wrap(text, hyphenated(18));
        assert_eq!(lines, ["textwrap: a small", "library for wrap-", "ping text."]);
        let penalties = Penalties { hyphen_penalty: 100_000, ..Penalties::new() };
        let dear = hyphenated(18).wrap_algorithm(WrapAlgorithm::OptimalFit(penalties));
        assert_eq!(wrap(text, dear), ["textwrap: a", "small library for", "wrapping text."]);
    }

    #[test]
    fn every_call_on_a_text_takes_a_dictionary() {
        assert_eq!(refill("> Oxidation\n> is\n", hyphenated(8)), "> Oxi-\n> dation\n> is\n");
        let rows = wrap_columns("Oxidation is", 2, hyphenated(17), "", "|", "");
        assert_eq!(rows, ["Oxida-  |tion is "]);
        assert_eq!(fill_justified("a b Oxidation", hyphenated(12)), "a  b  Oxida-\ntion");
    }

    #[test]
    #[should_panic(expected = "a text is balanced by the library's own words and points")]
    fn a_text_is_not_balanced_by_a_dictionary() {
        wrap_balanced("Oxidation is", hyphenated(8));
    }

    #[test]
    fn dictionaries_are_equal_if_their_languages_are() {
        let splitter = WordSplitter::Hyphenation(english());
        assert_eq!(splitter, splitter.clone());
        assert_ne!(splitter, WordSplitter::HyphenSplitter);
        let mut british = english();
        british.language = Language::EnglishGB;
        assert_ne!(splitter, WordSplitter::Hyphenation(british));
    }

    #[test]
    #[should_panic(expected = "the points of a WordSplitter::Hyphenation must not decrease, and have \
                               to be character boundaries of the word; 9 of \"wrong\" is not right")]
    fn points_past_a_word_are_refused() {
        let mut dictionary = english();
        dictionary.add_exact(String::from("wrong"), vec![9]);
        fill("wrong", Options::new(3).word_splitter(WordSplitter::Hyphenation(dictionary)));
    }
}
