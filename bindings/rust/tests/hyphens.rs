//! Hyphenation by patterns: what is read of a text and of numbers, the points of words, and each call on a
//! text whose words are split by patterns.
mod drawn;

use drawn::Random;
use std::borrow::Cow::{Borrowed, Owned};
use std::error::Error;
use std::sync::OnceLock;
use std::thread;
use textwrap_proved::core::Word;
use textwrap_proved::display::{
    balanced_width, fill_justified, table, wrap_balanced, Alignment, Column, Gaps,
};
use textwrap_proved::hyphens::{Patterns, PatternsError};
use textwrap_proved::word_splitters::split_words;
use textwrap_proved::wrap_algorithms::Penalties;
use textwrap_proved::{
    fill, refill, wrap, wrap_columns, Options, WordSeparator, WordSplitter, WrapAlgorithm,
};

/// The patterns of hy-phen-ation, a list.
const LIST: &str = "hy3ph\nhe2n\nhena4\nhen5at\n1na\nn2at\n1tio\n2io\no2n\n";

/// They are read once, as options hold them in a program.
fn patterns() -> Patterns {
    static PATTERNS: OnceLock<Patterns> = OnceLock::new();
    PATTERNS.get_or_init(|| Patterns::parse(LIST).unwrap()).clone()
}

fn whole() -> WordSplitter {
    WordSplitter::Patterns(patterns())
}

fn in_parts() -> WordSplitter {
    WordSplitter::Patterns(patterns().in_parts(true))
}

/// Soft hyphens are the points of a word that has some.
fn soft() -> WordSplitter {
    WordSplitter::Patterns(patterns().soft_hyphens(true))
}

/// First fit at a width, with words split by the patterns, that end at Unicode line breaks and at blanks.
fn both(width: usize) -> [Options<'static>; 2] {
    [WordSeparator::UnicodeBreakProperties, WordSeparator::AsciiSpace].map(|separator| {
        Options::new(width)
            .wrap_algorithm(WrapAlgorithm::FirstFit)
            .word_separator(separator)
            .word_splitter(whole())
    })
}

// ---- What is read

#[test]
fn a_list_a_text_of_tex_and_a_dictionary_of_libhyphen_are_read() {
    let tex = format!("% The same in TeX.\n\\patterns{{\n{LIST}}}\n");
    let libhyphen = format!("UTF-8\nLEFTHYPHENMIN 2\nRIGHTHYPHENMIN 3\n{LIST}");
    for text in [LIST, &tex, &libhyphen] {
        let patterns = Patterns::parse(text).unwrap();
        assert_eq!(patterns.points("hyphenation"), [2, 6], "{text}");
        assert_eq!(patterns, Patterns::parse(LIST).unwrap(), "{text}");
    }
    let few = Patterns::parse(&format!("LEFTHYPHENMIN 3\n{LIST}")).unwrap();
    assert_eq!(few.points("hyphenation"), [6]);
    assert_ne!(few, patterns());
    let exception = Patterns::parse(&format!("{LIST}hyphena-tion\n")).unwrap();
    assert_eq!(exception.points("hyphenation"), [7]);
    assert_eq!(exception.points("hyphenations"), [2, 6]);
}

#[test]
fn without_patterns_words_are_split_at_their_hyphens_alone() {
    // A pattern without levels: a text without patterns is no dictionary.
    let none = Patterns::parse("zz").unwrap();
    assert_eq!(none.points("hyphenation"), []);
    assert_eq!(Patterns::from_numbers(none.as_numbers()), Some(none.clone()));
    for options in both(11) {
        let options = options.word_splitter(WordSplitter::Patterns(none.clone()));
        assert_eq!(wrap("the hyphenation", &options), ["the", "hyphenation"]);
        assert_eq!(wrap("a non-hyphenation", &options), ["a non-", "hyphenation"]);
    }
}

#[test]
fn the_first_wrong_line_is_told() {
    for (text, line) in [
        ("he/2n", 1),
        ("hy3ph\n\nhe/2n\n", 3),
        ("hy3ph\r\n1na\r\n%\r\nta--ble\r\nhe/2n\r\n", 4),
        ("ISO8859-1\n", 1),
        ("\\patterns{\nhy3ph\n", 2),
    ] {
        let error = Patterns::parse(text).unwrap_err();
        assert_eq!(error, PatternsError::Line(line), "{text:?}");
        assert_eq!(Patterns::try_parse(text), Ok(Err(error)));
    }
    let late = "hy3ph\n".repeat(70_000) + "he/2n\n";
    assert_eq!(Patterns::parse(&late), Err(PatternsError::Line(70_001)));
    let error: Box<dyn Error> = PatternsError::Line(3).into();
    assert_eq!(error.to_string(), "line 3 of the patterns is wrong");
}

#[test]
fn numbers_are_the_patterns_again() {
    let numbers = patterns().as_numbers().to_vec();
    let again = Patterns::from_numbers(&numbers).unwrap();
    assert_eq!(again, patterns());
    assert_eq!(again.points("hyphenation"), [2, 6]);
    assert_eq!(Patterns::try_from_numbers(&numbers), Ok(Some(again.clone())));
    // They do not tell what was set.
    for set in [again.clone().in_parts(true), again.clone().soft_hyphens(true)] {
        assert_ne!(set, again);
        assert_eq!(Patterns::from_numbers(set.as_numbers()), Some(again.clone()));
        assert_eq!(set.clone(), set);
    }
}

/// More than the dictionary of most languages has.
#[test]
fn many_numbers_are_the_patterns_again() {
    let letters = || 'a'..='r';
    let pairs = || letters().flat_map(|one| letters().map(move |other| [one, other]));
    let patterns = pairs().flat_map(|[a, b]| pairs().map(move |[c, d]| format!("{a}{b}1{c}{d}\n")));
    let many = Patterns::parse(&patterns.collect::<String>()).unwrap();
    let numbers = many.as_numbers();
    assert!(numbers.len() > 100_000, "{} numbers", numbers.len());
    let again = Patterns::from_numbers(numbers).unwrap();
    assert_eq!(again, many);
    assert_eq!(again.points("rqpon"), [2]);
}

#[test]
fn damaged_numbers_are_refused() {
    let numbers = patterns().as_numbers().to_vec();
    let is_refused = |numbers: &[usize]| Patterns::from_numbers(numbers).is_none();
    for i in 0..numbers.len() {
        for wrong in [numbers[i] ^ 1, numbers[i].wrapping_add(1 << 31), !numbers[i]] {
            let mut damaged = numbers.clone();
            damaged[i] = wrong;
            assert!(is_refused(&damaged), "number {i} is {wrong}");
        }
        if i > 0 && numbers[i] != numbers[i - 1] {
            let mut exchanged = numbers.clone();
            exchanged.swap(i, i - 1);
            assert!(is_refused(&exchanged), "numbers {} and {i} are exchanged", i - 1);
        }
        assert!(is_refused(&numbers[..i]), "there are {i} numbers");
    }
    assert!(is_refused(&[numbers.clone(), vec![0]].concat()));
    let other_order: Vec<usize> = numbers.iter().map(|number| number.swap_bytes()).collect();
    assert!(is_refused(&other_order));
}

#[test]
fn clones_share_what_was_read() {
    let one = Patterns::parse(LIST).unwrap();
    let other = one.clone();
    assert_eq!(one, other);
    assert_eq!(one.as_numbers().as_ptr(), other.as_numbers().as_ptr());
    let parts = one.clone().in_parts(true);
    assert_eq!(one.as_numbers().as_ptr(), parts.as_numbers().as_ptr());
    drop(one);
    assert_eq!(other.points("re-hyphenation"), []);
    assert_eq!(parts.points("re-hyphenation"), [5, 9]);
    thread::scope(|scope| {
        for _ in 0..4 {
            scope.spawn(|| {
                for _ in 0..100 {
                    assert_eq!(other.clone().points("hyphenation"), [2, 6]);
                }
            });
        }
    });
    let moved = thread::spawn(move || other.points("hyphenation"));
    assert_eq!(moved.join().unwrap(), [2, 6]);
}

#[test]
fn what_is_printed_of_patterns_is_short() {
    let len = patterns().as_numbers().len();
    for (splitter, in_parts, soft_hyphens) in
        [(whole(), false, false), (in_parts(), true, false), (soft(), false, true)]
    {
        let shown = format!(
            "Patterns(Patterns {{ numbers: {len}, in_parts: {in_parts}, soft_hyphens: {soft_hyphens}, \
             left: 0, right: 0 }})"
        );
        assert_eq!(format!("{splitter:?}"), shown);
    }
}

// ---- The points of words

#[test]
fn minima_are_those_that_are_set() {
    assert_eq!(patterns().minima(3, 0).points("hyphenation"), [6]);
    assert_eq!(patterns().minima(0, 6).points("hyphenation"), [2]);
    assert_eq!(patterns().minima(0, 0).points("hyphenation"), [2, 6]);
}

#[test]
fn words_have_points() {
    for (word, points, points_in_parts) in [
        ("hyphenation", &[2, 6][..], &[2, 6][..]),
        ("Hyphenation", &[2, 6], &[2, 6]),
        ("HYPHENATION", &[2, 6], &[2, 6]),
        ("(hyphenation),", &[3, 7], &[3, 7]),
        ("“hyphenation”", &[5, 9], &[5, 9]),
        ("hy\u{ad}phenation", &[4, 8], &[4, 8]),
        ("\u{1b}[1mhyphenation\u{1b}[0m", &[6, 10], &[6, 10]),
        ("hyphenation-hyphenation", &[], &[2, 6, 14, 18]),
        ("hyphenation\u{2010}hyphenation", &[], &[2, 6, 16, 20]),
        ("the hyphenation", &[6, 10], &[6, 10]),
        ("hyph", &[], &[]),
        ("-", &[], &[]),
        ("日本", &[], &[]),
        ("", &[], &[]),
    ] {
        assert_eq!(patterns().points(word), points, "{word:?}");
        assert_eq!(patterns().try_points(word).as_deref(), Ok(points), "{word:?}");
        assert_eq!(patterns().in_parts(true).points(word), points_in_parts, "{word:?}");
    }
}

#[test]
fn soft_hyphens_are_the_points_if_asked() {
    for (word, points) in [
        ("hyphena\u{ad}tion", &[9][..]),
        ("h\u{ad}yphenatio\u{ad}n", &[3, 14]),
        ("re-hyphen\u{ad}ation", &[11]),
        ("hyphenation", &[2, 6]),
        ("\u{ad}hyphenation\u{ad}", &[4, 8]),
        ("hyphen\u{ad}\u{1b}[1mation", &[2, 12]),
    ] {
        assert_eq!(patterns().soft_hyphens(true).points(word), points, "{word:?}");
    }
    assert_eq!(soft().split_points("re-hyphen\u{ad}ation"), [3, 11]);
    assert_eq!(patterns().soft_hyphens(true).soft_hyphens(false), patterns());
}

#[test]
fn a_word_may_have_any_number_of_points() {
    let everywhere = Patterns::parse("LEFTHYPHENMIN 1\nRIGHTHYPHENMIN 1\na1a\n").unwrap();
    let word = "a".repeat(1_000);
    assert_eq!(everywhere.points(&word), (1..1_000).collect::<Vec<_>>());
    for options in both(3) {
        let options = options.word_splitter(WordSplitter::Patterns(everywhere.clone()));
        assert_eq!(fill("aaaaa aaaa", options), "aa-\naaa\naa-\naa");
    }
}

#[test]
fn no_word_is_split_within_an_escape_sequence() {
    let link = "a \x1b]8;;x-y\x1b\\b-c\x1b]8;;\x1b\\";
    let at_blanks = Options::new(4)
        .word_separator(WordSeparator::AsciiSpace)
        .wrap_algorithm(WrapAlgorithm::FirstFit);
    let by_a_function = at_blanks.clone().word_separator(WordSeparator::Custom(|line| {
        WordSeparator::AsciiSpace.find_words(line)
    }));
    for options in [at_blanks, by_a_function] {
        for splitter in [WordSplitter::OutsideSequences, whole()] {
            let filled = fill(link, options.clone().word_splitter(splitter));
            assert_eq!(filled, "a \x1b]8;;x-y\x1b\\b-\nc\x1b]8;;\x1b\\");
        }
        let filled = fill(link, options.word_splitter(WordSplitter::HyphenSplitter));
        assert_eq!(filled, "a \x1b]8;;x-\ny\x1b\\b-c\x1b]8;;\x1b\\");
    }
    let long = format!("\x1b]8;;x-y\x1b\\{}", "a-".repeat(10_000));
    let points: Vec<usize> = (0..9_999).map(|k| 12 + 2 * k).collect();
    assert_eq!(WordSplitter::OutsideSequences.split_points(&long), points);
}

#[test]
fn a_splitter_has_the_points_of_the_patterns_and_those_after_hyphens() {
    for (word, points, points_in_parts) in [
        ("hyphenation", &[2, 6][..], &[2, 6][..]),
        ("re-hyphenation", &[3], &[3, 5, 9]),
        ("hyphenation-hyphenation", &[12], &[2, 6, 12, 14, 18]),
        ("--hyphenation", &[], &[4, 8]),
        ("can-be-split", &[4, 7], &[4, 7]),
        ("", &[], &[]),
    ] {
        assert_eq!(whole().split_points(word), points, "{word:?}");
        assert_eq!(in_parts().split_points(word), points_in_parts, "{word:?}");
    }
    // A point of both stands there once.
    let beside = WordSplitter::Patterns(Patterns::parse("a1b\n").unwrap().in_parts(true));
    assert_eq!(beside.split_points("xa-bxxa-bxx"), [3, 8]);
}

#[test]
fn splitters_are_equal_if_their_patterns_are() {
    assert_eq!(whole(), whole());
    assert_eq!(whole(), WordSplitter::Patterns(Patterns::parse(LIST).unwrap()));
    assert_ne!(whole(), in_parts());
    assert_ne!(whole(), soft());
    assert_eq!(soft(), soft());
    assert_ne!(whole(), WordSplitter::Patterns(Patterns::parse("hy3ph\n").unwrap()));
    assert_ne!(whole(), WordSplitter::HyphenSplitter);
    assert_ne!(WordSplitter::NoHyphenation, whole());
}

// ---- Texts

#[test]
fn a_hyphen_is_added_where_a_line_ends_in_a_word() {
    for options in both(11) {
        let lines = wrap("the hyphenation", &options);
        assert_eq!(lines, ["the hyphen-", "ation"]);
        assert!(matches!(lines[..], [Owned(_), Borrowed(_)]), "{lines:?}");
        assert_eq!(wrap("THE HYPHENATION", &options), ["THE HYPHEN-", "ATION"]);
        assert_eq!(fill("the hyphenation", &options), "the hyphen-\nation");
        assert_eq!(fill("a re-hyphenation", &options), "a re-\nhyphenation");
        let parts = options.word_splitter(in_parts());
        assert_eq!(fill("a re-hyphenation", parts), "a re-hy-\nphenation");
    }
}

#[test]
fn a_line_that_ends_in_a_hyphen_costs_its_penalty() {
    for options in both(11) {
        let by = |hyphen_penalty| {
            let penalties = Penalties { hyphen_penalty, ..Penalties::new() };
            options.clone().wrap_algorithm(WrapAlgorithm::OptimalFit(penalties))
        };
        assert_eq!(wrap("the hyphenation", by(0)), ["the hyphen-", "ation"]);
        assert_eq!(wrap("the hyphenation", by(1_000_000)), ["the", "hyphenation"]);
    }
}

#[test]
fn every_call_on_a_text_takes_patterns() {
    for options in both(11) {
        let quote = "> a\n> hyphenation\n";
        assert_eq!(refill(quote, &options), "> a hyphen-\n> ation\n");
        let rows = wrap_columns("the hyphenation", 2, options.clone().width(23), "", "|", "");
        assert_eq!(rows, ["the hyphen-|ation      "]);
        let gaps = Gaps { left: "[", middle: "|", right: "]" };
        let column = Column { options: options.clone(), alignment: Alignment::Right };
        let rows = table(&["the hyphenation"], &[column], &gaps);
        assert_eq!(rows, ["[the hyphen-]", "[      ation]"]);
        let justified = fill_justified("a b hyphenation", options.width(13));
        assert_eq!(justified, "a  b  hyphen-\nation");
    }
    let splitter = whole();
    let pieces: Vec<Word> = split_words([Word::from("hyphenation ")], &splitter).collect();
    assert_eq!(pieces, [
        Word { penalty: "-", ..Word::from("hy") },
        Word { penalty: "-", ..Word::from("phen") },
        Word::from("ation "),
    ]);
}

#[test]
fn lines_that_end_in_a_hyphen_are_justified() {
    for options in both(13) {
        let text = "the hyphenation of a nation";
        let justified = "the   hyphen-\nation   of  a\nnation";
        assert_eq!(fill_justified(text, &options), justified);
        let indented = options.subsequent_indent("> ");
        let justified = "the   hyphen-\n> ation  of a\n> nation";
        assert_eq!(fill_justified(text, indented), justified);
    }
}

#[test]
fn columns_of_a_table_have_patterns_of_their_own() {
    let gaps = Gaps { left: "[", middle: "|", right: "]" };
    let cells = ["the hyphenation", "a nation", "nation", "hyphenation"];
    for options in both(11) {
        let left = Column { options: options.clone(), alignment: Alignment::Left };
        let without = Column {
            options: options.clone().width(7).word_splitter(WordSplitter::HyphenSplitter),
            alignment: Alignment::Right,
        };
        assert_eq!(table(&cells, &[left.clone(), without], &gaps), [
            "[the hyphen-|      a]",
            "[ation      | nation]",
            "[nation     |hyphena]",
            "[           |   tion]",
        ]);
        let narrow = Column { options: options.width(7), alignment: Alignment::Right };
        assert_eq!(table(&cells, &[left, narrow], &gaps), [
            "[the hyphen-|  a na-]",
            "[ation      |   tion]",
            "[nation     |hyphen-]",
            "[           |  ation]",
        ]);
    }
}

#[test]
fn texts_are_balanced_by_patterns() {
    for options in both(11) {
        assert_eq!(balanced_width("the hyphenation", &options), 9);
        assert_eq!(wrap_balanced("the hyphenation", &options), ["the hy-", "phenation"]);
        let indented = options.clone().subsequent_indent("> ");
        let lines = wrap_balanced("the hyphenation", indented);
        assert_eq!(lines, ["the hyphen-", "> ation"]);
        assert!(matches!(lines[..], [Owned(_), Owned(_)]), "{lines:?}");
        let by_least_cost = options.clone().wrap_algorithm(WrapAlgorithm::new_optimal_fit());
        assert_eq!(balanced_width("the hyphenation", by_least_cost), 9);
        let text = "a nation of hyphenation, the non-hyphenation and the hyphenation of a nation";
        let count = |width| wrap(text, options.clone().width(width)).len();
        let width = balanced_width(text, options.clone().width(30));
        assert_eq!(
            wrap_balanced(text, options.clone().width(30)),
            wrap(text, options.clone().width(width))
        );
        assert!(width <= 30 && count(width) == count(30) && count(width - 1) > count(30));
    }
}

/// The patterns know nothing of this word.
#[test]
fn a_line_ends_at_a_soft_hyphen_if_asked() {
    let text = "Silben\u{ad}trennung";
    for options in both(8) {
        assert_eq!(wrap(text, &options), ["Silben\u{ad}tr", "ennung"]);
        let whole = options.clone().break_words(false);
        assert_eq!(wrap(text, whole), [text]);
        let options = options.word_splitter(soft());
        let lines = wrap(text, &options);
        assert_eq!(lines, ["Silben\u{ad}-", "trennung"]);
        assert!(matches!(lines[..], [Owned(_), Borrowed(_)]), "{lines:?}");
        assert_eq!(fill(text, &options), "Silben\u{ad}-\ntrennung");
        assert_eq!(fill("die Silben\u{ad}trennung", options), "die\nSilben\u{ad}-\ntrennung");
    }
}

#[test]
fn an_algorithm_of_the_callers_own_divides_the_pieces() {
    let by_two = WrapAlgorithm::Custom(|words, _| words.chunks(2).collect());
    for options in both(11) {
        let options = options.wrap_algorithm(by_two);
        assert_eq!(wrap("the hyphenation", options), ["the hy-", "phenation"]);
    }
}

#[test]
fn texts_of_many_words_are_split() {
    let text = ["the hyphenation,"; 5_000].join(" ");
    for options in both(11) {
        let lines = wrap(&text, &options);
        assert_eq!(lines.len(), 10_000);
        assert_eq!((&*lines[0], &*lines[9_999]), ("the hyphen-", "ation,"));
        for pair in lines[1..9_999].chunks(2) {
            assert_eq!(pair, ["ation, the", "hyphen-"]);
        }
        assert_eq!(fill(&text, &options), lines.join("\n"));
    }
    let paragraphs = ["the hyphenation"; 1_000].join("\n");
    for options in both(11) {
        assert_eq!(fill(&paragraphs, options), ["the hyphen-\nation"; 1_000].join("\n"));
    }
}

/// Words with points and without, alone and beside one another, and what stands around them.
const PARTS: [&str; 26] = [
    "hyphenation", "hyphenation", "Hyphenation’s", "hyphenation", "nation", "tion", "the", "a",
    "non-hyphenation", "hyphenation\u{2010}nation", "hyph\u{ad}enation", "--", "(", "“", "'", "日本",
    " ", " ", " ", " ", "  ", "\n", "\t", "\u{1b}[1m", "\u{1b}]8;;", "\u{7}",
];

/// A text of up to 20 parts, and another one.
fn text(random: &mut Random) -> String {
    let parts = 0..random.below(21);
    let text: String = parts.map(|_| PARTS[random.below(PARTS.len())]).collect();
    text + &drawn::text(random)
}

/// The lines of `wrap`, with whether each is a text of its own, and what the other calls give.
fn each_call(
    text: &str,
    options: &Options<'_>,
    gaps: &Gaps<'_>,
) -> (Vec<(String, bool)>, [String; 5]) {
    let lines = wrap(text, options)
        .into_iter()
        .map(|line| {
            let is_owned = matches!(line, Owned(_));
            (line.into_owned(), is_owned)
        })
        .collect();
    let column = Column { options: options.clone(), alignment: Alignment::Left };
    let texts = [
        fill(text, options),
        refill(text, options),
        fill_justified(text, options),
        wrap_columns(text, 2, options, gaps.left, gaps.middle, gaps.right).join("\n"),
        table(&[text, "a", text], &[column.clone(), column], gaps).join("\n"),
    ];
    (lines, texts)
}

fn points_whole(word: &str) -> Vec<usize> {
    whole().split_points(word)
}

fn points_in_parts(word: &str) -> Vec<usize> {
    in_parts().split_points(word)
}

fn points_at_soft_hyphens(word: &str) -> Vec<usize> {
    soft().split_points(word)
}

/// The library splits the words of a text itself, or, where a function takes part, one word after another.
/// Words are not broken here: by a function's points, or beside one, hyphens have no room where they are.
#[test]
fn a_function_may_look_up_each_word() {
    let random = &mut Random::new(3);
    let mut is_hyphenated = false;
    for _ in 0..1_000 {
        let (text, plain) = (text(random), drawn::options(random).break_words(false));
        let [left, middle, right] = [(); 3].map(|()| drawn::around(random));
        let gaps = Gaps { left, middle, right };
        let (splitter, function) = match random.below(3) {
            0 => (whole(), WordSplitter::Custom(points_whole)),
            1 => (in_parts(), WordSplitter::Custom(points_in_parts)),
            _ => (soft(), WordSplitter::Custom(points_at_soft_hyphens)),
        };
        for separator in [WordSeparator::UnicodeBreakProperties, WordSeparator::AsciiSpace] {
            let options = plain.clone().word_separator(separator).word_splitter(splitter.clone());
            let expected = each_call(&text, &options, &gaps);
            let by_each = options.clone().word_splitter(function.clone());
            assert_eq!(each_call(&text, &by_each, &gaps), expected, "{text:?} by {options:?}");
            let own = options.clone().word_separator(drawn::own(separator));
            assert_eq!(each_call(&text, &own, &gaps), expected, "{text:?} by {options:?}");
            let unhyphenated = options.word_splitter(WordSplitter::HyphenSplitter);
            is_hyphenated |= each_call(&text, &unhyphenated, &gaps) != expected;
        }
    }
    assert!(is_hyphenated, "no text was hyphenated");
}
