//! Each call of `fallible`, with each of its allocations refused in turn, those of the library too: it
//! has to return that memory ran out, and to leave nothing allocated. One that aborts ends the test. A
//! library that has a heap of its own is tested so in C.
use std::alloc::{GlobalAlloc, Layout, System};
use std::cell::Cell;
use std::fmt::Debug;
use std::ptr::null_mut;
use textwrap_proved::breaks::{try_line_breaks, Numbers};
use textwrap_proved::core::{break_words, strip_ansi_escape_sequences, Word};
use textwrap_proved::display::{self, Alignment, Column, Gaps, Shortening};
use textwrap_proved::hyphens::Patterns;
use textwrap_proved::reflow::ReflowOptions;
use textwrap_proved::word_separators::find_words_at;
use textwrap_proved::word_splitters::split_words;
use textwrap_proved::wrap_algorithms::{wrap_first_fit, wrap_optimal_fit, Penalties};
use textwrap_proved::{fallible, Options, OutOfMemory, WordSeparator, WordSplitter, WrapAlgorithm};

/// The heap of the system, but that it refuses an allocation where it is told to, and counts.
struct Refusing;

thread_local! {
    /// How many allocations of this thread are left before the one that is refused, if any is.
    static LEFT: Cell<Option<usize>> = const { Cell::new(None) };

    /// The bytes that this thread has allocated and not freed.
    static LIVE: Cell<usize> = const { Cell::new(0) };
}

/// Notes that a block of so many bytes came in the place of one of so many, unless it is null.
fn counted(block: *mut u8, freed: usize, allocated: usize) -> *mut u8 {
    if !block.is_null() {
        // What a thread frees another one may have allocated.
        LIVE.set(LIVE.get().wrapping_sub(freed).wrapping_add(allocated));
    }
    block
}

/// Whether this allocation is refused. If it is, none after it is.
fn is_refused() -> bool {
    let left = LEFT.get();
    LEFT.set(left.and_then(|left| left.checked_sub(1)));
    left == Some(0)
}

// SAFETY: what is not refused is passed on.
unsafe impl GlobalAlloc for Refusing {
    unsafe fn alloc(&self, layout: Layout) -> *mut u8 {
        // SAFETY: as for this function.
        let block = if is_refused() { null_mut() } else { unsafe { System.alloc(layout) } };
        counted(block, 0, layout.size())
    }

    unsafe fn dealloc(&self, block: *mut u8, layout: Layout) {
        // SAFETY: as for this function.
        unsafe { System.dealloc(counted(block, layout.size(), 0), layout) }
    }

    unsafe fn realloc(&self, block: *mut u8, layout: Layout, size: usize) -> *mut u8 {
        // SAFETY: as for this function.
        let longer =
            if is_refused() { null_mut() } else { unsafe { System.realloc(block, layout, size) } };
        counted(longer, layout.size(), size)
    }
}

#[global_allocator]
static HEAP: Refusing = Refusing;

/// Whether this says that memory ran out, and what size was refused.
fn is_refusal<T>(answer: &Result<T, OutOfMemory>) -> bool {
    answer.as_ref().is_err_and(|refused| refused.size().is_some_and(|size| size > 0))
}

/// Refuses the first allocation of a call, then the second, until it makes none that is refused. A
/// guess at the room may be refused without harm: then the call asks for what it needs.
fn refuse_each<T, F>(name: &str, call: F)
where
    T: PartialEq + Debug,
    F: Fn() -> Result<T, OutOfMemory>,
{
    let expected = call();
    assert!(expected.is_ok(), "{name}");
    let live = LIVE.get();
    for refused in 0.. {
        LEFT.set(Some(refused));
        let answer = call();
        let is_done = LEFT.take().is_some();
        assert!(answer == expected || (!is_done && is_refusal(&answer)), "{name}: {answer:?}");
        drop(answer);
        assert_eq!(LIVE.get(), live, "{name} leaves bytes allocated");
        if is_done {
            break;
        }
    }
}

const TEXT: &str = "To be, or not to-be: that is\n\nthe 日本語 question";

/// Options of each kind that the crate tells apart: of the last two a function splits no word.
fn each_options() -> [Options<'static>; 6] {
    let options = Options::new(9).initial_indent("* ").subsequent_indent("  ");
    let whole = options.clone().word_splitter(WordSplitter::Custom(|_| Vec::new()));
    [
        Options::new(9).word_separator(WordSeparator::UnicodeBreakProperties),
        options.clone().word_separator(WordSeparator::UnicodeBreakProperties),
        Options::new(9).word_separator(WordSeparator::AsciiSpace),
        options.word_separator(WordSeparator::AsciiSpace),
        whole.clone().word_separator(WordSeparator::UnicodeBreakProperties),
        whole.word_separator(WordSeparator::AsciiSpace),
    ]
}

#[test]
fn calls_on_texts() {
    for options in each_options() {
        refuse_each("fill", || fallible::fill(TEXT, &options));
        refuse_each("wrap", || fallible::wrap(TEXT, &options));
        refuse_each("refill", || fallible::refill("> foo bar\n> baz\n", &options));
        refuse_each("wrap_columns", || fallible::wrap_columns(TEXT, 2, &options, "[", "│", "]"));
    }
    refuse_each("unfill", || fallible::unfill("> foo\n> bar\n").map(|(text, _)| text));
    let quote = "! foo bar\n! baz\n\n> foo\n";
    let options = ReflowOptions::new(8).markers(&["!"]).prefixes(&["!", ">"]).justify(true);
    refuse_each("reflow", || fallible::reflow(quote, options));
    refuse_each("indent", || fallible::indent("foo\nbar", "> "));
    refuse_each("dedent", || fallible::dedent("  foo\n  bar"));
    refuse_each("fill_inplace", || {
        let left = LEFT.take();
        let mut text = String::from("foo bar");
        LEFT.set(left);
        let answer = fallible::fill_inplace(&mut text, 5);
        assert!(answer.is_ok() || text == "foo bar", "{text:?}");
        answer.map(|()| text)
    });
    refuse_each("try_line_breaks", || try_line_breaks(TEXT, Numbers::ByPairs));
}

#[test]
fn calls_for_display() {
    refuse_each("align", || display::fallible::align("foo", 9, Alignment::Right));
    refuse_each("justify", || display::fallible::justify("a few words", 14));
    refuse_each("expand_tabs", || display::fallible::expand_tabs("a\tb", 8));
    refuse_each("strip_other_sequences", || {
        display::fallible::strip_other_sequences("a\u{1b}(Bb")
    });
    refuse_each("shorten", || display::fallible::shorten("foo bar", 5, ".."));
    refuse_each("shorten_lines", || display::fallible::shorten_lines(&["foo", "bar"], 1, 5, ".."));
    let shortening = Shortening::new(5, "..").break_words(true);
    refuse_each("shorten_by", || display::fallible::shorten_by("\u{1b}[1mfoobar", &shortening));
    refuse_each("shorten_lines_by", || {
        display::fallible::shorten_lines_by(&["foobar", "bar"], 1, &shortening)
    });
    refuse_each("carry_styles", || display::fallible::carry_styles(&["\u{1b}[1mfoo", "bar"], 5));
    refuse_each("carry_attributes", || {
        display::fallible::carry_attributes(&["\u{1b}[1;31;99mfoo", "bar"], 5)
    });
    refuse_each("fitting_widths", || {
        display::fallible::fitting_widths(&[TEXT, "foo", "bar"], 2, 9)
    });
    for options in &each_options()[..4] {
        refuse_each("wrap_balanced", || display::fallible::wrap_balanced(TEXT, options));
        refuse_each("balanced_width", || display::fallible::balanced_width(TEXT, options));
    }
    let gaps = Gaps { left: "[", middle: "│", right: "]" };
    for options in each_options() {
        refuse_each("fill_justified", || display::fallible::fill_justified(TEXT, &options));
        let columns = [Alignment::Left, Alignment::Right]
            .map(|alignment| Column { options: options.clone(), alignment });
        refuse_each("table", || display::fallible::table(&[TEXT, "foo", "bar"], &columns, &gaps));
    }
}

#[test]
fn calls_by_patterns() {
    let text = "LEFTHYPHENMIN 1\nRIGHTHYPHENMIN 1\nto-be\n1st\nu1e\n";
    refuse_each("try_parse", || Patterns::try_parse(text));
    refuse_each("try_parse of wrong ones", || Patterns::try_parse("1st\nu/e\n"));
    let patterns = Patterns::parse(text).unwrap();
    let numbers = patterns.as_numbers();
    refuse_each("try_from_numbers", || Patterns::try_from_numbers(numbers));
    refuse_each("try_from_numbers of damaged ones", || Patterns::try_from_numbers(&numbers[1..]));
    refuse_each("try_points", || patterns.try_points("question"));
    let gaps = Gaps { left: "[", middle: "│", right: "]" };
    for (options, is_set) in each_options()[..4].iter().zip([false, true].into_iter().cycle()) {
        let patterns = patterns.clone().in_parts(is_set).soft_hyphens(is_set);
        let splitter = WordSplitter::Patterns(patterns);
        let options = options.clone().word_splitter(splitter);
        refuse_each("fill", || fallible::fill(TEXT, &options));
        refuse_each("wrap", || fallible::wrap(TEXT, &options));
        refuse_each("refill", || fallible::refill("> foo bar\n> question\n", &options));
        refuse_each("wrap_columns", || fallible::wrap_columns(TEXT, 2, &options, "[", "│", "]"));
        refuse_each("fill_justified", || display::fallible::fill_justified(TEXT, &options));
        refuse_each("wrap_balanced", || display::fallible::wrap_balanced(TEXT, &options));
        refuse_each("balanced_width", || display::fallible::balanced_width(TEXT, &options));
        let columns = [Column { options, alignment: Alignment::Right }];
        refuse_each("table", || display::fallible::table(&[TEXT, "foo"], &columns, &gaps));
    }
}

/// The calls that return no error if memory runs out.
fn calls_on_words_and_fragments() {
    let words: Vec<Word<'_>> = WordSeparator::AsciiSpace.find_words(TEXT).collect();
    let at_breaks = WordSeparator::UnicodeBreakProperties.find_words(TEXT);
    let pieces = split_words(at_breaks, &WordSplitter::HyphenSplitter);
    assert!(break_words(pieces, 2).len() > words.len());
    assert_eq!(find_words_at("foo bar", &[4]).unwrap().len(), 2);
    assert!(find_words_at("foo bar", &[9]).is_err());
    assert_eq!(strip_ansi_escape_sequences("\u{1b}[1mfoo"), "foo");
    for line_widths in [[9.0], [0.0]] {
        assert!(wrap_first_fit(&words, &line_widths).len() > 1);
        assert!(wrap_optimal_fit(&words, &line_widths, &Penalties::new()).unwrap().len() > 1);
    }
    assert!(wrap_optimal_fit(&words, &[0.5], &Penalties::new()).is_err());
    for algorithm in [WrapAlgorithm::FirstFit, WrapAlgorithm::new_optimal_fit()] {
        assert!(algorithm.wrap(&words, &[9]).len() > 1);
    }
}

#[test]
fn after_a_thousand_calls_no_more_is_allocated() {
    calls_on_words_and_fragments();
    let live = LIVE.get();
    for _ in 0..1_000 {
        calls_on_words_and_fragments();
    }
    assert_eq!(LIVE.get(), live);
}
