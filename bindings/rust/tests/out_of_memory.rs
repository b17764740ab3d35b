//! What the calls say where memory runs out. A test of an abort runs this program anew, for that test
//! alone.
use std::process::{Command, Output};
use textwrap_proved::display::{align, fallible, Alignment};
use textwrap_proved::{wrap_columns, Options, OutOfMemory, WordSplitter};

/// More than the addresses of a process can have.
const TOO_MUCH: usize = 1 << 47;

/// Is set for the program that runs one test.
const IS_ALONE: &str = "TEXTWRAP_TEST_OUT_OF_MEMORY";

fn is_alone() -> bool {
    std::env::var_os(IS_ALONE).is_some()
}

/// This program, run by what the variable TEXTWRAP_RUNNER names, if the system runs no programs of its target
/// by itself.
fn this_program() -> Command {
    let program = std::env::current_exe().unwrap();
    let runner = std::env::var("TEXTWRAP_RUNNER").unwrap_or_default();
    let mut words = runner.split_whitespace();
    let Some(first) = words.next() else { return Command::new(program) };
    let mut command = Command::new(first);
    command.args(words).arg(program);
    command
}

/// The size in the message of the abort that ends this test, which is run alone.
fn size_told(test: &str) -> usize {
    let output: Output = this_program()
        .args(["--exact", test, "--nocapture"])
        .env(IS_ALONE, "")
        .output()
        .unwrap();
    assert!(!output.status.success(), "the program has not ended early");
    let message = String::from_utf8_lossy(&output.stderr);
    let size = message
        .split_once("memory allocation of ")
        .and_then(|(_, rest)| rest.split_once(" bytes failed"))
        .and_then(|(size, _)| size.parse().ok());
    size.unwrap_or_else(|| panic!("no size in {message:?}"))
}

/// What is told of a size that was refused to the library: nothing, if that has a heap of its own.
fn told(size: usize) -> Option<usize> {
    Some(size).filter(|_| !cfg!(library_has_heap))
}

/// Options by which the library gets lines, and no text.
fn by_a_function(width: usize) -> Options<'static> {
    Options::new(width).word_splitter(WordSplitter::Custom(|_| vec![]))
}

#[test]
fn an_abort_names_the_size_that_was_asked_for_rows() {
    if is_alone() {
        wrap_columns("foo", 1, by_a_function(TOO_MUCH), "", "", "");
        return;
    }
    let size = size_told("an_abort_names_the_size_that_was_asked_for_rows");
    assert_eq!(size, told(TOO_MUCH).unwrap_or(0));
}

#[test]
fn an_abort_names_the_size_that_was_asked_for_a_line() {
    if is_alone() {
        align("foo", TOO_MUCH, Alignment::Right);
        return;
    }
    let size = size_told("an_abort_names_the_size_that_was_asked_for_a_line");
    assert_eq!(size, told(TOO_MUCH).unwrap_or(0));
}

#[test]
#[cfg(not(library_has_heap))]
#[should_panic(expected = "out of memory: more than 9223372036854775807 bytes were asked for")]
fn rows_whose_size_no_allocation_can_have_panic() {
    wrap_columns("foo", 1, by_a_function(usize::MAX), "", "", "");
}

#[test]
#[cfg(not(library_has_heap))]
#[should_panic(expected = "out of memory: more than 9223372036854775807 bytes were asked for")]
fn a_line_whose_size_no_allocation_can_have_panics() {
    align("foo", usize::MAX, Alignment::Right);
}

#[test]
fn errors_name_their_size_and_are_equal() {
    let refused = fallible::align("foo", TOO_MUCH, Alignment::Right).unwrap_err();
    assert_eq!(refused.size(), told(TOO_MUCH));
    assert_eq!(refused, OutOfMemory::default());
    assert_eq!(refused, OutOfMemory::of_size(1));
    assert!(matches!(fallible::align("foo", TOO_MUCH, Alignment::Left), Err(OutOfMemory { .. })));
    let error = OutOfMemory::of_size(4096);
    assert_eq!(error.to_string(), "out of memory: 4096 bytes were asked for");
    assert_eq!(OutOfMemory::default().to_string(), "out of memory");
}
