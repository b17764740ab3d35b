//! The program, over its arguments, a library and two writers.
use crate::answers::Library;
use crate::arguments::arguments;
use crate::soak::{soak, Outcome};
use std::io;
use std::io::Write;

/// What the program says where its arguments mean no request.
const USAGE: &str = "usage: textwrap_soak SEED ROUNDS";

/// What it says where the counts cannot be written.
const NOT_WRITTEN: &str = "textwrap_soak: cannot write output";

/// Runs the program and returns the status that it ends with: 0 if all promises are kept and the
/// output is written, 1 if one is broken or after a fault, and 2 if the words after the program's
/// name mean no request. Unless the status is 0, `messages` says why.
pub fn execute(
    words: &[String],
    library: &impl Library,
    output: &mut impl Write,
    messages: &mut impl Write,
) -> u8 {
    let Some(request) = arguments(words) else {
        return complain(messages, USAGE, 2);
    };
    match soak(library, request) {
        Outcome::Kept(report) => match write_line(output, &report) {
            Ok(()) => 0,
            Err(_) => complain(messages, NOT_WRITTEN, 1),
        },
        Outcome::Broken(report) => complain(messages, &report, 1),
    }
}

/// Writes a message, and returns the status. Where even that fails, the status alone shows why the
/// program ended.
fn complain(messages: &mut impl Write, message: &str, status: u8) -> u8 {
    let _written = write_line(messages, message);
    status
}

/// Writes a line and its line feed.
fn write_line(writer: &mut impl Write, line: &str) -> io::Result<()> {
    writeln!(writer, "{line}")?;
    writer.flush()
}
