//! The promises of reflowing texts of many paragraphs, by the program `reflow`.
use super::Finding;
use crate::cases::layouts::{Layout, Layouts};
use crate::cases::Case;
use std::env;
use std::io::{Error, ErrorKind, Result, Write};
use std::path::{Path, PathBuf};
use std::process::{Command, Stdio};

/// The program `reflow`.
#[derive(Clone, Debug)]
pub struct Reflow {
    path: PathBuf,
}

impl Reflow {
    /// The program at this path.
    pub fn at(path: PathBuf) -> Self {
        Reflow { path }
    }

    /// The program that the variable TEXTWRAP_REFLOW names, or else the one that is built in the
    /// repository, if it is.
    pub fn find() -> Option<Self> {
        if let Some(path) = env::var_os("TEXTWRAP_REFLOW") {
            return Some(Reflow::at(path.into()));
        }
        let built = Path::new(env!("CARGO_MANIFEST_DIR")).join("../../crates/reflow/out/reflow");
        built.is_file().then(|| Reflow::at(built))
    }

    /// The text, reflowed by these options.
    ///
    /// # Errors
    /// That of the system, or that the program did not end well or wrote what is not UTF-8.
    pub fn reflow(&self, text: &str, layout: &Layout) -> Result<String> {
        let mut child = Command::new(&self.path)
            .args(layout.arguments())
            .stdin(Stdio::piped())
            .stdout(Stdio::piped())
            // That no line has the marks of a prefix is said there, and is no fault.
            .stderr(Stdio::null())
            .spawn()?;
        // It reads all of its input before it writes. The pipe is closed at the end of this line.
        let fed = child.stdin.take().map_or(Ok(()), |mut input| input.write_all(text.as_bytes()));
        let output = child.wait_with_output()?;
        fed?;
        if !output.status.success() {
            return Err(Error::other(output.status.to_string()));
        }
        String::from_utf8(output.stdout).map_err(|error| Error::new(ErrorKind::InvalidData, error))
    }
}

/// What the program makes of a case's paragraphs.
#[derive(Clone, Debug)]
pub struct Reflows {
    /// The text, reflowed by the first options.
    pub reflowed: String,
    /// That text, reflowed by the first options.
    pub again: String,
    /// The text, reflowed by the other options.
    pub once: String,
    /// The text that was reflowed by the first options, reflowed by the other options.
    pub twice: String,
    /// The text, reflowed by the first options with all paragraphs filled, deeper ones too.
    pub filled: String,
}

impl Reflows {
    /// Asks the program.
    ///
    /// # Errors
    /// Those of [`Reflow::reflow`].
    pub fn of_case(case: &Case, program: &Reflow) -> Result<Self> {
        let text = &case.paragraphs;
        let Layouts { first, other } = &case.layouts;
        let reflowed = program.reflow(text, first)?;
        Ok(Reflows {
            again: program.reflow(&reflowed, first)?,
            once: program.reflow(text, other)?,
            twice: program.reflow(&reflowed, other)?,
            filled: program.reflow(text, &first.filling_all())?,
            reflowed,
        })
    }
}

/// Checks that reflowing a reflowed text by the same options changes nothing.
pub fn check_stays(found: &Reflows) -> Finding {
    Finding::of(found.again == found.reflowed)
}

/// Checks that reflowing a reflowed text by other options is reflowing the text once by these.
pub fn check_once(found: &Reflows) -> Finding {
    Finding::of(found.twice == found.once)
}

/// Checks that the words of the text are kept, and the lines without a letter or digit: where all
/// paragraphs are filled, and where some may stay as they are.
pub fn check_words(case: &Case, found: &Reflows) -> Finding {
    let words = words_of(&case.paragraphs);
    let are_kept = words_of(&found.filled) == words;
    let stay = words_of(&found.reflowed) == words;
    Finding::of(are_kept && stay)
}

/// What stands between white, but for the words without a letter or digit that a line begins with;
/// and of a line without any other there a line feed, which is in no word, and the line. So nothing
/// has to be known of marks, prefixes and paragraphs.
fn words_of(text: &str) -> Vec<&str> {
    let mut words = Vec::new();
    for line in text.split('\n') {
        let line = line.trim_end_matches('\r');
        let has_letter = |word: &&str| word.chars().any(char::is_alphanumeric);
        let mut rest = line.split([' ', '\t']).filter(|word| !word.is_empty()).skip_while(|word| !has_letter(word)).peekable();
        if rest.peek().is_none() {
            words.extend(["\n", line]);
        }
        words.extend(rest);
    }
    words
}
