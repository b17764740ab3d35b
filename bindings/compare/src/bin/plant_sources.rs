//! Builds the Rust binding with one wrong line after another, and runs the comparison with each:
//!
//!     plant_sources BINDING BUILD.. -- COMPARE..
//!
//! BINDING is a copy of its folder, in which files are changed and put back. BUILD is the command
//! that builds the comparison with it, and COMPARE the one that runs it. It ends with status 1 if
//! the comparison finds the binding as it is wrong, or does not notice a fault.
#[path = "../edits.rs"]
mod edits;

use edits::{Edit, EDITS};
use std::error::Error;
use std::fs;
use std::path::{Path, PathBuf};
use std::process::{Command, ExitCode, Stdio};

type Outcome<T> = Result<T, Box<dyn Error>>;

/// A command with its arguments.
type Words<'w> = &'w [String];

/// A file that an edit changes, as it was and as it is then.
struct Change {
    path: PathBuf,
    before: String,
    after: String,
}

impl Change {
    /// What the edit does, or an error unless its old text stands in the file exactly once.
    fn of(edit: &Edit, binding: &Path) -> Outcome<Change> {
        let path = binding.join(edit.file);
        let before = fs::read_to_string(&path).map_err(|error| format!("{}: {error}", edit.file))?;
        match before.matches(edit.old).count() {
            1 => Ok(Change { path, after: before.replace(edit.old, edit.new), before }),
            count => {
                let Edit { name, file, old, .. } = edit;
                Err(format!("{name}: {file} has this {count} times, and not once: {old}").into())
            }
        }
    }
}

fn command(words: Words<'_>) -> Outcome<Command> {
    let (program, arguments) = words.split_first().ok_or("a command is missing")?;
    let mut command = Command::new(program);
    command.args(arguments);
    Ok(command)
}

/// Builds the comparison and runs it. Whether it finds a difference, and what it says last.
fn finds_difference(build: Words<'_>, compare: Words<'_>) -> Outcome<(bool, String)> {
    if !command(build)?.status()?.success() {
        return Err("the binding cannot be built".into());
    }
    let output = command(compare)?.stderr(Stdio::inherit()).output()?;
    let lines = String::from_utf8_lossy(&output.stdout);
    let last = lines.lines().rfind(|line| line.contains("not explained")).unwrap_or("it ended early");
    Ok((!output.status.success(), last.into()))
}

/// Plants each fault. Returns how many are not noticed.
fn plant(binding: &Path, build: Words<'_>, compare: Words<'_>) -> Outcome<usize> {
    let changes = EDITS.iter().map(|edit| Ok((edit, Change::of(edit, binding)?)));
    let changes = changes.collect::<Outcome<Vec<_>>>()?;
    if let (true, last) = finds_difference(build, compare)? {
        return Err(format!("the binding as it is: {last}").into());
    }
    let mut missed = 0;
    for (edit, change) in changes {
        fs::write(&change.path, &change.after)?;
        let found = finds_difference(build, compare);
        fs::write(&change.path, &change.before)?;
        let (is_noticed, last) = found.map_err(|error| format!("{}: {error}", edit.name))?;
        let verdict = if is_noticed { "noticed" } else { "NOT NOTICED" };
        println!("{:24}{}: {verdict} ({last})", edit.file, edit.name);
        missed += usize::from(!is_noticed);
    }
    println!("{} faults planted in sources, {missed} not noticed", EDITS.len());
    Ok(missed)
}

fn run(words: Words<'_>) -> Outcome<usize> {
    let (binding, commands) = words.split_first().ok_or("the folder of the binding is missing")?;
    let parts: Vec<Words<'_>> = commands.splitn(2, |word| word == "--").collect();
    let &[build, compare] = &parts[..] else { return Err("`--` is missing".into()) };
    plant(Path::new(binding), build, compare)
}

fn main() -> ExitCode {
    let words: Vec<String> = std::env::args().skip(1).collect();
    match run(&words) {
        Ok(missed) => ExitCode::from(u8::from(missed > 0)),
        Err(error) => {
            eprintln!("plant_sources: {error}");
            ExitCode::from(2)
        }
    }
}
