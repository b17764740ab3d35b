//! What a reader of a text sees: each visible character, with the styles and the link that it has.
//! Of the texts that are read each escape sequence is whole: they are of the alphabets that cut
//! none. A style is an attribute with its value, as a terminal keeps it (SGR of ECMA-48), so that
//! other sequences which come to the same are the same.
use std::collections::BTreeMap;

/// An escape sequence.
enum Sequence<'t> {
    /// What stands between ESC `]` and its end.
    Command(&'t str),
    /// What stands between ESC `[` and `m`.
    Styles(&'t str),
    /// ESC and another character.
    Other,
}

/// The sequence whose ESC stands before this part, which goes up to the next ESC, and the rest of
/// the part. What ends a command may be a sequence of its own: ESC and `\`.
fn split_sequence(part: &str) -> (Sequence<'_>, &str) {
    if let Some(command) = part.strip_prefix(']') {
        let (command, rest) = command.split_once('\x07').unwrap_or((command, ""));
        return (Sequence::Command(command), rest);
    }
    if let Some(control) = part.strip_prefix('[') {
        let (parameters, rest) = control.split_once('m').unwrap_or((control, ""));
        return (Sequence::Styles(parameters), rest);
    }
    let mut rest = part.chars();
    let _kind = rest.next();
    (Sequence::Other, rest.as_str())
}

/// The characters of a text that stand in no sequence.
pub fn visible(text: &str) -> String {
    let mut parts = text.split('\x1b');
    let before = parts.next().unwrap_or("");
    let mut visible = String::from(before);
    visible.extend(parts.map(|part| split_sequence(part).1));
    visible
}

/// A reader of texts.
#[derive(Debug, Default)]
pub struct Reader {
    /// The attributes that are set, each with the parameters that set it.
    styles: BTreeMap<u32, String>,
    /// The target of the link, or nothing.
    link: String,
    /// The visible characters that were read, and after each the styles and the link it has,
    /// between two ESC.
    pub shown: String,
}

impl Reader {
    /// A reader to whom nothing is open.
    pub fn new() -> Self {
        Reader::default()
    }

    /// Whether no style and no link is open.
    pub fn is_plain(&self) -> bool {
        self.styles.is_empty() && self.link.is_empty()
    }

    /// Reads a text on from what is open.
    pub fn read(&mut self, text: &str) {
        for (number, part) in text.split('\x1b').enumerate() {
            let visible = if number > 0 { self.take(part) } else { part };
            self.show(visible);
        }
    }

    /// Shows characters that stand in no sequence.
    pub fn show(&mut self, visible: &str) {
        for ch in visible.chars() {
            self.shown.push(ch);
            self.shown.push('\x1b');
            self.shown.extend(self.styles.values().map(String::as_str));
            self.shown.extend([&self.link, "\x1b"]);
        }
    }

    /// Takes the sequence whose ESC stands before this part, and returns the rest of the part.
    fn take<'p>(&mut self, part: &'p str) -> &'p str {
        let (sequence, rest) = split_sequence(part);
        match sequence {
            Sequence::Command(command) => self.take_command(command),
            Sequence::Styles(parameters) => self.take_styles(parameters),
            Sequence::Other => {}
        }
        rest
    }

    /// Takes the parameters of styles: the number 0, or none, takes all styles back. A colour of
    /// several numbers is taken as one.
    fn take_styles(&mut self, parameters: &str) {
        let mut rest = parameters;
        loop {
            let (first, later) = rest.split_once(';').unwrap_or((rest, ""));
            let number = first.split(':').next().unwrap_or("").parse().unwrap_or(0);
            if matches!(number, 38 | 48 | 58) {
                self.styles.insert(attribute(number), format!("{rest}m"));
                return;
            }
            match number {
                0 => self.styles.clear(),
                22..=25 | 27..=29 | 39 | 49 | 54 | 55 | 59 => {
                    self.styles.remove(&attribute(number));
                }
                _ => {
                    self.styles.insert(attribute(number), format!("{first}m"));
                }
            }
            if rest.len() == first.len() {
                return;
            }
            rest = later;
        }
    }

    /// Takes a command. One with the number 8, parameters and a target sets a link, and one without
    /// a target ends it.
    fn take_command(&mut self, command: &str) {
        let Some(fields) = command.strip_prefix("8;") else {
            return;
        };
        let Some((_, target)) = fields.split_once(';') else {
            return;
        };
        self.link.clear();
        self.link.push_str(target);
    }
}

/// The number that takes back the attribute which this one sets, or this one where none does.
fn attribute(number: u32) -> u32 {
    match number {
        1 | 2 => 22,
        3 | 20 => 23,
        4 | 21 => 24,
        5 | 6 => 25,
        7..=9 => number + 20,
        30..=38 | 90..=97 => 39,
        40..=48 | 100..=107 => 49,
        51 | 52 => 54,
        53 => 55,
        58 => 59,
        _ => number,
    }
}
