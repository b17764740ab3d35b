//! Faults that are planted in the sources of the Rust binding: each is an edit of one file, and the
//! comparison has to notice it. The old text has to stand there exactly once.
//!
//! Faults in what finds the line breaks have no place here: breaks are given to the original, or are
//! counted where it has others. Nor have those in the module `wrap_algorithms`, which no call on a text
//! goes through; its examples are tests.

/// A wrong line in place of a right one.
pub struct Edit {
    /// What is wrong then.
    pub name: &'static str,
    /// The file, from the folder of the binding.
    pub file: &'static str,
    /// What stands in it.
    pub old: &'static str,
    /// What comes in its place.
    pub new: &'static str,
}

/// The edits, by file.
pub const EDITS: &[Edit] = &[
    Edit {
        name: "the separator is ignored where nothing else is a function",
        file: "src/options.rs",
        old: "|| matches!(self.word_separator, WordSeparator::Custom(_))",
        new: "",
    },
    Edit {
        name: "words stand between blanks, also where Unicode line breaks are asked for",
        file: "src/options.rs",
        old: "unicode_breaks: (self.word_separator == WordSeparator::UnicodeBreakProperties).into(),",
        new: "unicode_breaks: 0,",
    },
    Edit {
        name: "CRLF is taken for LF",
        file: "src/options.rs",
        old: "crlf: (self.line_ending == LineEnding::CRLF).into(),",
        new: "crlf: 0,",
    },
    Edit {
        name: "blanks at line ends are dropped",
        file: "src/options.rs",
        old: "preserve_trailing_space: self.preserve_trailing_space.into(),",
        new: "preserve_trailing_space: 0,",
    },
    Edit {
        name: "even paragraphs are forgotten",
        file: "src/options.rs",
        old: "even_paragraphs: self.even_paragraphs.into(),",
        new: "even_paragraphs: 0,",
    },
    Edit {
        name: "the later indent is the first one",
        file: "src/options.rs",
        old: "subsequent_indent: self.subsequent_indent.into(),",
        new: "subsequent_indent: self.initial_indent.into(),",
    },
    Edit {
        name: "a line stands before the first paragraph",
        file: "src/custom.rs",
        old: "let mut is_later = false;",
        new: "let mut is_later = true;",
    },
    Edit {
        name: "the points of a word are taken for those of its paragraph",
        file: "src/custom.rs",
        old: "points.extend(inside.iter().map(|point| start + point));",
        new: "points.extend(inside.iter().map(|point| start.min(1) + point));",
    },
    Edit {
        name: "a function of the caller is given the first width for all lines",
        file: "src/custom.rs",
        old: "&[widths.first, widths.later]",
        new: "&[widths.first, widths.first]",
    },
    Edit {
        name: "the first two words at blanks are one",
        file: "src/word_separators.rs",
        old: "cuts.extend(places.iter().skip(1)",
        new: "cuts.extend(places.iter().skip(2)",
    },
    Edit {
        name: "words with one hyphen are not split",
        file: "src/word_splitters.rs",
        old: "if hyphens == 0 {",
        new: "if hyphens < 2 {",
    },
    Edit {
        name: "a splitter gets a word without the tab at its end",
        file: "src/word_splitters.rs",
        old: "let mut points = self.points_of(word)?;",
        new: "let mut points = self.points_of(word.trim_end())?;",
    },
    Edit {
        name: "the fourth point of a word is lost",
        file: "src/word_splitters.rs",
        old: "points.dedup();\n            points.retain",
        new: "points.truncate(3);\n            points.retain",
    },
    Edit {
        name: "an empty line is a text of its own",
        file: "src/room.rs",
        old: "LineText::Borrowed(text) => Ok(Cow::Borrowed(text)),",
        new: "LineText::Borrowed(\"\") => Ok(Cow::Owned(String::new())),\n            \
              LineText::Borrowed(text) => Ok(Cow::Borrowed(text)),",
    },
    Edit {
        name: "rows past 1,000 are lost",
        file: "src/room.rs",
        old: "    Ok(made)",
        new: "    made.truncate(1_000);\n    Ok(made)",
    },
];
