//! Functions of a caller that both libraries are given. Those that have words in their types are
//! written once, and made for each library's own.

/// Makes a module of such functions for the words of a library.
macro_rules! functions_of {
    ($(#[$comment:meta])* $module:ident, $library:ident) => {
        $(#[$comment])*
        pub mod $module {
            use $library::core::Word;

            /// Words that end after each slash and each blank. So of several blanks each but the
            /// first is a word without text.
            pub fn after_slashes(line: &str) -> Box<dyn Iterator<Item = Word<'_>> + '_> {
                Box::new(line.split_inclusive(['/', ' ']).map(Word::from))
            }

            /// Lines of two words each, but no more than twenty: further words are lost. No words
            /// are no line.
            pub fn in_pairs<'a, 'b>(words: &'b [Word<'a>], _: &[usize]) -> Vec<&'b [Word<'a>]> {
                words.chunks(2).take(20).collect()
            }

            /// Lines of one word, or of two if these fit the line.
            pub fn two_that_fit<'a, 'b>(
                words: &'b [Word<'a>],
                line_widths: &[usize],
            ) -> Vec<&'b [Word<'a>]> {
                let mut lines = Vec::new();
                let mut rest = words;
                while let [first, later @ ..] = rest {
                    let width = line_widths[lines.len().min(line_widths.len() - 1)];
                    let fits = later.first().is_some_and(|second| {
                        let before = first.width + first.whitespace.len();
                        before + second.width + second.penalty.len() <= width
                    });
                    let (line, after) = rest.split_at(if fits { 2 } else { 1 });
                    lines.push(line);
                    rest = after;
                }
                lines
            }
        }
    };
}

functions_of!(
    /// For the proved library.
    here,
    textwrap_proved
);
functions_of!(
    /// For the original.
    there,
    textwrap
);

/// The points after each `super` in a word, but not at its end.
pub fn after_super(word: &str) -> Vec<usize> {
    let ends = word.match_indices("super").map(|(at, found)| at + found.len());
    ends.filter(|&end| end < word.len()).collect()
}

/// The points after each three characters of a word, but not at its end.
pub fn each_three(word: &str) -> Vec<usize> {
    word.char_indices().step_by(3).skip(1).map(|(at, _)| at).collect()
}
