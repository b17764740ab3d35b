//! The original, with some of the documented differences put right. Whatever is not mended is asked
//! of the original as any user would ask it.
use crate::answer::{placed, Answer, Ending, Line, Place, Unfilled};
use crate::breaks;
use crate::causes::{Mend, Mends};
use crate::choices::{Algorithm, Separator};
use crate::division::{self, Rule};
use crate::drawn::{Drawn, Gaps};
use crate::least_cost::Ties;
use crate::rows::Table;
use std::borrow::Cow;
use textwrap::{Options, WordSeparator};

/// The original for what was drawn, with these mends.
pub struct Original<'d> {
    drawn: &'d Drawn,
    mends: Mends,
    ties: Ties,
}

impl<'d> Original<'d> {
    /// The original with these mends.
    pub fn new(drawn: &'d Drawn, mends: Mends) -> Original<'d> {
        Original { drawn, mends, ties: Ties::Earliest }
    }

    /// The same mends for something else that was drawn.
    pub fn of<'o>(&self, drawn: &'o Drawn) -> Original<'o> {
        Original { drawn, ..*self }
    }

    /// The same, but where costs are whole, ties are settled the other way: for a planted fault.
    pub fn with_latest_ties(self) -> Original<'d> {
        Original { ties: Ties::Latest, ..self }
    }

    /// What was drawn.
    pub fn drawn(&self) -> &'d Drawn {
        self.drawn
    }

    /// The options with a separator that has the proved library's line breaks, if that is mended.
    fn with_mended_cuts<'o>(&self, options: Options<'o>) -> Options<'o> {
        if self.mends.has(Mend::Cuts) && self.drawn.separator == Separator::OwnBreaks {
            return options.word_separator(WordSeparator::Custom(breaks::by_mended_cuts));
        }
        options
    }

    /// The options with the mends of cutting, and with an algorithm that has those of dividing
    /// words, if there are any. It serves for one call, with this text.
    fn mended<'o>(&self, text: &str, options: Options<'o>) -> Options<'o> {
        let options = self.with_mended_cuts(options);
        let is_optimal = matches!(self.drawn.algorithm, Algorithm::OptimalFit(_));
        let whole_costs = self.mends.has(Mend::WholeCosts) && is_optimal;
        let is_even = self.mends.has(Mend::EvenParagraphs) && self.drawn.even_paragraphs;
        if !whole_costs && !is_even {
            return options;
        }
        // A paragraph that is kept whole is not divided, so the algorithm does not see it.
        let first = text.split(options.line_ending.as_str()).next().unwrap_or_default();
        let is_kept_whole = first.len() < options.width && options.initial_indent.is_empty();
        let own_first_lines = match (is_even, is_kept_whole) {
            (false, _) => usize::MAX,
            (true, false) => 1,
            (true, true) => 0,
        };
        let algorithm = self.drawn.algorithm;
        let whole_costs = whole_costs.then_some(self.ties);
        options.wrap_algorithm(division::by(Rule { algorithm, whole_costs, own_first_lines }))
    }

    fn lines<'t>(&self, text: &'t str, options: Options<'_>) -> Vec<Cow<'t, str>> {
        textwrap::wrap(text, self.mended(text, options))
    }

    /// Whether the shortcut for a text on one line drops blanks that the options preserve, and this
    /// is mended.
    fn mends_blanks(&self, text: &str, options: &Options<'_>) -> bool {
        let is_one_line = text.len() < options.width
            && !text.contains('\n')
            && options.initial_indent.is_empty();
        let keeps_blanks = options.preserve_trailing_space && text.ends_with(' ');
        self.mends.has(Mend::FinalBlanks) && is_one_line && keeps_blanks
    }

    /// `fill`. Its final blanks are mended by joining the lines of `wrap`.
    pub fn fill(&self, text: &str, options: Options<'_>) -> String {
        if self.mends_blanks(text, &options) {
            let ending = options.line_ending.as_str();
            return self.lines(text, options).join(ending);
        }
        textwrap::fill(text, self.mended(text, options))
    }

    /// `wrap`. An empty line that lies elsewhere is mended to lie at its paragraph.
    pub fn wrap(&self) -> Answer {
        let text = &self.drawn.text;
        let mut lines = placed(text, &self.lines(text, self.drawn.original_options()));
        if self.mends.has(Mend::EmptyLines) && lines.iter().any(Line::is_empty_elsewhere) {
            for (line, paragraph) in lines.iter_mut().zip(self.paragraphs_of_lines()) {
                if line.is_empty_elsewhere() {
                    line.place = Place::BorrowedAt(paragraph);
                }
            }
        }
        Answer::Lines(lines)
    }

    /// For each line of `wrap`, where its paragraph begins. The lines of the first paragraphs do
    /// not depend on what follows, so they are counted for each beginning of the text.
    fn paragraphs_of_lines(&self) -> Vec<usize> {
        let (text, options) = (&self.drawn.text, || self.drawn.original_options());
        let ending = options().line_ending.as_str();
        let mut paragraphs = Vec::new();
        let mut start = 0;
        for paragraph in text.split(ending) {
            let end = start + paragraph.len();
            paragraphs.resize(self.lines(&text[..end], options()).len(), start);
            start = end + ending.len();
        }
        paragraphs
    }

    /// `wrap_columns`. Its own differences are mended by putting the rows together anew.
    pub fn wrap_columns(&self) -> Answer {
        let Drawn { text, columns, row_width, gaps, .. } = self.drawn;
        let mut options = self.drawn.original_options().width(*row_width);
        if *columns > 0 {
            let table = Table::new(*columns, *row_width, gaps);
            // The text is wrapped at the width of a column.
            let narrow = options.clone().width(table.column_width());
            let lines = self.lines(text, narrow.clone());
            if table.is_mended(&lines, self.mends) {
                return table.rows(&lines, self.mends);
            }
            options = self.mended(text, narrow).width(*row_width);
        }
        let Gaps { left, middle, right } = gaps;
        Answer::Rows(textwrap::wrap_columns(text, *columns, options, left, middle, right))
    }

    /// `refill`. If the final blanks are mended, it is put together from `unfill` and `fill`.
    pub fn refill(&self) -> Answer {
        let text = &self.drawn.text;
        let options = self.drawn.original_options();
        let (joined, layout) = textwrap::unfill(text);
        let stripped = joined.strip_suffix(layout.line_ending.as_str());
        let one_line = stripped.unwrap_or(&joined);
        let own_indents = options
            .clone()
            .initial_indent(layout.initial_indent)
            .subsequent_indent(layout.subsequent_indent);
        if !self.mends_blanks(one_line, &own_indents) {
            return Answer::Text(textwrap::refill(text, self.mended(one_line, options)));
        }
        let ending = if stripped.is_some() { options.line_ending.as_str() } else { "" };
        Answer::Text(self.fill(one_line, own_indents) + ending)
    }

    /// `unfill`.
    pub fn unfill(&self) -> Answer {
        let (text, options) = textwrap::unfill(&self.drawn.text);
        Answer::Unfilled(Unfilled {
            text,
            width: options.width,
            initial_indent: options.initial_indent.into(),
            subsequent_indent: options.subsequent_indent.into(),
            ending: match options.line_ending {
                textwrap::LineEnding::LF => Ending::Lf,
                textwrap::LineEnding::CRLF => Ending::CrLf,
            },
            others_are_default: options.break_words
                && options.wrap_algorithm == textwrap::WrapAlgorithm::new()
                && options.word_splitter == textwrap::WordSplitter::HyphenSplitter
                && options.word_separator == textwrap::WordSeparator::new()
                && !options.preserve_trailing_space,
        })
    }
}
