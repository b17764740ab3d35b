//! The calls that are compared. A further one is a line of [`CALLS`], and a function for each
//! library.
use crate::answer::{self, Answer, Ending, Unfilled};
use crate::causes::{Mend, Mends};
use crate::choices::Separator;
use crate::drawn::Drawn;
use crate::original::Original;
use textwrap_proved as proved;

/// A call of both libraries.
pub struct Call {
    /// What it is called in the report.
    pub name: &'static str,
    /// What the proved library answers.
    pub proved: fn(&Drawn) -> Answer,
    /// What the original answers, with some of the mends.
    pub original: fn(&Original) -> Answer,
    /// The documented differences that can matter.
    pub mends: &'static [Mend],
    /// Where words stand in this call, if an option says that.
    pub separator: fn(&Drawn) -> Option<Separator>,
}

/// The separator of the options.
const OF_OPTIONS: fn(&Drawn) -> Option<Separator> = |drawn| Some(drawn.separator);

/// No option says where words stand.
const OF_NONE: fn(&Drawn) -> Option<Separator> = |_| None;

/// The columns of a text.
pub const DISPLAY_WIDTH: Call = Call {
    name: "display_width",
    proved: |drawn| Answer::Number(proved::core::display_width(&drawn.text)),
    original: |original| {
        Answer::Number(textwrap::core::display_width(&original.drawn().text))
    },
    mends: &[Mend::Characters],
    separator: OF_NONE,
};

/// A filled text.
pub const FILL: Call = Call {
    name: "fill",
    proved: |drawn| Answer::Text(proved::fill(&drawn.text, drawn.proved_options())),
    original: |original| {
        let drawn = original.drawn();
        Answer::Text(original.fill(&drawn.text, drawn.original_options()))
    },
    mends: &[
        Mend::Characters, Mend::WholeCosts, Mend::EvenParagraphs, Mend::FinalBlanks, Mend::Cuts,
    ],
    separator: OF_OPTIONS,
};

/// A text filled to a width, with the options that it has if no others are given.
pub const FILL_AT_WIDTH: Call = Call {
    name: "fill at width",
    proved: |drawn| {
        let drawn = drawn.with_default_options();
        Answer::Text(proved::fill(&drawn.text, drawn.width))
    },
    original: |original| {
        let drawn = original.drawn().with_default_options();
        let options = textwrap::Options::new(drawn.width);
        Answer::Text(original.of(&drawn).fill(&drawn.text, options))
    },
    mends: &[Mend::Characters, Mend::WholeCosts, Mend::Cuts],
    separator: |_| Some(Separator::default_of_both()),
};

/// The lines of a text.
pub const WRAP: Call = Call {
    name: "wrap",
    proved: |drawn| {
        let lines = proved::wrap(&drawn.text, drawn.proved_options());
        Answer::Lines(answer::placed(&drawn.text, &lines))
    },
    original: |original| original.wrap(),
    mends: &[
        Mend::Characters, Mend::WholeCosts, Mend::EvenParagraphs, Mend::EmptyLines, Mend::Cuts,
    ],
    separator: OF_OPTIONS,
};

/// The rows of a table.
pub const WRAP_COLUMNS: Call = Call {
    name: "wrap_columns",
    proved: |drawn| {
        let options = drawn.proved_options().width(drawn.row_width);
        let gaps = &drawn.gaps;
        proved::fallible::wrap_columns(
            &drawn.text, drawn.columns, options, &gaps.left, &gaps.middle, &gaps.right,
        )
        .map_or(Answer::OutOfMemory, Answer::Rows)
    },
    original: |original| original.wrap_columns(),
    mends: &[
        Mend::Characters, Mend::WholeCosts, Mend::EvenParagraphs, Mend::LastColumn, Mend::WideLines,
        Mend::LongRows, Mend::Cuts,
    ],
    separator: OF_OPTIONS,
};

/// A filled text, filled again. It is one paragraph then, so none is a later one.
pub const REFILL: Call = Call {
    name: "refill",
    proved: |drawn| Answer::Text(proved::refill(&drawn.text, drawn.proved_options())),
    original: |original| original.refill(),
    mends: &[Mend::Characters, Mend::WholeCosts, Mend::FinalBlanks, Mend::Cuts],
    separator: OF_OPTIONS,
};

/// A filled text with its lines joined, and how it was filled. Where an indent lies in the text is
/// left open.
pub const UNFILL: Call = Call {
    name: "unfill",
    proved: |drawn| {
        let (text, options) = proved::unfill(&drawn.text);
        let with_defaults = proved::Options::new(options.width)
            .line_ending(options.line_ending)
            .initial_indent(options.initial_indent)
            .subsequent_indent(options.subsequent_indent);
        Answer::Unfilled(Unfilled {
            text,
            width: options.width,
            initial_indent: options.initial_indent.into(),
            subsequent_indent: options.subsequent_indent.into(),
            ending: match options.line_ending {
                proved::LineEnding::LF => Ending::Lf,
                proved::LineEnding::CRLF => Ending::CrLf,
            },
            others_are_default: format!("{options:?}") == format!("{with_defaults:?}"),
        })
    },
    original: |original| original.unfill(),
    mends: &[Mend::Characters],
    separator: OF_NONE,
};

/// A text with a prefix before each line.
pub const INDENT: Call = Call {
    name: "indent",
    proved: |drawn| Answer::Text(proved::indent(&drawn.text, &drawn.prefix)),
    original: |original| {
        let drawn = original.drawn();
        Answer::Text(textwrap::indent(&drawn.text, &drawn.prefix))
    },
    mends: &[],
    separator: OF_NONE,
};

/// A text without its margin.
pub const DEDENT: Call = Call {
    name: "dedent",
    proved: |drawn| Answer::Text(proved::dedent(&drawn.text)),
    original: |original| Answer::Text(textwrap::dedent(&original.drawn().text)),
    mends: &[],
    separator: OF_NONE,
};

/// A text filled in its own place.
pub const FILL_INPLACE: Call = Call {
    name: "fill_inplace",
    proved: |drawn| {
        let mut text = drawn.text.clone();
        proved::fill_inplace(&mut text, drawn.width);
        Answer::Text(text)
    },
    original: |original| {
        let drawn = original.drawn();
        let mut text = drawn.text.clone();
        textwrap::fill_inplace(&mut text, drawn.width);
        Answer::Text(text)
    },
    mends: &[Mend::Characters],
    separator: OF_NONE,
};

/// All of them.
pub const CALLS: &[&Call] = &[
    &DISPLAY_WIDTH, &FILL, &FILL_AT_WIDTH, &WRAP, &WRAP_COLUMNS, &REFILL, &UNFILL, &INDENT, &DEDENT,
    &FILL_INPLACE,
];

impl Call {
    /// What the proved library answers, or that it panics.
    pub fn proved_answer(&self, drawn: &Drawn) -> Answer {
        Answer::of(|| (self.proved)(drawn))
    }

    /// What the original answers with these mends, or that it panics.
    pub fn original_answer(&self, drawn: &Drawn, mends: Mends) -> Answer {
        Answer::of(|| (self.original)(&Original::new(drawn, mends)))
    }
}
