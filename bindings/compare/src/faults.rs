//! Planted faults: answers that are wrong in one way, each of which the comparison has to notice.
use crate::answer::{Answer, Ending, Line, Place, Unfilled};
use crate::breaks;
use crate::calls::{self, Call};
use crate::causes::{Cause, Mends};
use crate::choices::{Algorithm, Penalties, Separator, Splitter};
use crate::drawn::Drawn;
use crate::judge::{judge, Verdict};
use crate::original::Original;
use std::collections::BTreeSet;
use textwrap_proved as proved;

/// A fault of one call.
pub struct Fault {
    /// What is wrong.
    pub name: &'static str,
    /// The call that answers so.
    pub call: &'static Call,
    /// What the call answers with the fault in it.
    pub answer: fn(&Drawn) -> Answer,
}

/// A fault that the name says.
const fn fault(name: &'static str, call: &'static Call, answer: fn(&Drawn) -> Answer) -> Fault {
    Fault { name, call, answer }
}

/// All faults that can be planted here.
pub fn faults() -> impl Iterator<Item = &'static Fault> {
    let with_breaks = if breaks::HAS_OWN { WITH_OWN_BREAKS } else { &[] };
    [FAULTS, WITH_FUNCTIONS, with_breaks].into_iter().flatten()
}

/// Faults that show whatever words stand between, by call.
const FAULTS: &[Fault] = &[
    fault("a cut escape sequence counts", &calls::DISPLAY_WIDTH, |drawn| {
        let cut = usize::from(drawn.text.ends_with('\u{1b}'));
        number(&calls::DISPLAY_WIDTH, drawn, |columns| columns + cut)
    }),
    fault("an ideographic blank has one column", &calls::DISPLAY_WIDTH, |drawn| {
        let narrowed = drawn.text.replace('\u{3000}', " ");
        calls::DISPLAY_WIDTH.proved_answer(&Drawn { text: narrowed, ..drawn.clone() })
    }),
    fault("CRLF is joined by LF", &calls::FILL, |drawn| {
        text(&calls::FILL, drawn, |text| {
            if drawn.crlf { text.replace("\r\n", "\n") } else { text }
        })
    }),
    fault("blanks at line ends are dropped", &calls::FILL, |drawn| {
        calls::FILL.proved_answer(&Drawn { preserve_trailing_space: false, ..drawn.clone() })
    }),
    fault("final blanks go as in the original", &calls::FILL, |drawn| {
        by_the_original(&calls::FILL, drawn, Cause::FinalBlanks)
    }),
    fault("a blank without a break is dropped at the end", &calls::FILL, |drawn| {
        text(&calls::FILL, drawn, |text| text.trim_end_matches('\u{a0}').into())
    }),
    fault("words are always broken", &calls::FILL, |drawn| {
        calls::FILL.proved_answer(&Drawn { break_words: true, ..drawn.clone() })
    }),
    fault("words are always split", &calls::FILL, |drawn| {
        calls::FILL.proved_answer(&Drawn { splitter: Splitter::Hyphens, ..drawn.clone() })
    }),
    fault("first fit in place of the least cost", &calls::FILL, |drawn| {
        calls::FILL.proved_answer(&Drawn { algorithm: Algorithm::FirstFit, ..drawn.clone() })
    }),
    fault("nline_penalty is ignored", &calls::FILL, |drawn| {
        let usual = Penalties::new().nline_penalty;
        by_penalties(drawn, |own| Penalties { nline_penalty: usual, ..own })
    }),
    fault("overflow_penalty is ignored", &calls::FILL, |drawn| {
        let usual = Penalties::new().overflow_penalty;
        by_penalties(drawn, |own| Penalties { overflow_penalty: usual, ..own })
    }),
    fault("short_last_line_fraction is ignored", &calls::FILL, |drawn| {
        let usual = Penalties::new().short_last_line_fraction;
        by_penalties(drawn, |own| Penalties { short_last_line_fraction: usual, ..own })
    }),
    fault("short_last_line_penalty is ignored", &calls::FILL, |drawn| {
        let usual = Penalties::new().short_last_line_penalty;
        by_penalties(drawn, |own| Penalties { short_last_line_penalty: usual, ..own })
    }),
    fault("hyphen_penalty is ignored", &calls::FILL, |drawn| {
        let usual = Penalties::new().hyphen_penalty;
        by_penalties(drawn, |own| Penalties { hyphen_penalty: usual, ..own })
    }),
    fault("costs are rounded as in the original", &calls::FILL, |drawn| {
        by_the_original(&calls::FILL, drawn, Cause::RoundedCosts)
    }),
    fault("words of two paragraphs share a line", &calls::FILL, |drawn| {
        let joined = drawn.text.replace(drawn.line_ending(), " ");
        calls::FILL.proved_answer(&Drawn { text: joined, ..drawn.clone() })
    }),
    fault("the default penalty of a short last line is 0", &calls::FILL_AT_WIDTH, |drawn| {
        let usual = drawn.with_default_options();
        by_penalties(&usual, |usual| Penalties { short_last_line_penalty: 0, ..usual })
    }),
    fault("words are not broken by default", &calls::FILL_AT_WIDTH, |drawn| {
        let usual = drawn.with_default_options();
        calls::FILL.proved_answer(&Drawn { break_words: false, ..usual })
    }),
    fault("ties are broken the other way", &calls::WRAP, with_latest_ties),
    fault("ties are settled as in the original", &calls::WRAP, |drawn| {
        by_the_original(&calls::WRAP, drawn, Cause::Tie)
    }),
    fault("each line is owned", &calls::WRAP, |drawn| {
        lines(drawn, |line| Line { place: Place::Owned, ..line })
    }),
    fault("an indented line is borrowed", &calls::WRAP, |drawn| {
        lines(drawn, |line| match line.place {
            Place::Owned => Line { place: Place::BorrowedAt(0), ..line },
            _ => line,
        })
    }),
    fault("a place is off by one", &calls::WRAP, |drawn| {
        lines(drawn, |line| match line.place {
            Place::BorrowedAt(at) if at > 0 => Line { place: Place::BorrowedAt(at - 1), ..line },
            _ => line,
        })
    }),
    fault("an empty line lies at the front", &calls::WRAP, |drawn| {
        lines(drawn, |line| match line.place {
            Place::BorrowedAt(_) if line.text.is_empty() => {
                Line { place: Place::BorrowedAt(0), ..line }
            }
            _ => line,
        })
    }),
    fault("even paragraphs are forgotten", &calls::WRAP, |drawn| {
        calls::WRAP.proved_answer(&drawn.evenly(false))
    }),
    fault("paragraphs are always even", &calls::WRAP, |drawn| {
        calls::WRAP.proved_answer(&drawn.evenly(true))
    }),
    fault("the indents are exchanged", &calls::WRAP, |drawn| {
        calls::WRAP.proved_answer(&Drawn {
            initial_indent: drawn.subsequent_indent.clone(),
            subsequent_indent: drawn.initial_indent.clone(),
            ..drawn.clone()
        })
    }),
    fault("a line is lost", &calls::WRAP, |drawn| {
        match calls::WRAP.proved_answer(drawn) {
            Answer::Lines(lines) => Answer::Lines(lines[..lines.len().max(2) - 1].to_vec()),
            other => other,
        }
    }),
    fault("rows are reversed", &calls::WRAP_COLUMNS, |drawn| {
        match calls::WRAP_COLUMNS.proved_answer(drawn) {
            Answer::Rows(rows) => Answer::Rows(rows.into_iter().rev().collect()),
            other => other,
        }
    }),
    fault("the last column is not padded", &calls::WRAP_COLUMNS, |drawn| {
        rows(drawn, |row| {
            let right = &drawn.gaps.right;
            row.strip_suffix(right.as_str())
                .map_or_else(|| row.clone(), |row| [row.trim_end_matches(' '), right].concat())
        })
    }),
    fault("the last column is padded as in the original", &calls::WRAP_COLUMNS, |drawn| {
        by_the_original(&calls::WRAP_COLUMNS, drawn, Cause::LastColumn)
    }),
    fault("wide lines panic as in the original", &calls::WRAP_COLUMNS, |drawn| {
        by_the_original(&calls::WRAP_COLUMNS, drawn, Cause::WideLines)
    }),
    fault("no columns are no rows", &calls::WRAP_COLUMNS, |drawn| {
        match calls::WRAP_COLUMNS.proved_answer(drawn) {
            Answer::Panic => Answer::Rows(Vec::new()),
            other => other,
        }
    }),
    fault("a row that fits no memory is cut", &calls::WRAP_COLUMNS, |drawn| {
        match calls::WRAP_COLUMNS.proved_answer(drawn) {
            Answer::OutOfMemory => Answer::Rows(vec![drawn.text.clone()]),
            other => other,
        }
    }),
    fault("the middle gap stands behind too", &calls::WRAP_COLUMNS, |drawn| {
        rows(drawn, |row| row + &drawn.gaps.middle)
    }),
    fault("refilling forgets the final ending", &calls::REFILL, |drawn| {
        text(&calls::REFILL, drawn, |text| {
            text.strip_suffix(drawn.line_ending()).map(String::from).unwrap_or(text)
        })
    }),
    fault("refilling keeps the indents of the options", &calls::REFILL, refilled_with_own_indents),
    fault("unfilling forgets CRLF", &calls::UNFILL, |drawn| {
        unfilled(drawn, |unfilled| unfilled.ending = Ending::Lf)
    }),
    fault("unfilling takes bytes for columns", &calls::UNFILL, |drawn| {
        unfilled(drawn, |unfilled| {
            unfilled.width = drawn.text.lines().map(str::len).max().unwrap_or(0);
        })
    }),
    fault("unfilling forgets the subsequent indent", &calls::UNFILL, |drawn| {
        unfilled(drawn, |unfilled| unfilled.subsequent_indent.clear())
    }),
    fault("blank lines get the whole prefix", &calls::INDENT, |drawn| {
        let lines = drawn.text.split_inclusive('\n').map(|line| drawn.prefix.clone() + line);
        Answer::Text(lines.collect())
    }),
    fault("only ASCII has whitespace", &calls::INDENT, |drawn| {
        let lines = drawn.text.split_inclusive('\n').map(|line| {
            let is_blank = line.chars().all(|ch| ch.is_ascii() && ch.is_whitespace());
            let prefix = if is_blank { drawn.prefix.trim_end() } else { &drawn.prefix };
            [prefix, line].concat()
        });
        Answer::Text(lines.collect())
    }),
    fault("dedenting keeps carriage returns", &calls::DEDENT, |drawn| {
        text(&calls::DEDENT, drawn, |text| {
            if drawn.text.contains("\r\n") { text.replace('\n', "\r\n") } else { text }
        })
    }),
    fault("dedenting keeps blank lines as they are", &calls::DEDENT, |drawn| {
        text(&calls::DEDENT, drawn, |text| {
            let kept = text.split('\n').zip(drawn.text.split('\n')).map(|(line, old)| {
                if old.trim().is_empty() { old } else { line }
            });
            kept.collect::<Vec<_>>().join("\n")
        })
    }),
    fault("the first of several blanks becomes the line feed", &calls::FILL_INPLACE, |drawn| {
        text(&calls::FILL_INPLACE, drawn, |filled| first_blank_broken(drawn, filled))
    }),
    fault("filling in place is one column short", &calls::FILL_INPLACE, |drawn| {
        let width = drawn.width.saturating_sub(1);
        calls::FILL_INPLACE.proved_answer(&Drawn { width, ..drawn.clone() })
    }),
];

/// Faults where words stand between line breaks, or functions of the caller take part.
const WITH_FUNCTIONS: &[Fault] = &[
    fault("line breaks are ignored", &calls::FILL, |drawn| without_breaks(&calls::FILL, drawn)),
    fault("line breaks are ignored", &calls::WRAP, |drawn| without_breaks(&calls::WRAP, drawn)),
    fault("line breaks are ignored", &calls::WRAP_COLUMNS, |drawn| {
        without_breaks(&calls::WRAP_COLUMNS, drawn)
    }),
    fault("line breaks are ignored", &calls::REFILL, |drawn| without_breaks(&calls::REFILL, drawn)),
    fault("a separator of the caller is ignored", &calls::FILL, |drawn| {
        let ignored = match drawn.separator {
            Separator::Slashes => Separator::Blanks,
            other => other,
        };
        calls::FILL.proved_answer(&Drawn { separator: ignored, ..drawn.clone() })
    }),
    fault("a lone CR ends a paragraph at line breaks", &calls::FILL, |drawn| {
        let paragraphs = drawn.text.split("\r\n").map(|text| text.replace('\r', "\r\n"));
        let parted = paragraphs.collect::<Vec<_>>().join("\r\n");
        let text = if at_breaks(drawn) && drawn.crlf { parted } else { drawn.text.clone() };
        calls::FILL.proved_answer(&Drawn { text, ..drawn.clone() })
    }),
    fault("the last white space is lost at line breaks", &calls::FILL, |drawn| {
        text(&calls::FILL, drawn, |text| {
            if at_breaks(drawn) { text.trim_end().into() } else { text }
        })
    }),
    fault("a last CR is lost at line breaks", &calls::FILL, |drawn| {
        text(&calls::FILL, drawn, |text| {
            if at_breaks(drawn) { text.trim_end_matches('\r').into() } else { text }
        })
    }),
    fault("a splitter of the caller is ignored", &calls::FILL, |drawn| {
        let splitter = if splits_itself(drawn) { Splitter::Nowhere } else { drawn.splitter };
        calls::FILL.proved_answer(&Drawn { splitter, ..drawn.clone() })
    }),
    fault("the tab at the end of a short line is lost", &calls::WRAP, |drawn| {
        lines(drawn, |line| {
            let is_short = at_breaks(drawn) && line.text.len() < drawn.width;
            let text = if is_short { line.text.trim_end_matches('\t').into() } else { line.text };
            Line { text, ..line }
        })
    }),
    fault("an algorithm is not asked at a text as long as its width", &calls::WRAP, |drawn| {
        let is_skipped = divides_itself(drawn) && drawn.text.len() == drawn.width;
        let width = if is_skipped { drawn.width.saturating_add(1) } else { drawn.width };
        calls::WRAP.proved_answer(&Drawn { width, ..drawn.clone() })
    }),
    fault("an algorithm of the caller is ignored", &calls::WRAP, |drawn| {
        let own = drawn.algorithm;
        let algorithm = if divides_itself(drawn) { Algorithm::FirstFit } else { own };
        calls::WRAP.proved_answer(&Drawn { algorithm, ..drawn.clone() })
    }),
    fault("no words are a line where the caller gives none", &calls::WRAP, |drawn| {
        match calls::WRAP.proved_answer(drawn) {
            Answer::Lines(lines) if lines.is_empty() => Answer::Lines(vec![Line {
                text: String::new(),
                place: Place::BorrowedAt(0),
            }]),
            other => other,
        }
    }),
    fault("an added hyphen is lost", &calls::WRAP, |drawn| {
        lines(drawn, |line| match line.text.strip_suffix('-') {
            Some(text) if splits_itself(drawn) && line.place == Place::Owned => {
                Line { text: text.into(), ..line }
            }
            _ => line,
        })
    }),
    fault("a line with an added hyphen is borrowed", &calls::WRAP, |drawn| {
        let has_indents = !drawn.initial_indent.is_empty() || !drawn.subsequent_indent.is_empty();
        lines(drawn, |line| match line.place {
            Place::Owned if !has_indents => Line { place: Place::BorrowedAt(0), ..line },
            _ => line,
        })
    }),
    fault("gaps are measured in bytes at line breaks", &calls::WRAP_COLUMNS, |drawn| {
        let more = if at_breaks(drawn) { bytes_past_columns(drawn) } else { 0 };
        let row_width = drawn.row_width.saturating_sub(more);
        calls::WRAP_COLUMNS.proved_answer(&Drawn { row_width, ..drawn.clone() })
    }),
    fault("rows are no wider than 1,000 at line breaks", &calls::WRAP_COLUMNS, |drawn| {
        let most = if at_breaks(drawn) { 1_000 } else { usize::MAX };
        let row_width = drawn.row_width.min(most);
        calls::WRAP_COLUMNS.proved_answer(&Drawn { row_width, ..drawn.clone() })
    }),
    fault("rows past 1,000 are lost at line breaks", &calls::WRAP_COLUMNS, |drawn| {
        match calls::WRAP_COLUMNS.proved_answer(drawn) {
            Answer::Rows(rows) if at_breaks(drawn) => {
                Answer::Rows(rows.into_iter().take(1_000).collect())
            }
            other => other,
        }
    }),
    fault("refilling loses the last white space at line breaks", &calls::REFILL, |drawn| {
        let text = drawn.text.trim_end_matches(|ch: char| ch.is_whitespace() && ch != '\n');
        let text = if at_breaks(drawn) { text } else { &drawn.text };
        calls::REFILL.proved_answer(&Drawn { text: text.into(), ..drawn.clone() })
    }),
];

/// Faults that only the original's own line breaks show.
const WITH_OWN_BREAKS: &[Fault] = &[
    fault("words stand at blanks by default", &calls::FILL_AT_WIDTH, |drawn| {
        let usual = drawn.with_default_options();
        calls::FILL.proved_answer(&Drawn { separator: Separator::Blanks, ..usual })
    }),
    fault("the last break is dropped as in the original", &calls::WRAP, |drawn| {
        by_the_original(&calls::WRAP, drawn, Cause::LastBreak)
    }),
    fault("lines are broken as in the original", &calls::WRAP, |drawn| {
        by_the_original(&calls::WRAP, drawn, Cause::Breaks)
    }),
];

/// Whether words stand between line breaks.
fn at_breaks(drawn: &Drawn) -> bool {
    drawn.separator.is_breaks()
}

/// The call with words at blanks where they stand between line breaks.
fn without_breaks(call: &Call, drawn: &Drawn) -> Answer {
    let separator = if at_breaks(drawn) { Separator::Blanks } else { drawn.separator };
    call.proved_answer(&Drawn { separator, ..drawn.clone() })
}

/// Whether a function of the caller splits words.
fn splits_itself(drawn: &Drawn) -> bool {
    matches!(drawn.splitter, Splitter::AfterSuper | Splitter::EachThree)
}

/// Whether a function of the caller divides words into lines.
fn divides_itself(drawn: &Drawn) -> bool {
    matches!(drawn.algorithm, Algorithm::InPairs | Algorithm::TwoThatFit)
}

/// How many bytes more than columns the gaps of a row have.
fn bytes_past_columns(drawn: &Drawn) -> usize {
    let more = |gap: &str| gap.len() - proved::core::display_width(gap);
    let middle = more(&drawn.gaps.middle).saturating_mul(drawn.columns.saturating_sub(1));
    (more(&drawn.gaps.left) + more(&drawn.gaps.right)).saturating_add(middle)
}

/// The number that the call answers, changed.
fn number(call: &Call, drawn: &Drawn, change: impl Fn(usize) -> usize) -> Answer {
    match call.proved_answer(drawn) {
        Answer::Number(number) => Answer::Number(change(number)),
        other => other,
    }
}

/// The text that the call answers, changed.
fn text(call: &Call, drawn: &Drawn, change: impl Fn(String) -> String) -> Answer {
    match call.proved_answer(drawn) {
        Answer::Text(text) => Answer::Text(change(text)),
        other => other,
    }
}

/// The lines of `wrap`, each changed.
fn lines(drawn: &Drawn, change: impl Fn(Line) -> Line) -> Answer {
    match calls::WRAP.proved_answer(drawn) {
        Answer::Lines(lines) => Answer::Lines(lines.into_iter().map(change).collect()),
        other => other,
    }
}

/// The rows of `wrap_columns`, each changed.
fn rows(drawn: &Drawn, change: impl Fn(String) -> String) -> Answer {
    match calls::WRAP_COLUMNS.proved_answer(drawn) {
        Answer::Rows(rows) => Answer::Rows(rows.into_iter().map(change).collect()),
        other => other,
    }
}

/// What `unfill` answers, changed.
fn unfilled(drawn: &Drawn, change: impl Fn(&mut Unfilled)) -> Answer {
    let mut answer = calls::UNFILL.proved_answer(drawn);
    if let Answer::Unfilled(unfilled) = &mut answer {
        change(unfilled);
    }
    answer
}

/// `fill` by other penalties.
fn by_penalties(drawn: &Drawn, change: impl Fn(Penalties) -> Penalties) -> Answer {
    let algorithm = match drawn.algorithm {
        Algorithm::OptimalFit(own) => Algorithm::OptimalFit(change(own)),
        other => other,
    };
    calls::FILL.proved_answer(&Drawn { algorithm, ..drawn.clone() })
}

/// What the original answers, where it differs for this cause alone.
fn by_the_original(call: &Call, drawn: &Drawn, cause: Cause) -> Answer {
    let honest = call.proved_answer(drawn);
    match judge(call, drawn, &honest) {
        Verdict::Explained(causes) if causes == BTreeSet::from([cause]) => {
            call.original_answer(drawn, Mends::default())
        }
        _ => honest,
    }
}

/// `refill` with the indents of the options, in place of those of the text.
fn refilled_with_own_indents(drawn: &Drawn) -> Answer {
    let (joined, layout) = proved::unfill(&drawn.text);
    let ending = match layout.line_ending {
        proved::LineEnding::LF => "\n",
        proved::LineEnding::CRLF => "\r\n",
    };
    let stripped = joined.strip_suffix(ending);
    let filled = proved::fill(stripped.unwrap_or(&joined), drawn.proved_options());
    Answer::Text(if stripped.is_some() { filled + drawn.line_ending() } else { filled })
}

/// `wrap`, but of lines that cost the same those are taken that the rule for ties would name last.
fn with_latest_ties(drawn: &Drawn) -> Answer {
    let honest = calls::WRAP.proved_answer(drawn);
    let by_original = || Original::new(drawn, Mends::of(calls::WRAP.mends));
    if Answer::of(|| by_original().wrap()) == honest {
        Answer::of(|| by_original().with_latest_ties().wrap())
    } else {
        honest
    }
}

/// The text filled in place with each new line feed where the first of the blanks before it stood.
fn first_blank_broken(drawn: &Drawn, filled: String) -> String {
    let mut bytes = filled.into_bytes();
    for (at, old) in drawn.text.bytes().enumerate() {
        if old == b' ' && bytes[at] == b'\n' {
            let blanks = bytes[..at].iter().rev().take_while(|&&byte| byte == b' ').count();
            bytes.swap(at, at - blanks);
        }
    }
    String::from_utf8(bytes).expect("only blanks and line feeds were exchanged")
}
