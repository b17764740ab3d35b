//! The documented differences that can matter here, and those of them that a call of the original
//! can put right. `docs/DIFFERENCES.md` has each with its reason.
use std::fmt;

/// A documented difference that is put right in a call of the original. What is left to compare
/// then has to be the same.
#[derive(Clone, Copy, Debug, PartialEq, Eq)]
pub enum Mend {
    /// Characters of which the tables differ have others in their place, of which they agree.
    Characters,
    /// The least cost is found in whole numbers, and of divisions that cost the same the one whose
    /// last line starts earliest is taken.
    WholeCosts,
    /// Where paragraphs are even, the first lines of later paragraphs have the width of the other
    /// lines.
    EvenParagraphs,
    /// `fill` joins the lines of `wrap` also where one line is the whole text.
    FinalBlanks,
    /// An empty line lies in the text, where its paragraph does.
    EmptyLines,
    /// The last column is padded by what the columns leave of the inner width.
    LastColumn,
    /// A line that is wider than its column gets no blanks.
    WideLines,
    /// A row that fits no memory is refused.
    LongRows,
    /// Words stand between the line breaks that the proved library finds.
    Cuts,
}

/// Some of the mends.
#[derive(Clone, Copy, Debug, Default, PartialEq, Eq)]
pub struct Mends(u16);

impl Mends {
    /// These.
    pub fn of(mends: &[Mend]) -> Mends {
        Mends(mends.iter().fold(0, |set, &mend| set | 1 << mend as u16))
    }

    /// Whether this one is among them.
    pub fn has(self, mend: Mend) -> bool {
        self.0 & 1 << mend as u16 != 0
    }

    /// All sets that have some of these, the smallest first.
    pub fn parts(self) -> Vec<Mends> {
        let mut parts: Vec<u16> = (0..=self.0).filter(|part| part & !self.0 == 0).collect();
        parts.sort_by_key(|part| part.count_ones());
        parts.into_iter().map(Mends).collect()
    }
}

/// Why an answer of the original differs.
#[derive(Clone, Copy, Debug, PartialEq, Eq, PartialOrd, Ord)]
pub enum Cause {
    Characters,
    Tie,
    RoundedCosts,
    RoundedSearch,
    FallingWidths,
    EvenParagraphs,
    FinalBlanks,
    EmptyLines,
    LastColumn,
    WideLines,
    LongRows,
    LastBreak,
    AsciiBreaks,
    Breaks,
}

impl fmt::Display for Cause {
    fn fmt(&self, f: &mut fmt::Formatter<'_>) -> fmt::Result {
        f.write_str(match self {
            Cause::Characters => "a character has other columns or another class in its tables",
            Cause::Tie => "it takes another of the divisions that cost the same",
            Cause::RoundedCosts => "its costs are rounded, and by them its division is no dearer",
            Cause::RoundedSearch => "its costs are rounded, and its search misses the least one",
            Cause::FallingWidths => "its search misses the least cost, as a longer line is narrower",
            Cause::EvenParagraphs => "it has no even paragraphs",
            Cause::FinalBlanks => "it drops the final blanks of a text on one line",
            Cause::EmptyLines => "its empty line borrows a static text",
            Cause::LastColumn => "it pads the last column by another rule",
            Cause::WideLines => "it panics at a line that is wider than its column",
            Cause::LongRows => "it panics at a row that fits no memory",
            Cause::LastBreak => "it drops the last break of a line that ends in a hyphen",
            Cause::AsciiBreaks => "it breaks a line of ASCII elsewhere",
            Cause::Breaks => "it breaks a line elsewhere, by its own tables and rules",
        })
    }
}

impl Mend {
    /// The cause that this mend shows, but for cutting and dividing: there the cuts and the costs
    /// tell the cause.
    pub fn cause(self) -> Option<Cause> {
        match self {
            Mend::Characters => Some(Cause::Characters),
            Mend::WholeCosts | Mend::Cuts => None,
            Mend::EvenParagraphs => Some(Cause::EvenParagraphs),
            Mend::FinalBlanks => Some(Cause::FinalBlanks),
            Mend::EmptyLines => Some(Cause::EmptyLines),
            Mend::LastColumn => Some(Cause::LastColumn),
            Mend::WideLines => Some(Cause::WideLines),
            Mend::LongRows => Some(Cause::LongRows),
        }
    }
}
