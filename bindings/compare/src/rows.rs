//! The rows of `wrap_columns`, put together anew from the lines that the original's `wrap` gives
//! for a column.
use crate::answer::Answer;
use crate::causes::{Mend, Mends};
use crate::drawn::Gaps;
use std::borrow::Cow;
use textwrap::core::display_width;

/// No text is longer than this.
const LONGEST: u128 = isize::MAX as u128;

/// The widths of a table.
pub struct Table<'d> {
    columns: usize,
    gaps: &'d Gaps,
    inner_width: usize,
    column_width: usize,
}

impl<'d> Table<'d> {
    /// A table with that many columns, at least 1.
    pub fn new(columns: usize, row_width: usize, gaps: &'d Gaps) -> Table<'d> {
        let middle = display_width(&gaps.middle).saturating_mul(columns - 1);
        let outer = display_width(&gaps.left) + display_width(&gaps.right);
        let inner_width = row_width.saturating_sub(outer.saturating_add(middle));
        Table { columns, gaps, inner_width, column_width: (inner_width / columns).max(1) }
    }

    /// The width at which the text is wrapped.
    pub fn column_width(&self) -> usize {
        self.column_width
    }

    /// Whether rows of these lines are put together otherwise, so that a mend matters.
    pub fn is_mended(&self, lines: &[Cow<'_, str>], mends: Mends) -> bool {
        let has_other_padding = self.left_over() != self.inner_width % self.column_width;
        mends.has(Mend::LastColumn) && has_other_padding
            || mends.has(Mend::WideLines) && self.has_wide_lines(lines)
            || mends.has(Mend::LongRows) && self.has_long_rows(lines)
    }

    fn has_wide_lines(&self, lines: &[Cow<'_, str>]) -> bool {
        lines.iter().any(|line| display_width(line) > self.column_width)
    }

    /// Whether there is a row, and it fits no memory. Without lines there is none.
    fn has_long_rows(&self, lines: &[Cow<'_, str>]) -> bool {
        !lines.is_empty() && self.column_width as u128 > LONGEST
    }

    /// What the columns leave of the inner width.
    fn left_over(&self) -> usize {
        self.inner_width.saturating_sub(self.columns.saturating_mul(self.column_width))
    }

    /// The rows of these lines. What is not mended is as in the original.
    pub fn rows(&self, lines: &[Cow<'_, str>], mends: Mends) -> Answer {
        if !mends.has(Mend::WideLines) && self.has_wide_lines(lines) {
            return Answer::Panic;
        }
        if self.has_long_rows(lines) {
            return if mends.has(Mend::LongRows) { Answer::OutOfMemory } else { Answer::Panic };
        }
        let left_over = if mends.has(Mend::LastColumn) {
            self.left_over()
        } else {
            self.inner_width % self.column_width
        };
        let count = lines.len().div_ceil(self.columns);
        let rows = (0..count).map(|row| self.row(lines, row, count, left_over));
        Answer::Rows(rows.collect())
    }

    fn row(&self, lines: &[Cow<'_, str>], row: usize, rows: usize, left_over: usize) -> String {
        let cells: Vec<String> = (0..self.columns)
            .map(|column| self.cell(lines.get(row + column * rows).map_or("", |line| line)))
            .collect();
        let Gaps { left, middle, right } = self.gaps;
        [left.as_str(), &cells.join(middle), &" ".repeat(left_over), right].concat()
    }

    fn cell(&self, line: &str) -> String {
        let blanks = self.column_width.saturating_sub(display_width(line));
        [line, &" ".repeat(blanks)].concat()
    }
}
