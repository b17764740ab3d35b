//! The cost of lines in whole numbers, as `docs/behaviour.md` has it, and the division that the
//! rule for equal costs names. Every line that there could be is looked at: texts are short here.
use crate::choices::Penalties;
use textwrap::core::Word;

/// Above this a `f64` rounds whole numbers.
const EXACT_IN_FLOATS: u128 = 1 << 53;

/// Which of the divisions that cost the same is taken.
#[derive(Clone, Copy, Debug, PartialEq, Eq)]
pub enum Ties {
    /// That whose last line starts earliest, and so on for the lines before it: the documented one.
    Earliest,
    /// That whose last line starts latest: a planted fault.
    Latest,
}

/// What some pieces cost, and where their last line starts.
#[derive(Clone, Copy)]
struct Entry {
    cost: u128,
    start: usize,
}

/// The pieces of a paragraph, with what their lines are measured by.
pub struct Pieces<'w, 'a> {
    words: &'w [Word<'a>],
    /// The columns of all pieces before each, with the blanks after them.
    before: Vec<u128>,
    first_width: u128,
    later_width: u128,
    penalties: Penalties,
}

impl<'w, 'a> Pieces<'w, 'a> {
    /// The pieces for lines of these widths.
    pub fn new(words: &'w [Word<'a>], widths: [usize; 2], penalties: Penalties) -> Self {
        let mut before = vec![0];
        for word in words {
            before.push(before[before.len() - 1] + (word.width + word.whitespace.len()) as u128);
        }
        let [first_width, later_width] = widths.map(|width| width as u128);
        Pieces { words, before, first_width, later_width, penalties }
    }

    /// The columns of a line, if it ends there.
    fn closed(&self, start: usize, end: usize) -> u128 {
        let last = &self.words[end - 1];
        let whole = self.before[end] - self.before[start];
        whole - last.whitespace.len() as u128 + last.penalty.len() as u128
    }

    /// The width that the line has to meet. Only the first line starts at the first piece.
    fn target(&self, start: usize) -> u128 {
        if start == 0 { self.first_width.max(1) } else { self.later_width.max(1) }
    }

    /// What a line costs, or `None` where that passes 128 bits.
    fn line_cost(&self, start: usize, end: usize) -> Option<u128> {
        let (closed, target) = (self.closed(start, end), self.target(start));
        let fraction = self.penalties.short_last_line_fraction as u128;
        let fit = if closed > target {
            (closed - target).checked_mul(self.penalties.overflow_penalty as u128)?
        } else if end < self.words.len() {
            (target - closed).checked_pow(2)?
        } else if start + 1 == end && closed.checked_mul(fraction)? < target {
            self.penalties.short_last_line_penalty as u128
        } else {
            0
        };
        fit.checked_add(self.penalties.nline_penalty as u128)?.checked_add(self.hyphen_penalty(end))
    }

    /// What the hyphen at the end of a line costs, if one is added there.
    fn hyphen_penalty(&self, end: usize) -> u128 {
        if self.words[end - 1].penalty.is_empty() { 0 } else { self.penalties.hyphen_penalty as u128 }
    }

    /// What the first pieces up to an end cost, by where their last line starts, over a table of
    /// what fewer of them cost. A cost that passes 128 bits is none.
    fn candidates<'t>(
        &'t self,
        table: &'t [Entry],
        end: usize,
    ) -> impl Iterator<Item = Option<Entry>> + 't {
        table[..end].iter().enumerate().map(move |(start, before)| {
            let cost = before.cost.checked_add(self.line_cost(start, end)?)?;
            Some(Entry { cost, start })
        })
    }

    /// For each number of pieces from the front, what they cost at least.
    fn table(&self, ties: Ties) -> Option<Vec<Entry>> {
        let mut table = vec![Entry { cost: 0, start: 0 }];
        for end in 1..=self.words.len() {
            let candidates = self.candidates(&table, end).flatten();
            let best = match ties {
                Ties::Earliest => candidates.min_by_key(|entry| (entry.cost, entry.start)),
                Ties::Latest => candidates.min_by_key(|entry| (entry.cost, end - entry.start)),
            };
            table.push(best?);
        }
        Some(table)
    }

    /// The ends of the lines of the least cost. Nothing is left open: the rule for ties names one
    /// division. There is none if a cost passes 128 bits.
    pub fn least(&self, ties: Ties) -> Option<Vec<usize>> {
        let table = self.table(ties)?;
        let mut ends = Vec::new();
        let mut end = self.words.len();
        while end > 0 {
            ends.push(end);
            end = table[end].start;
        }
        ends.reverse();
        Some(ends)
    }

    /// The lines that end there, each as its start and its end.
    fn lines<'e>(&self, ends: &'e [usize]) -> impl Iterator<Item = (usize, usize)> + 'e {
        std::iter::once(0).chain(ends.iter().copied()).zip(ends.iter().copied())
    }

    /// What the division costs.
    pub fn cost(&self, ends: &[usize]) -> Option<u128> {
        self.lines(ends).try_fold(0u128, |sum, (start, end)| {
            sum.checked_add(self.line_cost(start, end)?)
        })
    }

    /// What it costs in rounded numbers, as the original adds them up: line by line, and first what
    /// each line costs, and what its hyphen costs last.
    pub fn rounded_cost(&self, ends: &[usize]) -> f64 {
        let penalties = &self.penalties;
        self.lines(ends).fold(0.0, |sum, (start, end)| {
            let (closed, target) = (self.closed(start, end) as f64, self.target(start) as f64);
            let fraction = penalties.short_last_line_fraction as f64;
            let sum = sum + penalties.nline_penalty as f64;
            let sum = if closed > target {
                sum + (closed - target) * penalties.overflow_penalty as f64
            } else if end < self.words.len() {
                sum + (target - closed).powi(2)
            } else if start + 1 == end && closed < target / fraction {
                sum + penalties.short_last_line_penalty as f64
            } else {
                sum
            };
            sum + self.hyphen_penalty(end) as f64
        })
    }

    /// Whether a line is narrower than one that ends a piece earlier: that one has a hyphen added.
    /// The order of costs on which the original's search relies does not hold there.
    pub fn has_falling_widths(&self) -> bool {
        (1..self.words.len()).any(|end| self.closed(0, end + 1) < self.closed(0, end))
    }

    /// Whether a cost that the original looks at may be one that a `f64` rounds.
    pub fn is_rounded(&self) -> bool {
        let Some(table) = self.table(Ties::Earliest) else { return true };
        (1..=self.words.len()).any(|end| {
            let mut candidates = self.candidates(&table, end);
            candidates.any(|entry| entry.is_none_or(|entry| entry.cost > EXACT_IN_FLOATS))
        })
    }
}
