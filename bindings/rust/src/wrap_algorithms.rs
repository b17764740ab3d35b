//! How words, or other fragments, are divided into lines.
//!
//! [`wrap_first_fit`] gives each line what fits. So one line may be short because a wide fragment
//! comes next. [`wrap_optimal_fit`] looks at all lines together, and finds those of the least cost,
//! which leave the gaps even. First fit is the faster of the two.
use crate::core::{Fragment, Word};
use crate::out_of_memory::{or_abort, OutOfMemory};
use crate::room::{list_by, Refusal};
use crate::sys;
use alloc::vec::Vec;
use core::error::Error;
use core::fmt;

/// How words are divided into lines.
#[derive(Clone, Copy, Debug)]
pub enum WrapAlgorithm {
    /// Each line takes words while they fit, as [`wrap_first_fit`] does.
    FirstFit,

    /// The lines are those of the least cost by these penalties, as [`wrap_optimal_fit`] finds
    /// them.
    OptimalFit(Penalties),

    /// A function divides the words. It gets them with the widths of the lines in columns, of which
    /// the last serves all later lines, and returns the words of each line.
    ///
    /// `wrap` and `fill` panic unless the lines, one after another, are the first words in order.
    /// The words after them are lost. A line without words is empty, and has no indent. If words
    /// are broken and there is an initial indent, the first word is an empty one.
    ///
    /// ```
    /// use textwrap_proved::core::Word;
    /// use textwrap_proved::{wrap, Options, WrapAlgorithm};
    ///
    /// fn in_pairs<'a, 'b>(words: &'b [Word<'a>], _: &'b [usize]) -> Vec<&'b [Word<'a>]> {
    ///     words.chunks(2).collect()
    /// }
    ///
    /// let options = Options::new(10).wrap_algorithm(WrapAlgorithm::Custom(in_pairs));
    /// assert_eq!(wrap("one two three four five", options), ["one two", "three four", "five"]);
    /// ```
    Custom(for<'a, 'b> fn(words: &'b [Word<'a>], line_widths: &'b [usize]) -> Vec<&'b [Word<'a>]>),
}

/// A `Custom` equals no value, not even itself, since functions cannot be compared.
///
/// ```
/// use textwrap_proved::WrapAlgorithm;
///
/// assert_eq!(WrapAlgorithm::FirstFit, WrapAlgorithm::FirstFit);
/// assert_ne!(WrapAlgorithm::Custom(|words, _| vec![words]), WrapAlgorithm::FirstFit);
/// ```
impl PartialEq for WrapAlgorithm {
    fn eq(&self, other: &Self) -> bool {
        match (self, other) {
            (WrapAlgorithm::FirstFit, WrapAlgorithm::FirstFit) => true,
            (WrapAlgorithm::OptimalFit(a), WrapAlgorithm::OptimalFit(b)) => a == b,
            _ => false,
        }
    }
}

impl WrapAlgorithm {
    /// The default: [`new_optimal_fit`](WrapAlgorithm::new_optimal_fit), or
    /// [`FirstFit`](WrapAlgorithm::FirstFit) without the feature `smawk`.
    pub const fn new() -> Self {
        if cfg!(feature = "smawk") {
            WrapAlgorithm::new_optimal_fit()
        } else {
            WrapAlgorithm::FirstFit
        }
    }

    /// [`OptimalFit`](WrapAlgorithm::OptimalFit) with the default penalties.
    pub const fn new_optimal_fit() -> Self {
        WrapAlgorithm::OptimalFit(Penalties::new())
    }

    /// Divides words into lines. Line l, counted from 0, may be `line_widths[l]` columns wide. The
    /// last width serves all later lines, and without any it is 0. No words are one empty line.
    ///
    /// # Panics
    ///
    /// By [`OptimalFit`](WrapAlgorithm::OptimalFit) if all widths together, or a least cost, need
    /// more than 128 bits, as [`wrap_optimal_fit`] has it. Words that a text was cut into are never so
    /// wide. By [`Custom`](WrapAlgorithm::Custom) if the function panics.
    ///
    /// # Examples
    ///
    /// ```
    /// use textwrap_proved::core::Word;
    /// use textwrap_proved::WrapAlgorithm;
    ///
    /// let words = [Word::from("a "), Word::from("b "), Word::from("c")];
    /// assert_eq!(WrapAlgorithm::FirstFit.wrap(&words, &[1, 3]), [&words[..1], &words[1..]]);
    /// ```
    pub fn wrap<'a, 'b>(
        &self,
        words: &'b [Word<'a>],
        line_widths: &'b [usize],
    ) -> Vec<&'b [Word<'a>]> {
        if let WrapAlgorithm::Custom(function) = self {
            return function(words, line_widths);
        }
        let fragments = words.iter().map(|word| sys::Fragment {
            width: word.width,
            whitespace_width: word.whitespace.len(),
            penalty_width: word.penalty.len(),
            break_penalty: self.break_penalty(!word.penalty.is_empty()),
        });
        let fragments: Vec<sys::Fragment> = fragments.collect();
        lines_between(words, &or_abort(self.ends_of(&fragments, line_widths)))
    }

    /// What a line costs more that ends with a word, which has a hyphen there or not.
    pub(crate) fn break_penalty(&self, has_hyphen: bool) -> usize {
        match self {
            WrapAlgorithm::OptimalFit(penalties) if has_hyphen => penalties.hyphen_penalty,
            _ => 0,
        }
    }

    /// Where the lines of these fragments end, by a built-in algorithm.
    ///
    /// # Panics
    /// If a cost needs more than 128 bits, or the algorithm is a function of the caller.
    pub(crate) fn ends_of(
        &self,
        fragments: &[sys::Fragment],
        line_widths: &[usize],
    ) -> Result<Vec<usize>, OutOfMemory> {
        match self {
            WrapAlgorithm::FirstFit => Ok(first_fit_ends(fragments, line_widths)?),
            WrapAlgorithm::OptimalFit(penalties) => {
                Ok(optimal_fit_ends(fragments, line_widths, penalties)?)
            }
            WrapAlgorithm::Custom(_) => unreachable!("a function of the caller has no ends"),
        }
    }
}

impl Default for WrapAlgorithm {
    fn default() -> Self {
        WrapAlgorithm::new()
    }
}

/// What lines of the least cost are measured by.
///
/// Each line costs [`nline_penalty`](Penalties::nline_penalty). If it is wider than its width, it
/// costs [`overflow_penalty`](Penalties::overflow_penalty) for each column past it. If it is
/// narrower, and not the last, it costs the square of the gap. The rest is said at the fields.
///
/// The defaults suit text in columns. Whoever measures in a smaller unit, such as pixels, has
/// larger gaps, and needs larger penalties.
#[derive(Clone, Copy, Debug, PartialEq, Eq)]
pub struct Penalties {
    /// What each line costs, so that there are few of them. The default is 1000.
    pub nline_penalty: usize,

    /// What each column past the width costs. By the default, 2500, one column costs as much as a
    /// gap of 50. So a line may be too wide by a column if all else leaves a larger gap:
    ///
    /// ```
    /// use textwrap_proved::core::Word;
    /// use textwrap_proved::wrap_algorithms::{wrap_optimal_fit, Penalties};
    ///
    /// let long = "x".repeat(50);
    /// let words = [Word::from("foo "), Word::from(&long)];
    /// // Together they take 54 columns.
    /// let penalties = Penalties::new();
    /// let lines = |width: f64| wrap_optimal_fit(&words, &[width], &penalties).unwrap().len();
    /// assert_eq!((lines(54.0), lines(53.0), lines(52.0)), (1, 1, 2));
    /// ```
    pub overflow_penalty: usize,

    /// A last line of one word is short if it takes less than the width divided by this. The
    /// default is 4.
    ///
    /// ```
    /// use textwrap_proved::wrap_algorithms::Penalties;
    /// use textwrap_proved::{fill, Options, WrapAlgorithm};
    ///
    /// let by = |penalties| Options::new(11).wrap_algorithm(WrapAlgorithm::OptimalFit(penalties));
    /// let defaults = Penalties::new();
    /// assert_eq!(fill("foo bar baz a", by(defaults)), "foo bar\nbaz a");
    /// let smaller = Penalties { short_last_line_fraction: 20, ..defaults };
    /// assert_eq!(fill("foo bar baz a", by(smaller)), "foo bar baz\na");
    /// ```
    pub short_last_line_fraction: usize,

    /// What a short last line costs. The default is 25, as much as a gap of 5 columns.
    pub short_last_line_penalty: usize,

    /// What a line costs more that ends in an added hyphen. The default is 25. Hyphens are added
    /// where a function of the caller, or a dictionary, splits words.
    pub hyphen_penalty: usize,
}

impl Penalties {
    /// The defaults.
    pub const fn new() -> Self {
        Penalties {
            nline_penalty: 1000,
            overflow_penalty: 2500,
            short_last_line_fraction: 4,
            short_last_line_penalty: 25,
            hyphen_penalty: 25,
        }
    }
}

impl Default for Penalties {
    fn default() -> Self {
        Penalties::new()
    }
}

/// [`wrap_optimal_fit`] cannot count: a width is no whole number from 0 to `usize::MAX`, or all
/// widths together, or a least cost, need more than 128 bits.
#[derive(Clone, Copy, Debug, PartialEq, Eq)]
pub struct OverflowError;

impl fmt::Display for OverflowError {
    fn fmt(&self, f: &mut fmt::Formatter<'_>) -> fmt::Result {
        f.write_str("a width is no whole number in range, or a cost needs more than 128 bits")
    }
}

impl Error for OverflowError {}

/// Divides fragments into lines by first fit: each line takes fragments while they fit.
///
/// Line l, counted from 0, may be `line_widths[l]` wide. The last width serves all later lines, and
/// without any it is 0. A fragment that is wider than its line has it for itself. No fragments are
/// one empty line.
///
/// # How a line is filled
///
/// There is no look-ahead, so a line may be short because the next fragment is wide:
///
/// ```
/// use textwrap_proved::core::Word;
/// use textwrap_proved::wrap_algorithms::{wrap_first_fit, wrap_optimal_fit, Penalties};
/// use textwrap_proved::WordSeparator;
///
/// fn texts(lines: Vec<&[Word]>) -> Vec<String> {
///     let text = |line: &&[Word]| -> String {
///         line.iter().map(|word| word.word).collect::<Vec<_>>().join(" ")
///     };
///     lines.iter().map(text).collect()
/// }
///
/// let text = "To be, or not to be: that is the question";
/// let words: Vec<Word> = WordSeparator::AsciiSpace.find_words(text).collect();
/// let lines = wrap_first_fit(&words, &[10.0]);
/// assert_eq!(texts(lines), ["To be, or", "not to be:", "that is", "the", "question"]);
/// let lines = wrap_optimal_fit(&words, &[10.0], &Penalties::new()).unwrap();
/// assert_eq!(texts(lines), ["To be,", "or not to", "be: that", "is the", "question"]);
/// ```
///
/// # Panics
///
/// If a width is no whole number from 0 to `usize::MAX`. The original takes any; the library counts
/// exactly, and so in whole numbers.
///
/// # Examples
///
/// Tasks are placed on days of 8 hours. Between two tasks of a day there is a break, and at its end
/// the tools are cleaned:
///
/// ```
/// use textwrap_proved::core::Fragment;
/// use textwrap_proved::wrap_algorithms::wrap_first_fit;
///
/// #[derive(Debug)]
/// struct Task { name: &'static str, hours: u8 }
///
/// impl Fragment for Task {
///     fn width(&self) -> f64 { self.hours.into() }
///     fn whitespace_width(&self) -> f64 { 1.0 }
///     fn penalty_width(&self) -> f64 { 2.0 }
/// }
///
/// let tasks = [
///     Task { name: "sawing", hours: 2 },
///     Task { name: "glueing", hours: 3 },
///     Task { name: "painting", hours: 4 },
/// ];
/// let days: Vec<Vec<&str>> = wrap_first_fit(&tasks, &[8.0])
///     .iter()
///     .map(|day| day.iter().map(|task| task.name).collect())
///     .collect();
/// assert_eq!(days, [vec!["sawing", "glueing"], vec!["painting"]]);
/// ```
pub fn wrap_first_fit<'a, T: Fragment>(fragments: &'a [T], line_widths: &[f64]) -> Vec<&'a [T]> {
    let counted = counted(fragments, 0).and_then(|counted| Ok((counted, whole_list(line_widths)?)));
    let (counted, widths) = counted.unwrap_or_else(|width| {
        panic!("wrap_first_fit takes widths that are whole numbers from 0 to usize::MAX, not {width}")
    });
    let ends = or_abort(first_fit_ends(&counted, &widths).map_err(OutOfMemory::from));
    lines_between(fragments, &ends)
}

/// Divides fragments into the lines of the least cost.
///
/// Line l, counted from 0, may be `line_widths[l]` wide. The last width serves all later lines, and
/// without any it is 0. No fragments are one empty line.
///
/// # Which division is cheapest
///
/// All divisions are looked at together, and the cheapest is taken; [`Penalties`] says what a line
/// costs. Lines that leave even gaps are cheaper than those that leave one large gap, since a gap
/// costs its square. A line that ends with a fragment whose penalty is wider than 0 costs
/// [`hyphen_penalty`](Penalties::hyphen_penalty) more.
///
/// If all line widths from the second on are equal, no other division costs less, and of several
/// that cost the same the one whose lines start earliest is taken. By other widths it is the
/// division that the table of all starts gives, which need not be the cheapest.
///
/// # Errors
///
/// [`OverflowError`] if a width is no whole number from 0 to `usize::MAX`, or if all widths
/// together, or the least cost of some first fragments, need more than 128 bits. Widths that
/// together do not pass `u64::MAX` never lead to the latter.
///
/// # Examples
///
/// ```
/// use textwrap_proved::core::Fragment;
/// use textwrap_proved::wrap_algorithms::{wrap_optimal_fit, OverflowError, Penalties};
///
/// #[derive(Debug, PartialEq)]
/// struct Box(f64);
///
/// impl Fragment for Box {
///     fn width(&self) -> f64 { self.0 }
///     fn whitespace_width(&self) -> f64 { 1.0 }
///     fn penalty_width(&self) -> f64 { 0.0 }
/// }
///
/// let boxes = [Box(4.0), Box(4.0), Box(4.0)];
/// let lines = wrap_optimal_fit(&boxes, &[9.0], &Penalties::new());
/// assert_eq!(lines, Ok(vec![&boxes[..2], &boxes[2..]]));
/// let lines = wrap_optimal_fit(&boxes, &[1e155], &Penalties::new());
/// assert_eq!(lines, Err(OverflowError));
/// ```
pub fn wrap_optimal_fit<'a, 'b, T: Fragment>(
    fragments: &'a [T],
    line_widths: &'b [f64],
    penalties: &'b Penalties,
) -> Result<Vec<&'a [T]>, OverflowError> {
    let counted = counted(fragments, penalties.hyphen_penalty).map_err(|_| OverflowError)?;
    let widths = whole_list(line_widths).map_err(|_| OverflowError)?;
    match optimal_fit_ends(&counted, &widths, penalties) {
        Err(Refusal::Overflow) => Err(OverflowError),
        ends => Ok(lines_between(fragments, &or_abort(ends.map_err(OutOfMemory::from)))),
    }
}

/// A width as a whole number, or the width again where it is none from 0 to `usize::MAX`.
fn whole(width: f64) -> Result<usize, f64> {
    const BEYOND: f64 = (1_u128 << usize::BITS) as f64;
    let whole = width as usize;
    if whole as f64 == width && width < BEYOND {
        Ok(whole)
    } else {
        Err(width)
    }
}

fn whole_list(widths: &[f64]) -> Result<Vec<usize>, f64> {
    widths.iter().map(|&width| whole(width)).collect()
}

/// The fragments in whole numbers. Each is asked once for each of its widths.
fn counted<T: Fragment>(
    fragments: &[T],
    hyphen_penalty: usize,
) -> Result<Vec<sys::Fragment>, f64> {
    let in_whole_numbers = |fragment: &T| {
        let penalty_width = whole(fragment.penalty_width())?;
        Ok(sys::Fragment {
            width: whole(fragment.width())?,
            whitespace_width: whole(fragment.whitespace_width())?,
            penalty_width,
            break_penalty: if penalty_width > 0 { hyphen_penalty } else { 0 },
        })
    };
    fragments.iter().map(in_whole_numbers).collect()
}

/// The most lines that fragments are divided into: none is empty, or there is one.
fn most_lines(fragments: &[sys::Fragment]) -> usize {
    fragments.len().max(1)
}

/// Where the lines end by first fit: how many fragments stand before each end.
fn first_fit_ends(
    fragments: &[sys::Fragment],
    line_widths: &[usize],
) -> Result<Vec<usize>, Refusal> {
    list_by!(most_lines(fragments), textwrap_wrap_first_fit(fragments, line_widths))
}

/// The same by least cost.
fn optimal_fit_ends(
    fragments: &[sys::Fragment],
    line_widths: &[usize],
    penalties: &Penalties,
) -> Result<Vec<usize>, Refusal> {
    // The hyphen penalty stands in the fragments.
    let penalties = sys::Penalties {
        nline_penalty: penalties.nline_penalty,
        overflow_penalty: penalties.overflow_penalty,
        short_last_line_fraction: penalties.short_last_line_fraction,
        short_last_line_penalty: penalties.short_last_line_penalty,
        reserved_sizes: [0; 4],
    };
    list_by!(most_lines(fragments), textwrap_wrap_optimal_fit(fragments, line_widths; &penalties))
}

/// The items between each two ends, and before the first.
fn lines_between<'a, T>(items: &'a [T], ends: &[usize]) -> Vec<&'a [T]> {
    let mut start = 0;
    let line = |&end: &usize| {
        let line = &items[start..end];
        start = end;
        line
    };
    ends.iter().map(line).collect()
}
