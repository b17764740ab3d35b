//! Lines for display: aligned, justified, balanced and shortened, with styles carried on, and in tables.
//!
//! The calls take lines as [`wrap()`](crate::wrap()) returns them, or any others. Widths are in
//! columns, as [`display_width`](crate::core::display_width()) measures them. The original has no
//! such calls.
//!
//! ```
//! use textwrap_proved::display::{align, Alignment};
//! use textwrap_proved::wrap;
//!
//! let lines = wrap("textwrap: a small library for wrapping text.", 18);
//! let centred: Vec<String> =
//!     lines.iter().map(|line| align(line, 18, Alignment::Centre)).collect();
//! assert_eq!(centred, ["   textwrap: a    ", "small library for ", "  wrapping text.  "]);
//! ```
//!
//! If memory runs out, a call [ends the program](crate#memory), and its twin in [`fallible`] returns
//! [`OutOfMemory`](crate::OutOfMemory).
use crate::out_of_memory::or_abort;
use crate::room::value_by;
use crate::sys;
use crate::Options;
use alloc::borrow::Cow;
use alloc::string::String;
use alloc::vec::Vec;

pub mod fallible;

/// Where a line stands in its width.
#[derive(Clone, Copy, Debug, PartialEq, Eq)]
pub enum Alignment {
    /// At the left: the blanks follow it.
    Left,
    /// At the right: the blanks stand before it.
    Right,
    /// In the middle. An odd blank follows it.
    Centre,
}

impl Alignment {
    fn to_sys(self) -> u32 {
        match self {
            Alignment::Left => sys::LEFT,
            Alignment::Right => sys::RIGHT,
            Alignment::Centre => sys::CENTRE,
        }
    }
}

/// A column of a [`table`]: how its texts are wrapped, and where their lines stand in the width of
/// the options.
#[derive(Clone, Debug)]
pub struct Column<'a> {
    /// How its texts are wrapped.
    pub options: Options<'a>,
    /// Where their lines stand.
    pub alignment: Alignment,
}

impl Column<'_> {
    /// The same as C has it, without the functions of the caller. It lends the indents and the patterns.
    pub(crate) fn to_sys(&self) -> sys::Column {
        let Column { options, alignment } = self;
        sys::Column { options: options.to_sys(), alignment: alignment.to_sys(), reserved: 0 }
    }
}

/// What stands around the cells of a row.
#[derive(Clone, Copy, Debug, Default, PartialEq, Eq)]
pub struct Gaps<'a> {
    /// Before the first cell.
    pub left: &'a str,
    /// Between each two cells.
    pub middle: &'a str,
    /// After the last cell.
    pub right: &'a str,
}

impl Gaps<'_> {
    pub(crate) fn to_sys(self) -> sys::Gaps {
        sys::Gaps {
            left: self.left.into(),
            middle: self.middle.into(),
            right: self.right.into(),
            reserved_sizes: [0; 4],
        }
    }

    /// Their bytes in a row of so many columns, of which there is at least one.
    pub(crate) fn bytes_in(&self, columns: usize) -> usize {
        let ends = self.left.len() + self.right.len();
        self.middle.len().saturating_mul(columns - 1).saturating_add(ends)
    }
}

/// The line with blanks up to a width. A line that is as wide or wider stays as it is.
///
/// # Panics
///
/// If the line would take more than `isize::MAX` bytes.
///
/// # Examples
///
/// ```
/// use textwrap_proved::display::{align, Alignment};
///
/// assert_eq!(align("foo", 6, Alignment::Left), "foo   ");
/// assert_eq!(align("foo", 6, Alignment::Right), "   foo");
/// assert_eq!(align("foo", 6, Alignment::Centre), " foo  ");
/// assert_eq!(align("你好", 6, Alignment::Right), "  你好");
/// assert_eq!(align("foobar!", 6, Alignment::Right), "foobar!");
/// ```
pub fn align(line: &str, width: usize, alignment: Alignment) -> String {
    or_abort(fallible::align(line, width, alignment))
}

/// The line with its gaps between words widened, so that it is as wide as the width.
///
/// A gap is the blanks (U+0020) between two words. Each gets the same number of blanks more, and the
/// first ones get one more of what is left over. A line without gaps stays as it is, and so does one
/// that is as wide or wider.
///
/// # Panics
///
/// If the line would take more than `isize::MAX` bytes.
///
/// # Examples
///
/// ```
/// use textwrap_proved::display::justify;
///
/// assert_eq!(justify("a few words", 14), "a   few  words");
/// assert_eq!(justify("  a few words", 15), "  a  few  words");
/// assert_eq!(justify("words", 14), "words");
/// ```
pub fn justify(line: &str, width: usize) -> String {
    or_abort(fallible::justify(line, width))
}

/// The text with blanks in the place of each tab, up to the next column that `stop` divides.
///
/// The columns are counted from the beginning of each line. A tab that stands at such a column takes
/// all of them up to the next. With 0 the tabs are left out. Call this before a text with tabs is
/// filled or aligned: there a tab takes no column.
///
/// # Panics
///
/// If the text would take more than `isize::MAX` bytes.
///
/// # Examples
///
/// ```
/// use textwrap_proved::display::expand_tabs;
///
/// assert_eq!(expand_tabs("a\tbc\n\td", 4), "a   bc\n    d");
/// assert_eq!(expand_tabs("안\tx", 4), "안  x");
/// ```
pub fn expand_tabs(text: &str, stop: usize) -> String {
    or_abort(fallible::expand_tabs(text, stop))
}

/// The columns that a text takes on a terminal, by the whole grammar of ECMA-48.
///
/// The other calls take ESC with the character behind it for a sequence, unless that is `[` or `]`. Here
/// control strings (DCS, SOS, PM, APC), sequences such as `ESC ( B` and the controls from U+0080 to U+009F
/// take no columns, either.
///
/// # Examples
///
/// ```
/// use textwrap_proved::core::display_width;
/// use textwrap_proved::display::terminal_width;
///
/// assert_eq!(terminal_width("\u{1b}(B\u{1b}[1mab"), 2);
/// assert_eq!(display_width("\u{1b}(B\u{1b}[1mab"), 3);
/// ```
pub fn terminal_width(text: &str) -> usize {
    value_by!(textwrap_terminal_width(text))
}

/// The text without those sequences that a terminal takes as such and the other calls do not.
///
/// Left out, too, are a command (OSC) that U+009C ends and a sequence without an end. Colours and links
/// stay. Call this before a text from a terminal is filled or aligned: by
/// [`display_width`](crate::core::display_width()) what is left has the columns that [`terminal_width`]
/// counts.
///
/// # Examples
///
/// ```
/// use textwrap_proved::display::strip_other_sequences;
///
/// assert_eq!(strip_other_sequences("a\u{1b}(B\u{1b}[1mb"), "a\u{1b}[1mb");
/// ```
pub fn strip_other_sequences(text: &str) -> String {
    or_abort(fallible::strip_other_sequences(text))
}

/// The text, filled as by [`fill()`](crate::fill()), with all lines but the last of each paragraph
/// justified.
///
/// A line is [justified](justify) after its indent, in what that leaves of the width. The indent
/// stays as it is.
///
/// # Panics
///
/// - If a function of the caller, in the options, panics or
///   [gives what it must not](Options#functions-of-the-caller).
/// - If the text would take more than `isize::MAX` bytes.
///
/// # Examples
///
/// ```
/// use textwrap_proved::display::fill_justified;
/// use textwrap_proved::Options;
///
/// let text = "The tide comes in and goes out by the moon.";
/// assert_eq!(fill_justified(text, 15), "The  tide comes\nin and goes out\nby the moon.");
///
/// let options = Options::new(18).initial_indent("- ").subsequent_indent("  ");
/// assert_eq!(
///     fill_justified(text, &options),
///     "- The  tide  comes\n  in  and goes out\n  by the moon."
/// );
/// ```
pub fn fill_justified<'a, Opt>(text: &str, width_or_options: Opt) -> String
where
    Opt: Into<Options<'a>>,
{
    or_abort(fallible::fill_justified(text, width_or_options))
}

/// How lines are cut that are too wide.
///
/// # Examples
///
/// ```
/// use textwrap_proved::display::{shorten_by, Shortening};
///
/// let shortening = Shortening::new(10, "..");
/// assert_eq!(shorten_by("Supercalifragilistic", &shortening), "..");
/// let shortening = shortening.break_words(true);
/// assert_eq!(shorten_by("Supercalifragilistic", &shortening), "Supercal..");
/// assert_eq!(shorten_by("a Supercalifragilistic", &shortening), "a Superc..");
/// ```
#[derive(Clone, Copy, Debug, PartialEq, Eq)]
pub struct Shortening<'p> {
    /// How many columns a line may take.
    pub width: usize,
    /// What a line that was cut ends in.
    pub placeholder: &'p str,
    /// Whether as much as fits is kept of the first word that is left out, if that word is by itself
    /// wider than what the placeholder leaves of the width.
    pub break_words: bool,
}

impl<'p> Shortening<'p> {
    /// To so many columns, with this placeholder. No word is cut.
    #[must_use]
    pub const fn new(width: usize, placeholder: &'p str) -> Self {
        Shortening { width, placeholder, break_words: false }
    }

    /// Sets [`break_words`](#structfield.break_words).
    #[must_use]
    pub const fn break_words(mut self, break_words: bool) -> Self {
        self.break_words = break_words;
        self
    }
}

/// The line, cut so that it ends in the placeholder where it is wider than the width, as
/// [`shorten_by`] cuts it where no word is cut.
///
/// # Examples
///
/// ```
/// use textwrap_proved::display::shorten;
///
/// assert_eq!(shorten("apples pears", 12, " ..."), "apples pears");
/// assert_eq!(shorten("apples pears", 11, " ..."), "apples ...");
/// assert_eq!(shorten("apples pears", 9, " ..."), " ...");
/// ```
pub fn shorten(line: &str, width: usize, placeholder: &str) -> String {
    or_abort(fallible::shorten(line, width, placeholder))
}

/// The line, cut so that it ends in the placeholder where it is wider than the width.
///
/// It is cut before a blank that follows no blank, as late as leaves room for the placeholder, and
/// never inside an escape sequence. If no place does, the placeholder stands alone, even where it is
/// wider than the width. A word is cut only as [`Shortening::break_words`](Shortening) says. A style
/// or a link that is open where the line is cut is ended before the placeholder. A line that is not
/// wider stays as it is.
///
/// # Examples
///
/// ```
/// use textwrap_proved::display::{shorten_by, Shortening};
///
/// let shortening = Shortening::new(9, " ...");
/// assert_eq!(shorten_by("\x1b[1mHello world", &shortening), "\x1b[1mHello\x1b[0m ...");
/// ```
pub fn shorten_by(line: &str, shortening: &Shortening<'_>) -> String {
    or_abort(fallible::shorten_by(line, shortening))
}

/// The lines, at most so many, as [`shorten_lines_by`] gives them where no word is cut.
///
/// # Examples
///
/// ```
/// use textwrap_proved::display::shorten_lines;
/// use textwrap_proved::wrap;
///
/// let lines = wrap("The tide comes in and goes out by the moon.", 15);
/// assert_eq!(lines, ["The tide comes", "in and goes out", "by the moon."]);
/// assert_eq!(shorten_lines(&lines, 2, 15, " [..]"), ["The tide comes", "in and [..]"]);
/// assert_eq!(shorten_lines(&lines, 1, 16, ".."), ["The tide comes.."]);
/// assert_eq!(shorten_lines(&lines, 3, 15, " [..]"), lines);
/// ```
pub fn shorten_lines<S>(lines: &[S], most: usize, width: usize, placeholder: &str) -> Vec<String>
where
    S: AsRef<str>,
{
    or_abort(fallible::shorten_lines(lines, most, width, placeholder))
}

/// The lines, at most so many.
///
/// Where some are left out, the last one that is not ends in the placeholder: it is cut as
/// [`shorten_by`] cuts a line that is too wide, or stands whole before the placeholder where both have
/// room. The other lines stay as they are.
///
/// # Examples
///
/// ```
/// use textwrap_proved::display::{shorten_lines_by, Shortening};
///
/// let shortening = Shortening::new(9, "..").break_words(true);
/// assert_eq!(shorten_lines_by(&["an abracadabra", "b"], 1, &shortening), ["an abra.."]);
/// ```
pub fn shorten_lines_by<S>(lines: &[S], most: usize, shortening: &Shortening<'_>) -> Vec<String>
where
    S: AsRef<str>,
{
    or_abort(fallible::shorten_lines_by(lines, most, shortening))
}

/// The lines of one text, of which each can be shown by itself in its styles.
///
/// What lines before it left open is set anew in each line: first the link, by the sequence OSC 8
/// that opened it, with an id made of its number where it has none, and then, of each attribute such as bold or the foreground, the last setting, if
/// it did not end: a colour that follows another takes its place. What is not in the table of SGR
/// (ECMA-48) is carried until all is taken back. They stand after the indent of the line, if it
/// begins with that; no more of the options is used. What is open at the end of a line is taken
/// back there. A line that needs neither stays as it is.
///
/// # Examples
///
/// ```
/// use textwrap_proved::display::carry_styles;
/// use textwrap_proved::{wrap, Options};
///
/// let options = Options::new(8).subsequent_indent("> ");
/// let lines = wrap("one \u{1b}[1mtwo three\u{1b}[0m", &options);
/// assert_eq!(lines, ["one \u{1b}[1mtwo", "> three\u{1b}[0m"]);
/// assert_eq!(
///     carry_styles(&lines, &options),
///     ["one \u{1b}[1mtwo\u{1b}[0m", "> \u{1b}[1mthree\u{1b}[0m"]
/// );
/// ```
pub fn carry_styles<'a, S, Opt>(lines: &[S], width_or_options: Opt) -> Vec<String>
where
    S: AsRef<str>,
    Opt: Into<Options<'a>>,
{
    or_abort(fallible::carry_styles(lines, width_or_options))
}

/// The same as [`carry_styles`], by a second name.
pub fn carry_attributes<'a, S, Opt>(lines: &[S], width_or_options: Opt) -> Vec<String>
where
    S: AsRef<str>,
    Opt: Into<Options<'a>>,
{
    carry_styles(lines, width_or_options)
}

/// The lines of a text, balanced, as titles and centred texts should be: as many as first fit makes at
/// the width of the options, and about equally wide.
///
/// They are those of [first fit](crate::WrapAlgorithm::FirstFit) at the [`balanced_width`]. The
/// algorithm of the options is not used.
///
/// # Panics
///
/// If a function of the caller, or a dictionary of the crate `hyphenation`, finds words or splits them.
///
/// # Examples
///
/// ```
/// use textwrap_proved::display::wrap_balanced;
/// use textwrap_proved::wrap;
///
/// let title = "It was the best of times, it was the worst";
/// assert_eq!(wrap(title, 40), ["It was the best of times, it was the", "worst"]);
/// assert_eq!(wrap_balanced(title, 40), ["It was the best of", "times, it was the worst"]);
/// ```
pub fn wrap_balanced<'a, Opt>(text: &str, width_or_options: Opt) -> Vec<Cow<'_, str>>
where
    Opt: Into<Options<'a>>,
{
    or_abort(fallible::wrap_balanced(text, width_or_options))
}

/// The least width at which first fit takes no more lines of a text than at the width of the options.
///
/// It is no less than leaves room for the wider of the indents and, after it, for any one word, split
/// but not broken. Where some word has no room at the width of the options, it is that width. The
/// algorithm of the options is not used.
///
/// # Panics
///
/// If a function of the caller, or a dictionary of the crate `hyphenation`, finds words or splits them.
///
/// # Examples
///
/// ```
/// use textwrap_proved::display::balanced_width;
///
/// assert_eq!(balanced_width("It was the best of times, it was the worst", 40), 23);
/// assert_eq!(balanced_width("a title", 40), 7);
/// ```
pub fn balanced_width<'a, Opt>(text: &str, width_or_options: Opt) -> usize
where
    Opt: Into<Options<'a>>,
{
    or_abort(fallible::balanced_width(text, width_or_options))
}

/// Widths for so many columns of a table that fit what stands in its cells, which are given row after
/// row; the last row may be shorter.
///
/// The total is what a row has beside its gaps, and the widths add up to it. Each column gets its widest
/// word, and what is left is shared out in proportion to what each still lacks of its widest line; where
/// all widest lines have room, in proportion to these, and where not even the widest words have, the
/// total is shared out in proportion to the words. What rounding leaves over goes to the first columns.
///
/// # Examples
///
/// ```
/// use textwrap_proved::display::{fitting_widths, table, Alignment, Column, Gaps};
/// use textwrap_proved::Options;
///
/// let cells = ["-h", "Print this help.", "--width N", "Wrap at N columns."];
/// let widths = fitting_widths(&cells, 2, 20);
/// assert_eq!(widths, [8, 12]);
/// let columns: Vec<_> = widths
///     .iter()
///     .map(|&width| Column { options: Options::new(width), alignment: Alignment::Left })
///     .collect();
/// assert_eq!(table(&cells, &columns, &Gaps { left: "", middle: "  ", right: "" }), [
///     "-h        Print this  ",
///     "          help.       ",
///     "--width   Wrap at N   ",
///     "N         columns.    ",
/// ]);
/// ```
pub fn fitting_widths<S>(cells: &[S], columns: usize, total: usize) -> Vec<usize>
where
    S: AsRef<str>,
{
    or_abort(fallible::fitting_widths(cells, columns, total))
}

/// The rows of a table, whose cells are given row after row.
///
/// Each cell is wrapped by the options of its column, and its lines are [aligned](align) in the
/// width of these. A row of cells becomes as many rows of text as its highest cell has lines. The
/// cells that a last row lacks have no lines. Without columns there are no rows.
///
/// # Panics
///
/// - If a function of the caller, in the options of a column, panics or
///   [gives what it must not](Options#functions-of-the-caller).
/// - If the rows would take more than `isize::MAX` bytes.
///
/// # Examples
///
/// ```
/// use textwrap_proved::display::{table, Alignment, Column, Gaps};
/// use textwrap_proved::Options;
///
/// let cells = ["green apples", "1.20", "pears", "15.00"];
/// let columns = [
///     Column { options: Options::new(8), alignment: Alignment::Left },
///     Column { options: Options::new(5), alignment: Alignment::Right },
/// ];
/// let gaps = Gaps { left: "| ", middle: " | ", right: " |" };
/// assert_eq!(table(&cells, &columns, &gaps), [
///     "| green    |  1.20 |",
///     "| apples   |       |",
///     "| pears    | 15.00 |",
/// ]);
/// ```
pub fn table<S>(cells: &[S], columns: &[Column<'_>], gaps: &Gaps<'_>) -> Vec<String>
where
    S: AsRef<str>,
{
    or_abort(fallible::table(cells, columns, gaps))
}
