//! The exports of the library, as `bindings/c/textwrap_proved.h` has them. `tools/border` writes the
//! arguments of those that are named here, and compares the rest with the header.

pub const DONE: u32 = 0;
pub const OUT_OF_MEMORY: u32 = 2;
pub const TOO_SMALL: u32 = 3;
pub const OVERFLOW: u32 = 5;
pub const WRONG_PLACES: u32 = 6;
pub const WRONG_PATTERNS: u32 = 7;
pub const VERSION: u32 = 2;
pub const LEFT: u32 = 0;
pub const RIGHT: u32 = 1;
pub const CENTRE: u32 = 2;

#[repr(C)]
#[derive(Clone, Copy)]
pub struct Text {
    at: *const u8,
    pub len: usize,
}

impl From<&str> for Text {
    #[inline]
    fn from(text: &str) -> Text {
        Text { at: text.as_ptr(), len: text.len() }
    }
}

#[repr(C)]
pub struct Options {
    pub version: u32,
    pub optimal_fit: u32,
    pub split_at_hyphens: u32,
    pub break_words: u32,
    pub preserve_trailing_space: u32,
    pub even_paragraphs: u32,
    pub crlf: u32,
    pub unicode_breaks: u32,
    pub width: usize,
    pub initial_indent: Text,
    pub subsequent_indent: Text,
    pub nline_penalty: usize,
    pub overflow_penalty: usize,
    pub short_last_line_fraction: usize,
    pub short_last_line_penalty: usize,
    pub hyphen_penalty: usize,
    pub dictionary: Dictionary,
    pub reserved_sizes: [usize; 4],
}

#[repr(C)]
pub struct ReflowOptions {
    pub version: u32,
    pub optimal_fit: u32,
    pub ending: u32,
    pub markdown: u32,
    pub bare: u32,
    pub indented: u32,
    pub justify: u32,
    pub reserved: u32,
    pub width: usize,
    pub markers: *const Text,
    pub markers_len: usize,
    pub prefixes: *const Text,
    pub prefixes_len: usize,
    pub nline_penalty: usize,
    pub overflow_penalty: usize,
    pub short_last_line_fraction: usize,
    pub short_last_line_penalty: usize,
    pub hyphen_penalty: usize,
    pub reserved_sizes: [usize; 4],
}

#[repr(C)]
#[derive(Clone, Copy)]
pub struct Line {
    pub offset: usize,
    pub len: usize,
    pub is_built: usize,
}

#[repr(C)]
#[derive(Clone, Copy)]
pub struct Paragraph {
    pub offset: usize,
    pub len: usize,
}

#[repr(C)]
#[derive(Clone, Copy, Default)]
pub struct Widths {
    pub is_whole: usize,
    pub first: usize,
    pub later: usize,
}

#[repr(C)]
#[derive(Clone, Copy)]
pub struct Steps {
    pub cuts: *const usize,
    pub cuts_len: usize,
    pub points: *const usize,
    pub points_len: usize,
    pub ends: *const usize,
    pub ends_len: usize,
}

#[repr(C)]
#[derive(Clone, Copy)]
pub struct LineBreak {
    pub offset: usize,
    pub is_mandatory: usize,
}

#[repr(C)]
pub struct Gaps {
    pub left: Text,
    pub middle: Text,
    pub right: Text,
    pub reserved_sizes: [usize; 4],
}

#[repr(C)]
pub struct Dictionary {
    pub numbers: *const usize,
    pub numbers_len: usize,
    pub in_parts: u32,
    pub is_checked: u32,
    pub soft_hyphens: u32,
    pub reserved: u32,
    pub left: usize,
    pub right: usize,
}

#[repr(C)]
pub struct Column {
    pub options: Options,
    pub alignment: u32,
    pub reserved: u32,
}

#[repr(C)]
pub struct Cell {
    lines: *const Text,
    lines_len: usize,
}

impl From<&[Text]> for Cell {
    fn from(lines: &[Text]) -> Cell {
        Cell { lines: lines.as_ptr(), lines_len: lines.len() }
    }
}

#[repr(C)]
#[derive(Default)]
pub struct Layout {
    pub width: usize,
    pub crlf: usize,
    pub initial_indent_len: usize,
    pub subsequent_indent_len: usize,
    pub reserved_sizes: [usize; 4],
}

#[repr(C)]
pub struct Fragment {
    pub width: usize,
    pub whitespace_width: usize,
    pub penalty_width: usize,
    pub break_penalty: usize,
}

#[repr(C)]
pub struct Penalties {
    pub nline_penalty: usize,
    pub overflow_penalty: usize,
    pub short_last_line_fraction: usize,
    pub short_last_line_penalty: usize,
    pub reserved_sizes: [usize; 4],
}

#[repr(C)]
#[derive(Clone, Copy)]
pub struct Piece {
    pub offset: usize,
    pub len: usize,
    pub whitespace_len: usize,
    pub penalty_len: usize,
    pub width: usize,
}

// SAFETY of each call: a pointer leads to as many items as is said, and what is written to is borrowed by
// nothing else. A call whose name ends in `_utf8` does not test its texts, so they have to be UTF-8, as a
// `str` always is.
extern "C" {
    pub fn textwrap_strip_ansi_escape_sequences(
        text: *const u8,
        text_len: usize,
        room: *mut u8,
        room_len: usize,
        len: *mut usize,
    ) -> u32;

    pub fn textwrap_display_width_utf8(text: *const u8, text_len: usize, columns: *mut usize) -> u32;

    pub fn textwrap_fill_utf8(
        text: *const u8,
        text_len: usize,
        options: *const Options,
        room: *mut u8,
        room_len: usize,
        len: *mut usize,
    ) -> u32;

    pub fn textwrap_wrap_utf8(
        text: *const u8,
        text_len: usize,
        options: *const Options,
        lines: *mut Line,
        lines_len: usize,
        count: *mut usize,
        room: *mut u8,
        room_len: usize,
        len: *mut usize,
    ) -> u32;

    pub fn textwrap_wrap_columns(
        text: *const u8,
        text_len: usize,
        columns: usize,
        options: *const Options,
        gaps: *const Gaps,
        rows: *mut Line,
        rows_len: usize,
        count: *mut usize,
        room: *mut u8,
        room_len: usize,
        len: *mut usize,
    ) -> u32;

    pub fn textwrap_column_width(
        width: usize,
        columns: usize,
        gaps: *const Gaps,
        column_width: *mut usize,
    ) -> u32;

    pub fn textwrap_rows_of_lines(
        lines: *const Text,
        lines_len: usize,
        columns: usize,
        width: usize,
        gaps: *const Gaps,
        rows: *mut Line,
        rows_len: usize,
        count: *mut usize,
        room: *mut u8,
        room_len: usize,
        len: *mut usize,
    ) -> u32;

    pub fn textwrap_refill_utf8(
        text: *const u8,
        text_len: usize,
        options: *const Options,
        room: *mut u8,
        room_len: usize,
        len: *mut usize,
    ) -> u32;

    pub fn textwrap_unfill_utf8(
        text: *const u8,
        text_len: usize,
        room: *mut u8,
        room_len: usize,
        len: *mut usize,
        layout: *mut Layout,
    ) -> u32;

    pub fn textwrap_reflow(
        text: *const u8,
        text_len: usize,
        options: *const ReflowOptions,
        room: *mut u8,
        room_len: usize,
        len: *mut usize,
    ) -> u32;

    pub fn textwrap_indent_utf8(
        text: *const u8,
        text_len: usize,
        prefix: *const u8,
        prefix_len: usize,
        room: *mut u8,
        room_len: usize,
        len: *mut usize,
    ) -> u32;

    pub fn textwrap_dedent_utf8(
        text: *const u8,
        text_len: usize,
        room: *mut u8,
        room_len: usize,
        len: *mut usize,
    ) -> u32;

    pub fn textwrap_fill_inplace(text: *mut u8, text_len: usize, width: usize) -> u32;

    pub fn textwrap_align(
        line: *const u8,
        line_len: usize,
        width: usize,
        alignment: u32,
        room: *mut u8,
        room_len: usize,
        len: *mut usize,
    ) -> u32;

    pub fn textwrap_justify(
        line: *const u8,
        line_len: usize,
        width: usize,
        room: *mut u8,
        room_len: usize,
        len: *mut usize,
    ) -> u32;

    pub fn textwrap_terminal_width(text: *const u8, text_len: usize, columns: *mut usize) -> u32;

    pub fn textwrap_strip_other_sequences(
        text: *const u8,
        text_len: usize,
        room: *mut u8,
        room_len: usize,
        len: *mut usize,
    ) -> u32;

    pub fn textwrap_expand_tabs(
        text: *const u8,
        text_len: usize,
        stop: usize,
        room: *mut u8,
        room_len: usize,
        len: *mut usize,
    ) -> u32;

    pub fn textwrap_fill_justified(
        text: *const u8,
        text_len: usize,
        options: *const Options,
        room: *mut u8,
        room_len: usize,
        len: *mut usize,
    ) -> u32;

    pub fn textwrap_shorten(
        line: *const u8,
        line_len: usize,
        width: usize,
        placeholder: *const u8,
        placeholder_len: usize,
        room: *mut u8,
        room_len: usize,
        len: *mut usize,
    ) -> u32;

    pub fn textwrap_shorten_by(
        line: *const u8,
        line_len: usize,
        width: usize,
        placeholder: *const u8,
        placeholder_len: usize,
        break_words: u32,
        room: *mut u8,
        room_len: usize,
        len: *mut usize,
    ) -> u32;

    pub fn textwrap_shorten_lines(
        lines: *const Text,
        lines_len: usize,
        most: usize,
        width: usize,
        placeholder: *const u8,
        placeholder_len: usize,
        places: *mut Line,
        places_len: usize,
        count: *mut usize,
        room: *mut u8,
        room_len: usize,
        len: *mut usize,
    ) -> u32;

    pub fn textwrap_shorten_lines_by(
        lines: *const Text,
        lines_len: usize,
        most: usize,
        width: usize,
        placeholder: *const u8,
        placeholder_len: usize,
        break_words: u32,
        places: *mut Line,
        places_len: usize,
        count: *mut usize,
        room: *mut u8,
        room_len: usize,
        len: *mut usize,
    ) -> u32;

    pub fn textwrap_carry_styles(
        lines: *const Text,
        lines_len: usize,
        options: *const Options,
        places: *mut Line,
        places_len: usize,
        count: *mut usize,
        room: *mut u8,
        room_len: usize,
        len: *mut usize,
    ) -> u32;

    pub fn textwrap_wrap_balanced(
        text: *const u8,
        text_len: usize,
        options: *const Options,
        lines: *mut Line,
        lines_len: usize,
        count: *mut usize,
        room: *mut u8,
        room_len: usize,
        len: *mut usize,
    ) -> u32;

    pub fn textwrap_balanced_width(
        text: *const u8,
        text_len: usize,
        options: *const Options,
        width: *mut usize,
    ) -> u32;

    pub fn textwrap_table(
        cells: *const Text,
        cells_len: usize,
        columns: *const Column,
        columns_len: usize,
        gaps: *const Gaps,
        rows: *mut Line,
        rows_len: usize,
        count: *mut usize,
        room: *mut u8,
        room_len: usize,
        len: *mut usize,
    ) -> u32;

    pub fn textwrap_table_of_lines(
        cells: *const Cell,
        cells_len: usize,
        columns: *const Column,
        columns_len: usize,
        gaps: *const Gaps,
        rows: *mut Line,
        rows_len: usize,
        count: *mut usize,
        room: *mut u8,
        room_len: usize,
        len: *mut usize,
    ) -> u32;

    pub fn textwrap_fitting_widths(
        cells: *const Text,
        cells_len: usize,
        columns: usize,
        total: usize,
        widths: *mut usize,
        widths_len: usize,
        count: *mut usize,
    ) -> u32;

    pub fn textwrap_patterns_read(
        text: *const u8,
        text_len: usize,
        room: *mut usize,
        room_len: usize,
        len: *mut usize,
        line: *mut usize,
    ) -> u32;

    pub fn textwrap_patterns_check(numbers: *const usize, numbers_len: usize) -> u32;

    pub fn textwrap_hyphen_points(
        dictionary: *const Dictionary,
        word: *const u8,
        word_len: usize,
        points: *mut usize,
        points_len: usize,
        count: *mut usize,
    ) -> u32;

    pub fn textwrap_wrap_first_fit(
        fragments: *const Fragment,
        fragments_len: usize,
        line_widths: *const usize,
        line_widths_len: usize,
        ends: *mut usize,
        ends_len: usize,
        count: *mut usize,
    ) -> u32;

    pub fn textwrap_wrap_optimal_fit(
        fragments: *const Fragment,
        fragments_len: usize,
        line_widths: *const usize,
        line_widths_len: usize,
        penalties: *const Penalties,
        ends: *mut usize,
        ends_len: usize,
        count: *mut usize,
    ) -> u32;

    pub fn textwrap_pieces(
        paragraph: *const u8,
        paragraph_len: usize,
        options: *const Options,
        pieces: *mut Piece,
        pieces_len: usize,
        count: *mut usize,
    ) -> u32;

    pub fn textwrap_find_words_at(
        line: *const u8,
        line_len: usize,
        offsets: *const usize,
        offsets_len: usize,
        words: *mut Piece,
        words_len: usize,
        count: *mut usize,
    ) -> u32;

    pub fn textwrap_line_breaks(
        text: *const u8,
        text_len: usize,
        unicode_breaks: u32,
        breaks: *mut LineBreak,
        breaks_len: usize,
        count: *mut usize,
    ) -> u32;

    pub fn textwrap_unicode_cuts(
        line: *const u8,
        line_len: usize,
        cuts: *mut usize,
        cuts_len: usize,
        count: *mut usize,
    ) -> u32;

    pub fn textwrap_split_points(
        word: *const u8,
        word_len: usize,
        points: *mut usize,
        points_len: usize,
        count: *mut usize,
    ) -> u32;

    pub fn textwrap_split_points_outside(
        word: *const u8,
        word_len: usize,
        points: *mut usize,
        points_len: usize,
        count: *mut usize,
    ) -> u32;

    pub fn textwrap_break_apart(
        word: *const u8,
        word_len: usize,
        line_width: usize,
        pieces: *mut Piece,
        pieces_len: usize,
        count: *mut usize,
    ) -> u32;

    pub fn textwrap_pieces_at(
        paragraph: *const u8,
        paragraph_len: usize,
        cuts: *const usize,
        cuts_len: usize,
        points: *const usize,
        points_len: usize,
        options: *const Options,
        pieces: *mut Piece,
        pieces_len: usize,
        count: *mut usize,
    ) -> u32;

    pub fn textwrap_ends_at(
        paragraph: *const u8,
        paragraph_len: usize,
        cuts: *const usize,
        cuts_len: usize,
        points: *const usize,
        points_len: usize,
        options: *const Options,
        is_later: usize,
        ends: *mut usize,
        ends_len: usize,
        count: *mut usize,
    ) -> u32;

    pub fn textwrap_paragraphs(
        text: *const u8,
        text_len: usize,
        options: *const Options,
        paragraphs: *mut Paragraph,
        paragraphs_len: usize,
        count: *mut usize,
    ) -> u32;

    pub fn textwrap_paragraph_widths(
        paragraph: *const u8,
        paragraph_len: usize,
        options: *const Options,
        is_later: usize,
        widths: *mut Widths,
    ) -> u32;

    pub fn textwrap_wrap_at(
        text: *const u8,
        text_len: usize,
        steps: *const Steps,
        steps_len: usize,
        options: *const Options,
        lines: *mut Line,
        lines_len: usize,
        count: *mut usize,
        room: *mut u8,
        room_len: usize,
        len: *mut usize,
    ) -> u32;

    pub fn textwrap_fill_at(
        text: *const u8,
        text_len: usize,
        steps: *const Steps,
        steps_len: usize,
        options: *const Options,
        room: *mut u8,
        room_len: usize,
        len: *mut usize,
    ) -> u32;

    pub fn textwrap_fill_justified_at(
        text: *const u8,
        text_len: usize,
        steps: *const Steps,
        steps_len: usize,
        options: *const Options,
        room: *mut u8,
        room_len: usize,
        len: *mut usize,
    ) -> u32;
}
