/* The calls of textwrap_proved.h that are handed arrays, for a caller whose pointer to nothing is null. Each is
 * the proved call of the archive, which wants a pointer that is not; the Makefile gives that call the
 * name that it has here. No array is copied, so the texts within one have to have pointers. */
#include "textwrap_proved.h"

#define PROVED(name) extern __typeof__(textwrap_##name) proved_##name
PROVED(fill_bound);
PROVED(wrap_room_bound);
PROVED(wrap_columns_room_bound);
PROVED(wrap_columns);
PROVED(column_width);
PROVED(rows_of_lines);
PROVED(align);
PROVED(justify);
PROVED(fill_justified);
PROVED(shorten);
PROVED(shorten_by);
PROVED(expand_tabs);
PROVED(fill);
PROVED(fill_utf8);
PROVED(fill_inplace);
PROVED(indent);
PROVED(indent_utf8);
PROVED(dedent);
PROVED(dedent_utf8);
PROVED(shorten_lines);
PROVED(shorten_lines_by);
PROVED(carry_styles);
PROVED(refill);
PROVED(refill_utf8);
PROVED(unfill);
PROVED(unfill_utf8);
PROVED(reflow);
PROVED(display_width);
PROVED(display_width_utf8);
PROVED(strip_ansi_escape_sequences);
PROVED(wrap);
PROVED(wrap_utf8);
PROVED(carry_attributes);
PROVED(wrap_balanced);
PROVED(balanced_width);
PROVED(line_breaks);
PROVED(unicode_cuts);
PROVED(fitting_widths);
PROVED(wrap_first_fit);
PROVED(wrap_optimal_fit);
PROVED(hyphen_points);
PROVED(patterns_read);
PROVED(patterns_check);
PROVED(fill_justified_at);
PROVED(paragraphs);
PROVED(paragraph_widths);
PROVED(pieces);
PROVED(find_words_at);
PROVED(split_points);
PROVED(split_points_outside);
PROVED(break_apart);
PROVED(pieces_at);
PROVED(ends_at);
PROVED(lines_at);
PROVED(table);
PROVED(table_of_lines);
PROVED(terminal_width);
PROVED(strip_other_sequences);
PROVED(wrap_at);
PROVED(fill_at);

/* Where an array of length 0 may lie, whatever it is of. Nothing is read here or written. */
static union {
    textwrap_text text;
    textwrap_line line;
    textwrap_piece piece;
    textwrap_fragment fragment;
    textwrap_column column;
    textwrap_cell cell;
    textwrap_paragraph paragraph;
    textwrap_steps steps;
} nothing;

/* The pointer and the length of an array, as the archive wants them. */
#define ARRAY(at, len) ((len) == 0 ? (void *)&nothing : (at)), (len)

static textwrap_text some_text(textwrap_text text) {
    if (text.len == 0) text.at = (const uint8_t *)&nothing;
    return text;
}

static textwrap_dictionary some_dictionary(const textwrap_dictionary *dictionary) {
    textwrap_dictionary some = *dictionary;
    if (some.numbers_len == 0) some.numbers = (const size_t *)&nothing;
    return some;
}

/* The options, with indents and a dictionary that are not null. */
static textwrap_options some_options(const textwrap_options *options) {
    textwrap_options some = *options;
    some.initial_indent = some_text(options->initial_indent);
    some.subsequent_indent = some_text(options->subsequent_indent);
    some.dictionary = some_dictionary(&options->dictionary);
    return some;
}

/* The options, with lists that are not null. */
static textwrap_reflow_options some_reflow_options(const textwrap_reflow_options *options) {
    textwrap_reflow_options some = *options;
    if (some.markers_len == 0) some.markers = &nothing.text;
    if (some.prefixes_len == 0) some.prefixes = &nothing.text;
    return some;
}

static textwrap_gaps some_gaps(const textwrap_gaps *gaps) {
    textwrap_gaps some = *gaps;
    some.left = some_text(gaps->left);
    some.middle = some_text(gaps->middle);
    some.right = some_text(gaps->right);
    return some;
}

/* The dictionary, with numbers that are not null. */
size_t textwrap_fill_bound(size_t text_len, const textwrap_options *options) {
    textwrap_options some = some_options(options);
    return proved_fill_bound(text_len, &some);
}

size_t textwrap_wrap_room_bound(size_t text_len, const textwrap_options *options) {
    textwrap_options some = some_options(options);
    return proved_wrap_room_bound(text_len, &some);
}

size_t textwrap_wrap_columns_room_bound(size_t text_len, size_t columns,
                                        const textwrap_options *options, const textwrap_gaps *gaps) {
    textwrap_options some = some_options(options);
    textwrap_gaps around = some_gaps(gaps);
    return proved_wrap_columns_room_bound(text_len, columns, &some, &around);
}

textwrap_status textwrap_wrap_columns(const uint8_t *text, size_t text_len, size_t columns,
                                      const textwrap_options *options, const textwrap_gaps *gaps,
                                      textwrap_line *rows, size_t rows_len, size_t *count,
                                      uint8_t *room, size_t room_len, size_t *len) {
    textwrap_options some = some_options(options);
    textwrap_gaps around = some_gaps(gaps);
    return proved_wrap_columns(ARRAY(text, text_len), columns, &some, &around,
                               ARRAY(rows, rows_len), count, ARRAY(room, room_len), len);
}

textwrap_status textwrap_column_width(size_t width, size_t columns, const textwrap_gaps *gaps,
                                      size_t *column_width) {
    textwrap_gaps around = some_gaps(gaps);
    return proved_column_width(width, columns, &around, column_width);
}

textwrap_status textwrap_rows_of_lines(const textwrap_text *lines, size_t lines_len, size_t columns,
                                       size_t width, const textwrap_gaps *gaps, textwrap_line *rows,
                                       size_t rows_len, size_t *count, uint8_t *room,
                                       size_t room_len, size_t *len) {
    textwrap_gaps around = some_gaps(gaps);
    return proved_rows_of_lines(ARRAY(lines, lines_len), columns, width, &around,
                                ARRAY(rows, rows_len), count, ARRAY(room, room_len), len);
}

textwrap_status textwrap_align(const uint8_t *line, size_t line_len, size_t width,
                               uint32_t alignment, uint8_t *room, size_t room_len, size_t *len) {
    return proved_align(ARRAY(line, line_len), width, alignment, ARRAY(room, room_len), len);
}

textwrap_status textwrap_justify(const uint8_t *line, size_t line_len, size_t width, uint8_t *room,
                                 size_t room_len, size_t *len) {
    return proved_justify(ARRAY(line, line_len), width, ARRAY(room, room_len), len);
}

textwrap_status textwrap_fill_justified(const uint8_t *text, size_t text_len,
                                        const textwrap_options *options, uint8_t *room,
                                        size_t room_len, size_t *len) {
    textwrap_options some = some_options(options);
    return proved_fill_justified(ARRAY(text, text_len), &some, ARRAY(room, room_len), len);
}

textwrap_status textwrap_shorten(const uint8_t *line, size_t line_len, size_t width,
                                 const uint8_t *placeholder, size_t placeholder_len, uint8_t *room,
                                 size_t room_len, size_t *len) {
    return proved_shorten(ARRAY(line, line_len), width, ARRAY(placeholder, placeholder_len),
                          ARRAY(room, room_len), len);
}

textwrap_status textwrap_shorten_by(const uint8_t *line, size_t line_len, size_t width,
                                    const uint8_t *placeholder, size_t placeholder_len,
                                    uint32_t break_words, uint8_t *room, size_t room_len,
                                    size_t *len) {
    return proved_shorten_by(ARRAY(line, line_len), width, ARRAY(placeholder, placeholder_len),
                             break_words, ARRAY(room, room_len), len);
}

textwrap_status textwrap_expand_tabs(const uint8_t *text, size_t text_len, size_t stop,
                                     uint8_t *room, size_t room_len, size_t *len) {
    return proved_expand_tabs(ARRAY(text, text_len), stop, ARRAY(room, room_len), len);
}

textwrap_status textwrap_fill(const uint8_t *text, size_t text_len, const textwrap_options *options,
                              uint8_t *room, size_t room_len, size_t *len) {
    textwrap_options some = some_options(options);
    return proved_fill(ARRAY(text, text_len), &some, ARRAY(room, room_len), len);
}

textwrap_status textwrap_fill_utf8(const uint8_t *text, size_t text_len,
                                   const textwrap_options *options, uint8_t *room, size_t room_len,
                                   size_t *len) {
    textwrap_options some = some_options(options);
    return proved_fill_utf8(ARRAY(text, text_len), &some, ARRAY(room, room_len), len);
}

textwrap_status textwrap_fill_inplace(uint8_t *text, size_t text_len, size_t width) {
    return proved_fill_inplace(ARRAY(text, text_len), width);
}

textwrap_status textwrap_indent(const uint8_t *text, size_t text_len, const uint8_t *prefix,
                                size_t prefix_len, uint8_t *room, size_t room_len, size_t *len) {
    return proved_indent(ARRAY(text, text_len), ARRAY(prefix, prefix_len), ARRAY(room, room_len),
                         len);
}

textwrap_status textwrap_indent_utf8(const uint8_t *text, size_t text_len, const uint8_t *prefix,
                                     size_t prefix_len, uint8_t *room, size_t room_len, size_t *len) {
    return proved_indent_utf8(ARRAY(text, text_len), ARRAY(prefix, prefix_len),
                              ARRAY(room, room_len), len);
}

textwrap_status textwrap_dedent(const uint8_t *text, size_t text_len, uint8_t *room,
                                size_t room_len, size_t *len) {
    return proved_dedent(ARRAY(text, text_len), ARRAY(room, room_len), len);
}

textwrap_status textwrap_dedent_utf8(const uint8_t *text, size_t text_len, uint8_t *room,
                                     size_t room_len, size_t *len) {
    return proved_dedent_utf8(ARRAY(text, text_len), ARRAY(room, room_len), len);
}

textwrap_status textwrap_shorten_lines(const textwrap_text *lines, size_t lines_len, size_t most,
                                       size_t width, const uint8_t *placeholder,
                                       size_t placeholder_len, textwrap_line *places,
                                       size_t places_len, size_t *count, uint8_t *room,
                                       size_t room_len, size_t *len) {
    return proved_shorten_lines(ARRAY(lines, lines_len), most, width,
                                ARRAY(placeholder, placeholder_len), ARRAY(places, places_len),
                                count, ARRAY(room, room_len), len);
}

textwrap_status textwrap_shorten_lines_by(const textwrap_text *lines, size_t lines_len, size_t most,
                                          size_t width, const uint8_t *placeholder,
                                          size_t placeholder_len, uint32_t break_words,
                                          textwrap_line *places, size_t places_len, size_t *count,
                                          uint8_t *room, size_t room_len, size_t *len) {
    return proved_shorten_lines_by(ARRAY(lines, lines_len), most, width,
                                   ARRAY(placeholder, placeholder_len), break_words,
                                   ARRAY(places, places_len), count, ARRAY(room, room_len), len);
}

textwrap_status textwrap_carry_styles(const textwrap_text *lines, size_t lines_len,
                                      const textwrap_options *options, textwrap_line *places,
                                      size_t places_len, size_t *count, uint8_t *room,
                                      size_t room_len, size_t *len) {
    textwrap_options some = some_options(options);
    return proved_carry_styles(ARRAY(lines, lines_len), &some, ARRAY(places, places_len), count,
                               ARRAY(room, room_len), len);
}

textwrap_status textwrap_refill(const uint8_t *text, size_t text_len,
                                const textwrap_options *options, uint8_t *room, size_t room_len,
                                size_t *len) {
    textwrap_options some = some_options(options);
    return proved_refill(ARRAY(text, text_len), &some, ARRAY(room, room_len), len);
}

textwrap_status textwrap_refill_utf8(const uint8_t *text, size_t text_len,
                                     const textwrap_options *options, uint8_t *room,
                                     size_t room_len, size_t *len) {
    textwrap_options some = some_options(options);
    return proved_refill_utf8(ARRAY(text, text_len), &some, ARRAY(room, room_len), len);
}

textwrap_status textwrap_unfill(const uint8_t *text, size_t text_len, uint8_t *room,
                                size_t room_len, size_t *len, textwrap_layout *layout) {
    return proved_unfill(ARRAY(text, text_len), ARRAY(room, room_len), len, layout);
}

textwrap_status textwrap_unfill_utf8(const uint8_t *text, size_t text_len, uint8_t *room,
                                     size_t room_len, size_t *len, textwrap_layout *layout) {
    return proved_unfill_utf8(ARRAY(text, text_len), ARRAY(room, room_len), len, layout);
}

textwrap_status textwrap_reflow(const uint8_t *text, size_t text_len,
                                const textwrap_reflow_options *options, uint8_t *room,
                                size_t room_len, size_t *len) {
    textwrap_reflow_options some = some_reflow_options(options);
    return proved_reflow(ARRAY(text, text_len), &some, ARRAY(room, room_len), len);
}

textwrap_status textwrap_display_width(const uint8_t *text, size_t text_len, size_t *columns) {
    return proved_display_width(ARRAY(text, text_len), columns);
}

textwrap_status textwrap_display_width_utf8(const uint8_t *text, size_t text_len, size_t *columns) {
    return proved_display_width_utf8(ARRAY(text, text_len), columns);
}

textwrap_status textwrap_strip_ansi_escape_sequences(const uint8_t *text, size_t text_len,
                                                     uint8_t *room, size_t room_len, size_t *len) {
    return proved_strip_ansi_escape_sequences(ARRAY(text, text_len), ARRAY(room, room_len), len);
}

textwrap_status textwrap_wrap(const uint8_t *text, size_t text_len, const textwrap_options *options,
                              textwrap_line *lines, size_t lines_len, size_t *count, uint8_t *room,
                              size_t room_len, size_t *len) {
    textwrap_options some = some_options(options);
    return proved_wrap(ARRAY(text, text_len), &some, ARRAY(lines, lines_len), count,
                       ARRAY(room, room_len), len);
}

textwrap_status textwrap_wrap_utf8(const uint8_t *text, size_t text_len,
                                   const textwrap_options *options, textwrap_line *lines,
                                   size_t lines_len, size_t *count, uint8_t *room, size_t room_len,
                                   size_t *len) {
    textwrap_options some = some_options(options);
    return proved_wrap_utf8(ARRAY(text, text_len), &some, ARRAY(lines, lines_len), count,
                            ARRAY(room, room_len), len);
}

textwrap_status textwrap_carry_attributes(const textwrap_text *lines, size_t lines_len,
                                          const textwrap_options *options, textwrap_line *places,
                                          size_t places_len, size_t *count, uint8_t *room,
                                          size_t room_len, size_t *len) {
    textwrap_options some = some_options(options);
    return proved_carry_attributes(ARRAY(lines, lines_len), &some, ARRAY(places, places_len), count,
                                   ARRAY(room, room_len), len);
}

textwrap_status textwrap_wrap_balanced(const uint8_t *text, size_t text_len,
                                       const textwrap_options *options, textwrap_line *lines,
                                       size_t lines_len, size_t *count, uint8_t *room,
                                       size_t room_len, size_t *len) {
    textwrap_options some = some_options(options);
    return proved_wrap_balanced(ARRAY(text, text_len), &some, ARRAY(lines, lines_len), count,
                                ARRAY(room, room_len), len);
}

textwrap_status textwrap_balanced_width(const uint8_t *text, size_t text_len,
                                        const textwrap_options *options, size_t *width) {
    textwrap_options some = some_options(options);
    return proved_balanced_width(ARRAY(text, text_len), &some, width);
}

textwrap_status textwrap_line_breaks(const uint8_t *text, size_t text_len, uint32_t unicode_breaks,
                                     textwrap_line_break *breaks, size_t breaks_len, size_t *count) {
    return proved_line_breaks(ARRAY(text, text_len), unicode_breaks, ARRAY(breaks, breaks_len),
                              count);
}

textwrap_status textwrap_unicode_cuts(const uint8_t *line, size_t line_len, size_t *cuts,
                                      size_t cuts_len, size_t *count) {
    return proved_unicode_cuts(ARRAY(line, line_len), ARRAY(cuts, cuts_len), count);
}

textwrap_status textwrap_fitting_widths(const textwrap_text *cells, size_t cells_len,
                                        size_t columns, size_t total, size_t *widths,
                                        size_t widths_len, size_t *count) {
    return proved_fitting_widths(ARRAY(cells, cells_len), columns, total, ARRAY(widths, widths_len),
                                 count);
}

textwrap_status textwrap_wrap_first_fit(const textwrap_fragment *fragments, size_t fragments_len,
                                        const size_t *line_widths, size_t line_widths_len,
                                        size_t *ends, size_t ends_len, size_t *count) {
    return proved_wrap_first_fit(ARRAY(fragments, fragments_len),
                                 ARRAY(line_widths, line_widths_len), ARRAY(ends, ends_len), count);
}

textwrap_status textwrap_wrap_optimal_fit(const textwrap_fragment *fragments, size_t fragments_len,
                                          const size_t *line_widths, size_t line_widths_len,
                                          const textwrap_penalties *penalties, size_t *ends,
                                          size_t ends_len, size_t *count) {
    return proved_wrap_optimal_fit(ARRAY(fragments, fragments_len),
                                   ARRAY(line_widths, line_widths_len), penalties,
                                   ARRAY(ends, ends_len), count);
}

textwrap_status textwrap_hyphen_points(const textwrap_dictionary *dictionary, const uint8_t *word,
                                       size_t word_len, size_t *points, size_t points_len,
                                       size_t *count) {
    textwrap_dictionary known = some_dictionary(dictionary);
    return proved_hyphen_points(&known, ARRAY(word, word_len), ARRAY(points, points_len), count);
}

textwrap_status textwrap_patterns_read(const uint8_t *text, size_t text_len, size_t *room,
                                       size_t room_len, size_t *len, size_t *line) {
    return proved_patterns_read(ARRAY(text, text_len), ARRAY(room, room_len), len, line);
}

textwrap_status textwrap_patterns_check(const size_t *numbers, size_t numbers_len) {
    return proved_patterns_check(ARRAY(numbers, numbers_len));
}

textwrap_status textwrap_fill_justified_at(const uint8_t *text, size_t text_len,
                                           const textwrap_steps *steps, size_t steps_len,
                                           const textwrap_options *options, uint8_t *room,
                                           size_t room_len, size_t *len) {
    textwrap_options some = some_options(options);
    return proved_fill_justified_at(ARRAY(text, text_len), ARRAY(steps, steps_len), &some,
                                    ARRAY(room, room_len), len);
}

textwrap_status textwrap_paragraphs(const uint8_t *text, size_t text_len,
                                    const textwrap_options *options, textwrap_paragraph *paragraphs,
                                    size_t paragraphs_len, size_t *count) {
    textwrap_options some = some_options(options);
    return proved_paragraphs(ARRAY(text, text_len), &some, ARRAY(paragraphs, paragraphs_len),
                             count);
}

textwrap_status textwrap_paragraph_widths(const uint8_t *paragraph, size_t paragraph_len,
                                          const textwrap_options *options, size_t is_later,
                                          textwrap_widths *widths) {
    textwrap_options some = some_options(options);
    return proved_paragraph_widths(ARRAY(paragraph, paragraph_len), &some, is_later, widths);
}

textwrap_status textwrap_pieces(const uint8_t *paragraph, size_t paragraph_len,
                                const textwrap_options *options, textwrap_piece *pieces,
                                size_t pieces_len, size_t *count) {
    textwrap_options some = some_options(options);
    return proved_pieces(ARRAY(paragraph, paragraph_len), &some, ARRAY(pieces, pieces_len), count);
}

textwrap_status textwrap_find_words_at(const uint8_t *line, size_t line_len, const size_t *offsets,
                                       size_t offsets_len, textwrap_piece *words, size_t words_len,
                                       size_t *count) {
    return proved_find_words_at(ARRAY(line, line_len), ARRAY(offsets, offsets_len),
                                ARRAY(words, words_len), count);
}

textwrap_status textwrap_split_points(const uint8_t *word, size_t word_len, size_t *points,
                                      size_t points_len, size_t *count) {
    return proved_split_points(ARRAY(word, word_len), ARRAY(points, points_len), count);
}

textwrap_status textwrap_split_points_outside(const uint8_t *word, size_t word_len, size_t *points,
                                              size_t points_len, size_t *count) {
    return proved_split_points_outside(ARRAY(word, word_len), ARRAY(points, points_len), count);
}

textwrap_status textwrap_break_apart(const uint8_t *word, size_t word_len, size_t line_width,
                                     textwrap_piece *pieces, size_t pieces_len, size_t *count) {
    return proved_break_apart(ARRAY(word, word_len), line_width, ARRAY(pieces, pieces_len), count);
}

textwrap_status textwrap_pieces_at(const uint8_t *paragraph, size_t paragraph_len,
                                   const size_t *cuts, size_t cuts_len, const size_t *points,
                                   size_t points_len, const textwrap_options *options,
                                   textwrap_piece *pieces, size_t pieces_len, size_t *count) {
    textwrap_options some = some_options(options);
    return proved_pieces_at(ARRAY(paragraph, paragraph_len), ARRAY(cuts, cuts_len),
                            ARRAY(points, points_len), &some, ARRAY(pieces, pieces_len), count);
}

textwrap_status textwrap_ends_at(const uint8_t *paragraph, size_t paragraph_len, const size_t *cuts,
                                 size_t cuts_len, const size_t *points, size_t points_len,
                                 const textwrap_options *options, size_t is_later, size_t *ends,
                                 size_t ends_len, size_t *count) {
    textwrap_options some = some_options(options);
    return proved_ends_at(ARRAY(paragraph, paragraph_len), ARRAY(cuts, cuts_len),
                          ARRAY(points, points_len), &some, is_later, ARRAY(ends, ends_len), count);
}

textwrap_status textwrap_lines_at(const uint8_t *paragraph, size_t paragraph_len,
                                  const size_t *cuts, size_t cuts_len, const size_t *points,
                                  size_t points_len, const size_t *ends, size_t ends_len,
                                  const textwrap_options *options, size_t is_later,
                                  textwrap_line *lines, size_t lines_len, size_t *count,
                                  uint8_t *room, size_t room_len, size_t *len) {
    textwrap_options some = some_options(options);
    return proved_lines_at(ARRAY(paragraph, paragraph_len), ARRAY(cuts, cuts_len),
                           ARRAY(points, points_len), ARRAY(ends, ends_len), &some, is_later,
                           ARRAY(lines, lines_len), count, ARRAY(room, room_len), len);
}

textwrap_status textwrap_table(const textwrap_text *cells, size_t cells_len,
                               const textwrap_column *columns, size_t columns_len,
                               const textwrap_gaps *gaps, textwrap_line *rows, size_t rows_len,
                               size_t *count, uint8_t *room, size_t room_len, size_t *len) {
    textwrap_gaps around = some_gaps(gaps);
    return proved_table(ARRAY(cells, cells_len), ARRAY(columns, columns_len), &around,
                        ARRAY(rows, rows_len), count, ARRAY(room, room_len), len);
}

textwrap_status textwrap_table_of_lines(const textwrap_cell *cells, size_t cells_len,
                                        const textwrap_column *columns, size_t columns_len,
                                        const textwrap_gaps *gaps, textwrap_line *rows,
                                        size_t rows_len, size_t *count, uint8_t *room,
                                        size_t room_len, size_t *len) {
    textwrap_gaps around = some_gaps(gaps);
    return proved_table_of_lines(ARRAY(cells, cells_len), ARRAY(columns, columns_len), &around,
                                 ARRAY(rows, rows_len), count, ARRAY(room, room_len), len);
}

textwrap_status textwrap_terminal_width(const uint8_t *text, size_t text_len, size_t *columns) {
    return proved_terminal_width(ARRAY(text, text_len), columns);
}

textwrap_status textwrap_strip_other_sequences(const uint8_t *text, size_t text_len, uint8_t *room,
                                               size_t room_len, size_t *len) {
    return proved_strip_other_sequences(ARRAY(text, text_len), ARRAY(room, room_len), len);
}

textwrap_status textwrap_wrap_at(const uint8_t *text, size_t text_len, const textwrap_steps *steps,
                                 size_t steps_len, const textwrap_options *options,
                                 textwrap_line *lines, size_t lines_len, size_t *count,
                                 uint8_t *room, size_t room_len, size_t *len) {
    textwrap_options some = some_options(options);
    return proved_wrap_at(ARRAY(text, text_len), ARRAY(steps, steps_len), &some,
                          ARRAY(lines, lines_len), count, ARRAY(room, room_len), len);
}

textwrap_status textwrap_fill_at(const uint8_t *text, size_t text_len, const textwrap_steps *steps,
                                 size_t steps_len, const textwrap_options *options, uint8_t *room,
                                 size_t room_len, size_t *len) {
    textwrap_options some = some_options(options);
    return proved_fill_at(ARRAY(text, text_len), ARRAY(steps, steps_len), &some,
                          ARRAY(room, room_len), len);
}
