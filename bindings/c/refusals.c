/* Each call of the library as it is installed, with each of its allocations refused in turn: a refused
 * call is out of memory, changes nothing and leaves nothing allocated. Some calls allocate nothing.
 * What comes after the refused allocation is allowed again, so a call that overlooks the refusal is
 * done, which is a fault. The library is linked with --wrap, so that its malloc, calloc, realloc and
 * free are those of this file. */
#include <stdbool.h>
#include <stdio.h>
#include <stdlib.h>
#include <string.h>

#include "textwrap_proved.h"

void *__real_malloc(size_t size);
void *__real_calloc(size_t count, size_t size);
void *__real_realloc(void *block, size_t size);
void __real_free(void *block);

/* How many allocations are left before the one that is refused, whether that was refused, and how
 * many blocks there are. Below 0 none is: what runs before `main` may allocate too. */
static int left = -1;
static bool refused;
static int live;

/* Whether this allocation is the one that is refused. */
static bool refuses(void) {
    if (left-- != 0) return false;
    refused = true;
    return true;
}

void *__wrap_malloc(size_t size) {
    if (refuses()) return NULL;
    live++;
    return __real_malloc(size);
}

void *__wrap_calloc(size_t count, size_t size) {
    if (refuses()) return NULL;
    live++;
    return __real_calloc(count, size);
}

void *__wrap_realloc(void *block, size_t size) {
    if (refuses()) return NULL;
    if (block == NULL) live++;
    return __real_realloc(block, size);
}

void __wrap_free(void *block) {
    if (block != NULL) live--;
    __real_free(block);
}

/* What a call may write to. */
struct lent {
    uint8_t room[256];
    textwrap_line lines[64];
    textwrap_layout layout;
    uint8_t text[9];
    textwrap_piece pieces[16];
    size_t places[16];
    size_t table[512];
    size_t len, count;
};

/* The patterns of hy-phen-ation, and their numbers. */
static const char PATTERNS[] = "hy3ph\nhe2n\nhena4\nhen5at\n1na\nn2at\n1tio\n2io\no2n\nta-ble\n";
static size_t patterns[512], patterns_len;

static const uint8_t *bytes(const char *text) { return (const uint8_t *)text; }

static textwrap_text text_of(const char *text) {
    return (textwrap_text){bytes(text), strlen(text)};
}

static const char TEXT[] = "To be, or not to be: that is the question\nfoo \xc3\xa9 bar";

static textwrap_options options_of(uint32_t optimal_fit, int indents) {
    textwrap_options options = textwrap_options_new(10);
    options.optimal_fit = optimal_fit;
    if (indents) options.initial_indent = (textwrap_text){bytes("* "), 2};
    return options;
}

static textwrap_status filled(struct lent *lent, uint32_t optimal_fit, int indents) {
    textwrap_options o = options_of(optimal_fit, indents);
    return textwrap_fill(bytes(TEXT), strlen(TEXT), &o, lent->room, 256, &lent->len);
}

static textwrap_status by_first_fit(struct lent *lent) { return filled(lent, 0, 0); }
static textwrap_status by_first_fit_indented(struct lent *lent) { return filled(lent, 0, 1); }
static textwrap_status by_optimal_fit(struct lent *lent) { return filled(lent, 1, 0); }
static textwrap_status by_optimal_fit_indented(struct lent *lent) { return filled(lent, 1, 1); }

static textwrap_status wrapped(struct lent *lent, uint32_t optimal_fit, int indents) {
    textwrap_options o = options_of(optimal_fit, indents);
    return textwrap_wrap(bytes(TEXT), strlen(TEXT), &o, lent->lines, 16, &lent->count, lent->room,
                         256, &lent->len);
}

static textwrap_status wrapped_first(struct lent *lent) { return wrapped(lent, 0, 0); }
static textwrap_status wrapped_first_indented(struct lent *lent) { return wrapped(lent, 0, 1); }
static textwrap_status wrapped_at_least_cost(struct lent *lent) { return wrapped(lent, 1, 1); }

static textwrap_status in_columns(struct lent *lent) {
    textwrap_options o = options_of(1, 0);
    textwrap_text gap = {bytes("|"), 1};
    textwrap_gaps gaps = textwrap_gaps_new(gap, gap, gap);
    o.width = 30;
    return textwrap_wrap_columns(bytes(TEXT), strlen(TEXT), 2, &o, &gaps, lent->lines, 16,
                                 &lent->count, lent->room, 256, &lent->len);
}

static textwrap_status lines_in_columns(struct lent *lent) {
    const textwrap_gaps gaps = textwrap_gaps_new(text_of("|"), text_of("|"), text_of("|"));
    const textwrap_text lines[3] = {text_of("foo"), text_of("bar"), text_of("baz")};
    return textwrap_rows_of_lines(lines, 3, 2, 20, &gaps, lent->lines, 16, &lent->count, lent->room,
                                  256, &lent->len);
}

static textwrap_status refilled(struct lent *lent) {
    textwrap_options o = options_of(1, 0);
    return textwrap_refill(bytes("* foo\n  bar\n"), 12, &o, lent->room, 256, &lent->len);
}

static textwrap_status unfilled(struct lent *lent) {
    return textwrap_unfill(bytes("* foo\n  bar\n"), 12, lent->room, 256, &lent->len, &lent->layout);
}

static textwrap_status indented(struct lent *lent) {
    return textwrap_indent(bytes("a\nb\n"), 4, bytes("> "), 2, lent->room, 256, &lent->len);
}

static textwrap_status dedented(struct lent *lent) {
    return textwrap_dedent(bytes("  a\n  b\n"), 8, lent->room, 256, &lent->len);
}

static textwrap_status in_place(struct lent *lent) { return textwrap_fill_inplace(lent->text, 8, 5); }

static textwrap_status measured(struct lent *lent) {
    return textwrap_display_width(bytes(TEXT), strlen(TEXT), &lent->len);
}

/* Of texts that are known to be UTF-8. */
static textwrap_status known_filled(struct lent *lent) {
    textwrap_options o = options_of(1, 1);
    return textwrap_fill_utf8(bytes(TEXT), strlen(TEXT), &o, lent->room, 256, &lent->len);
}

static textwrap_status known_filled_by_first_fit(struct lent *lent) {
    textwrap_options o = options_of(0, 1);
    return textwrap_fill_utf8(bytes(TEXT), strlen(TEXT), &o, lent->room, 256, &lent->len);
}

static textwrap_status known_wrapped(struct lent *lent) {
    textwrap_options o = options_of(1, 1);
    return textwrap_wrap_utf8(bytes(TEXT), strlen(TEXT), &o, lent->lines, 16, &lent->count, lent->room,
                              256, &lent->len);
}

static textwrap_status known_refilled(struct lent *lent) {
    textwrap_options o = options_of(1, 0);
    return textwrap_refill_utf8(bytes("* foo\n  bar\n"), 12, &o, lent->room, 256, &lent->len);
}

static textwrap_status aligned(struct lent *lent) {
    return textwrap_align(bytes("foo"), 3, 8, TEXTWRAP_CENTRE, lent->room, 256, &lent->len);
}

static textwrap_status justified(struct lent *lent) {
    return textwrap_justify(bytes("a few words"), 11, 14, lent->room, 256, &lent->len);
}

static textwrap_status without_others(struct lent *lent) {
    return textwrap_strip_other_sequences(bytes("a\x1b(Bb"), 5, lent->room, 256, &lent->len);
}

static textwrap_status without_tabs(struct lent *lent) {
    return textwrap_expand_tabs(bytes("a\tb"), 3, 8, lent->room, 256, &lent->len);
}

static textwrap_status filled_justified(struct lent *lent) {
    textwrap_options o = options_of(1, 1);
    return textwrap_fill_justified(bytes(TEXT), strlen(TEXT), &o, lent->room, 256, &lent->len);
}

static textwrap_status reflowed(struct lent *lent) {
    textwrap_reflow_options o = textwrap_reflow_options_new(16);
    const textwrap_text marks[1] = {text_of("!")};
    o.justify = 1;
    o.markers = o.prefixes = marks;
    o.markers_len = o.prefixes_len = 1;
    return textwrap_reflow(bytes("! one two three four five\n! six\n\nseven\n"), 39, &o, lent->room,
                           256, &lent->len);
}

static textwrap_status shortened(struct lent *lent) {
    return textwrap_shorten(bytes("Hello world"), 11, 10, bytes("..."), 3, lent->room, 256,
                            &lent->len);
}

static textwrap_status lines_shortened(struct lent *lent) {
    const textwrap_text lines[3] = {text_of("one"), text_of("two three"), text_of("four")};
    return textwrap_shorten_lines(lines, 3, 2, 8, bytes(" .."), 3, lent->lines, 16, &lent->count,
                                  lent->room, 256, &lent->len);
}

static textwrap_status styles_carried(struct lent *lent) {
    textwrap_options o = options_of(1, 0);
    const textwrap_text lines[2] = {text_of("\x1b]8;;u\x1b\\a \x1b[1mb"), text_of("> c")};
    o.subsequent_indent = text_of("> ");
    return textwrap_carry_styles(lines, 2, &o, lent->lines, 16, &lent->count, lent->room, 256,
                                 &lent->len);
}

static textwrap_status attributes_carried(struct lent *lent) {
    textwrap_options o = options_of(1, 0);
    const textwrap_text lines[2] = {text_of("\x1b]8;;u\x1b\\a \x1b[1;31;99mb"), text_of("> c")};
    o.subsequent_indent = text_of("> ");
    return textwrap_carry_attributes(lines, 2, &o, lent->lines, 16, &lent->count, lent->room, 256,
                                     &lent->len);
}

static textwrap_status widths_fitted(struct lent *lent) {
    const textwrap_text cells[4] = {text_of("-h"), text_of("Print this help."), text_of("--width N"),
                                    text_of("Wrap at N columns.")};
    return textwrap_fitting_widths(cells, 4, 2, 20, lent->places, 16, &lent->count);
}

static textwrap_status dictionary_read(struct lent *lent) {
    return textwrap_patterns_read(bytes(PATTERNS), strlen(PATTERNS), lent->table, 512, &lent->len,
                                  &lent->count);
}

static textwrap_status points_of(struct lent *lent) {
    textwrap_dictionary dictionary = textwrap_dictionary_new(patterns, patterns_len);
    dictionary.in_parts = 1;
    return textwrap_hyphen_points(&dictionary, bytes("re-hyphenation"), 14, lent->places, 16,
                                  &lent->count);
}

/* The options with these patterns. */
static textwrap_options with_patterns(textwrap_options o) {
    o.dictionary = textwrap_dictionary_new(patterns, patterns_len);
    return o;
}

static textwrap_status filled_with_hyphens(struct lent *lent) {
    const textwrap_options o = with_patterns(options_of(1, 0));
    return textwrap_fill(bytes("the hyphenation"), 15, &o, lent->room, 256, &lent->len);
}

static textwrap_status justified_with_hyphens(struct lent *lent) {
    const textwrap_options o = with_patterns(options_of(1, 0));
    return textwrap_fill_justified(bytes("a b hyphenation"), 15, &o, lent->room, 256, &lent->len);
}

static textwrap_status refilled_with_hyphens(struct lent *lent) {
    const textwrap_options o = with_patterns(options_of(1, 0));
    return textwrap_refill(bytes("* the\n  hyphenation\n"), 20, &o, lent->room, 256, &lent->len);
}

static textwrap_status wrapped_with_hyphens(struct lent *lent) {
    const textwrap_options o = with_patterns(options_of(1, 0));
    return textwrap_wrap(bytes("the hyphenation"), 15, &o, lent->lines, 64, &lent->count, lent->room, 256,
                         &lent->len);
}

static textwrap_status in_columns_with_hyphens(struct lent *lent) {
    const textwrap_gaps gaps = textwrap_gaps_new(text_of("|"), text_of("|"), text_of("|"));
    textwrap_options o = with_patterns(options_of(1, 0));
    o.width = 15;
    return textwrap_wrap_columns(bytes("the hyphenation"), 15, 2, &o, &gaps, lent->lines, 64,
                                 &lent->count, lent->room, 256, &lent->len);
}

static textwrap_status balanced_with_hyphens(struct lent *lent) {
    const textwrap_options o = with_patterns(options_of(1, 0));
    return textwrap_wrap_balanced(bytes("the hyphenation"), 15, &o, lent->lines, 64, &lent->count,
                                  lent->room, 256, &lent->len);
}

static textwrap_status in_pieces_with_hyphens(struct lent *lent) {
    const textwrap_options o = with_patterns(options_of(1, 0));
    return textwrap_pieces(bytes("the hyphenation"), 15, &o, lent->pieces, 16, &lent->count);
}

static textwrap_status in_a_table_with_hyphens(struct lent *lent) {
    const textwrap_gaps gaps = textwrap_gaps_new(text_of("|"), text_of("|"), text_of("|"));
    const textwrap_text cell = text_of("the hyphenation");
    const textwrap_column column = {with_patterns(options_of(1, 0)), TEXTWRAP_RIGHT, 0};
    return textwrap_table(&cell, 1, &column, 1, &gaps, lent->lines, 16, &lent->count, lent->room, 256,
                          &lent->len);
}

static textwrap_status by_functions_with_hyphens(struct lent *lent) {
    const textwrap_functions functions = textwrap_functions_new(NULL);
    const textwrap_options o = with_patterns(options_of(1, 0));
    return textwrap_fill_by(bytes("the re-hyphenation"), 18, &o, &functions, lent->room, 256, &lent->len);
}

static textwrap_status in_a_table(struct lent *lent) {
    const textwrap_gaps gaps = textwrap_gaps_new(text_of("|"), text_of("|"), text_of("|"));
    const textwrap_text cells[3] = {text_of(TEXT), text_of("1.50"), text_of("foo")};
    const textwrap_column columns[2] = {{options_of(0, 1), TEXTWRAP_LEFT, 0},
                                        {options_of(1, 0), TEXTWRAP_RIGHT, 0}};
    return textwrap_table(cells, 3, columns, 2, &gaps, lent->lines, 16, &lent->count, lent->room,
                          256, &lent->len);
}

static textwrap_status lines_in_a_table(struct lent *lent) {
    const textwrap_gaps gaps = textwrap_gaps_new(text_of("|"), text_of("|"), text_of("|"));
    const textwrap_text lines[2] = {text_of("foo"), text_of("bar")};
    const textwrap_cell cells[3] = {{lines, 2}, {lines, 1}, {lines, 1}};
    const textwrap_column columns[2] = {{options_of(0, 1), TEXTWRAP_LEFT, 0},
                                        {options_of(1, 0), TEXTWRAP_RIGHT, 0}};
    return textwrap_table_of_lines(cells, 3, columns, 2, &gaps, lent->lines, 16, &lent->count,
                                   lent->room, 256, &lent->len);
}

static const textwrap_fragment FRAGMENTS[3] = {{4, 1, 0, 0}, {4, 1, 0, 30}, {4, 1, 0, 0}};
static const size_t NINE = 9;

static textwrap_status greedily(struct lent *lent) {
    return textwrap_wrap_first_fit(FRAGMENTS, 3, &NINE, 1, lent->places, 16, &lent->count);
}

static textwrap_status at_least_cost(struct lent *lent) {
    textwrap_penalties penalties = textwrap_penalties_new();
    return textwrap_wrap_optimal_fit(FRAGMENTS, 3, &NINE, 1, &penalties, lent->places, 16,
                                     &lent->count);
}

static textwrap_status in_pieces(struct lent *lent) {
    textwrap_options o = options_of(0, 1);
    return textwrap_pieces(bytes(TEXT), strlen(TEXT), &o, lent->pieces, 16, &lent->count);
}

static textwrap_status cut_at_offsets(struct lent *lent) {
    const size_t offsets[2] = {2, 3};
    return textwrap_find_words_at(bytes("foo bar"), 7, offsets, 2, lent->pieces, 16, &lent->count);
}

static textwrap_status split(struct lent *lent) {
    return textwrap_split_points(bytes("can-be-split"), 12, lent->places, 16, &lent->count);
}

static textwrap_status split_outside(struct lent *lent) {
    return textwrap_split_points_outside(bytes("\x1b[1mcan-be-split"), 16, lent->places, 16, &lent->count);
}

static textwrap_status cut_at_breaks(struct lent *lent) {
    return textwrap_unicode_cuts(bytes("foo bar baz"), 11, lent->places, 16, &lent->count);
}

static textwrap_status breaks_of(struct lent *lent) {
    textwrap_line_break breaks[8];
    textwrap_status status = textwrap_line_breaks(bytes("foo bar\nbaz"), 11, 1, breaks, 8, &lent->count);
    for (size_t i = 0; status == TEXTWRAP_DONE && i < lent->count; i++)
        lent->places[i] = breaks[i].offset;
    return status;
}

static textwrap_status stripped(struct lent *lent) {
    return textwrap_strip_ansi_escape_sequences(bytes("a\x1b[1mb"), 6, lent->room,
                                                sizeof lent->room, &lent->len);
}

/* Options at which words end where Unicode lets a line end. */
static textwrap_options at_breaks(size_t width) {
    textwrap_options o = textwrap_options_new(width);
    o.unicode_breaks = 1;
    return o;
}

static textwrap_status filled_at_breaks(struct lent *lent) {
    textwrap_options o = at_breaks(5);
    return textwrap_fill(bytes("foo bar baz"), 11, &o, lent->room, sizeof lent->room, &lent->len);
}

static textwrap_status one_line_at_breaks(struct lent *lent) {
    textwrap_options o = at_breaks(80);
    return textwrap_fill(bytes("foo bar baz"), 11, &o, lent->room, sizeof lent->room, &lent->len);
}

static textwrap_status wrapped_at_breaks(struct lent *lent) {
    textwrap_options o = at_breaks(5);
    o.optimal_fit = 0;
    return textwrap_wrap(bytes("foo bar baz"), 11, &o, lent->lines, 16, &lent->count, lent->room,
                         sizeof lent->room, &lent->len);
}

static textwrap_status width_of(struct lent *lent, textwrap_options o) {
    return textwrap_balanced_width(bytes(TEXT), strlen(TEXT), &o, &lent->len);
}

static textwrap_status balanced(struct lent *lent, textwrap_options o) {
    return textwrap_wrap_balanced(bytes(TEXT), strlen(TEXT), &o, lent->lines, 16, &lent->count,
                                  lent->room, 256, &lent->len);
}

/* The options' own algorithm, which would allocate, is not used. */
static textwrap_status balanced_width_at_blanks(struct lent *lent) {
    return width_of(lent, options_of(1, 1));
}

static textwrap_status balanced_at_blanks(struct lent *lent) { return balanced(lent, options_of(1, 1)); }
static textwrap_status balanced_width_at_breaks(struct lent *lent) { return width_of(lent, at_breaks(10)); }
static textwrap_status balanced_at_breaks(struct lent *lent) { return balanced(lent, at_breaks(10)); }

static textwrap_status in_pieces_at_breaks(struct lent *lent) {
    textwrap_options o = at_breaks(5);
    return textwrap_pieces(bytes("foo bar baz"), 11, &o, lent->pieces, 16, &lent->count);
}

static textwrap_status broken(struct lent *lent) {
    return textwrap_break_apart(bytes("foobar"), 6, 2, lent->pieces, 16, &lent->count);
}

static const size_t CUT = 4, POINT = 2, ENDS[2] = {1, 3};

static textwrap_status in_pieces_at_cuts(struct lent *lent) {
    textwrap_options o = options_of(0, 1);
    return textwrap_pieces_at(bytes("foo bar"), 7, &CUT, 1, &POINT, 1, &o, lent->pieces, 16,
                              &lent->count);
}

static textwrap_status in_lines_at_ends(struct lent *lent) {
    textwrap_options o = options_of(0, 0);
    return textwrap_lines_at(bytes("foo bar"), 7, &CUT, 1, &POINT, 1, ENDS, 2, &o, 0, lent->lines, 16,
                             &lent->count, lent->room, 256, &lent->len);
}

static textwrap_status ends_of_lines(struct lent *lent) {
    textwrap_options o = options_of(1, 0);
    return textwrap_ends_at(bytes("foo bar"), 7, &CUT, 1, &POINT, 1, &o, 0, lent->places, 16,
                            &lent->count);
}

static textwrap_status in_paragraphs(struct lent *lent) {
    textwrap_options o = options_of(0, 0);
    textwrap_paragraph paragraphs[2];
    textwrap_status status = textwrap_paragraphs(bytes("foo\nbar"), 7, &o, paragraphs, 2, &lent->count);
    for (size_t i = 0; status == TEXTWRAP_DONE && i < lent->count; i++)
        lent->places[i] = paragraphs[i].offset;
    return status;
}

/* A paragraph that is one line as a whole, and one that is cut, split and divided. */
static const textwrap_steps STEPS[2] = {{&CUT, 0, &POINT, 0, ENDS, 0}, {&CUT, 1, &POINT, 1, ENDS, 2}};

static textwrap_status wrapped_in_steps(struct lent *lent) {
    textwrap_options o = options_of(0, 0);
    o.width = 5;
    return textwrap_wrap_at(bytes("foo\nfoo bar"), 11, STEPS, 2, &o, lent->lines, 16, &lent->count,
                            lent->room, 256, &lent->len);
}

static textwrap_status filled_in_steps(struct lent *lent) {
    textwrap_options o = options_of(0, 0);
    o.width = 5;
    return textwrap_fill_at(bytes("foo\nfoo bar"), 11, STEPS, 2, &o, lent->room, 256, &lent->len);
}

static textwrap_status justified_in_steps(struct lent *lent) {
    textwrap_options o = options_of(0, 0);
    o.width = 5;
    return textwrap_fill_justified_at(bytes("foo\nfoo bar"), 11, STEPS, 2, &o, lent->room, 256, &lent->len);
}

/* Cuts before each byte but the first. */
static size_t cut_everywhere(void *context, const uint8_t *paragraph, size_t len, size_t *cuts) {
    (void)context;
    (void)paragraph;
    for (size_t i = 1; i < len; i++) cuts[i - 1] = i;
    return len > 0 ? len - 1 : 0;
}

/* By functions of the caller. The text is long enough that each list grows, and so does the room. */
static const char LONG_TEXT[] = "to be or not to be that is the question\nfoo bar baz qux quux foobar";

static textwrap_status wrapped_by(struct lent *lent, textwrap_functions functions,
                                  uint32_t optimal_fit) {
    textwrap_options o = options_of(optimal_fit, 1);
    o.width = 3;
    return textwrap_wrap_by(bytes(LONG_TEXT), strlen(LONG_TEXT), &o, &functions, lent->lines, 64,
                            &lent->count, lent->room, 256, &lent->len);
}

static textwrap_status by_no_functions(struct lent *lent) {
    return wrapped_by(lent, textwrap_functions_new(NULL), 0);
}

static textwrap_status by_no_functions_at_least_cost(struct lent *lent) {
    return wrapped_by(lent, textwrap_functions_new(NULL), 1);
}

static textwrap_status by_a_function(struct lent *lent) {
    textwrap_functions functions = textwrap_functions_new(NULL);
    functions.cut = cut_everywhere;
    return wrapped_by(lent, functions, 0);
}

static textwrap_status by_breaks(struct lent *lent) {
    textwrap_functions functions = textwrap_functions_new(NULL);
    functions.cut = textwrap_cut_at_breaks;
    return wrapped_by(lent, functions, 0);
}

static textwrap_status filled_by_no_functions(struct lent *lent) {
    const textwrap_functions none = textwrap_functions_new(NULL);
    textwrap_options o = options_of(0, 1);
    return textwrap_fill_by(bytes(LONG_TEXT), strlen(LONG_TEXT), &o, &none, lent->room, 256,
                            &lent->len);
}

/* What this returns is no status. */
static textwrap_status cut_by_the_function(struct lent *lent) {
    size_t cuts[16] = {0}, count = textwrap_cut_at_breaks(NULL, bytes("foo bar baz"), 11, cuts);
    if (count == TEXTWRAP_NO_MEMORY) return TEXTWRAP_OUT_OF_MEMORY;
    lent->count = count;
    memcpy(lent->places, cuts, count * sizeof *cuts);
    return TEXTWRAP_DONE;
}

struct call {
    const char *name;
    textwrap_status (*call)(struct lent *);
};

/* These allocate nothing. */
static const struct call DIRECT[] = {
    {"fill by first fit", by_first_fit},
    {"fill by first fit, with an indent", by_first_fit_indented},
    {"fill of one line at Unicode line breaks", one_line_at_breaks},
    {"wrap by first fit", wrapped_first},
    {"wrap by first fit, with an indent", wrapped_first_indented},
    {"unfill", unfilled},
    {"indent", indented},
    {"dedent", dedented},
    {"fill_utf8 by first fit, with an indent", known_filled_by_first_fit},
    {"balanced_width", balanced_width_at_blanks},
    {"wrap_balanced", balanced_at_blanks},
};

static const struct call CALLS[] = {
    {"fill by optimal fit", by_optimal_fit},
    {"fill by optimal fit, with an indent", by_optimal_fit_indented},
    {"wrap at least cost", wrapped_at_least_cost},
    {"wrap_columns", in_columns},
    {"rows_of_lines", lines_in_columns},
    {"refill", refilled},
    {"fill_inplace", in_place},
    {"display_width", measured},
    {"fill_utf8", known_filled},
    {"wrap_utf8", known_wrapped},
    {"refill_utf8", known_refilled},
    {"align", aligned},
    {"justify", justified},
    {"expand_tabs", without_tabs},
    {"strip_other_sequences", without_others},
    {"fill_justified", filled_justified},
    {"reflow", reflowed},
    {"shorten", shortened},
    {"shorten_lines", lines_shortened},
    {"carry_styles", styles_carried},
    {"carry_attributes", attributes_carried},
    {"fitting_widths", widths_fitted},
    {"patterns_read", dictionary_read},
    {"hyphen_points", points_of},
    {"fill by a dictionary", filled_with_hyphens},
    {"fill_justified by a dictionary", justified_with_hyphens},
    {"refill by a dictionary", refilled_with_hyphens},
    {"wrap by a dictionary", wrapped_with_hyphens},
    {"wrap_columns by a dictionary", in_columns_with_hyphens},
    {"wrap_balanced by a dictionary", balanced_with_hyphens},
    {"pieces by a dictionary", in_pieces_with_hyphens},
    {"table by a dictionary", in_a_table_with_hyphens},
    {"fill_by a dictionary", by_functions_with_hyphens},
    {"table", in_a_table},
    {"table_of_lines", lines_in_a_table},
    {"wrap_first_fit", greedily},
    {"wrap_optimal_fit", at_least_cost},
    {"pieces", in_pieces},
    {"find_words_at", cut_at_offsets},
    {"split_points", split},
    {"split_points_outside", split_outside},
    {"line_breaks", breaks_of},
    {"unicode_cuts", cut_at_breaks},
    {"strip_ansi_escape_sequences", stripped},
    {"fill at Unicode line breaks", filled_at_breaks},
    {"wrap at Unicode line breaks", wrapped_at_breaks},
    {"balanced_width at Unicode line breaks", balanced_width_at_breaks},
    {"wrap_balanced at Unicode line breaks", balanced_at_breaks},
    {"pieces at Unicode line breaks", in_pieces_at_breaks},
    {"break_apart", broken},
    {"pieces_at", in_pieces_at_cuts},
    {"lines_at", in_lines_at_ends},
    {"ends_at", ends_of_lines},
    {"paragraphs", in_paragraphs},
    {"wrap_at", wrapped_in_steps},
    {"fill_at", filled_in_steps},
    {"fill_justified_at", justified_in_steps},
    {"wrap_by", by_no_functions},
    {"wrap_by at least cost", by_no_functions_at_least_cost},
    {"wrap_by a function", by_a_function},
    {"wrap_by Unicode line breaks", by_breaks},
    {"fill_by", filled_by_no_functions},
    {"cut_at_breaks", cut_by_the_function},
};

static void lend(struct lent *lent) {
    memset(lent, 7, sizeof *lent);
    memcpy(lent->text, "foo  bar", 9);
}

/* How many allocations a call makes, or -1 at a fault: one is refused, then the one after it, until
 * the call meets no refusal. A refused call writes nothing, or did without: room that is asked for
 * before it is needed may be refused, and what is written is the same then. */
static int refusals_of(const struct call *call) {
    struct lent whole;
    lend(&whole);
    left = 100000;
    if (call->call(&whole) != TEXTWRAP_DONE) return -1;
    for (int refusals = 0; refusals < 1000; refusals++) {
        struct lent lent, old;
        lend(&lent);
        memcpy(&old, &lent, sizeof lent);
        left = refusals;
        refused = false;
        live = 0;
        textwrap_status status = call->call(&lent);
        if (live != 0) return -1;
        bool done = status == TEXTWRAP_DONE && memcmp(&lent, &whole, sizeof lent) == 0;
        if (!refused) return done ? refusals : -1;
        bool kept = status == TEXTWRAP_OUT_OF_MEMORY && memcmp(&lent, &old, sizeof lent) == 0;
        if (!done && !kept) return -1;
    }
    return -1;
}

int main(void) {
    int failures = 0;
    size_t line;
    left = 100000;
    if (textwrap_patterns_read(bytes(PATTERNS), strlen(PATTERNS), patterns, 512, &patterns_len, &line)
        != TEXTWRAP_DONE)
        return 1;
    for (size_t i = 0; i < sizeof DIRECT / sizeof DIRECT[0]; i++) {
        if (refusals_of(&DIRECT[i]) == 0) {
            printf("%s: no allocations\n", DIRECT[i].name);
        } else {
            printf("%s: FAULT\n", DIRECT[i].name);
            failures++;
        }
    }
    for (size_t i = 0; i < sizeof CALLS / sizeof CALLS[0]; i++) {
        int refusals = refusals_of(&CALLS[i]);
        if (refusals < 0) {
            printf("%s: FAULT\n", CALLS[i].name);
            failures++;
        } else {
            printf("%s: %d allocations, each refused in turn\n", CALLS[i].name, refusals);
        }
    }
    return failures != 0;
}
