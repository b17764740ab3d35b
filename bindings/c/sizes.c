/* Long texts, long lists and long indents through the library as it is installed: each answer whole. */
#include <stdlib.h>

#include "check.h"

enum { LONG = 2 << 20, LONGER = 5 << 20, MANY = 5000 };

/* Memory for a test, which ends if there is none. */
static uint8_t *memory(size_t size) {
    uint8_t *block = (uint8_t *)malloc(size);
    if (block != NULL) return block;
    printf("sizes: out of memory\n");
    exit(1);
}

/* So many bytes, with this text over and over. */
static uint8_t *repeated(const char *text, size_t len) {
    uint8_t *all = memory(len);
    for (size_t i = 0; i < len; i++) all[i] = (uint8_t)text[i % strlen(text)];
    return all;
}

/* So many letters. */
static textwrap_text letters(char letter, size_t len) {
    const char text[2] = {letter, '\0'};
    return (textwrap_text){repeated(text, len), len};
}

/* Frees a text that `letters` has made. */
static void release(textwrap_text text) { free((void *)text.at); }

static int is_equal(const uint8_t *at, size_t len, const uint8_t *other, size_t other_len) {
    return len == other_len && memcmp(at, other, len) == 0;
}

/* Of "foo bar foo bar .." each line of 7 columns has two words, by both algorithms. */
static void a_long_text_is_filled(void) {
    const textwrap_functions none = textwrap_functions_new(NULL);
    uint8_t *text = repeated("foo bar ", LONG), *filled = repeated("foo bar\n", LONG);
    uint8_t *room = memory(LONG);
    textwrap_options o = textwrap_options_new(7);
    for (o.optimal_fit = 0; o.optimal_fit < 2; o.optimal_fit++) {
        size_t len = 0;
        CHECK(textwrap_fill(text, LONG, &o, room, LONG, &len) == TEXTWRAP_DONE);
        CHECK(is_equal(room, len, filled, LONG - 1));
        memset(room, 0, LONG);
        CHECK(textwrap_fill_utf8(text, LONG, &o, room, LONG, &len) == TEXTWRAP_DONE);
        CHECK(is_equal(room, len, filled, LONG - 1));
        memset(room, 0, LONG);
        CHECK(textwrap_fill_by(text, LONG, &o, &none, room, LONG, &len) == TEXTWRAP_DONE);
        CHECK(is_equal(room, len, filled, LONG - 1));
    }
    size_t columns = 0;
    CHECK(textwrap_display_width(text, LONG, &columns) == TEXTWRAP_DONE && columns == LONG);
    CHECK(textwrap_display_width_utf8(text, LONG, &columns) == TEXTWRAP_DONE && columns == LONG);
    CHECK(textwrap_fill_inplace(text, LONG - 1, 7) == TEXTWRAP_DONE);
    CHECK(is_equal(text, LONG - 1, filled, LONG - 1));
    free(text);
    free(filled);
    free(room);
}

/* A function of the caller cuts it. */
static void a_longer_text_is_filled_by_a_function(void) {
    textwrap_functions functions = textwrap_functions_new(NULL);
    uint8_t *text = repeated("foo bar\n", LONGER), *room = memory(LONGER);
    textwrap_options o = textwrap_options_new(3);
    size_t len = 0;
    functions.cut = textwrap_cut_at_breaks;
    CHECK(textwrap_fill_by(text, LONGER, &o, &functions, room, LONGER, &len) == TEXTWRAP_DONE);
    for (size_t i = 0; i < LONGER; i++)
        if (text[i] == ' ') text[i] = '\n';
    CHECK(is_equal(room, len, text, LONGER));
    free(text);
    free(room);
}

/* Each line is built, so the room is longer than the text. */
static void the_lines_of_a_long_text_are_places(void) {
    enum { LINES = LONG / 8, BUILT = LINES * 9 };
    const textwrap_functions none = textwrap_functions_new(NULL);
    uint8_t *text = repeated("foo bar ", LONG), *built = repeated("> foo bar", BUILT);
    uint8_t *room = memory(BUILT);
    textwrap_line *lines = (textwrap_line *)memory(LINES * sizeof *lines);
    textwrap_options o = textwrap_options_new(9);
    o.initial_indent = o.subsequent_indent = text_of("> ");
    for (int by = 0; by < 2; by++) {
        size_t count = 0, len = 0;
        memset(room, 0, BUILT);
        textwrap_status status =
            by ? textwrap_wrap_by(text, LONG, &o, &none, lines, LINES, &count, room, BUILT, &len)
               : textwrap_wrap(text, LONG, &o, lines, LINES, &count, room, BUILT, &len);
        CHECK(status == TEXTWRAP_DONE && count == LINES && is_equal(room, len, built, BUILT));
        CHECK(lines[LINES - 1].offset == BUILT - 9 && lines[LINES - 1].len == 9);
    }
    free(text);
    free(built);
    free(room);
    free(lines);
}

static void many_fragments_are_divided(void) {
    static textwrap_fragment fragments[MANY];
    static size_t ends[MANY];
    const size_t one = 1;
    const textwrap_penalties penalties = textwrap_penalties_new();
    for (size_t i = 0; i < MANY; i++) fragments[i] = (textwrap_fragment){1, 0, 0, 0};
    for (int by_cost = 0; by_cost < 2; by_cost++) {
        size_t count = 0;
        memset(ends, 0, sizeof ends);
        textwrap_status status =
            by_cost ? textwrap_wrap_optimal_fit(fragments, MANY, &one, 1, &penalties, ends, MANY, &count)
                    : textwrap_wrap_first_fit(fragments, MANY, &one, 1, ends, MANY, &count);
        CHECK(status == TEXTWRAP_DONE && count == MANY);
        CHECK(ends[0] == 1 && ends[1000] == 1001 && ends[MANY - 1] == MANY);
    }
}

/* Two letters, each on a line of its own behind an indent of many. */
static void long_indents_are_whole(void) {
    enum { FILLED = 2 * MANY + 3 };
    const textwrap_text indent = letters('x', MANY), later_indent = letters('y', MANY);
    const textwrap_functions none = textwrap_functions_new(NULL);
    textwrap_options o = textwrap_options_new(MANY + 1);
    uint8_t *expected = memory(FILLED), *room = memory(FILLED);
    o.initial_indent = indent;
    o.subsequent_indent = later_indent;
    memcpy(expected, indent.at, MANY);
    memcpy(expected + MANY, "a\n", 2);
    memcpy(expected + MANY + 2, later_indent.at, MANY);
    expected[FILLED - 1] = 'b';
    for (int call = 0; call < 3; call++) {
        size_t len = 0;
        memset(room, 0, FILLED);
        textwrap_status status =
            call == 0   ? textwrap_fill(bytes("a b"), 3, &o, room, FILLED, &len)
            : call == 1 ? textwrap_fill_by(bytes("a b"), 3, &o, &none, room, FILLED, &len)
                        : textwrap_fill_justified(bytes("a b"), 3, &o, room, FILLED, &len);
        CHECK(status == TEXTWRAP_DONE && is_equal(room, len, expected, FILLED));
    }
    release(indent);
    release(later_indent);
    free(expected);
    free(room);
}

static void long_gaps_are_whole(void) {
    enum { ROW = 3 * MANY + 2 };
    const textwrap_text gap = letters('|', MANY);
    const textwrap_gaps gaps = textwrap_gaps_new(gap, gap, gap);
    const textwrap_options o = textwrap_options_new(ROW);
    textwrap_line row;
    uint8_t *room = memory(ROW);
    size_t count = 0, len = 0;
    CHECK(textwrap_wrap_columns(bytes("a\nb"), 3, 2, &o, &gaps, &row, 1, &count, room, ROW, &len)
          == TEXTWRAP_DONE);
    CHECK(count == 1 && len == ROW && memcmp(room, gap.at, MANY) == 0);
    CHECK(room[MANY] == 'a' && memcmp(room + MANY + 1, gap.at, MANY) == 0);
    CHECK(room[2 * MANY + 1] == 'b' && memcmp(room + 2 * MANY + 2, gap.at, MANY) == 0);
    release(gap);
    free(room);
}

/* A prefix and a placeholder of many letters; the line of 2 MiB is cut to the placeholder. */
static void long_prefixes_and_placeholders_are_whole(void) {
    const textwrap_text prefix = letters('>', MANY), line = letters('a', LONG);
    uint8_t *room = memory(MANY + 1);
    textwrap_line place;
    size_t count = 0, len = 0;
    CHECK(textwrap_indent(bytes("a"), 1, prefix.at, MANY, room, MANY + 1, &len) == TEXTWRAP_DONE);
    CHECK(len == MANY + 1 && memcmp(room, prefix.at, MANY) == 0 && room[MANY] == 'a');
    CHECK(textwrap_shorten(line.at, LONG, MANY, prefix.at, MANY, room, MANY, &len) == TEXTWRAP_DONE);
    CHECK(is_equal(room, len, prefix.at, MANY));
    const textwrap_text lines[2] = {line, line};
    memset(room, 0, MANY);
    CHECK(textwrap_shorten_lines(lines, 2, 1, MANY, prefix.at, MANY, &place, 1, &count, room, MANY,
                                 &len) == TEXTWRAP_DONE);
    CHECK(count == 1 && place.len == MANY && is_equal(room, len, prefix.at, MANY));
    release(prefix);
    release(line);
    free(room);
}

/* 200,000 lines, of which each is one letter. */
static void many_lines_are_shortened(void) {
    enum { LINES = 200000 };
    textwrap_text *lines = (textwrap_text *)memory(LINES * sizeof *lines);
    textwrap_line *places = (textwrap_line *)memory(LINES * sizeof *places);
    uint8_t *room = memory(LINES);
    size_t count = 0, len = 0;
    for (size_t i = 0; i < LINES; i++) lines[i] = text_of("a");
    CHECK(textwrap_shorten_lines(lines, LINES, LINES, 1, bytes("."), 1, places, LINES, &count, room,
                                 LINES, &len) == TEXTWRAP_DONE);
    CHECK(count == LINES && len == LINES && places[LINES - 1].offset == LINES - 1);
    CHECK(room[0] == 'a' && room[LINES - 1] == 'a');
    free(lines);
    free(places);
    free(room);
}

/* A list of words that nobody writes, whose last one is "dnl". */
static textwrap_text *words_until_dnl(size_t len) {
    textwrap_text *words = (textwrap_text *)memory(len * sizeof *words);
    for (size_t i = 0; i < len; i++) words[i] = text_of("zzz");
    words[len - 1] = text_of("dnl");
    return words;
}

/* The last of many markers is one, and the last of many prefixes names the lines that are filled. */
static void many_markers_and_prefixes_count(void) {
    const char *text = "dnl one two three four\n> one two three four\n";
    const char *filled = "dnl one two\ndnl three four\n> one two three four\n";
    textwrap_text *words = words_until_dnl(MANY);
    textwrap_reflow_options o = textwrap_reflow_options_new(16);
    uint8_t room[64];
    size_t len = 0;
    o.markers = o.prefixes = words;
    o.markers_len = o.prefixes_len = MANY;
    CHECK(textwrap_reflow(bytes(text), strlen(text), &o, room, sizeof room, &len) == TEXTWRAP_DONE);
    CHECK(is_text(room, len, filled));
    free(words);
}

/* Each line of the text becomes two rows of one column; filled again, each two become three lines. */
static void long_texts_are_hyphenated(void) {
    enum { LINES = LONG / 16, ROWS = 2 * LINES + 1, BUILT = 11 * ROWS, REFILLED = LINES / 2 * 34 };
    static const char patterns[] = "hy3ph\nhe2n\nhena4\nhen5at\n1na\nn2at\n1tio\n2io\no2n\n";
    const textwrap_gaps none = textwrap_gaps_new(text_of(""), text_of(""), text_of(""));
    textwrap_options o = textwrap_options_new(11);
    uint8_t *text = repeated("the hyphenation\n", LONG), *room = memory(BUILT);
    uint8_t *built = repeated("the hyphen-ation      ", BUILT);
    uint8_t *refilled = repeated("the hyphen-\nation the\nhyphenation\n", REFILLED);
    textwrap_line *rows = (textwrap_line *)memory(ROWS * sizeof *rows);
    size_t numbers[256], numbers_len = 0, line = 0, count = 0, len = 0;
    CHECK(textwrap_patterns_read(bytes(patterns), strlen(patterns), numbers, 256, &numbers_len, &line)
          == TEXTWRAP_DONE);
    o.dictionary = textwrap_dictionary_new(numbers, numbers_len);
    o.dictionary.is_checked = 1;
    o.optimal_fit = 0;
    /* No line stands behind the last line feed. */
    memset(built + BUILT - 11, ' ', 11);
    CHECK(textwrap_wrap_columns(text, LONG, 1, &o, &none, rows, ROWS, &count, room, BUILT, &len)
          == TEXTWRAP_DONE);
    CHECK(count == ROWS && is_equal(room, len, built, BUILT));
    CHECK(rows[ROWS - 1].offset == BUILT - 11 && rows[ROWS - 1].len == 11);
    CHECK(textwrap_refill(text, LONG, &o, room, BUILT, &len) == TEXTWRAP_DONE);
    CHECK(is_equal(room, len, refilled, REFILLED));
    free(text);
    free(room);
    free(built);
    free(refilled);
    free(rows);
}

int main(void) {
    a_long_text_is_filled();
    a_longer_text_is_filled_by_a_function();
    the_lines_of_a_long_text_are_places();
    many_fragments_are_divided();
    long_indents_are_whole();
    long_gaps_are_whole();
    long_prefixes_and_placeholders_are_whole();
    many_lines_are_shortened();
    many_markers_and_prefixes_count();
    long_texts_are_hyphenated();
    if (failures == 0) printf("C, long texts: ok\n");
    return failures != 0;
}
