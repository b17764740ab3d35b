/* textwrap_wrap_by and textwrap_fill_by with functions of the caller: when these are called, what they
 * are handed, what they may answer, and that nothing is written past the caller's room. */
#include <stdlib.h>

#include "check.h"

/* What the functions below are told, and what they note. */
struct asked {
    int calls;          /* how often any of them was called */
    size_t places;      /* how many places they answer */
    size_t place;       /* the first of these; each later one is one more */
    size_t least_len;   /* of the words that `split` answers any for */
    size_t widths[2];   /* those of the lines, as `divide` was handed them */
    char words[64];     /* those that `split` was handed, each with a bar behind it */
};

/* So many places from this one on. */
static struct asked answering(size_t places, size_t place) {
    struct asked asked;
    memset(&asked, 0, sizeof asked);
    asked.places = places;
    asked.place = place;
    return asked;
}

static size_t answer(struct asked *asked, size_t len, size_t *places) {
    asked->calls++;
    for (size_t i = 0; i < asked->places && i < len; i++) places[i] = asked->place + i;
    return asked->places;
}

static size_t cut(void *context, const uint8_t *paragraph, size_t len, size_t *cuts) {
    (void)paragraph;
    return answer((struct asked *)context, len, cuts);
}

static size_t split(void *context, const uint8_t *word, size_t len, size_t *points) {
    struct asked *asked = (struct asked *)context;
    strncat(asked->words, (const char *)word, len);
    strcat(asked->words, "|");
    return len < asked->least_len ? 0 : answer(asked, len, points);
}

static size_t divide(void *context, const textwrap_piece *pieces, size_t pieces_len,
                     const size_t line_widths[2], size_t *ends) {
    struct asked *asked = (struct asked *)context;
    (void)pieces;
    memcpy(asked->widths, line_widths, sizeof asked->widths);
    return answer(asked, pieces_len + 1, ends);
}

/* Cuts "foo bar" before its second word, and writes more than it answers. */
static size_t cut_and_scribble(void *context, const uint8_t *paragraph, size_t len, size_t *cuts) {
    (void)context;
    (void)paragraph;
    for (size_t i = 0; i < len; i++) cuts[i] = 2;
    cuts[0] = 4;
    return 1;
}

/* A line for each of two pieces, and an empty one. */
static size_t two_alone_and_none(void *context, const textwrap_piece *pieces, size_t pieces_len,
                                 const size_t line_widths[2], size_t *ends) {
    (void)pieces;
    (void)pieces_len;
    (void)line_widths;
    ends[0] = 1;
    ends[1] = ends[2] = 2;
    return ((struct asked *)context)->places;
}

/* A line for each piece, and an empty one. */
static size_t each_alone_and_none(void *context, const textwrap_piece *pieces, size_t pieces_len,
                                  const size_t line_widths[2], size_t *ends) {
    (void)context;
    (void)pieces;
    (void)line_widths;
    for (size_t i = 0; i < pieces_len; i++) ends[i] = i + 1;
    ends[pieces_len] = pieces_len;
    return pieces_len + 1;
}

/* A line for each of two pieces, and no lines for more. */
static size_t few_alone(void *context, const textwrap_piece *pieces, size_t pieces_len,
                        const size_t line_widths[2], size_t *ends) {
    (void)context;
    (void)pieces;
    (void)line_widths;
    for (size_t i = 0; i < pieces_len; i++) ends[i] = i + 1;
    return pieces_len > 2 ? 0 : pieces_len;
}

static textwrap_options first_fit(size_t width) {
    textwrap_options options = textwrap_options_new(width);
    options.optimal_fit = 0;
    return options;
}

/* The lines of a text, each with a bar behind it, or its status in words. */
static const char *wrapped(textwrap_options options, textwrap_functions functions, const char *text) {
    static char all[512];
    textwrap_line lines[32];
    uint8_t room[256];
    size_t count = 0, len = 0, used = 0;
    textwrap_status status = textwrap_wrap_by(bytes(text), strlen(text), &options, &functions, lines,
                                              32, &count, room, sizeof room, &len);
    if (status != TEXTWRAP_DONE) return textwrap_status_text(status);
    for (size_t i = 0; i < count; i++) {
        const uint8_t *line = (lines[i].is_built ? room : bytes(text)) + lines[i].offset;
        memcpy(all + used, line, lines[i].len);
        used += lines[i].len;
        all[used++] = '|';
    }
    all[used] = '\0';
    return all;
}

/* Whether these calls are refused for this, before any function is called and without a change. */
static int is_refused_unasked(const char *text, textwrap_options options, textwrap_status refusal) {
    struct asked asked = answering(0, 0);
    textwrap_functions functions = textwrap_functions_new(&asked);
    functions.cut = cut;
    functions.split = split;
    functions.divide = divide;
    textwrap_line lines[8];
    uint8_t room[32] = "...";
    size_t count = 7, len = 7;
    textwrap_status status = textwrap_wrap_by(bytes(text), strlen(text), &options, &functions, lines, 8,
                                              &count, room, sizeof room, &len);
    textwrap_status other = textwrap_fill_by(bytes(text), strlen(text), &options, &functions, room,
                                             sizeof room, &len);
    return status == refusal && other == refusal && asked.calls == 0 && count == 7 && len == 7
        && memcmp(room, "...", 4) == 0;
}

static void what_is_refused_calls_no_function(void) {
    textwrap_options refused = first_fit(3), indented = first_fit(3), later_indented = first_fit(3);
    CHECK(is_refused_unasked("a b\xff", first_fit(3), TEXTWRAP_NOT_UTF8));
    CHECK(is_refused_unasked("a b c d\n\xff", first_fit(3), TEXTWRAP_NOT_UTF8));
    indented.initial_indent = text_of("\xff");
    CHECK(is_refused_unasked("a b c d", indented, TEXTWRAP_NOT_UTF8));
    later_indented.subsequent_indent = text_of("\xff");
    CHECK(is_refused_unasked("a b c d", later_indented, TEXTWRAP_NOT_UTF8));
    refused.version = 1;
    CHECK(is_refused_unasked("a b c d", refused, TEXTWRAP_UNKNOWN_OPTIONS));
    refused = first_fit(3);
    refused.crlf = 2;
    CHECK(is_refused_unasked("a b c d", refused, TEXTWRAP_UNKNOWN_OPTIONS));
}

/* "> aa", "> bb" and "> cc" stand in 12 bytes, and joined in 14. Room that is too short holds the
 * beginning of them. It is a block of its own with one byte more, which has to stay. */
static void room_may_be_too_short(void) {
    textwrap_options o = first_fit(4);
    const textwrap_functions none = textwrap_functions_new(NULL);
    o.initial_indent = o.subsequent_indent = text_of("> ");
    for (size_t room_len = 0; room_len <= 15; room_len++) {
        uint8_t *room = (uint8_t *)malloc(room_len + 1);
        textwrap_line lines[3];
        size_t count = 7, len = 7;
        memset(room, '.', room_len + 1);
        textwrap_status status =
            textwrap_wrap_by(bytes("aa bb cc"), 8, &o, &none, lines, 3, &count, room, room_len, &len);
        CHECK(status == (room_len < 12 ? TEXTWRAP_TOO_SMALL : TEXTWRAP_DONE));
        CHECK(count == 3 && len == 12 && room[room_len] == '.');
        CHECK(memcmp(room, "> aa> bb> cc", room_len < 12 ? room_len : 12) == 0);
        memset(room, '.', room_len + 1);
        status = textwrap_fill_by(bytes("aa bb cc"), 8, &o, &none, room, room_len, &len);
        CHECK(status == (room_len < 14 ? TEXTWRAP_TOO_SMALL : TEXTWRAP_DONE));
        CHECK(len == 14 && room[room_len] == '.');
        CHECK(memcmp(room, "> aa\n> bb\n> cc", room_len < 14 ? room_len : 14) == 0);
        free(room);
    }
}

static void too_few_lines_are_the_first(void) {
    textwrap_options o = first_fit(4);
    const textwrap_functions none = textwrap_functions_new(NULL);
    const textwrap_line unset = {77, 77, 77};
    uint8_t room[16] = "";
    size_t count = 7, len = 7;
    o.initial_indent = o.subsequent_indent = text_of("> ");
    for (size_t lines_len = 0; lines_len <= 3; lines_len++) {
        textwrap_line lines[4] = {unset, unset, unset, unset};
        textwrap_status status = textwrap_wrap_by(bytes("aa bb cc"), 8, &o, &none, lines, lines_len,
                                                  &count, room, sizeof room, &len);
        CHECK(status == (lines_len < 3 ? TEXTWRAP_TOO_SMALL : TEXTWRAP_DONE));
        CHECK(count == 3 && len == 12 && memcmp(&lines[lines_len], &unset, sizeof unset) == 0);
        for (size_t i = 0; i < lines_len && i < 3; i++) {
            CHECK(lines[i].offset == 4 * i && lines[i].len == 4 && lines[i].is_built == 1);
        }
        CHECK(memcmp(room, "> aa> bb> cc", 13) == 0);
    }
}

static void a_paragraph_may_have_no_words(void) {
    struct asked asked = answering(0, 0);
    textwrap_functions functions = textwrap_functions_new(&asked);
    textwrap_options o = first_fit(5);
    functions.cut = cut;
    functions.split = split;
    o.initial_indent = text_of("* ");
    o.subsequent_indent = text_of("  ");
    CHECK(strcmp(wrapped(o, functions, ""), "* |") == 0);
    CHECK(strcmp(wrapped(o, functions, "a\n\nb"), "* a|  |  b|") == 0);
}

static void a_text_that_is_shorter_than_the_width_calls_no_function(void) {
    struct asked asked = answering(9, 9);
    textwrap_functions functions = textwrap_functions_new(&asked);
    functions.cut = cut;
    functions.split = split;
    functions.divide = divide;
    CHECK(strcmp(wrapped(first_fit(4), functions, "foo\n\nab "), "foo||ab|") == 0);
    CHECK(asked.calls == 0 && asked.words[0] == '\0');
}

static void a_hyphen_takes_its_column(void) {
    struct asked asked = answering(1, 2);
    textwrap_functions functions = textwrap_functions_new(&asked);
    functions.split = split;
    asked.least_len = 3;
    CHECK(strcmp(wrapped(first_fit(6), functions, "ab  cdef "), "ab|cdef|") == 0);
    CHECK(strcmp(wrapped(first_fit(7), functions, "ab  cdef "), "ab  cd-|ef|") == 0);
    /* A word is handed over without the blanks behind it. */
    CHECK(strcmp(asked.words, "ab|cdef|ab|cdef|") == 0);
}

static void a_hyphen_costs_what_the_options_say(void) {
    struct asked asked = answering(1, 3);
    textwrap_functions functions = textwrap_functions_new(&asked);
    textwrap_options o = textwrap_options_new(7);
    functions.split = split;
    asked.least_len = 4;
    o.hyphen_penalty = 24;
    CHECK(strcmp(wrapped(o, functions, "ab foobar"), "ab foo-|bar|") == 0);
    o.hyphen_penalty = 26;
    CHECK(strcmp(wrapped(o, functions, "ab foobar"), "ab|foobar|") == 0);
}

/* Without a function that splits them, they are split behind hyphens or not at all. */
static void words_of_the_caller_are_split_as_the_options_say(void) {
    struct asked asked = answering(1, 8);
    textwrap_functions functions = textwrap_functions_new(&asked);
    textwrap_options o = first_fit(6);
    functions.cut = cut;
    o.break_words = 0;
    CHECK(strcmp(wrapped(o, functions, "foo-bar baz"), "foo-|bar|baz|") == 0);
    o.split_at_hyphens = 0;
    CHECK(strcmp(wrapped(o, functions, "foo-bar baz"), "foo-bar|baz|") == 0);
}

/* Or where a dictionary has hyphens, and behind those of the word. */
static void words_of_the_caller_are_split_by_a_dictionary(void) {
    static const char patterns[] = "hy3ph\nhe2n\nhena4\nhen5at\n1na\nn2at\n1tio\n2io\no2n\n";
    struct asked asked = answering(1, 12);
    textwrap_functions functions = textwrap_functions_new(&asked);
    textwrap_options o = first_fit(6);
    size_t numbers[256], numbers_len = 0, line = 0;
    CHECK(textwrap_patterns_read(bytes(patterns), strlen(patterns), numbers, 256, &numbers_len, &line)
          == TEXTWRAP_DONE);
    o.dictionary = textwrap_dictionary_new(numbers, numbers_len);
    functions.cut = cut;
    CHECK(strcmp(wrapped(o, functions, "hyphenation re-hyphenation"), "hy-|phen-|ation|re-|hyphen|ation|") == 0);
    o.split_at_hyphens = 0;
    o.dictionary.in_parts = 1;
    CHECK(strcmp(wrapped(o, functions, "hyphenation re-hyphenation"), "hy-|phen-|ation|re-hy-|phen-|ation|") == 0);
    functions.cut = NULL;
    CHECK(strcmp(wrapped(o, functions, "hyphenation re-hyphenation"), "hy-|phen-|ation|re-hy-|phen-|ation|") == 0);
    o.dictionary = textwrap_dictionary_new(numbers, numbers_len - 1);
    const char *refused = textwrap_status_text(TEXTWRAP_UNKNOWN_OPTIONS);
    CHECK(strcmp(wrapped(o, functions, "hyphenation"), refused) == 0);
}

/* Digits and signs are words like any other. */
static void a_splitter_is_asked_for_words_without_letters(void) {
    struct asked asked = answering(1, 2);
    textwrap_functions functions = textwrap_functions_new(&asked);
    functions.split = split;
    CHECK(strcmp(wrapped(first_fit(3), functions, "1234 ----"), "12-|34|--|--|") == 0);
    CHECK(strcmp(asked.words, "1234|----|") == 0);
}

/* A word without columns stands before an indented line, and each letter of a broken one is a piece. */
static void an_algorithm_may_get_more_pieces_than_there_are_bytes(void) {
    textwrap_functions functions = textwrap_functions_new(NULL);
    textwrap_options o = first_fit(3);
    functions.divide = each_alone_and_none;
    o.initial_indent = o.subsequent_indent = text_of("> ");
    CHECK(strcmp(wrapped(o, functions, "abc"), "> |> a|> b|> c||") == 0);
}

static void a_last_line_may_be_empty(void) {
    textwrap_functions functions = textwrap_functions_new(NULL);
    textwrap_options o = first_fit(3);
    functions.divide = each_alone_and_none;
    CHECK(strcmp(wrapped(o, functions, "a b c"), "a|b|c||") == 0);
    uint8_t room[8];
    size_t len = 0;
    CHECK(textwrap_fill_by(bytes("a b c"), 5, &o, &functions, room, sizeof room, &len)
          == TEXTWRAP_DONE);
    CHECK(is_text(room, len, "a\nb\nc\n"));
}

/* There is no line yet when the second begins, so its first line has the initial indent, behind which an
 * empty word stands before its text. */
static void the_first_paragraph_may_have_no_lines(void) {
    textwrap_functions functions = textwrap_functions_new(NULL);
    textwrap_options o = first_fit(8);
    functions.divide = few_alone;
    o.initial_indent = text_of(">>>>");
    CHECK(strcmp(wrapped(o, functions, "none of it here\nfoo"), ">>>>|foo|") == 0);
}

/* The first paragraph's first line has what the initial indent leaves, also where this has more bytes
 * than columns. */
static void an_algorithm_is_handed_what_the_indents_leave(void) {
    struct asked asked = answering(1, 2);
    textwrap_functions functions = textwrap_functions_new(&asked);
    textwrap_options o = first_fit(9);
    functions.divide = divide;
    o.break_words = 0;
    o.initial_indent = text_of("\xe4\xbd\xa0");
    o.subsequent_indent = text_of("\xe2\x94\x82");
    CHECK(strcmp(wrapped(o, functions, "a b"), "\xe4\xbd\xa0" "a b|") == 0);
    CHECK(asked.calls == 1 && asked.widths[0] == 7 && asked.widths[1] == 8);
    CHECK(strcmp(wrapped(o, functions, "a b\na b"), "\xe4\xbd\xa0" "a b|\xe2\x94\x82" "a b|") == 0);
    CHECK(asked.calls == 3 && asked.widths[0] == 7 && asked.widths[1] == 8);
    o.even_paragraphs = 1;
    CHECK(strcmp(wrapped(o, functions, "a b\na b"), "\xe4\xbd\xa0" "a b|\xe2\x94\x82" "a b|") == 0);
    CHECK(asked.widths[0] == 8 && asked.widths[1] == 8);
    o.width = 1;
    o.even_paragraphs = 0;
    CHECK(strcmp(wrapped(o, functions, "a b"), "\xe4\xbd\xa0" "a b|") == 0);
    CHECK(asked.widths[0] == 0 && asked.widths[1] == 0);
}

/* Whether so many places from this one on get this status, as cuts of "abcd", as points in it, or as
 * ends of its lines. */
static int have_status(textwrap_status status, size_t places, size_t place, const char *which) {
    struct asked asked = answering(places, place);
    textwrap_functions functions = textwrap_functions_new(&asked);
    if (strcmp(which, "cuts") == 0) functions.cut = cut;
    if (strcmp(which, "points") == 0) functions.split = split;
    if (strcmp(which, "ends") == 0) functions.divide = divide;
    textwrap_options o = first_fit(3);
    o.break_words = 0;
    return strcmp(wrapped(o, functions, "abcd"), textwrap_status_text(status)) == 0;
}

static int are_wrong(size_t places, size_t place, const char *which) {
    return have_status(TEXTWRAP_WRONG_PLACES, places, place, which);
}

static void a_function_may_run_out_of_memory(void) {
    CHECK(have_status(TEXTWRAP_OUT_OF_MEMORY, TEXTWRAP_NO_MEMORY, 1, "cuts"));
    CHECK(have_status(TEXTWRAP_OUT_OF_MEMORY, TEXTWRAP_NO_MEMORY, 1, "points"));
    CHECK(have_status(TEXTWRAP_OUT_OF_MEMORY, TEXTWRAP_NO_MEMORY, 0, "ends"));
}

static void wrong_places_are_refused(void) {
    CHECK(!are_wrong(1, 2, "cuts") && !are_wrong(1, 2, "points") && !are_wrong(1, 1, "ends"));
    /* More than there may be, of which those that are written would do. */
    CHECK(are_wrong(5, 1, "cuts") && are_wrong(5, 1, "points") && are_wrong(3, 0, "ends"));
    CHECK(are_wrong(SIZE_MAX - 1, 1, "cuts") && are_wrong(SIZE_MAX - 1, 1, "points"));
    CHECK(are_wrong(SIZE_MAX - 1, 0, "ends"));
    /* At an end, or past it. */
    CHECK(are_wrong(1, 0, "cuts") && are_wrong(1, 0, "points"));
    CHECK(are_wrong(1, 4, "cuts") && are_wrong(1, 4, "points") && are_wrong(1, 2, "ends"));
    CHECK(are_wrong(2, 3, "cuts") && are_wrong(2, 3, "points") && are_wrong(2, 1, "ends"));
}

/* Behind the three ends of "foo bar" stands a 2, which would do for a fourth. */
static void one_end_too_many_is_refused(void) {
    struct asked asked = answering(3, 0);
    textwrap_functions functions = textwrap_functions_new(&asked);
    functions.cut = cut_and_scribble;
    functions.divide = two_alone_and_none;
    CHECK(strcmp(wrapped(first_fit(3), functions, "foo bar"), "foo|bar||") == 0);
    asked.places = 4;
    const char *refused = textwrap_status_text(TEXTWRAP_WRONG_PLACES);
    CHECK(strcmp(wrapped(first_fit(3), functions, "foo bar"), refused) == 0);
}

static void a_carriage_return_ends_no_paragraph(void) {
    textwrap_functions breaks = textwrap_functions_new(NULL);
    textwrap_options o = first_fit(80);
    o.crlf = 1;
    CHECK(strcmp(wrapped(o, breaks, "a\rb cccc\r\ndd\r"), "a\rb cccc|dd\r|") == 0);
    CHECK(strcmp(wrapped(o, breaks, "\r\r\n\r"), "\r|\r|") == 0);
    o.crlf = 0;
    CHECK(strcmp(wrapped(o, breaks, "a\rb cccc\r\ndd\r"), "a\rb cccc\r|dd\r|") == 0);
}

int main(void) {
    what_is_refused_calls_no_function();
    room_may_be_too_short();
    too_few_lines_are_the_first();
    a_paragraph_may_have_no_words();
    a_text_that_is_shorter_than_the_width_calls_no_function();
    a_hyphen_takes_its_column();
    a_hyphen_costs_what_the_options_say();
    words_of_the_caller_are_split_as_the_options_say();
    words_of_the_caller_are_split_by_a_dictionary();
    a_splitter_is_asked_for_words_without_letters();
    an_algorithm_may_get_more_pieces_than_there_are_bytes();
    a_last_line_may_be_empty();
    the_first_paragraph_may_have_no_lines();
    an_algorithm_is_handed_what_the_indents_leave();
    wrong_places_are_refused();
    one_end_too_many_is_refused();
    a_function_may_run_out_of_memory();
    a_carriage_return_ends_no_paragraph();
    if (failures == 0) printf("C, functions of the caller: ok\n");
    return failures != 0;
}
