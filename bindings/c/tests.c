/* Each declaration of textwrap_proved.h on a worked example, and each option with an answer that it alone
 * gives. */
#include <stdio.h>
#include <stdlib.h>
#include <string.h>

#include "check.h"
#include "textwrap_proved.h"

/* Whether the text, filled by these options, is this. */
static int is_filled(textwrap_options options, const char *text, const char *filled) {
    uint8_t room[256];
    size_t len = 0;
    textwrap_status status =
        textwrap_fill(bytes(text), strlen(text), &options, room, sizeof room, &len);
    return status == TEXTWRAP_DONE && len == strlen(filled) && memcmp(room, filled, len) == 0;
}

static const char HAMLET[] = "To be, or not to be: that is the question";

static void each_option_has_its_effect(void) {
    CHECK(is_filled(textwrap_options_new(10), HAMLET, "To be,\nor not to\nbe: that\nis the\nquestion"));
    textwrap_options o = textwrap_options_new(10);
    o.optimal_fit = 0;
    CHECK(is_filled(o, HAMLET, "To be, or\nnot to be:\nthat is\nthe\nquestion"));
    o = textwrap_options_new(10);
    o.nline_penalty = 1000000;
    CHECK(is_filled(o, HAMLET, HAMLET));
    o = textwrap_options_new(10);
    o.overflow_penalty = 0;
    CHECK(is_filled(o, HAMLET, HAMLET));
    CHECK(is_filled(textwrap_options_new(11), "foo bar baz a", "foo bar\nbaz a"));
    o = textwrap_options_new(11);
    o.short_last_line_penalty = 0;
    CHECK(is_filled(o, "foo bar baz a", "foo bar baz\na"));
    o = textwrap_options_new(11);
    o.short_last_line_fraction = 20;
    CHECK(is_filled(o, "foo bar baz a", "foo bar baz\na"));
    CHECK(is_filled(textwrap_options_new(5), "foo-bar", "foo-\nbar"));
    o = textwrap_options_new(5);
    o.split_at_hyphens = 0;
    CHECK(is_filled(o, "foo-bar", "foo-b\nar"));
    CHECK(is_filled(textwrap_options_new(5), "foobarbaz", "fooba\nrbaz"));
    o = textwrap_options_new(5);
    o.break_words = 0;
    CHECK(is_filled(o, "foobarbaz", "foobarbaz"));
    o = textwrap_options_new(5);
    o.preserve_trailing_space = 1;
    CHECK(is_filled(o, "foo bar", "foo \nbar"));
    o = textwrap_options_new(5);
    o.crlf = 1;
    CHECK(is_filled(o, "foo bar\r\nbaz", "foo\r\nbar\r\nbaz"));
    o = textwrap_options_new(9);
    o.initial_indent = text_of("* ");
    o.subsequent_indent = text_of("    ");
    CHECK(is_filled(o, "foo bar\nbaz qu", "* foo bar\n    baz qu"));
    o.even_paragraphs = 1;
    CHECK(is_filled(o, "foo bar\nbaz qu", "* foo bar\n    baz\n    qu"));
}

static void options_without_a_meaning_are_refused(void) {
    static const size_t numbers[1] = {0};
    textwrap_options refused[9];
    for (int i = 0; i < 9; i++) refused[i] = textwrap_options_new(10);
    refused[0].version = 1;
    refused[1].optimal_fit = 2;
    refused[2].even_paragraphs = 7;
    refused[3].unicode_breaks = 3;
    refused[4].reserved_sizes[3] = 1;
    refused[5].dictionary.is_checked = 2;
    refused[6].dictionary.soft_hyphens = 2;
    refused[7].dictionary.reserved = 1;
    refused[8].dictionary = textwrap_dictionary_new(numbers, 1);
    for (int i = 0; i < 9; i++) {
        uint8_t room[4] = "...";
        size_t len = 5;
        CHECK(textwrap_fill(bytes("a"), 1, &refused[i], room, 4, &len) == TEXTWRAP_UNKNOWN_OPTIONS);
        CHECK(len == 5 && memcmp(room, "...", 4) == 0);
    }
}

/* A text that is not UTF-8 is refused by each call, and nothing is changed. */
static void texts_that_are_not_utf8_are_refused(void) {
    const textwrap_options o = textwrap_options_new(10);
    const textwrap_gaps gaps = textwrap_gaps_new(text_of("|"), text_of("|"), text_of("|"));
    const uint8_t *wrong = bytes("ab\xff");
    const size_t place = 1;
    textwrap_layout layout;
    textwrap_piece pieces[3];
    textwrap_line lines[3];
    uint8_t room[32] = "...", text[4] = "a\xff";
    size_t places[3], count = 7, len = 7;
    const textwrap_status statuses[] = {
        textwrap_fill(wrong, 3, &o, room, 32, &len),
        textwrap_fill_inplace(text, 3, 1),
        textwrap_wrap(wrong, 3, &o, lines, 3, &count, room, 32, &len),
        textwrap_wrap_columns(wrong, 3, 1, &o, &gaps, lines, 3, &count, room, 32, &len),
        textwrap_refill(wrong, 3, &o, room, 32, &len),
        textwrap_unfill(wrong, 3, room, 32, &len, &layout),
        textwrap_indent(wrong, 3, bytes("> "), 2, room, 32, &len),
        textwrap_indent(bytes("a"), 1, wrong, 3, room, 32, &len),
        textwrap_dedent(wrong, 3, room, 32, &len),
        textwrap_pieces(wrong, 3, &o, pieces, 3, &count),
        textwrap_find_words_at(wrong, 3, &place, 1, pieces, 3, &count),
        textwrap_unicode_cuts(wrong, 3, places, 3, &count),
        textwrap_split_points(wrong, 3, places, 3, &count),
        textwrap_split_points_outside(wrong, 3, places, 3, &count),
        textwrap_break_apart(wrong, 3, 1, pieces, 3, &count),
        textwrap_pieces_at(wrong, 3, &place, 1, &place, 1, &o, pieces, 3, &count),
        textwrap_lines_at(wrong, 3, &place, 1, &place, 1, &place, 1, &o, 0, lines, 3, &count, room, 32,
                          &len),
        textwrap_ends_at(wrong, 3, &place, 1, &place, 1, &o, 0, places, 3, &count),
        textwrap_paragraphs(wrong, 3, &o, NULL, 0, &count),
        textwrap_wrap_at(wrong, 3, NULL, 0, &o, lines, 3, &count, room, 32, &len),
        textwrap_fill_at(wrong, 3, NULL, 0, &o, room, 32, &len),
        textwrap_fill_justified_at(wrong, 3, NULL, 0, &o, room, 32, &len),
    };
    for (size_t i = 0; i < sizeof statuses / sizeof *statuses; i++)
        CHECK(statuses[i] == TEXTWRAP_NOT_UTF8);
    CHECK(count == 7 && len == 7 && memcmp(room, "...", 4) == 0 && memcmp(text, "a\xff", 3) == 0);
}

static void columns_are_counted(void) {
    size_t columns = 7;
    CHECK(textwrap_display_width(bytes("Caf\xc3\xa9"), 5, &columns) == TEXTWRAP_DONE && columns == 4);
    CHECK(textwrap_display_width(bytes("Caf\xe9"), 4, &columns) == TEXTWRAP_NOT_UTF8 && columns == 4);
}

/* Calls that write a text. */
static textwrap_status filled_greedily(uint8_t *room, size_t room_len, size_t *len) {
    textwrap_options o = textwrap_options_new(10);
    o.optimal_fit = 0;
    o.subsequent_indent = text_of("> ");
    return textwrap_fill(bytes("foo bar baz"), 11, &o, room, room_len, len);
}

static textwrap_status filled_at_least_cost(uint8_t *room, size_t room_len, size_t *len) {
    const textwrap_options o = textwrap_options_new(10);
    return textwrap_fill(bytes("foo bar baz"), 11, &o, room, room_len, len);
}

static textwrap_status indented(uint8_t *room, size_t room_len, size_t *len) {
    return textwrap_indent(bytes("a\n\nb\n"), 5, bytes("> "), 2, room, room_len, len);
}

static textwrap_status dedented(uint8_t *room, size_t room_len, size_t *len) {
    return textwrap_dedent(bytes("  a\n\n    b\n"), 11, room, room_len, len);
}

static textwrap_status unfilled(uint8_t *room, size_t room_len, size_t *len) {
    textwrap_layout layout;
    return textwrap_unfill(bytes("* foo\n  bar\n"), 12, room, room_len, len, &layout);
}

/* Room of each length: it holds as much of the text as there is room for, and the rest of it and what
 * stands after it are not touched. */
static void holds_the_beginning(textwrap_status (*call)(uint8_t *, size_t, size_t *), const char *text) {
    const size_t text_len = strlen(text);
    for (size_t has = 0; has < text_len + 3; has++) {
        uint8_t room[32], expected[32];
        size_t len = 0;
        memset(room, '_', sizeof room);
        memset(expected, '_', sizeof expected);
        memcpy(expected, text, has < text_len ? has : text_len);
        CHECK(call(room, has, &len) == (has < text_len ? TEXTWRAP_TOO_SMALL : TEXTWRAP_DONE));
        CHECK(len == text_len && memcmp(room, expected, sizeof room) == 0);
    }
}

static void room_that_is_too_small_is_reported(void) {
    holds_the_beginning(filled_greedily, "foo bar\n> baz");
    holds_the_beginning(filled_at_least_cost, "foo bar\nbaz");
    holds_the_beginning(indented, "> a\n>\n> b\n");
    holds_the_beginning(dedented, "a\n\n  b\n");
    holds_the_beginning(unfilled, "foo bar\n*   ");
    textwrap_options o = textwrap_options_new(10);
    uint8_t room[1];
    size_t len = 7;
    CHECK(textwrap_fill(bytes(""), 0, &o, room, 0, &len) == TEXTWRAP_DONE && len == 0);
}

static void lines_are_places(void) {
    textwrap_options o = textwrap_options_new(5);
    textwrap_line lines[2];
    size_t count = 0, len = 7;
    uint8_t room[8];
    CHECK(textwrap_wrap(bytes("foo  bar"), 8, &o, lines, 2, &count, room, 0, &len) == TEXTWRAP_DONE);
    CHECK(count == 2 && len == 0);
    CHECK(lines[0].offset == 0 && lines[0].len == 3 && lines[0].is_built == 0);
    CHECK(lines[1].offset == 5 && lines[1].len == 3 && lines[1].is_built == 0);
    o.subsequent_indent = text_of("> ");
    CHECK(textwrap_wrap(bytes("foo  bar"), 8, &o, lines, 2, &count, room, 0, &len)
          == TEXTWRAP_TOO_SMALL);
    CHECK(count == 2 && len == 5);
    CHECK(lines[0].offset == 0 && lines[0].len == 3 && lines[0].is_built == 0);
    CHECK(textwrap_wrap(bytes("foo  bar"), 8, &o, lines, 1, &count, room, 3, &len)
          == TEXTWRAP_TOO_SMALL);
    CHECK(count == 2 && len == 5);
    CHECK(lines[0].len == 3 && lines[0].is_built == 0 && memcmp(room, "> b", 3) == 0);
    CHECK(textwrap_wrap(bytes("foo  bar"), 8, &o, lines, 2, &count, room, 8, &len) == TEXTWRAP_DONE);
    CHECK(lines[1].offset == 0 && lines[1].len == 5 && lines[1].is_built == 1);
    CHECK(memcmp(room, "> bar", 5) == 0);
}

static void rows_are_written(void) {
    textwrap_options o = textwrap_options_new(24);
    textwrap_gaps gaps = textwrap_gaps_new(text_of("|"), text_of("|"), text_of("|"));
    textwrap_line rows[1];
    size_t count = 0, len = 0;
    uint8_t room[24];
    const char *text = "Foo Bar Baz Quux";
    CHECK(textwrap_wrap_columns(bytes(text), 16, 0, &o, &gaps, rows, 1, &count, room, 24, &len)
          == TEXTWRAP_UNKNOWN_OPTIONS);
    CHECK(textwrap_wrap_columns(bytes(text), 16, 4, &o, &gaps, rows, 1, &count, room, 24, &len)
          == TEXTWRAP_DONE);
    CHECK(count == 1 && len == 24 && memcmp(room, "|Foo |Bar |Baz |Quux   |", 24) == 0);
    CHECK(rows[0].offset == 0 && rows[0].len == 24 && rows[0].is_built == 1);
}

static void filled_texts_are_unfilled_and_refilled(void) {
    const char *text = "* foo\n  bar\n";
    uint8_t room[32];
    size_t len = 0;
    textwrap_layout layout;
    memset(&layout, 7, sizeof layout);
    const textwrap_layout old = layout;
    CHECK(textwrap_unfill(bytes(text), 12, room, 11, &len, &layout) == TEXTWRAP_TOO_SMALL);
    CHECK(len == 12 && memcmp(room, "foo bar\n*  ", 11) == 0);
    CHECK(memcmp(&layout, &old, sizeof layout) == 0);
    CHECK(textwrap_unfill(bytes(text), 12, room, sizeof room, &len, &layout) == TEXTWRAP_DONE);
    CHECK(len == 12 && memcmp(room, "foo bar\n*   ", 12) == 0);
    CHECK(layout.width == 5 && layout.crlf == 0);
    CHECK(layout.initial_indent_len == 2 && layout.subsequent_indent_len == 2);
    for (int i = 0; i < 4; i++) CHECK(layout.reserved_sizes[i] == 0);
    textwrap_options o = textwrap_options_new(20);
    CHECK(textwrap_refill(bytes(text), 12, &o, room, sizeof room, &len) == TEXTWRAP_DONE);
    CHECK(len == 10 && memcmp(room, "* foo bar\n", 10) == 0);
}

static void texts_are_indented_dedented_and_filled_in_place(void) {
    uint8_t room[32];
    size_t len = 0;
    CHECK(textwrap_indent(bytes("a\n\nb\n"), 5, bytes("> "), 2, room, sizeof room, &len)
          == TEXTWRAP_DONE);
    CHECK(len == 10 && memcmp(room, "> a\n>\n> b\n", 10) == 0);
    CHECK(textwrap_dedent(bytes("  a\n    b\n"), 10, room, sizeof room, &len) == TEXTWRAP_DONE);
    CHECK(len == 6 && memcmp(room, "a\n  b\n", 6) == 0);
    uint8_t text[] = "foo  bar";
    CHECK(textwrap_fill_inplace(text, 8, 5) == TEXTWRAP_DONE);
    CHECK(memcmp(text, "foo \nbar", 8) == 0);
    uint8_t words[] = "a b c";
    CHECK(textwrap_fill_inplace(words, 5, 0) == TEXTWRAP_DONE);
    CHECK(memcmp(words, "a\nb\nc", 5) == 0);
}

/* What a call wrote and answered: a text, or lines and their texts, or a number. */
struct answer {
    uint8_t room[64];
    textwrap_line lines[8];
    textwrap_layout layout;
    size_t count, len, status;
};

/* Each call that has a twin for texts that are known to be UTF-8, or that twin. */
static struct answer answer_of(int call, int is_known, textwrap_text text, const textwrap_options *o,
                               size_t room_len) {
    struct answer a;
    memset(&a, 7, sizeof a);
    const uint8_t *at = text.at, *prefix = bytes("\xc2\xbb ");
    uint8_t *room = a.room;
    size_t len = text.len, *told = &a.len;
    switch (call) {
    case 0:
        a.status = is_known ? textwrap_fill_utf8(at, len, o, room, room_len, told)
                            : textwrap_fill(at, len, o, room, room_len, told);
        break;
    case 1:
        a.status = is_known
                       ? textwrap_wrap_utf8(at, len, o, a.lines, 8, &a.count, room, room_len, told)
                       : textwrap_wrap(at, len, o, a.lines, 8, &a.count, room, room_len, told);
        break;
    case 2:
        a.status = is_known ? textwrap_refill_utf8(at, len, o, room, room_len, told)
                            : textwrap_refill(at, len, o, room, room_len, told);
        break;
    case 3:
        a.status = is_known ? textwrap_unfill_utf8(at, len, room, room_len, told, &a.layout)
                            : textwrap_unfill(at, len, room, room_len, told, &a.layout);
        break;
    case 4:
        a.status = is_known ? textwrap_indent_utf8(at, len, prefix, 3, room, room_len, told)
                            : textwrap_indent(at, len, prefix, 3, room, room_len, told);
        break;
    case 5:
        a.status = is_known ? textwrap_dedent_utf8(at, len, room, room_len, told)
                            : textwrap_dedent(at, len, room, room_len, told);
        break;
    default:
        a.status = is_known ? textwrap_display_width_utf8(at, len, told)
                            : textwrap_display_width(at, len, told);
    }
    return a;
}

/* Options whose indents are no texts are refused, though the text is known. */
static void wrong_indents_are_refused_beside_known_texts(void) {
    textwrap_options o = textwrap_options_new(10);
    o.subsequent_indent = text_of("\xff");
    for (int call = 0; call < 3; call++) {
        const struct answer a = answer_of(call, 1, text_of("foo"), &o, 64);
        CHECK(a.status == TEXTWRAP_NOT_UTF8 && a.room[0] == 7);
    }
    o.version = 1;
    for (int call = 0; call < 3; call++)
        CHECK(answer_of(call, 1, text_of("foo"), &o, 64).status == TEXTWRAP_UNKNOWN_OPTIONS);
}

static void known_texts_are_treated_as_others(void) {
    static const char *texts[] = {"",
                                  "foo bar baz",
                                  "- foo",
                                  "\xc3\xa9t\xc3\xa9  ",
                                  "\xe6\x97\xa5\xe6\x9c\xac \xe6\x97\xa5",
                                  "  \xc3\xa9\n  bar\n",
                                  "* foo\r\n  b\xc3\xa9\r\n"};
    for (int i = 0; i < 7; i++) {
        for (int option = 0; option < 32; option++) {
            textwrap_options o = textwrap_options_new(option & 1 ? 4 : 20);
            o.optimal_fit = option >> 1 & 1;
            o.unicode_breaks = option >> 2 & 1;
            o.preserve_trailing_space = option >> 3 & 1;
            if (option & 16) o.initial_indent = text_of("\xc2\xbb");
            for (int call = 0; call < 7; call++) {
                for (size_t room_len = 1; room_len <= 64; room_len *= 8) {
                    const struct answer known = answer_of(call, 1, text_of(texts[i]), &o, room_len);
                    const struct answer other = answer_of(call, 0, text_of(texts[i]), &o, room_len);
                    CHECK(memcmp(&known, &other, sizeof known) == 0);
                    CHECK(known.status == TEXTWRAP_DONE || known.status == TEXTWRAP_TOO_SMALL);
                }
            }
        }
    }
}

/* Whether these lines, which stand in the room one after another, are those of the text. There each
 * ends in a line feed. */
static int are_lines(const textwrap_line *lines, size_t count, const uint8_t *room, size_t len,
                     const char *text) {
    size_t at = 0;
    for (size_t i = 0; i < count; i++) {
        size_t line_len = strcspn(text, "\n");
        if (text[line_len] != '\n' || lines[i].is_built != 1 || lines[i].offset != at
            || lines[i].len != line_len || memcmp(room + at, text, line_len) != 0)
            return 0;
        at += line_len;
        text += line_len + 1;
    }
    return at == len && *text == '\0';
}

static void lines_are_aligned(void) {
    static const char *const aligned[3] = {"ab   ", "   ab", " ab  "};
    static const char wide[] = "\xe6\x97\xa5 \xe6\x9c\xac";
    uint8_t room[16] = "...";
    size_t len = 7;
    CHECK(textwrap_align(bytes("ab"), 2, 5, 3, room, sizeof room, &len)
          == TEXTWRAP_UNKNOWN_OPTIONS);
    CHECK(textwrap_align(bytes("a\xff"), 2, 5, TEXTWRAP_LEFT, room, sizeof room, &len)
          == TEXTWRAP_NOT_UTF8);
    CHECK(len == 7 && memcmp(room, "...", 4) == 0);
    CHECK(textwrap_align(bytes("ab"), 2, 5, TEXTWRAP_LEFT, room, 2, &len) == TEXTWRAP_TOO_SMALL);
    CHECK(len == 5 && memcmp(room, "ab.", 4) == 0);
    for (uint32_t i = 0; i < 3; i++) {
        CHECK(textwrap_align(bytes("ab"), 2, 5, i, room, 5, &len) == TEXTWRAP_DONE);
        CHECK(is_text(room, len, aligned[i]));
    }
    CHECK(textwrap_align(bytes(wide), 7, 7, TEXTWRAP_CENTRE, room, sizeof room, &len)
          == TEXTWRAP_DONE);
    CHECK(is_text(room, len, " \xe6\x97\xa5 \xe6\x9c\xac "));
    CHECK(textwrap_align(bytes(wide), 7, 4, TEXTWRAP_RIGHT, room, sizeof room, &len)
          == TEXTWRAP_DONE);
    CHECK(is_text(room, len, wide));
}

static void lines_are_justified(void) {
    uint8_t room[16] = "...";
    size_t len = 7;
    CHECK(textwrap_justify(bytes("a \xff"), 3, 9, room, sizeof room, &len) == TEXTWRAP_NOT_UTF8);
    CHECK(len == 7 && memcmp(room, "...", 4) == 0);
    CHECK(textwrap_justify(bytes("a few words"), 11, 14, room, 13, &len) == TEXTWRAP_TOO_SMALL);
    CHECK(len == 14 && memcmp(room, "a   few  word", 14) == 0);
    CHECK(textwrap_justify(bytes("a few words"), 11, 14, room, 14, &len) == TEXTWRAP_DONE);
    CHECK(is_text(room, len, "a   few  words"));
    CHECK(textwrap_justify(bytes("  a b c"), 7, 9, room, sizeof room, &len) == TEXTWRAP_DONE);
    CHECK(is_text(room, len, "  a  b  c"));
    CHECK(textwrap_justify(bytes("ab"), 2, 5, room, sizeof room, &len) == TEXTWRAP_DONE);
    CHECK(is_text(room, len, "ab"));
}

static void terminals_are_told(void) {
    uint8_t room[24] = "...";
    size_t len = 7, columns = 7;
    CHECK(textwrap_terminal_width(bytes("\x1b(B\x1b[1mab\x1bP1q\x1b\\"), 16, &columns) == TEXTWRAP_DONE
          && columns == 2);
    CHECK(textwrap_terminal_width(bytes("\xff"), 1, &columns) == TEXTWRAP_NOT_UTF8 && columns == 2);
    CHECK(textwrap_strip_other_sequences(bytes("\xff"), 1, room, sizeof room, &len) == TEXTWRAP_NOT_UTF8);
    CHECK(len == 7 && memcmp(room, "...", 4) == 0);
    CHECK(textwrap_strip_other_sequences(bytes("a\x1b(B\x1b[1mb"), 9, room, 5, &len) == TEXTWRAP_TOO_SMALL);
    CHECK(len == 6);
    CHECK(textwrap_strip_other_sequences(bytes("a\x1b(B\x1b[1mb"), 9, room, 6, &len) == TEXTWRAP_DONE);
    CHECK(is_text(room, len, "a\x1b[1mb"));
}

static void tabs_are_expanded(void) {
    uint8_t room[24] = "...";
    size_t len = 7;
    CHECK(textwrap_expand_tabs(bytes("\t\xff"), 2, 4, room, sizeof room, &len) == TEXTWRAP_NOT_UTF8);
    CHECK(len == 7 && memcmp(room, "...", 4) == 0);
    CHECK(textwrap_expand_tabs(bytes("a\tb"), 3, 4, room, 4, &len) == TEXTWRAP_TOO_SMALL);
    CHECK(len == 5 && memcmp(room, "a   ", 4) == 0);
    CHECK(textwrap_expand_tabs(bytes("a\tb"), 3, 4, room, 5, &len) == TEXTWRAP_DONE);
    CHECK(is_text(room, len, "a   b"));
    CHECK(textwrap_expand_tabs(bytes("ab\tc\n\td"), 7, 2, room, sizeof room, &len)
          == TEXTWRAP_DONE);
    CHECK(is_text(room, len, "ab  c\n  d"));
    CHECK(textwrap_expand_tabs(bytes("a\t\tb"), 4, 0, room, sizeof room, &len) == TEXTWRAP_DONE);
    CHECK(is_text(room, len, "ab"));
}

static void texts_are_filled_and_justified(void) {
    textwrap_options o = textwrap_options_new(12);
    uint8_t room[64] = "...";
    size_t len = 7;
    o.optimal_fit = 0;
    CHECK(textwrap_fill_justified(bytes("a \xff"), 3, &o, room, sizeof room, &len)
          == TEXTWRAP_NOT_UTF8);
    o.version = 1;
    CHECK(textwrap_fill_justified(bytes("a b"), 3, &o, room, sizeof room, &len)
          == TEXTWRAP_UNKNOWN_OPTIONS);
    o.version = TEXTWRAP_VERSION;
    CHECK(len == 7 && memcmp(room, "...", 4) == 0);
    CHECK(textwrap_fill_justified(bytes(HAMLET), strlen(HAMLET), &o, room, 2, &len)
          == TEXTWRAP_TOO_SMALL);
    CHECK(len == 47 && memcmp(room, "To.", 4) == 0);
    CHECK(textwrap_fill_justified(bytes(HAMLET), strlen(HAMLET), &o, room, 47, &len)
          == TEXTWRAP_DONE);
    CHECK(is_text(room, len, "To   be,  or\nnot  to  be:\nthat  is the\nquestion"));
    /* The blanks of an indent are no gaps, and the last line of each paragraph stays. The first line
     * of the later paragraph is divided at 8 columns, and justified in the 10 that its indent leaves. */
    o.initial_indent = text_of("- - ");
    o.subsequent_indent = text_of("  ");
    o.crlf = 1;
    CHECK(textwrap_fill_justified(bytes("foo ba qu\r\na b foobar"), 21, &o, room, sizeof room, &len)
          == TEXTWRAP_DONE);
    CHECK(is_text(room, len, "- - foo   ba\r\n  qu\r\n  a        b\r\n  foobar"));
}

/* A mail: a quote behind its mark, text, and a signature, which stays. */
static const char MAIL[] = "> one two three four\n> five\nsix seven eight nine ten\n\n-- \nA. B.\n";

/* Whether the text, reflowed by these options, is this. */
static int is_reflowed(textwrap_reflow_options options, const char *text, const char *reflowed) {
    uint8_t room[256];
    size_t len = 0;
    textwrap_status status =
        textwrap_reflow(bytes(text), strlen(text), &options, room, sizeof room, &len);
    return status == TEXTWRAP_DONE && is_text(room, len, reflowed);
}

static void texts_with_marks_are_reflowed(void) {
    const textwrap_text marks[2] = {text_of("!"), text_of("dnl")};
    textwrap_reflow_options o = textwrap_reflow_options_new(16);
    CHECK(is_reflowed(o, MAIL, "> one two three\n> four five\nsix seven eight\nnine ten\n\n-- \nA. B.\n"));
    o.justify = 1;
    CHECK(is_reflowed(o, "> one two six ten red blue\n", "> one   two  six\n> ten red blue\n"));
    o = textwrap_reflow_options_new(12);
    o.optimal_fit = 1;
    CHECK(is_reflowed(o, "To be, or not to be: that is\n", "To be, or\nnot to be:\nthat is\n"));
    o = textwrap_reflow_options_new(16);
    o.ending = 2;
    CHECK(is_reflowed(o, "one two three four\n==\n", "one two three\r\nfour\r\n==\r\n"));
    o = textwrap_reflow_options_new(16);
    o.markdown = 1;
    CHECK(is_reflowed(o, "# One two three four\n", "# One two three four\n"));
    o = textwrap_reflow_options_new(16);
    o.bare = 1;
    CHECK(is_reflowed(o, "/* one two three four */\n", "/* one two three\n   four */\n"));
    o = textwrap_reflow_options_new(16);
    o.indented = 1;
    CHECK(is_reflowed(o, "one\n\n    two three four five\n", "one\n\n    two three\n    four five\n"));
    o = textwrap_reflow_options_new(16);
    o.markers = marks;
    o.markers_len = 2;
    CHECK(is_reflowed(o, "dnl one two three four\n", "dnl one two\ndnl three four\n"));
    o.prefixes = marks;
    o.prefixes_len = 1;
    CHECK(is_reflowed(o, "dnl one two three four\n! one two three four\n",
                      "dnl one two three four\n! one two three\n! four\n"));
}

static void reflowing_is_refused(void) {
    const textwrap_text wrong = text_of("\xff");
    textwrap_reflow_options refused[8];
    uint8_t room[16] = "...";
    size_t len = 7;
    for (int i = 0; i < 8; i++) refused[i] = textwrap_reflow_options_new(16);
    refused[0].version = 1;
    refused[1].ending = 3;
    refused[2].justify = 2;
    refused[3].reserved = 1;
    refused[4].reserved_sizes[3] = 1;
    for (int i = 0; i < 5; i++)
        CHECK(textwrap_reflow(wrong.at, 1, &refused[i], room, sizeof room, &len)
              == TEXTWRAP_UNKNOWN_OPTIONS);
    refused[5].markers = refused[6].prefixes = &wrong;
    refused[5].markers_len = refused[6].prefixes_len = 1;
    for (int i = 5; i < 7; i++)
        CHECK(textwrap_reflow(bytes("a"), 1, &refused[i], room, sizeof room, &len) == TEXTWRAP_NOT_UTF8);
    CHECK(textwrap_reflow(wrong.at, 1, &refused[7], room, sizeof room, &len) == TEXTWRAP_NOT_UTF8);
    CHECK(len == 7 && memcmp(room, "...", 4) == 0);
    CHECK(textwrap_reflow(bytes(MAIL), strlen(MAIL), &refused[7], room, 2, &len) == TEXTWRAP_TOO_SMALL);
    CHECK(len == strlen(MAIL) && memcmp(room, "> .", 4) == 0);
}

static void lines_are_shortened(void) {
    uint8_t room[16] = "...";
    size_t len = 7;
    CHECK(textwrap_shorten(bytes("a\xff"), 2, 1, bytes(".."), 2, room, sizeof room, &len)
          == TEXTWRAP_NOT_UTF8);
    CHECK(textwrap_shorten(bytes("ab"), 2, 1, bytes("\xff"), 1, room, sizeof room, &len)
          == TEXTWRAP_NOT_UTF8);
    CHECK(len == 7 && memcmp(room, "...", 4) == 0);
    CHECK(textwrap_shorten(bytes("Hello world"), 11, 10, bytes("***"), 3, room, 2, &len)
          == TEXTWRAP_TOO_SMALL);
    CHECK(len == 8 && memcmp(room, "He.", 4) == 0);
    CHECK(textwrap_shorten(bytes("Hello world"), 11, 10, bytes("***"), 3, room, 8, &len)
          == TEXTWRAP_DONE);
    CHECK(is_text(room, len, "Hello***"));
    CHECK(textwrap_shorten(bytes("Hello world"), 11, 11, bytes("***"), 3, room, sizeof room, &len)
          == TEXTWRAP_DONE);
    CHECK(is_text(room, len, "Hello world"));
    CHECK(textwrap_shorten(bytes("three two"), 9, 1, bytes(".."), 2, room, sizeof room, &len)
          == TEXTWRAP_DONE);
    CHECK(is_text(room, len, ".."));
}

static void words_are_cut_where_that_is_asked(void) {
    const char *line = "a \x1b[1mSupercalifragilistic";
    const textwrap_text lines[2] = {text_of(line), text_of("")};
    textwrap_line places[1];
    uint8_t room[32] = "...";
    size_t count = 7, len = 7;
    CHECK(textwrap_shorten_by(bytes(line), strlen(line), 10, bytes(".."), 2, 2, room, sizeof room,
                              &len) == TEXTWRAP_UNKNOWN_OPTIONS);
    CHECK(textwrap_shorten_by(bytes(line), strlen(line), 10, bytes("\xff"), 1, 1, room, sizeof room,
                              &len) == TEXTWRAP_NOT_UTF8);
    CHECK(textwrap_shorten_lines_by(lines, 2, 1, 10, bytes(".."), 2, 2, places, 1, &count, room,
                                    sizeof room, &len) == TEXTWRAP_UNKNOWN_OPTIONS);
    CHECK(count == 7 && len == 7 && memcmp(room, "...", 4) == 0);
    CHECK(textwrap_shorten_by(bytes(line), strlen(line), 10, bytes(".."), 2, 1, room, sizeof room,
                              &len) == TEXTWRAP_DONE);
    CHECK(is_text(room, len, "a \x1b[1mSuperc\x1b[0m.."));
    CHECK(textwrap_shorten_by(bytes(line), strlen(line), 10, bytes(".."), 2, 0, room, sizeof room,
                              &len) == TEXTWRAP_DONE);
    CHECK(is_text(room, len, "a.."));
    CHECK(textwrap_shorten_lines_by(lines, 2, 1, 10, bytes(".."), 2, 1, places, 1, &count, room,
                                    sizeof room, &len) == TEXTWRAP_DONE);
    CHECK(count == 1 && are_lines(places, count, room, len, "a \x1b[1mSuperc\x1b[0m..\n"));
}

static void lists_of_lines_are_shortened(void) {
    const textwrap_text lines[3] = {text_of("one"), text_of("two three"), text_of("four")};
    const textwrap_text wrong[1] = {text_of("a\xff")};
    textwrap_line places[3];
    uint8_t room[16] = "...";
    size_t count = 7, len = 7;
    CHECK(textwrap_shorten_lines(wrong, 1, 2, 8, bytes(" .."), 3, places, 3, &count, room,
                                 sizeof room, &len) == TEXTWRAP_NOT_UTF8);
    CHECK(textwrap_shorten_lines(lines, 3, 2, 8, bytes("\xff"), 1, places, 3, &count, room,
                                 sizeof room, &len) == TEXTWRAP_NOT_UTF8);
    CHECK(count == 7 && len == 7);
    CHECK(textwrap_shorten_lines(lines, 3, 2, 8, bytes(" .."), 3, places, 1, &count, room,
                                 sizeof room, &len) == TEXTWRAP_TOO_SMALL);
    CHECK(count == 2 && len == 9 && memcmp(room, "onetwo ..", 9) == 0);
    room[8] = '_';
    CHECK(textwrap_shorten_lines(lines, 3, 2, 8, bytes(" .."), 3, places, 2, &count, room, 8, &len)
          == TEXTWRAP_TOO_SMALL);
    CHECK(count == 2 && len == 9 && memcmp(room, "onetwo ._", 9) == 0);
    CHECK(textwrap_shorten_lines(lines, 3, 2, 8, bytes(" .."), 3, places, 2, &count, room, 9, &len)
          == TEXTWRAP_DONE);
    CHECK(count == 2 && are_lines(places, count, room, len, "one\ntwo ..\n"));
    CHECK(textwrap_shorten_lines(lines, 3, 3, 8, bytes(" .."), 3, places, 3, &count, room,
                                 sizeof room, &len) == TEXTWRAP_DONE);
    CHECK(count == 3 && are_lines(places, count, room, len, "one\ntwo three\nfour\n"));
    CHECK(textwrap_shorten_lines(lines, 3, 1, 8, bytes(" .."), 3, places, 3, &count, room,
                                 sizeof room, &len) == TEXTWRAP_DONE);
    CHECK(count == 1 && are_lines(places, count, room, len, "one ..\n"));
    CHECK(textwrap_shorten_lines(lines, 3, 0, 8, bytes(" .."), 3, places, 3, &count, room,
                                 sizeof room, &len) == TEXTWRAP_DONE);
    CHECK(count == 0 && len == 0);
}

/* Whether these two lines become the lines of the text. */
static int are_carried(textwrap_options options, const char *first, const char *second,
                       const char *carried) {
    const textwrap_text lines[2] = {text_of(first), text_of(second)};
    textwrap_line places[2];
    uint8_t room[128];
    size_t count = 0, len = 0;
    return textwrap_carry_styles(lines, 2, &options, places, 2, &count, room, sizeof room, &len)
               == TEXTWRAP_DONE
        && count == 2 && are_lines(places, count, room, len, carried);
}

static void styles_are_carried(void) {
    textwrap_options o = textwrap_options_new(10);
    CHECK(are_carried(o, "a", "b", "a\nb\n"));
    CHECK(are_carried(o, "a \x1b[1mb", "c", "a \x1b[1mb\x1b[0m\n\x1b[1mc\x1b[0m\n"));
    CHECK(are_carried(o, "\x1b[1m\x1b[31ma", "b\x1b[m c",
                      "\x1b[1m\x1b[31ma\x1b[0m\n\x1b[1m\x1b[31mb\x1b[m c\n"));
    CHECK(are_carried(o, "\x1b[1ma\x1b[0;0m", "b", "\x1b[1ma\x1b[0;0m\nb\n"));
    CHECK(are_carried(o, "\x1b]8;;u\x1b\\a", "b\x1b]8;;\x1b\\",
                      "\x1b]8;;u\x1b\\a\x1b]8;;\x1b\\\n\x1b]8;id=w1;u\x1b\\b\x1b]8;;\x1b\\\n"));
    /* The link is set before the styles, and taken back after them. */
    CHECK(are_carried(o, "\x1b[1m\x1b]8;;u\x1b\\a", "b",
                      "\x1b[1m\x1b]8;;u\x1b\\a\x1b[0m\x1b]8;;\x1b\\\n"
                      "\x1b]8;id=w1;u\x1b\\\x1b[1mb\x1b[0m\x1b]8;;\x1b\\\n"));
    o.subsequent_indent = text_of("> ");
    CHECK(are_carried(o, "\x1b[1ma", "> b", "\x1b[1ma\x1b[0m\n> \x1b[1mb\x1b[0m\n"));
    CHECK(are_carried(o, "\x1b[1ma", "b", "\x1b[1ma\x1b[0m\n\x1b[1mb\x1b[0m\n"));
}

static void carrying_styles_is_refused(void) {
    const textwrap_text lines[2] = {text_of("\x1b[1ma"), text_of("b")};
    const textwrap_text wrong[1] = {text_of("a\xff")};
    textwrap_options o = textwrap_options_new(10);
    textwrap_line places[2];
    uint8_t room[32] = "...";
    size_t count = 7, len = 7;
    CHECK(textwrap_carry_styles(wrong, 1, &o, places, 2, &count, room, sizeof room, &len)
          == TEXTWRAP_NOT_UTF8);
    o.version = 1;
    CHECK(textwrap_carry_styles(lines, 2, &o, places, 2, &count, room, sizeof room, &len)
          == TEXTWRAP_UNKNOWN_OPTIONS);
    o.version = TEXTWRAP_VERSION;
    CHECK(count == 7 && len == 7);
    CHECK(textwrap_carry_styles(lines, 2, &o, places, 1, &count, room, sizeof room, &len)
          == TEXTWRAP_TOO_SMALL);
    CHECK(count == 2 && len == 18);
    room[17] = '_';
    CHECK(textwrap_carry_styles(lines, 2, &o, places, 2, &count, room, 17, &len)
          == TEXTWRAP_TOO_SMALL);
    CHECK(count == 2 && len == 18 && memcmp(room + 9, "\x1b[1mb\x1b[0_", 9) == 0);
    CHECK(textwrap_carry_styles(lines, 2, &o, places, 2, &count, room, 18, &len) == TEXTWRAP_DONE);
    CHECK(are_lines(places, count, room, len, "\x1b[1ma\x1b[0m\n\x1b[1mb\x1b[0m\n"));
}

static void attributes_are_carried(void) {
    const textwrap_text lines[3] = {text_of("a \x1b[1;31mb"), text_of("c\x1b[39md"), text_of("e")};
    const textwrap_text wrong[1] = {text_of("a\xff")};
    textwrap_options o = textwrap_options_new(10);
    textwrap_line places[3];
    uint8_t room[48] = "...";
    size_t count = 7, len = 7;
    CHECK(textwrap_carry_attributes(wrong, 1, &o, places, 3, &count, room, sizeof room, &len)
          == TEXTWRAP_NOT_UTF8);
    o.version = 1;
    CHECK(textwrap_carry_attributes(wrong, 1, &o, places, 3, &count, room, sizeof room, &len)
          == TEXTWRAP_UNKNOWN_OPTIONS);
    o.version = TEXTWRAP_VERSION;
    CHECK(count == 7 && len == 7 && memcmp(room, "...", 4) == 0);
    room[42] = '_';
    CHECK(textwrap_carry_attributes(lines, 3, &o, places, 3, &count, room, 42, &len)
          == TEXTWRAP_TOO_SMALL);
    CHECK(count == 3 && len == 43 && room[41] == '0' && room[42] == '_');
    CHECK(textwrap_carry_attributes(lines, 3, &o, places, 2, &count, room, 43, &len)
          == TEXTWRAP_TOO_SMALL);
    CHECK(count == 3 && len == 43);
    CHECK(textwrap_carry_attributes(lines, 3, &o, places, 3, &count, room, 43, &len)
          == TEXTWRAP_DONE);
    CHECK(count == 3 && are_lines(places, count, room, len,
                                  "a \x1b[1;31mb\x1b[0m\n"
                                  "\x1b[1m\x1b[31mc\x1b[39md\x1b[0m\n"
                                  "\x1b[1me\x1b[0m\n"));
    o.subsequent_indent = text_of("> ");
    const textwrap_text quoted[2] = {text_of("\x1b[1;31m\x1b[32ma"), text_of("> b")};
    CHECK(textwrap_carry_attributes(quoted, 2, &o, places, 3, &count, room, sizeof room, &len)
          == TEXTWRAP_DONE);
    CHECK(count == 2 && are_lines(places, count, room, len,
                                  "\x1b[1;31m\x1b[32ma\x1b[0m\n> \x1b[1m\x1b[32mb\x1b[0m\n"));
}

/* Whether a line is reported so. */
static int is_place(const textwrap_line *line, size_t offset, size_t len, size_t is_built) {
    return line->offset == offset && line->len == len && line->is_built == is_built;
}

static void lines_are_balanced(void) {
    const uint8_t *title = bytes("It was the best of times, it was the worst");
    const size_t title_len = 42;
    textwrap_options o = textwrap_options_new(40);
    textwrap_line lines[2];
    uint8_t room[18] = "...";
    size_t width = 7, count = 7, len = 7;
    o.version = 1;
    CHECK(textwrap_balanced_width(bytes("\xff"), 1, &o, &width) == TEXTWRAP_UNKNOWN_OPTIONS);
    CHECK(textwrap_wrap_balanced(bytes("\xff"), 1, &o, lines, 2, &count, room, 18, &len)
          == TEXTWRAP_UNKNOWN_OPTIONS);
    o.version = TEXTWRAP_VERSION;
    CHECK(textwrap_balanced_width(bytes("\xff"), 1, &o, &width) == TEXTWRAP_NOT_UTF8);
    CHECK(textwrap_wrap_balanced(bytes("\xff"), 1, &o, lines, 2, &count, room, 18, &len)
          == TEXTWRAP_NOT_UTF8);
    CHECK(width == 7 && count == 7 && len == 7 && memcmp(room, "...", 4) == 0);
    CHECK(textwrap_balanced_width(title, title_len, &o, &width) == TEXTWRAP_DONE && width == 23);
    CHECK(textwrap_wrap_balanced(title, title_len, &o, lines, 1, &count, room, 18, &len)
          == TEXTWRAP_TOO_SMALL);
    CHECK(count == 2 && len == 0 && is_place(&lines[0], 0, 18, 0));
    CHECK(textwrap_wrap_balanced(title, title_len, &o, lines, 2, &count, room, 18, &len)
          == TEXTWRAP_DONE);
    CHECK(count == 2 && len == 0 && memcmp(room, "...", 4) == 0);
    CHECK(is_place(&lines[0], 0, 18, 0) && is_place(&lines[1], 19, 23, 0));
    o.subsequent_indent = text_of("> ");
    CHECK(textwrap_balanced_width(title, title_len, &o, &width) == TEXTWRAP_DONE && width == 25);
    CHECK(textwrap_wrap_balanced(title, title_len, &o, lines, 2, &count, room, 17, &len)
          == TEXTWRAP_TOO_SMALL);
    CHECK(count == 2 && len == 18);
    CHECK(textwrap_wrap_balanced(title, title_len, &o, lines, 2, &count, room, 18, &len)
          == TEXTWRAP_DONE);
    CHECK(is_place(&lines[0], 0, 25, 0) && is_place(&lines[1], 0, 18, 1));
    CHECK(count == 2 && is_text(room, len, "> it was the worst"));
    o = textwrap_options_new(12);
    o.unicode_breaks = 1;
    CHECK(textwrap_balanced_width(bytes("either/or not"), 13, &o, &width) == TEXTWRAP_DONE);
    CHECK(width == 7);
    CHECK(textwrap_wrap_balanced(bytes("either/or not"), 13, &o, lines, 2, &count, room, 18, &len)
          == TEXTWRAP_DONE);
    CHECK(count == 2 && is_place(&lines[0], 0, 7, 0) && is_place(&lines[1], 7, 6, 0));
}

static void columns_are_fitted(void) {
    const textwrap_text cells[4] = {text_of("-h"), text_of("Print this help."), text_of("--width N"),
                                    text_of("Wrap at N columns.")};
    const textwrap_text wrong[2] = {text_of("a"), text_of("\xff")};
    size_t widths[4] = {9, 9, 9, 9}, count = 7;
    CHECK(textwrap_fitting_widths(wrong, 2, 2, 20, widths, 4, &count) == TEXTWRAP_NOT_UTF8);
    CHECK(count == 7 && widths[0] == 9);
    CHECK(textwrap_fitting_widths(cells, 4, 2, 20, widths, 1, &count) == TEXTWRAP_TOO_SMALL);
    CHECK(count == 2 && widths[0] == 8 && widths[1] == 9);
    CHECK(textwrap_fitting_widths(cells, 4, 2, 20, widths, 4, &count) == TEXTWRAP_DONE);
    CHECK(count == 2 && widths[0] == 8 && widths[1] == 12 && widths[2] == 9);
    CHECK(textwrap_fitting_widths(cells, 0, 3, 10, widths, 4, &count) == TEXTWRAP_DONE);
    CHECK(count == 3 && widths[0] == 4 && widths[1] == 3 && widths[2] == 3 && widths[3] == 9);
    CHECK(textwrap_fitting_widths(cells, 4, 0, 20, widths, 4, &count) == TEXTWRAP_DONE);
    CHECK(count == 0 && widths[0] == 4);
}

/* The patterns of hy-phen-ation. */
static const char PATTERNS[] = "hy3ph\nhe2n\nhena4\nhen5at\n1na\nn2at\n1tio\n2io\no2n\n";

/* Reads them into room for 512 numbers, and says how many they are. */
static size_t read_patterns(size_t *table) {
    size_t len = 0, line = 7;
    CHECK(textwrap_patterns_read(bytes(PATTERNS), strlen(PATTERNS), table, 512, &len, &line)
          == TEXTWRAP_DONE);
    CHECK(len > 7 && len <= 512 && line == 7);
    return len <= 512 ? len : 512;
}

static void dictionaries_are_read(void) {
    static const char wrong[] = "hy3ph\n\nhe/2n\n";
    size_t whole[512], table[512] = {9}, len = 7, line = 7;
    const size_t whole_len = read_patterns(whole);
    CHECK(textwrap_patterns_read(bytes("hy\xff"), 3, table, 512, &len, &line) == TEXTWRAP_NOT_UTF8);
    CHECK(len == 7 && line == 7 && table[0] == 9);
    CHECK(textwrap_patterns_read(bytes(wrong), strlen(wrong), table, 512, &len, &line)
          == TEXTWRAP_WRONG_PATTERNS);
    CHECK(len == 7 && line == 3 && table[0] == 9);
    line = 7;
    table[whole_len - 1] = 9;
    CHECK(textwrap_patterns_read(bytes(PATTERNS), strlen(PATTERNS), table, whole_len - 1, &len, &line)
          == TEXTWRAP_TOO_SMALL);
    CHECK(len == whole_len && line == 7 && table[whole_len - 1] == 9);
    CHECK(memcmp(table, whole, (whole_len - 1) * sizeof *table) == 0);
}

static void numbers_are_tested(void) {
    size_t table[512];
    const size_t len = read_patterns(table);
    CHECK(textwrap_patterns_check(table, len) == TEXTWRAP_DONE);
    CHECK(textwrap_patterns_check(table, len - 1) == TEXTWRAP_DAMAGED_TABLE);
    table[1]++;
    CHECK(textwrap_patterns_check(table, len) == TEXTWRAP_DAMAGED_TABLE);
    table[1]--;
    CHECK(textwrap_patterns_check(table, len) == TEXTWRAP_DONE);
}

static void words_have_points(void) {
    size_t table[512], points[3] = {9, 9, 9}, count = 7;
    const size_t len = read_patterns(table);
    const uint8_t *word = bytes("hyphenation"), *parts = bytes("re-hyphenation");
    const textwrap_dictionary whole = textwrap_dictionary_new(table, len);
    textwrap_dictionary d = whole;
    d.in_parts = 2;
    CHECK(textwrap_hyphen_points(&d, bytes("\xff"), 1, points, 3, &count) == TEXTWRAP_UNKNOWN_OPTIONS);
    d = whole;
    d.is_checked = 2;
    CHECK(textwrap_hyphen_points(&d, bytes("\xff"), 1, points, 3, &count) == TEXTWRAP_UNKNOWN_OPTIONS);
    d = textwrap_dictionary_new(table, 0);
    CHECK(textwrap_hyphen_points(&d, bytes("\xff"), 1, points, 3, &count) == TEXTWRAP_NOT_UTF8);
    d = textwrap_dictionary_new(table, len - 1);
    CHECK(textwrap_hyphen_points(&d, word, 11, points, 3, &count) == TEXTWRAP_DAMAGED_TABLE);
    table[1]++;
    CHECK(textwrap_hyphen_points(&whole, word, 11, points, 3, &count) == TEXTWRAP_DAMAGED_TABLE);
    table[1]--;
    CHECK(count == 7 && points[0] == 9);
    CHECK(textwrap_hyphen_points(&whole, word, 11, points, 1, &count) == TEXTWRAP_TOO_SMALL);
    CHECK(count == 2 && points[0] == 2 && points[1] == 9);
    CHECK(textwrap_hyphen_points(&whole, word, 11, points, 3, &count) == TEXTWRAP_DONE);
    CHECK(count == 2 && points[0] == 2 && points[1] == 6 && points[2] == 9);
    CHECK(textwrap_hyphen_points(&whole, parts, 14, points, 3, &count) == TEXTWRAP_DONE);
    CHECK(count == 0);
    d = whole;
    d.in_parts = 1;
    CHECK(textwrap_hyphen_points(&d, parts, 14, points, 3, &count) == TEXTWRAP_DONE);
    CHECK(count == 2 && points[0] == 5 && points[1] == 9);
    d = whole;
    d.left = 3;
    CHECK(textwrap_hyphen_points(&d, word, 11, points, 3, &count) == TEXTWRAP_DONE);
    CHECK(count == 1 && points[0] == 6);
    d = whole;
    d.right = 6;
    CHECK(textwrap_hyphen_points(&d, word, 11, points, 3, &count) == TEXTWRAP_DONE);
    CHECK(count == 1 && points[0] == 2);
}

static void a_dictionary_may_be_checked(void) {
    size_t table[512], points[3] = {9, 9, 9}, count = 7;
    const size_t len = read_patterns(table);
    const uint8_t *word = bytes("hyphenation"), *parts = bytes("re-hyphenation");
    textwrap_dictionary d = textwrap_dictionary_new(table, len);
    d.is_checked = 1;
    CHECK(textwrap_hyphen_points(&d, word, 11, points, 3, &count) == TEXTWRAP_DONE);
    CHECK(count == 2 && points[0] == 2 && points[1] == 6 && points[2] == 9);
    CHECK(textwrap_hyphen_points(&d, parts, 14, points, 3, &count) == TEXTWRAP_DONE && count == 0);
    d.in_parts = 1;
    CHECK(textwrap_hyphen_points(&d, parts, 14, points, 3, &count) == TEXTWRAP_DONE);
    CHECK(count == 2 && points[0] == 5 && points[1] == 9);
    /* The letters that stay behind a point and before it. */
    table[len - 2] = 2;
    table[len - 3] = 3;
    CHECK(textwrap_hyphen_points(&d, word, 11, points, 3, &count) == TEXTWRAP_DONE);
    CHECK(count == 1 && points[0] == 6);
    d.is_checked = 0;
    CHECK(textwrap_hyphen_points(&d, word, 11, points, 3, &count) == TEXTWRAP_DAMAGED_TABLE);
    /* Whatever the numbers are, the points are inside the word. */
    d.is_checked = 1;
    for (size_t i = 0; i < len; i++) {
        for (size_t to = 0; to < 3; to++) {
            CHECK(read_patterns(table) == len);
            table[i] = to == 0 ? 0 : to == 1 ? table[i] + 1 : SIZE_MAX;
            CHECK(textwrap_hyphen_points(&d, word, 11, points, 3, &count) <= TEXTWRAP_TOO_SMALL);
            CHECK(count <= 10 && (count == 0 || (0 < points[0] && points[0] < 11)));
        }
    }
}

/* First fit at a width, by the dictionary of these numbers. */
static textwrap_options hyphenated(size_t width, const size_t *table, size_t table_len) {
    textwrap_options o = textwrap_options_new(width);
    o.optimal_fit = 0;
    o.dictionary = textwrap_dictionary_new(table, table_len);
    return o;
}

static void texts_are_hyphenated(void) {
    const uint8_t *text = bytes("the hyphenation");
    textwrap_line lines[2];
    textwrap_piece pieces[4];
    uint8_t room[19] = "...";
    size_t table[512], count = 7, len = 7;
    const size_t table_len = read_patterns(table);
    textwrap_options o = hyphenated(11, table, table_len);
    const textwrap_options damaged = hyphenated(11, table, table_len - 1);
    o.dictionary.in_parts = 2;
    CHECK(textwrap_fill(text, 15, &o, room, 17, &len) == TEXTWRAP_UNKNOWN_OPTIONS);
    CHECK(textwrap_wrap(text, 15, &o, lines, 2, &count, room, 17, &len) == TEXTWRAP_UNKNOWN_OPTIONS);
    o.dictionary.in_parts = 0;
    CHECK(textwrap_fill(bytes("\xff"), 1, &damaged, room, 17, &len) == TEXTWRAP_UNKNOWN_OPTIONS);
    CHECK(textwrap_fill(text, 15, &damaged, room, 17, &len) == TEXTWRAP_UNKNOWN_OPTIONS);
    CHECK(textwrap_wrap(text, 15, &damaged, lines, 2, &count, room, 17, &len)
          == TEXTWRAP_UNKNOWN_OPTIONS);
    CHECK(textwrap_balanced_width(text, 15, &damaged, &count) == TEXTWRAP_UNKNOWN_OPTIONS);
    CHECK(textwrap_fill(bytes("\xff"), 1, &o, room, 17, &len) == TEXTWRAP_NOT_UTF8);
    CHECK(count == 7 && len == 7 && memcmp(room, "...", 4) == 0);
    CHECK(textwrap_fill(text, 15, &o, room, 16, &len) == TEXTWRAP_TOO_SMALL);
    CHECK(len == 17 && memcmp(room, "the hyphen-\nati", 15) == 0);
    for (o.dictionary.is_checked = 0; o.dictionary.is_checked <= 1; o.dictionary.is_checked++) {
        CHECK(textwrap_fill(text, 15, &o, room, 17, &len) == TEXTWRAP_DONE);
        CHECK(is_text(room, len, "the hyphen-\nation"));
        CHECK(textwrap_fill_utf8(text, 15, &o, room, 17, &len) == TEXTWRAP_DONE);
        CHECK(is_text(room, len, "the hyphen-\nation"));
    }
    o.dictionary.is_checked = 1;
    CHECK(textwrap_fill_bound(15, &o) == 46 && textwrap_wrap_room_bound(15, &o) == 31);
    CHECK(textwrap_wrap(text, 15, &o, lines, 2, &count, room, 10, &len) == TEXTWRAP_TOO_SMALL);
    CHECK(count == 2 && len == 11);
    CHECK(textwrap_wrap(text, 15, &o, lines, 2, &count, room, 11, &len) == TEXTWRAP_DONE);
    CHECK(count == 2 && is_text(room, len, "the hyphen-"));
    CHECK(is_place(&lines[0], 0, 11, 1) && is_place(&lines[1], 10, 5, 0));
    CHECK(textwrap_balanced_width(text, 15, &o, &count) == TEXTWRAP_DONE && count == 9);
    CHECK(textwrap_wrap_balanced(text, 15, &o, lines, 2, &count, room, 7, &len) == TEXTWRAP_DONE);
    CHECK(count == 2 && is_text(room, len, "the hy-") && is_place(&lines[1], 6, 9, 0));
    CHECK(textwrap_pieces(text, 15, &o, pieces, 4, &count) == TEXTWRAP_DONE && count == 4);
    CHECK(pieces[1].penalty_len == 1 && pieces[2].penalty_len == 1 && pieces[3].penalty_len == 0);
    CHECK(pieces[2].offset == 6 && pieces[2].len == 4 && pieces[2].width == 4);
    o.width = 13;
    CHECK(textwrap_fill_justified(bytes("a b hyphenation"), 15, &o, room, 19, &len) == TEXTWRAP_DONE);
    CHECK(is_text(room, len, "a  b  hyphen-\nation"));
}

/* A soft hyphen is not seen, or is the only point of its word. */
static void soft_hyphens_are_points(void) {
    const uint8_t *text = bytes("the hy\xc2\xadphenation");
    uint8_t room[19];
    size_t table[512], len = 7;
    textwrap_options o = hyphenated(11, table, read_patterns(table));
    CHECK(textwrap_fill(text, 17, &o, room, 19, &len) == TEXTWRAP_DONE);
    CHECK(is_text(room, len, "the hy\xc2\xadphen-\nation"));
    o.dictionary.soft_hyphens = 1;
    CHECK(textwrap_fill(text, 17, &o, room, 19, &len) == TEXTWRAP_DONE);
    CHECK(is_text(room, len, "the hy\xc2\xad-\nphenation"));
}

/* Two ideographs before a word: at blanks all are one word, and its first part has no room for its hyphen. */
static void hyphenated_words_end_at_unicode_breaks(void) {
    static const char text[] = "\xe4\xbd\xa0\xe5\xa5\xbdhyphenation";
    static const char *const filled[3] = {
        "\xe4\xbd\xa0\xe5\xa5\xbdh\nyphen-\nation",
        "\xe4\xbd\xa0\xe5\xa5\xbd\nhy-\nphen-\nation",
        "\xe4\xbd\xa0\xe5\xa5\xbd\nhy-\nphen-\nation",
    };
    size_t table[512];
    textwrap_options o = hyphenated(6, table, read_patterns(table));
    for (o.unicode_breaks = 0; o.unicode_breaks <= 2; o.unicode_breaks++)
        CHECK(is_filled(o, text, filled[o.unicode_breaks]));
}

static void filled_texts_are_hyphenated(void) {
    const uint8_t *text = bytes("// the\n// hyphenation\n"), *filled = bytes("// the hyphen-\n// ation\n");
    uint8_t room[24] = "...";
    size_t table[512], len = 7;
    const size_t table_len = read_patterns(table);
    textwrap_options o = hyphenated(14, table, table_len);
    const textwrap_options damaged = hyphenated(14, table, table_len - 1);
    o.initial_indent = text_of("not used");
    o.dictionary.in_parts = 2;
    CHECK(textwrap_refill(text, 22, &o, room, 24, &len) == TEXTWRAP_UNKNOWN_OPTIONS);
    o.dictionary.in_parts = 0;
    CHECK(textwrap_refill(bytes("\xff"), 1, &o, room, 24, &len) == TEXTWRAP_NOT_UTF8);
    CHECK(textwrap_refill(text, 22, &damaged, room, 24, &len) == TEXTWRAP_UNKNOWN_OPTIONS);
    CHECK(len == 7 && memcmp(room, "...", 4) == 0);
    CHECK(textwrap_refill(text, 22, &o, room, 4, &len) == TEXTWRAP_TOO_SMALL);
    CHECK(len == 24 && memcmp(room, "// t", 5) == 0);
    CHECK(textwrap_refill(text, 22, &o, room, 24, &len) == TEXTWRAP_DONE);
    CHECK(is_text(room, len, "// the hyphen-\n// ation\n"));
    o.width = 20;
    CHECK(textwrap_refill(filled, 24, &o, room, 24, &len) == TEXTWRAP_DONE);
    CHECK(is_text(room, len, "// the hyphen- ation\n"));
}

static void columns_are_hyphenated(void) {
    const uint8_t *text = bytes("the hyphenation");
    const textwrap_gaps bar = textwrap_gaps_new(text_of(""), text_of("|"), text_of(""));
    const textwrap_text cell = text_of("the hyphenation");
    textwrap_line rows[2];
    uint8_t room[30] = "...";
    size_t table[512], count = 7, len = 7;
    const size_t table_len = read_patterns(table);
    textwrap_options o = hyphenated(15, table, table_len);
    const textwrap_options damaged = hyphenated(15, table, table_len - 1);
    textwrap_column column = {hyphenated(11, table, table_len), TEXTWRAP_RIGHT, 0};
    o.dictionary.is_checked = 2;
    CHECK(textwrap_wrap_columns(text, 15, 2, &o, &bar, rows, 2, &count, room, 30, &len)
          == TEXTWRAP_UNKNOWN_OPTIONS);
    o.dictionary.is_checked = 0;
    CHECK(textwrap_wrap_columns(text, 15, 2, &damaged, &bar, rows, 2, &count, room, 30, &len)
          == TEXTWRAP_UNKNOWN_OPTIONS);
    CHECK(count == 7 && len == 7 && memcmp(room, "...", 4) == 0);
    CHECK(textwrap_wrap_columns(text, 15, 2, &o, &bar, rows, 1, &count, room, 3, &len)
          == TEXTWRAP_TOO_SMALL);
    CHECK(count == 2 && len == 30 && memcmp(room, "the", 4) == 0 && is_place(&rows[0], 0, 15, 1));
    CHECK(textwrap_wrap_columns(text, 15, 2, &o, &bar, rows, 2, &count, room, 30, &len)
          == TEXTWRAP_DONE);
    CHECK(count == 2 && is_text(room, len, "the hy-|ation  phen-  |       "));
    CHECK(is_place(&rows[0], 0, 15, 1) && is_place(&rows[1], 15, 15, 1));
    CHECK(textwrap_wrap_columns_room_bound(15, 2, &o, &bar) == 159);
    CHECK(textwrap_table(&cell, 1, &column, 1, &bar, rows, 2, &count, room, 30, &len) == TEXTWRAP_DONE);
    CHECK(count == 2 && is_text(room, len, "the hyphen-      ation"));
    column.options = damaged;
    CHECK(textwrap_table(&cell, 1, &column, 1, &bar, rows, 2, &count, room, 30, &len)
          == TEXTWRAP_UNKNOWN_OPTIONS);
}

/* A column with words by first fit. */
static textwrap_column column_of(size_t width, textwrap_alignment alignment) {
    textwrap_column column;
    column.options = textwrap_options_new(width);
    column.options.optimal_fit = 0;
    column.alignment = alignment;
    column.reserved = 0;
    return column;
}

static void tables_are_written(void) {
    const textwrap_text cells[5] = {text_of("one two"), text_of("1.50"), text_of("a"),
                                    text_of("three"), text_of("12.25")};
    const textwrap_column columns[3] = {column_of(4, TEXTWRAP_LEFT), column_of(6, TEXTWRAP_RIGHT),
                                        column_of(4, TEXTWRAP_CENTRE)};
    const textwrap_gaps gaps = textwrap_gaps_new(text_of("[ "), text_of(" | "), text_of(" ]"));
    textwrap_line rows[4];
    uint8_t room[128] = "...";
    size_t count = 7, len = 7;
    CHECK(textwrap_table(cells, 5, columns, 3, &gaps, rows, 3, &count, room, sizeof room, &len)
          == TEXTWRAP_TOO_SMALL);
    CHECK(count == 4 && len == 96);
    room[95] = '_';
    CHECK(textwrap_table(cells, 5, columns, 3, &gaps, rows, 4, &count, room, 95, &len)
          == TEXTWRAP_TOO_SMALL);
    CHECK(count == 4 && len == 96 && memcmp(room, "[ one ", 6) == 0 && memcmp(room + 94, " _", 2) == 0);
    CHECK(textwrap_table(cells, 5, columns, 3, &gaps, rows, 4, &count, room, 96, &len)
          == TEXTWRAP_DONE);
    CHECK(count == 4);
    /* The last row of cells lacks one. */
    CHECK(are_lines(rows, count, room, len,
                    "[ one  |   1.50 |  a   ]\n"
                    "[ two  |        |      ]\n"
                    "[ thre |  12.25 |      ]\n"
                    "[ e    |        |      ]\n"));
    CHECK(textwrap_table(cells, 5, columns, 0, &gaps, rows, 4, &count, room, sizeof room, &len)
          == TEXTWRAP_DONE);
    CHECK(count == 0 && len == 0);
    CHECK(textwrap_table(cells, 0, columns, 3, &gaps, rows, 4, &count, room, sizeof room, &len)
          == TEXTWRAP_DONE);
    CHECK(count == 0 && len == 0);
}

static void rows_of_lines_are_written(void) {
    const textwrap_text lines[4] = {text_of("Foo"), text_of("Bar"), text_of("Baz"), text_of("Quux")};
    const textwrap_text wrong = text_of("\xff");
    const textwrap_gaps gaps = textwrap_gaps_new(text_of("|"), text_of("|"), text_of("|"));
    const textwrap_gaps wrong_gaps = textwrap_gaps_new(gaps.left, wrong, gaps.right);
    textwrap_line rows[2];
    uint8_t room[48] = "...";
    size_t width = 7, count = 7, len = 7;
    CHECK(textwrap_column_width(24, 0, &gaps, &width) == TEXTWRAP_UNKNOWN_OPTIONS && width == 7);
    CHECK(textwrap_column_width(24, 4, &wrong_gaps, &width) == TEXTWRAP_NOT_UTF8 && width == 7);
    CHECK(textwrap_column_width(24, 4, &gaps, &width) == TEXTWRAP_DONE && width == 4);
    CHECK(textwrap_rows_of_lines(lines, 4, 0, 24, &gaps, rows, 2, &count, room, 48, &len)
          == TEXTWRAP_UNKNOWN_OPTIONS);
    CHECK(textwrap_rows_of_lines(&wrong, 1, 4, 24, &gaps, rows, 2, &count, room, 48, &len)
          == TEXTWRAP_NOT_UTF8);
    CHECK(textwrap_rows_of_lines(lines, 4, 4, 24, &wrong_gaps, rows, 2, &count, room, 48, &len)
          == TEXTWRAP_NOT_UTF8);
    CHECK(count == 7 && len == 7 && memcmp(room, "...", 4) == 0);
    CHECK(textwrap_rows_of_lines(lines, 4, 3, 24, &gaps, rows, 1, &count, room, 48, &len)
          == TEXTWRAP_TOO_SMALL);
    CHECK(count == 2 && len == 48 && memcmp(room, "|Foo   |Baz   |        |", 24) == 0);
    CHECK(textwrap_rows_of_lines(lines, 4, 3, 24, &gaps, rows, 2, &count, room, 48, &len)
          == TEXTWRAP_DONE);
    CHECK(are_lines(rows, count, room, len,
                    "|Foo   |Baz   |        |\n"
                    "|Bar   |Quux  |        |\n"));
}

static void tables_of_lines_are_written(void) {
    const textwrap_text lines[2] = {text_of("one"), text_of("two")};
    const textwrap_text number = text_of("1.50"), wrong = text_of("\xff");
    const textwrap_cell cells[3] = {{lines, 2}, {&number, 1}, {lines, 0}};
    const textwrap_cell wrong_cells[2] = {{lines, 2}, {&wrong, 1}};
    textwrap_column columns[2] = {column_of(4, TEXTWRAP_LEFT), column_of(6, TEXTWRAP_RIGHT)};
    const textwrap_gaps gaps = textwrap_gaps_new(text_of("["), text_of("|"), text_of("]"));
    textwrap_line rows[2];
    uint8_t room[26] = "...";
    size_t count = 7, len = 7;
    CHECK(textwrap_table_of_lines(wrong_cells, 2, columns, 2, &gaps, rows, 2, &count, room, 26, &len)
          == TEXTWRAP_NOT_UTF8);
    CHECK(count == 7 && len == 7 && memcmp(room, "...", 4) == 0);
    CHECK(textwrap_table_of_lines(cells, 3, columns, 2, &gaps, rows, 1, &count, room, 26, &len)
          == TEXTWRAP_TOO_SMALL);
    CHECK(count == 2 && len == 26 && memcmp(room, "[one |  1.50][two |      ]", 26) == 0);
    CHECK(textwrap_table_of_lines(cells, 3, columns, 2, &gaps, rows, 2, &count, room, 26, &len)
          == TEXTWRAP_DONE);
    /* The last cell, which has no lines, takes no row. */
    CHECK(are_lines(rows, count, room, len, "[one |  1.50]\n[two |      ]\n"));
    columns[1].alignment = 3;
    CHECK(textwrap_table_of_lines(wrong_cells, 2, columns, 2, &gaps, rows, 2, &count, room, 26, &len)
          == TEXTWRAP_UNKNOWN_OPTIONS);
}

static void wrong_tables_are_refused(void) {
    const textwrap_text cells[2] = {text_of("a"), text_of("b")};
    const textwrap_text wrong[2] = {text_of("a"), text_of("\xff")};
    const textwrap_gaps gaps = textwrap_gaps_new(text_of("|"), text_of("|"), text_of("|"));
    const textwrap_gaps wrong_gaps = textwrap_gaps_new(gaps.left, text_of("\xff"), gaps.right);
    textwrap_column columns[2] = {column_of(4, TEXTWRAP_LEFT), column_of(4, TEXTWRAP_LEFT)};
    textwrap_line rows[1];
    uint8_t room[16] = "...";
    size_t count = 7, len = 7;
    CHECK(textwrap_table(wrong, 2, columns, 2, &gaps, rows, 1, &count, room, 16, &len)
          == TEXTWRAP_NOT_UTF8);
    CHECK(textwrap_table(cells, 2, columns, 2, &wrong_gaps, rows, 1, &count, room, 16, &len)
          == TEXTWRAP_NOT_UTF8);
    for (int i = 0; i < 3; i++) {
        columns[1] = column_of(4, TEXTWRAP_LEFT);
        if (i == 0) columns[1].alignment = 3;
        if (i == 1) columns[1].reserved = 1;
        if (i == 2) columns[1].options.version = 1;
        CHECK(textwrap_table(cells, 2, columns, 2, &gaps, rows, 1, &count, room, 16, &len)
              == TEXTWRAP_UNKNOWN_OPTIONS);
    }
    CHECK(count == 7 && len == 7 && memcmp(room, "...", 4) == 0);
}

static void fragments_are_divided(void) {
    const textwrap_fragment four[4] = {{5, 0, 0, 0}, {5, 0, 0, 0}, {5, 0, 0, 0}, {5, 0, 0, 0}};
    const size_t widths[2] = {10, 5};
    size_t ends[4] = {9, 9, 9, 9}, count = 7;
    CHECK(textwrap_wrap_first_fit(four, 4, widths, 2, ends, 4, &count) == TEXTWRAP_DONE);
    CHECK(count == 3 && ends[0] == 2 && ends[1] == 3 && ends[2] == 4 && ends[3] == 9);
    ends[0] = ends[1] = ends[2] = 9;
    CHECK(textwrap_wrap_first_fit(four, 4, widths, 2, ends, 2, &count) == TEXTWRAP_TOO_SMALL);
    CHECK(count == 3 && ends[0] == 2 && ends[1] == 3 && ends[2] == 9);
    CHECK(textwrap_wrap_first_fit(four, 0, widths, 2, ends, 4, &count) == TEXTWRAP_DONE);
    CHECK(count == 1 && ends[0] == 0);
    /* To end a line costs 30 after the second of the last three, and nothing after the others. */
    const textwrap_fragment cards[3] = {{4, 1, 0, 0}, {4, 1, 0, 30}, {4, 1, 0, 0}};
    const size_t nine = 9;
    textwrap_penalties penalties = textwrap_penalties_new();
    CHECK(textwrap_wrap_optimal_fit(cards, 3, &nine, 1, &penalties, ends, 4, &count)
          == TEXTWRAP_DONE);
    CHECK(count == 2 && ends[0] == 1 && ends[1] == 3);
    const textwrap_fragment wide[2] = {{SIZE_MAX, 0, 0, 0}, {SIZE_MAX, 0, 0, 0}};
    const size_t none = 0;
    penalties.overflow_penalty = SIZE_MAX;
    CHECK(textwrap_wrap_optimal_fit(wide, 2, &none, 1, &penalties, ends, 4, &count)
          == TEXTWRAP_OVERFLOW);
    CHECK(count == 2 && ends[0] == 1);
    penalties = textwrap_penalties_new();
    penalties.nline_penalty = 0;
    CHECK(textwrap_wrap_optimal_fit(cards, 2, &nine, 1, &penalties, ends, 4, &count)
          == TEXTWRAP_DONE);
    CHECK(count == 1 && ends[0] == 2);
    const textwrap_fragment two[2] = {{4, 1, 0, 0}, {1, 0, 0, 0}};
    const size_t five = 5;
    penalties = textwrap_penalties_new();
    penalties.nline_penalty = 0;
    penalties.overflow_penalty = 20;
    CHECK(textwrap_wrap_optimal_fit(two, 2, &five, 1, &penalties, ends, 4, &count) == TEXTWRAP_DONE);
    CHECK(count == 1 && ends[0] == 2);
    penalties.short_last_line_penalty = 0;
    CHECK(textwrap_wrap_optimal_fit(two, 2, &five, 1, &penalties, ends, 4, &count) == TEXTWRAP_DONE);
    CHECK(count == 2 && ends[0] == 1);
    penalties.short_last_line_penalty = 25;
    penalties.short_last_line_fraction = 5;
    CHECK(textwrap_wrap_optimal_fit(two, 2, &five, 1, &penalties, ends, 4, &count) == TEXTWRAP_DONE);
    CHECK(count == 2 && ends[0] == 1);
}

static int stands(textwrap_piece piece, size_t offset, size_t len, size_t whitespace_len,
                  size_t width) {
    return piece.offset == offset && piece.len == len && piece.whitespace_len == whitespace_len
           && piece.penalty_len == 0 && piece.width == width;
}

static void pieces_are_places(void) {
    textwrap_options o = textwrap_options_new(4);
    textwrap_piece pieces[4];
    size_t count = 0;
    CHECK(textwrap_pieces(bytes("foo  ba-r"), 9, &o, pieces, 4, &count) == TEXTWRAP_DONE);
    CHECK(count == 3 && stands(pieces[0], 0, 3, 2, 3) && stands(pieces[1], 5, 3, 0, 3)
          && stands(pieces[2], 8, 1, 0, 1));
    o.split_at_hyphens = 0;
    CHECK(textwrap_pieces(bytes("foo  ba-r"), 9, &o, pieces, 4, &count) == TEXTWRAP_DONE);
    CHECK(count == 2 && stands(pieces[1], 5, 4, 0, 4));
    o.initial_indent = text_of("> ");
    CHECK(textwrap_pieces(bytes("\xe4\xbd\xa0\xe5\xa5\xbd."), 7, &o, pieces, 4, &count)
          == TEXTWRAP_DONE);
    CHECK(count == 3 && stands(pieces[0], 0, 0, 0, 0) && stands(pieces[1], 0, 6, 0, 4)
          && stands(pieces[2], 6, 1, 0, 1));
    CHECK(textwrap_pieces(bytes("foo bar"), 7, &o, pieces, 2, &count) == TEXTWRAP_TOO_SMALL);
    CHECK(count == 3 && stands(pieces[1], 0, 3, 1, 3) && stands(pieces[2], 6, 1, 0, 1));
    o.version = 0;
    CHECK(textwrap_pieces(bytes("foo"), 3, &o, pieces, 4, &count) == TEXTWRAP_UNKNOWN_OPTIONS);
}

static void a_text_has_lines_in_steps(void) {
    const size_t cut = 4, point = 2, words[2] = {1, 2}, pieces[2] = {1, 3};
    textwrap_steps steps[3] = {
        {&cut, 1, &point, 0, words, 2}, {&cut, 0, &point, 0, words, 0}, {&cut, 1, &point, 1, pieces, 2}};
    textwrap_options o = textwrap_options_new(5);
    textwrap_paragraph paragraphs[3];
    textwrap_widths widths;
    textwrap_line lines[5];
    uint8_t room[32];
    size_t ends[3], count = 0, len = 0;
    const uint8_t *text = bytes("foo bar\n\nbaz qux");
    CHECK(textwrap_paragraphs(text, 16, &o, paragraphs, 3, &count) == TEXTWRAP_DONE && count == 3);
    CHECK(paragraphs[2].offset == 9 && paragraphs[2].len == 7);
    CHECK(textwrap_paragraph_widths(text, 7, &o, 0, &widths) == TEXTWRAP_DONE);
    CHECK(widths.is_whole == 0 && widths.first == 5 && widths.later == 5);
    CHECK(textwrap_ends_at(text, 7, &cut, 1, &point, 0, &o, 0, ends, 3, &count) == TEXTWRAP_DONE);
    CHECK(count == 2 && ends[0] == 1 && ends[1] == 2);
    CHECK(textwrap_wrap_at(text, 16, steps, 3, &o, lines, 5, &count, room, 32, &len) == TEXTWRAP_DONE);
    CHECK(count == 5 && len == 3 && memcmp(room, "ba-", 3) == 0);
    CHECK(lines[3].is_built == 1 && lines[4].offset == 11 && lines[4].len == 5);
    CHECK(textwrap_fill_at(text, 16, steps, 3, &o, room, 32, &len) == TEXTWRAP_DONE);
    CHECK(len == 18 && memcmp(room, "foo\nbar\n\nba-\nz qux", 18) == 0);
    CHECK(textwrap_fill_at(text, 16, steps, 2, &o, room, 32, &len) == TEXTWRAP_WRONG_PLACES);
    CHECK(textwrap_wrap_at(text, 16, steps, 2, &o, lines, 5, &count, room, 32, &len)
          == TEXTWRAP_WRONG_PLACES);
}

static void a_text_in_steps_is_justified(void) {
    const size_t cuts[4] = {2, 4, 7, 9}, ends[3] = {2, 4, 5};
    const textwrap_steps steps = {cuts, 4, cuts, 0, ends, 3};
    textwrap_options o = textwrap_options_new(8);
    uint8_t room[32] = "...................";
    size_t len = 0;
    const uint8_t *text = bytes("a b cd e f");
    CHECK(textwrap_fill_justified_at(text, 10, &steps, 1, &o, room, 18, &len) == TEXTWRAP_TOO_SMALL);
    CHECK(len == 19 && memcmp(room, "a      b\ncd     e\n.", 19) == 0);
    CHECK(textwrap_fill_justified_at(text, 10, &steps, 1, &o, room, 19, &len) == TEXTWRAP_DONE);
    CHECK(len == 19 && memcmp(room, "a      b\ncd     e\nf", 19) == 0);
    CHECK(textwrap_fill_justified_at(text, 10, &steps, 0, &o, room, 19, &len) == TEXTWRAP_WRONG_PLACES);
}

static void words_are_cut_split_and_broken(void) {
    textwrap_piece words[4];
    size_t points[3], count = 0;
    const size_t offsets[3] = {4, 8, 11};
    CHECK(textwrap_find_words_at(bytes("foo-bar baz"), 11, offsets, 3, words, 4, &count)
          == TEXTWRAP_DONE);
    CHECK(count == 2 && stands(words[0], 0, 7, 1, 7) && stands(words[1], 8, 3, 0, 3));
    CHECK(textwrap_find_words_at(bytes("foo-bar"), 7, offsets, 3, words, 4, &count)
          == TEXTWRAP_WRONG_PLACES);
    const size_t falling[2] = {4, 3}, inside[1] = {1};
    CHECK(textwrap_find_words_at(bytes("foo bar"), 7, falling, 2, words, 4, &count)
          == TEXTWRAP_WRONG_PLACES);
    CHECK(textwrap_find_words_at(bytes("\xc3\xa9"), 2, inside, 1, words, 4, &count)
          == TEXTWRAP_WRONG_PLACES);
    CHECK(count == 2);
    const size_t shown[2] = {4, 7};
    CHECK(textwrap_find_words_at(bytes("\x1b[1mfoo bar"), 11, shown, 2, words, 4, &count)
          == TEXTWRAP_DONE);
    CHECK(count == 2 && stands(words[0], 0, 7, 1, 3) && stands(words[1], 8, 3, 0, 3));
    CHECK(textwrap_split_points(bytes("can-be-split"), 12, points, 3, &count) == TEXTWRAP_DONE);
    CHECK(count == 2 && points[0] == 4 && points[1] == 7);
    CHECK(textwrap_split_points(bytes("--foo"), 5, points, 3, &count) == TEXTWRAP_DONE && count == 0);
    CHECK(textwrap_split_points_outside(bytes("\x1b]8;;x-y\x1b\\b-c\x1b]8;;\x1b\\"), 20, points, 3, &count)
          == TEXTWRAP_DONE);
    CHECK(count == 1 && points[0] == 12);
    CHECK(textwrap_break_apart(bytes("Hello!"), 6, 3, words, 4, &count) == TEXTWRAP_DONE);
    CHECK(count == 2 && stands(words[0], 0, 3, 0, 3) && stands(words[1], 3, 3, 0, 3));
    CHECK(textwrap_break_apart(bytes(""), 0, 3, words, 4, &count) == TEXTWRAP_DONE && count == 0);
    CHECK(textwrap_break_apart(bytes("a\xff"), 2, 3, words, 4, &count) == TEXTWRAP_NOT_UTF8);
}

static void a_paragraph_is_laid_out_in_steps(void) {
    textwrap_options o = textwrap_options_new(80);
    textwrap_piece pieces[4];
    textwrap_line lines[3];
    size_t count = 0, len = 7;
    uint8_t room[4] = "...";
    const size_t cuts[1] = {4}, points[2] = {2, 4}, ends[2] = {1, 3}, wrong[1] = {7};
    CHECK(textwrap_pieces_at(bytes("foo bar"), 7, cuts, 1, points, 2, &o, pieces, 4, &count)
          == TEXTWRAP_DONE);
    CHECK(count == 3 && pieces[0].len == 2 && pieces[0].penalty_len == 1);
    CHECK(stands(pieces[1], 2, 1, 1, 1) && stands(pieces[2], 4, 3, 0, 3));
    CHECK(textwrap_lines_at(bytes("foo bar"), 7, cuts, 1, points, 2, ends, 2, &o, 0, lines, 3, &count,
                            room, 4, &len) == TEXTWRAP_DONE);
    CHECK(count == 2 && len == 3 && memcmp(room, "fo-", 3) == 0);
    CHECK(lines[0].is_built == 1 && lines[0].len == 3);
    CHECK(lines[1].is_built == 0 && lines[1].offset == 2 && lines[1].len == 5);
    CHECK(textwrap_pieces_at(bytes("foo bar"), 7, wrong, 1, points, 2, &o, pieces, 4, &count)
          == TEXTWRAP_WRONG_PLACES);
    CHECK(textwrap_lines_at(bytes("foo bar"), 7, cuts, 1, points, 2, wrong, 1, &o, 0, lines, 3, &count,
                            room, 4, &len) == TEXTWRAP_WRONG_PLACES);
    CHECK(count == 2 && len == 3);
}

/* Cuts after each comma. */
static size_t cut_after_commas(void *context, const uint8_t *paragraph, size_t len, size_t *cuts) {
    size_t count = 0;
    for (size_t i = 0; i + 1 < len; i++)
        if (paragraph[i] == ',') cuts[count++] = i + 1;
    ++*(int *)context;
    return count;
}

/* Splits where the context says. */
static size_t split_at_context(void *context, const uint8_t *word, size_t len, size_t *points) {
    (void)word;
    points[0] = *(size_t *)context;
    return points[0] < len;
}

/* A line for each piece. */
static size_t each_alone(void *context, const textwrap_piece *pieces, size_t pieces_len,
                         const size_t line_widths[2], size_t *ends) {
    (void)context;
    (void)pieces;
    (void)line_widths;
    for (size_t i = 0; i < pieces_len; i++) ends[i] = i + 1;
    return pieces_len;
}

/* One line that ends after more pieces than there are. */
static size_t past_the_end(void *context, const textwrap_piece *pieces, size_t pieces_len,
                           const size_t line_widths[2], size_t *ends) {
    each_alone(context, pieces, pieces_len, line_widths, ends);
    ends[0] = pieces_len + 1;
    return 1;
}

/* Whether the text, filled by these functions, has these lines. */
static int is_wrapped_by(textwrap_options options, textwrap_functions functions, const char *text,
                         const char *joined) {
    textwrap_line lines[32];
    uint8_t room[256];
    char all[512] = "";
    size_t count = 0, len = 0, used = 0;
    if (textwrap_wrap_by(bytes(text), strlen(text), &options, &functions, lines, 32, &count, room, 256,
                         &len) != TEXTWRAP_DONE)
        return 0;
    for (size_t i = 0; i < count; i++) {
        const uint8_t *line = (lines[i].is_built ? room : bytes(text)) + lines[i].offset;
        memcpy(all + used, line, lines[i].len);
        used += lines[i].len;
        all[used++] = '|';
    }
    return used == strlen(joined) && memcmp(all, joined, used) == 0;
}

/* Whether textwrap_wrap_by without functions does what textwrap_wrap does. */
static int is_wrapped_alike(textwrap_options options, const char *text) {
    const textwrap_functions none = textwrap_functions_new(NULL);
    textwrap_line lines[64], others[64];
    uint8_t room[512], other_room[512];
    size_t count = 0, len = 0, other_count = 0, other_len = 0;
    textwrap_status status = textwrap_wrap(bytes(text), strlen(text), &options, lines, 64, &count, room,
                                           512, &len);
    textwrap_status other = textwrap_wrap_by(bytes(text), strlen(text), &options, &none, others, 64,
                                             &other_count, other_room, 512, &other_len);
    if (status != TEXTWRAP_DONE || other != TEXTWRAP_DONE) return 0;
    if (count != other_count || len != other_len || memcmp(room, other_room, len) != 0) return 0;
    for (size_t i = 0; i < count; i++)
        if (lines[i].offset != others[i].offset || lines[i].len != others[i].len
            || lines[i].is_built != others[i].is_built)
            return 0;
    return 1;
}

/* Whether textwrap_fill_by without functions does what textwrap_fill does. */
static int is_filled_alike(textwrap_options options, const char *text) {
    const textwrap_functions none = textwrap_functions_new(NULL);
    uint8_t room[512], other_room[512];
    size_t len = 0, other_len = 0;
    textwrap_status status = textwrap_fill(bytes(text), strlen(text), &options, room, 512, &len);
    textwrap_status other = textwrap_fill_by(bytes(text), strlen(text), &options, &none, other_room,
                                             512, &other_len);
    return status == TEXTWRAP_DONE && other == TEXTWRAP_DONE && len == other_len
        && memcmp(room, other_room, len) == 0;
}

/* A point behind each letter but the last, each with a hyphen. */
static void a_word_may_have_many_points(void) {
    enum { LETTERS = 20000 };
    static uint8_t word[LETTERS];
    static size_t points[LETTERS - 1];
    static textwrap_piece pieces[LETTERS];
    const textwrap_options o = textwrap_options_new(80);
    size_t count = 0;
    memset(word, 'a', sizeof word);
    for (size_t i = 0; i < LETTERS - 1; i++) points[i] = i + 1;
    CHECK(textwrap_pieces_at(word, LETTERS, NULL, 0, points, LETTERS - 1, &o, pieces, LETTERS, &count)
          == TEXTWRAP_DONE);
    CHECK(count == LETTERS && stands(pieces[LETTERS - 1], LETTERS - 1, 1, 0, 1));
    const textwrap_piece before = pieces[LETTERS - 2];
    CHECK(before.offset == LETTERS - 2 && before.len == 1 && before.penalty_len == 1);
}

/* The options that 10 bits stand for, at a width. The wide indents have more bytes than columns, and
 * each of the penalties is far from its default. */
static textwrap_options options_of(unsigned bits, size_t width) {
    const int wide = bits >> 8 & 1;
    textwrap_options o = textwrap_options_new(width);
    o.optimal_fit = bits & 1;
    o.split_at_hyphens = bits >> 1 & 1;
    o.break_words = bits >> 2 & 1;
    o.preserve_trailing_space = bits >> 3 & 1;
    o.even_paragraphs = bits >> 4 & 1;
    o.crlf = bits >> 5 & 1;
    if (bits >> 6 & 1) o.initial_indent = text_of(wide ? "\xe4\xbd\xa0" : "* ");
    if (bits >> 7 & 1) o.subsequent_indent = text_of(wide ? "\xe2\x94\x82" : "    ");
    if (bits >> 9 & 1) {
        o.nline_penalty = 20;
        o.overflow_penalty = 15;
        o.short_last_line_fraction = 20;
        o.short_last_line_penalty = 400;
        o.hyphen_penalty = 5000;
    }
    return o;
}

static void texts_are_wrapped_alike_without_functions(void) {
    static const char *const texts[] = {
        "", "\n", "foo", "foo bar baz", "  foo  ", HAMLET, "a-b-c d-e\n\nfoobarbaz qux  \n",
        "\xe4\xbd\xa0\xe5\xa5\xbd \xe4\xb8\x96\xe7\x95\x8c\r\nfoo", "\x1b[31mred\x1b[0m foo bar",
        "a\rb cccc\r\ndd\r", "\tfoo\t bar\xe3\x80\x80", "foo bar baz a",
    };
    for (unsigned bits = 0; bits < 1024; bits++)
        for (size_t width = 0; width < 12; width += 1 + width / 4)
            for (size_t i = 0; i < sizeof texts / sizeof *texts; i++) {
                CHECK(is_wrapped_alike(options_of(bits, width), texts[i]));
                CHECK(is_filled_alike(options_of(bits, width), texts[i]));
            }
}

/* Whether a text has these breaks by this form of the rules, as offsets, each that is mandatory with
 * an exclamation mark. */
static int breaks_at(const char *text, uint32_t unicode_breaks, const char *expected) {
    textwrap_line_break breaks[16];
    char found[128] = "";
    size_t count = 0;
    if (textwrap_line_breaks(bytes(text), strlen(text), unicode_breaks, breaks, 16, &count)
        != TEXTWRAP_DONE)
        return 0;
    for (size_t i = 0; i < count; i++)
        sprintf(found + strlen(found), "%zu%s ", breaks[i].offset, breaks[i].is_mandatory ? "!" : "");
    return strcmp(found, expected) == 0;
}

static void texts_have_line_breaks(void) {
    textwrap_line_break breaks[1];
    size_t count = 7;
    CHECK(breaks_at("foo bar\nbaz", 1, "4 8! 11! "));
    CHECK(breaks_at("", 1, ""));
    CHECK(breaks_at("equals .35", 1, "10! ") && breaks_at("equals .35", 2, "8 10! "));
    CHECK(textwrap_line_breaks(bytes("a b"), 3, 1, breaks, 1, &count) == TEXTWRAP_TOO_SMALL && count == 2);
    count = 7;
    CHECK(textwrap_line_breaks(bytes("a"), 1, 0, breaks, 1, &count) == TEXTWRAP_UNKNOWN_OPTIONS);
    CHECK(textwrap_line_breaks(bytes("a"), 1, 3, breaks, 1, &count) == TEXTWRAP_UNKNOWN_OPTIONS);
    CHECK(textwrap_line_breaks(bytes("\xff"), 1, 2, breaks, 1, &count) == TEXTWRAP_NOT_UTF8);
    CHECK(count == 7);
}

static void escape_sequences_are_stripped(void) {
    uint8_t room[8];
    size_t len = 0;
    CHECK(textwrap_strip_ansi_escape_sequences(bytes("a\x1b[1mb"), 6, room, 8, &len) == TEXTWRAP_DONE);
    CHECK(len == 2 && memcmp(room, "ab", 2) == 0);
    CHECK(textwrap_strip_ansi_escape_sequences(bytes("\xff"), 1, room, 8, &len) == TEXTWRAP_NOT_UTF8);
}

/* A text without blanks, which Unicode lets a line end in, and a number. */
static const char japanese[] = "\xe3\x81\x93\xe3\x82\x8c\xe3\x81\xaf\xe3\x80\x8c\xe3\x83\x9a"
                               "\xe3\x83\xb3\xe3\x80\x8d\xe3\x81\xa7\xe3\x81\x99\xe3\x80\x82";

static void options_may_ask_for_unicode_breaks(void) {
    textwrap_options o = textwrap_options_new(8);
    uint8_t room[64];
    size_t len = 0, count = 0;
    textwrap_piece pieces[8];
    o.optimal_fit = 0;
    o.unicode_breaks = 1;
    CHECK(textwrap_fill(bytes(japanese), strlen(japanese), &o, room, sizeof room, &len) == TEXTWRAP_DONE);
    CHECK(len == 32 && room[9] == '\n' && room[22] == '\n');
    CHECK(textwrap_refill(bytes("a\nb"), 3, &o, room, sizeof room, &len) == TEXTWRAP_DONE && len == 3);
    CHECK(textwrap_fill_justified(bytes(japanese), strlen(japanese), &o, room, sizeof room, &len)
          == TEXTWRAP_DONE && len == 32);
    CHECK(textwrap_pieces(bytes(japanese), strlen(japanese), &o, pieces, 8, &count) == TEXTWRAP_DONE);
    CHECK(count == 7 && pieces[3].offset == 9 && pieces[3].len == 6);
    o.unicode_breaks = 2;
    o.width = 9;
    CHECK(textwrap_fill(bytes("equals .35"), 10, &o, room, sizeof room, &len) == TEXTWRAP_DONE);
    CHECK(len == 11 && memcmp(room, "equals .\n35", 11) == 0);
}

static void lines_end_at_unicode_breaks(void) {
    textwrap_functions breaks = textwrap_functions_new(NULL);
    breaks.cut = textwrap_cut_at_breaks;
    size_t cuts[4], count = 0;
    CHECK(textwrap_unicode_cuts(bytes("foo-bar \xe6\x97\xa5\xe6\x9c\xac"), 14, cuts, 4, &count)
          == TEXTWRAP_DONE);
    CHECK(count == 2 && cuts[0] == 8 && cuts[1] == 11);
    textwrap_options o = textwrap_options_new(8);
    o.optimal_fit = 0;
    CHECK(is_wrapped_by(o, breaks,
                        "\xe3\x81\x93\xe3\x82\x8c\xe3\x81\xaf\xe3\x80\x8c\xe3\x83\x9a"
                        "\xe3\x83\xb3\xe3\x80\x8d\xe3\x81\xa7\xe3\x81\x99\xe3\x80\x82",
                        "\xe3\x81\x93\xe3\x82\x8c\xe3\x81\xaf|"
                        "\xe3\x80\x8c\xe3\x83\x9a\xe3\x83\xb3\xe3\x80\x8d|"
                        "\xe3\x81\xa7\xe3\x81\x99\xe3\x80\x82|"));
    uint8_t room[16];
    size_t len = 7;
    o.width = 4;
    o.crlf = 1;
    CHECK(textwrap_fill_by(bytes("\xe6\x97\xa5\xe6\x9c\xac\xe3\x80\x82"), 9, &o, &breaks, room, 10, &len)
          == TEXTWRAP_TOO_SMALL);
    CHECK(len == 11 && memcmp(room, "\xe6\x97\xa5\r\n\xe6\x9c\xac\xe3\x80", 10) == 0);
    CHECK(textwrap_fill_by(bytes("\xe6\x97\xa5\xe6\x9c\xac\xe3\x80\x82"), 9, &o, &breaks, room, 16, &len)
          == TEXTWRAP_DONE);
    CHECK(len == 11 && memcmp(room, "\xe6\x97\xa5\r\n\xe6\x9c\xac\xe3\x80\x82", 11) == 0);
    CHECK(textwrap_fill_by(bytes("a\xff"), 2, &o, &breaks, room, 16, &len) == TEXTWRAP_NOT_UTF8);
    CHECK(textwrap_fill_by(NULL, 0, &o, &breaks, room, 0, &len) == TEXTWRAP_DONE && len == 0);
}

static void functions_of_the_caller_take_part(void) {
    int calls = 0;
    size_t two = 2;
    textwrap_functions commas = textwrap_functions_new(&calls);
    commas.cut = cut_after_commas;
    CHECK(is_wrapped_by(textwrap_options_new(4), commas, "a,b,c,d\na,b,c", "a,b,|c,d|a,b,|c|"));
    CHECK(calls == 2);
    textwrap_functions pairs = textwrap_functions_new(&two);
    pairs.split = split_at_context;
    CHECK(is_wrapped_by(textwrap_options_new(3), pairs, "foobar", "fo-|oba|r|"));
    textwrap_functions alone = textwrap_functions_new(NULL);
    alone.divide = each_alone;
    CHECK(is_wrapped_by(textwrap_options_new(5), alone, "a b-c d", "a|b-|c|d|"));
    textwrap_functions wrong = textwrap_functions_new(NULL);
    wrong.divide = past_the_end;
    textwrap_options o = textwrap_options_new(3);
    textwrap_line lines[4];
    size_t count = 7, len = 7;
    uint8_t room[4];
    CHECK(textwrap_wrap_by(bytes("a b c"), 5, &o, &wrong, lines, 4, &count, room, 4, &len)
          == TEXTWRAP_WRONG_PLACES);
    CHECK(textwrap_wrap_by(bytes("a\xff"), 2, &o, &alone, lines, 4, &count, room, 4, &len)
          == TEXTWRAP_NOT_UTF8);
    CHECK(count == 7 && len == 7);
    CHECK(textwrap_wrap_by(bytes("a b c"), 5, &o, &alone, lines, 2, &count, room, 4, &len)
          == TEXTWRAP_TOO_SMALL);
    CHECK(count == 3 && len == 0);
}

static void do_nothing(void) {}

/* What is in reserve means nothing yet, so it has to be 0. */
static void what_is_in_reserve_is_refused(void) {
    textwrap_options o = textwrap_options_new(24);
    const textwrap_text bar = text_of("|");
    const textwrap_fragment card = {4, 1, 0, 0};
    const textwrap_cell cell = {&bar, 1};
    const textwrap_column column = column_of(4, TEXTWRAP_LEFT);
    const size_t nine = 9;
    textwrap_line lines[1];
    uint8_t room[24];
    size_t end = 7, count = 7, len = 7;
    for (int i = 0; i < 4; i++) {
        textwrap_gaps gaps = textwrap_gaps_new(bar, bar, bar);
        gaps.reserved_sizes[i] = 1;
        CHECK(textwrap_wrap_columns(bytes("foo"), 3, 1, &o, &gaps, lines, 1, &count, room, 24, &len)
              == TEXTWRAP_UNKNOWN_OPTIONS);
        CHECK(textwrap_table(&bar, 1, &column, 1, &gaps, lines, 1, &count, room, 24, &len)
              == TEXTWRAP_UNKNOWN_OPTIONS);
        CHECK(textwrap_column_width(24, 1, &gaps, &end) == TEXTWRAP_UNKNOWN_OPTIONS);
        CHECK(textwrap_rows_of_lines(&bar, 1, 1, 24, &gaps, lines, 1, &count, room, 24, &len)
              == TEXTWRAP_UNKNOWN_OPTIONS);
        CHECK(textwrap_table_of_lines(&cell, 1, &column, 1, &gaps, lines, 1, &count, room, 24, &len)
              == TEXTWRAP_UNKNOWN_OPTIONS);
        textwrap_penalties penalties = textwrap_penalties_of(&o);
        penalties.reserved_sizes[i] = 1;
        CHECK(textwrap_wrap_optimal_fit(&card, 1, &nine, 1, &penalties, &end, 1, &count)
              == TEXTWRAP_UNKNOWN_OPTIONS);
        textwrap_functions functions = textwrap_functions_new(NULL);
        functions.reserved[i] = do_nothing;
        CHECK(textwrap_wrap_by(bytes("foo"), 3, &o, &functions, lines, 1, &count, room, 24, &len)
              == TEXTWRAP_UNKNOWN_OPTIONS);
        CHECK(textwrap_fill_by(bytes("foo"), 3, &o, &functions, room, 24, &len)
              == TEXTWRAP_UNKNOWN_OPTIONS);
    }
    CHECK(end == 7 && count == 7 && len == 7);
}

static void bounds_are_enough(void) {
    textwrap_options o = textwrap_options_new(1);
    o.optimal_fit = 0;
    o.initial_indent = text_of("**");
    o.subsequent_indent = text_of(">");
    uint8_t room[8];
    size_t len = 0, count = 0;
    CHECK(textwrap_fill_bound(2, &o) == 8);
    CHECK(textwrap_fill(bytes("ab"), 2, &o, room, 8, &len) == TEXTWRAP_DONE);
    CHECK(len == 8 && memcmp(room, "**\n>a\n>b", 8) == 0);
    textwrap_line lines[3];
    CHECK(textwrap_wrap_lines_bound(2) == 3);
    CHECK(textwrap_wrap_room_bound(2, &o) == 6);
    CHECK(textwrap_wrap(bytes("ab"), 2, &o, lines, 3, &count, room, 6, &len) == TEXTWRAP_DONE);
    CHECK(count == 3 && len == 6);
    textwrap_gaps gaps = textwrap_gaps_new(text_of(""), text_of(""), text_of(""));
    o = textwrap_options_new(2);
    CHECK(textwrap_wrap_columns_rows_bound(3, 2) == 2);
    CHECK(textwrap_wrap_columns_room_bound(3, 2, &o, &gaps) == 7);
    CHECK(textwrap_wrap_columns(bytes("\n\n\n"), 3, 2, &o, &gaps, lines, 2, &count, room, 7, &len)
          == TEXTWRAP_DONE);
    CHECK(count == 2 && len == 4);
}

/* Of arrays of length 0 a null pointer does for each argument of each call. */
static void a_pointer_to_nothing_may_be_null(void) {
    textwrap_options o = textwrap_options_new(10);
    o.initial_indent.at = NULL;
    o.subsequent_indent.at = NULL;
    const textwrap_text nothing = {NULL, 0};
    const textwrap_gaps gaps = textwrap_gaps_new(nothing, nothing, nothing);
    const textwrap_penalties penalties = textwrap_penalties_new();
    const textwrap_functions functions = textwrap_functions_new(NULL);
    textwrap_layout layout;
    textwrap_line line[1];
    uint8_t room[10];
    size_t count = 9, len = 9, end[1];
    CHECK(textwrap_display_width(NULL, 0, &count) == TEXTWRAP_DONE && count == 0);
    CHECK(textwrap_display_width_utf8(NULL, 0, &count) == TEXTWRAP_DONE && count == 0);
    CHECK(textwrap_fill(NULL, 0, &o, NULL, 0, &len) == TEXTWRAP_DONE && len == 0);
    CHECK(textwrap_fill_utf8(NULL, 0, &o, NULL, 0, &len) == TEXTWRAP_DONE && len == 0);
    CHECK(textwrap_fill(bytes("foo"), 3, &o, NULL, 0, &len) == TEXTWRAP_TOO_SMALL && len == 3);
    CHECK(textwrap_fill_bound(3, &o) == 6);
    CHECK(textwrap_wrap(NULL, 0, &o, line, 1, &count, NULL, 0, &len) == TEXTWRAP_DONE && count == 1);
    CHECK(textwrap_wrap(NULL, 0, &o, NULL, 0, &count, NULL, 0, &len) == TEXTWRAP_TOO_SMALL);
    CHECK(textwrap_wrap_utf8(NULL, 0, &o, NULL, 0, &count, NULL, 0, &len) == TEXTWRAP_TOO_SMALL);
    CHECK(textwrap_wrap_room_bound(3, &o) == 0);
    CHECK(textwrap_wrap_by(NULL, 0, &o, &functions, line, 1, &count, NULL, 0, &len) == TEXTWRAP_DONE);
    CHECK(count == 1 && line[0].offset == 0 && line[0].len == 0);
    CHECK(textwrap_wrap_columns(NULL, 0, 1, &o, &gaps, line, 1, &count, room, 10, &len)
          == TEXTWRAP_DONE);
    CHECK(count == 1 && len == 10);
    CHECK(textwrap_wrap_columns(NULL, 0, 1, &o, &gaps, NULL, 0, &count, NULL, 0, &len)
          == TEXTWRAP_TOO_SMALL);
    CHECK(textwrap_wrap_columns_room_bound(0, 1, &o, &gaps) == 10);
    CHECK(textwrap_column_width(10, 1, &gaps, &count) == TEXTWRAP_DONE && count == 10);
    CHECK(textwrap_rows_of_lines(NULL, 0, 1, 10, &gaps, NULL, 0, &count, NULL, 0, &len)
          == TEXTWRAP_DONE);
    CHECK(count == 0 && len == 0);
    CHECK(textwrap_refill(NULL, 0, &o, NULL, 0, &len) == TEXTWRAP_DONE && len == 0);
    CHECK(textwrap_unfill(NULL, 0, NULL, 0, &len, &layout) == TEXTWRAP_DONE && len == 0);
    CHECK(textwrap_indent(NULL, 0, NULL, 0, NULL, 0, &len) == TEXTWRAP_DONE && len == 0);
    CHECK(textwrap_dedent(NULL, 0, NULL, 0, &len) == TEXTWRAP_DONE && len == 0);
    CHECK(textwrap_refill_utf8(NULL, 0, &o, NULL, 0, &len) == TEXTWRAP_DONE && len == 0);
    CHECK(textwrap_unfill_utf8(NULL, 0, NULL, 0, &len, &layout) == TEXTWRAP_DONE && len == 0);
    CHECK(textwrap_indent_utf8(NULL, 0, NULL, 0, NULL, 0, &len) == TEXTWRAP_DONE && len == 0);
    CHECK(textwrap_dedent_utf8(NULL, 0, NULL, 0, &len) == TEXTWRAP_DONE && len == 0);
    CHECK(textwrap_fill_inplace(NULL, 0, 10) == TEXTWRAP_DONE);
    CHECK(textwrap_align(NULL, 0, 0, TEXTWRAP_LEFT, NULL, 0, &len) == TEXTWRAP_DONE && len == 0);
    CHECK(textwrap_align(NULL, 0, 3, TEXTWRAP_LEFT, room, 10, &len) == TEXTWRAP_DONE && len == 3);
    CHECK(textwrap_justify(NULL, 0, 3, NULL, 0, &len) == TEXTWRAP_DONE && len == 0);
    CHECK(textwrap_expand_tabs(NULL, 0, 3, NULL, 0, &len) == TEXTWRAP_DONE && len == 0);
    CHECK(textwrap_terminal_width(NULL, 0, &count) == TEXTWRAP_DONE && count == 0);
    CHECK(textwrap_strip_other_sequences(NULL, 0, NULL, 0, &len) == TEXTWRAP_DONE && len == 0);
    CHECK(textwrap_fill_justified(NULL, 0, &o, NULL, 0, &len) == TEXTWRAP_DONE && len == 0);
    textwrap_reflow_options reflowed = textwrap_reflow_options_new(10);
    reflowed.markers = reflowed.prefixes = NULL;
    CHECK(textwrap_reflow(NULL, 0, &reflowed, NULL, 0, &len) == TEXTWRAP_DONE && len == 0);
    CHECK(textwrap_shorten(NULL, 0, 3, NULL, 0, NULL, 0, &len) == TEXTWRAP_DONE && len == 0);
    CHECK(textwrap_shorten(bytes("foo"), 3, 2, NULL, 0, NULL, 0, &len) == TEXTWRAP_DONE);
    CHECK(len == 0);
    CHECK(textwrap_shorten_lines(NULL, 0, 1, 3, NULL, 0, NULL, 0, &count, NULL, 0, &len)
          == TEXTWRAP_DONE);
    CHECK(count == 0 && len == 0);
    CHECK(textwrap_carry_styles(NULL, 0, &o, NULL, 0, &count, NULL, 0, &len) == TEXTWRAP_DONE);
    CHECK(count == 0 && len == 0);
    CHECK(textwrap_carry_attributes(NULL, 0, &o, NULL, 0, &count, NULL, 0, &len) == TEXTWRAP_DONE);
    CHECK(count == 0 && len == 0);
    CHECK(textwrap_balanced_width(NULL, 0, &o, &count) == TEXTWRAP_DONE && count == 0);
    CHECK(textwrap_wrap_balanced(NULL, 0, &o, line, 1, &count, NULL, 0, &len) == TEXTWRAP_DONE);
    CHECK(count == 1 && len == 0 && line[0].offset == 0 && line[0].len == 0);
    CHECK(textwrap_wrap_balanced(NULL, 0, &o, NULL, 0, &count, NULL, 0, &len)
          == TEXTWRAP_TOO_SMALL);
    CHECK(textwrap_fitting_widths(NULL, 0, 0, 10, NULL, 0, &count) == TEXTWRAP_DONE && count == 0);
    CHECK(textwrap_fitting_widths(NULL, 0, 1, 10, NULL, 0, &count) == TEXTWRAP_TOO_SMALL);
    CHECK(count == 1);
    CHECK(textwrap_patterns_read(NULL, 0, NULL, 0, &len, &count) == TEXTWRAP_WRONG_PATTERNS);
    CHECK(count == 1);
    CHECK(textwrap_patterns_check(NULL, 0) == TEXTWRAP_DAMAGED_TABLE);
    textwrap_dictionary none = textwrap_dictionary_new(NULL, 0);
    CHECK(textwrap_hyphen_points(&none, NULL, 0, NULL, 0, &count) == TEXTWRAP_DAMAGED_TABLE);
    none.is_checked = 1;
    CHECK(textwrap_hyphen_points(&none, NULL, 0, NULL, 0, &count) == TEXTWRAP_DONE && count == 0);
    CHECK(textwrap_table(NULL, 0, NULL, 0, &gaps, NULL, 0, &count, NULL, 0, &len) == TEXTWRAP_DONE);
    CHECK(count == 0 && len == 0);
    CHECK(textwrap_table_of_lines(NULL, 0, NULL, 0, &gaps, NULL, 0, &count, NULL, 0, &len)
          == TEXTWRAP_DONE);
    CHECK(count == 0 && len == 0);
    CHECK(textwrap_wrap_first_fit(NULL, 0, NULL, 0, end, 1, &count) == TEXTWRAP_DONE && count == 1);
    CHECK(textwrap_wrap_first_fit(NULL, 0, NULL, 0, NULL, 0, &count) == TEXTWRAP_TOO_SMALL);
    CHECK(textwrap_wrap_optimal_fit(NULL, 0, NULL, 0, &penalties, end, 1, &count) == TEXTWRAP_DONE);
    CHECK(textwrap_pieces(NULL, 0, &o, NULL, 0, &count) == TEXTWRAP_DONE && count == 0);
    CHECK(textwrap_find_words_at(NULL, 0, NULL, 0, NULL, 0, &count) == TEXTWRAP_DONE);
    CHECK(textwrap_split_points(NULL, 0, NULL, 0, &count) == TEXTWRAP_DONE && count == 0);
    CHECK(textwrap_split_points_outside(NULL, 0, NULL, 0, &count) == TEXTWRAP_DONE && count == 0);
    CHECK(textwrap_line_breaks(NULL, 0, 1, NULL, 0, &count) == TEXTWRAP_DONE && count == 0);
    CHECK(textwrap_unicode_cuts(NULL, 0, NULL, 0, &count) == TEXTWRAP_DONE && count == 0);
    CHECK(textwrap_strip_ansi_escape_sequences(NULL, 0, NULL, 0, &len) == TEXTWRAP_DONE && len == 0);
    CHECK(textwrap_break_apart(NULL, 0, 1, NULL, 0, &count) == TEXTWRAP_DONE);
    CHECK(textwrap_pieces_at(NULL, 0, NULL, 0, NULL, 0, &o, NULL, 0, &count) == TEXTWRAP_DONE);
    CHECK(textwrap_lines_at(NULL, 0, NULL, 0, NULL, 0, NULL, 0, &o, 0, line, 1, &count, NULL, 0, &len)
          == TEXTWRAP_DONE);
}

static void statuses_have_words(void) {
    for (int status = TEXTWRAP_DONE; status <= TEXTWRAP_DAMAGED_TABLE; status++)
        for (int other = TEXTWRAP_DONE; other <= TEXTWRAP_DAMAGED_TABLE + 1; other++)
            CHECK((strcmp(textwrap_status_text((textwrap_status)status),
                          textwrap_status_text((textwrap_status)other)) == 0) == (status == other));
}

int main(void) {
    CHECK(textwrap_library_version() == TEXTWRAP_LIBRARY_VERSION);
    a_pointer_to_nothing_may_be_null();
    statuses_have_words();
    each_option_has_its_effect();
    options_without_a_meaning_are_refused();
    texts_that_are_not_utf8_are_refused();
    columns_are_counted();
    room_that_is_too_small_is_reported();
    lines_are_places();
    rows_are_written();
    filled_texts_are_unfilled_and_refilled();
    texts_are_indented_dedented_and_filled_in_place();
    known_texts_are_treated_as_others();
    wrong_indents_are_refused_beside_known_texts();
    lines_are_aligned();
    lines_are_justified();
    tabs_are_expanded();
    terminals_are_told();
    texts_are_filled_and_justified();
    texts_with_marks_are_reflowed();
    reflowing_is_refused();
    lines_are_shortened();
    words_are_cut_where_that_is_asked();
    lists_of_lines_are_shortened();
    styles_are_carried();
    carrying_styles_is_refused();
    attributes_are_carried();
    lines_are_balanced();
    columns_are_fitted();
    dictionaries_are_read();
    numbers_are_tested();
    words_have_points();
    a_dictionary_may_be_checked();
    texts_are_hyphenated();
    soft_hyphens_are_points();
    hyphenated_words_end_at_unicode_breaks();
    filled_texts_are_hyphenated();
    columns_are_hyphenated();
    tables_are_written();
    rows_of_lines_are_written();
    tables_of_lines_are_written();
    wrong_tables_are_refused();
    fragments_are_divided();
    pieces_are_places();
    a_text_has_lines_in_steps();
    a_text_in_steps_is_justified();
    words_are_cut_split_and_broken();
    a_paragraph_is_laid_out_in_steps();
    a_word_may_have_many_points();
    texts_are_wrapped_alike_without_functions();
    texts_have_line_breaks();
    escape_sequences_are_stripped();
    options_may_ask_for_unicode_breaks();
    lines_end_at_unicode_breaks();
    functions_of_the_caller_take_part();
    what_is_in_reserve_is_refused();
    bounds_are_enough();
    if (failures == 0) printf("C: ok\n");
    return failures != 0;
}
