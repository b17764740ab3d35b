/* How long a call takes in one process: the least processor time of many runs, in nanoseconds a byte
 * of the text on standard input.
 *
 * bench CALL WIDTH first|optimal */
#define _POSIX_C_SOURCE 199309L
#include <stdio.h>
#include <stdlib.h>
#include <string.h>
#include <time.h>

#include "textwrap_proved.h"

enum { MOST = 1 << 27, RUNS = 25, ROOM = 2 };

/* What a call works on. */
typedef struct {
    uint8_t *text;
    size_t text_len;
    textwrap_options options;
    uint8_t *room;
    size_t room_len;
    textwrap_line *lines;
    textwrap_piece *pieces;
    size_t *cuts;
    size_t lines_len; /* of the lines, and of the pieces */
    textwrap_text *texts; /* the text, cut at its line feeds */
    size_t texts_len;
} work;

static const uint8_t bullet[] = "* ", blanks[] = "  ";

static textwrap_text text_of(const uint8_t *at) {
    return (textwrap_text){at, strlen((const char *)at)};
}

static textwrap_status display_width(work *w) {
    size_t columns;
    return textwrap_display_width(w->text, w->text_len, &columns);
}

static textwrap_status fill(work *w) {
    size_t len;
    return textwrap_fill(w->text, w->text_len, &w->options, w->room, w->room_len, &len);
}

static textwrap_status fill_indented(work *w) {
    w->options.initial_indent = text_of(bullet);
    w->options.subsequent_indent = text_of(blanks);
    return fill(w);
}

static textwrap_status fill_even(work *w) {
    w->options.even_paragraphs = 1;
    return fill_indented(w);
}

static textwrap_status fill_preserving(work *w) {
    w->options.preserve_trailing_space = 1;
    return fill(w);
}

static textwrap_status fill_unbroken(work *w) {
    w->options.break_words = 0;
    return fill(w);
}

static textwrap_status wrap(work *w) {
    size_t count, len;
    return textwrap_wrap(w->text, w->text_len, &w->options, w->lines, w->lines_len, &count, w->room,
                         w->room_len, &len);
}

static textwrap_status wrap_indented(work *w) {
    w->options.initial_indent = text_of(bullet);
    w->options.subsequent_indent = text_of(blanks);
    return wrap(w);
}

static textwrap_status fill_at_breaks(work *w) {
    w->options.unicode_breaks = 1;
    return fill(w);
}

static textwrap_status wrap_at_breaks(work *w) {
    w->options.unicode_breaks = 1;
    return wrap(w);
}

static textwrap_status wrap_columns(work *w) {
    const uint8_t bar[] = "|";
    textwrap_gaps gaps = textwrap_gaps_new(text_of(bar), text_of(bar), text_of(bar));
    size_t count, len;
    return textwrap_wrap_columns(w->text, w->text_len, 2, &w->options, &gaps, w->lines, w->lines_len,
                                 &count, w->room, w->room_len, &len);
}

static textwrap_status refill(work *w) {
    size_t len;
    return textwrap_refill(w->text, w->text_len, &w->options, w->room, w->room_len, &len);
}

static textwrap_status unfill(work *w) {
    size_t len;
    textwrap_layout layout;
    return textwrap_unfill(w->text, w->text_len, w->room, w->room_len, &len, &layout);
}

static textwrap_status indent(work *w) {
    size_t len;
    return textwrap_indent(w->text, w->text_len, blanks, 2, w->room, w->room_len, &len);
}

static textwrap_status dedent(work *w) {
    size_t len;
    return textwrap_dedent(w->text, w->text_len, w->room, w->room_len, &len);
}

static textwrap_status fill_inplace(work *w) {
    memcpy(w->room, w->text, w->text_len);
    return textwrap_fill_inplace(w->room, w->text_len, w->options.width);
}

static textwrap_status pieces(work *w) {
    size_t count;
    return textwrap_pieces(w->text, w->text_len, &w->options, w->pieces, w->lines_len, &count);
}

static textwrap_status find_words(work *w) {
    w->options.split_at_hyphens = 0;
    w->options.break_words = 0;
    return pieces(w);
}

static textwrap_status split_words(work *w) {
    w->options.break_words = 0;
    return pieces(w);
}

static textwrap_status unicode_cuts(work *w) {
    size_t count;
    return textwrap_unicode_cuts(w->text, w->text_len, w->cuts, w->lines_len, &count);
}

static textwrap_status align(work *w) {
    size_t len;
    return textwrap_align(w->text, w->text_len, w->text_len + w->text_len / 8, TEXTWRAP_RIGHT,
                          w->room, w->room_len, &len);
}

static textwrap_status justify(work *w) {
    size_t len;
    return textwrap_justify(w->text, w->text_len, w->text_len + w->text_len / 8, w->room,
                            w->room_len, &len);
}

static textwrap_status expand_tabs(work *w) {
    size_t len;
    return textwrap_expand_tabs(w->text, w->text_len, 8, w->room, w->room_len, &len);
}

static textwrap_status fill_justified(work *w) {
    size_t len;
    return textwrap_fill_justified(w->text, w->text_len, &w->options, w->room, w->room_len, &len);
}

static textwrap_status shorten(work *w) {
    size_t len;
    return textwrap_shorten(w->text, w->text_len, w->text_len / 2, bullet, 1, w->room, w->room_len,
                            &len);
}

static textwrap_status carry_styles(work *w) {
    size_t count, len;
    return textwrap_carry_styles(w->texts, w->texts_len, &w->options, w->lines, w->lines_len, &count,
                                 w->room, w->room_len, &len);
}

static textwrap_status wrap_balanced(work *w) {
    size_t count, len;
    return textwrap_wrap_balanced(w->text, w->text_len, &w->options, w->lines, w->lines_len, &count,
                                  w->room, w->room_len, &len);
}

/* Of the texts in two columns. */
static textwrap_status fitting_widths(work *w) {
    size_t widths[2], count;
    return textwrap_fitting_widths(w->texts, w->texts_len, 2, 80, widths, 2, &count);
}

/* The texts in two columns. */
static textwrap_status table(work *w) {
    textwrap_gaps gaps = textwrap_gaps_new(text_of(blanks), text_of(blanks), text_of(blanks));
    textwrap_column columns[2] = {{w->options, TEXTWRAP_LEFT, 0}, {w->options, TEXTWRAP_RIGHT, 0}};
    size_t count, len;
    return textwrap_table(w->texts, w->texts_len, columns, 2, &gaps, w->lines, w->lines_len, &count,
                          w->room, w->room_len, &len);
}

/* Cuts the text at its line feeds, and tells how many texts that makes. */
static size_t texts_of(work *w) {
    size_t start = 0, count = 0;
    for (size_t i = 0; i <= w->text_len; i++) {
        if (i < w->text_len && w->text[i] != '\n') continue;
        w->texts[count++] = (textwrap_text){w->text + start, i - start};
        start = i + 1;
    }
    return count;
}

typedef struct {
    const char *name;
    textwrap_status (*call)(work *);
} named_call;

static const named_call calls[] = {
    {"display_width", display_width},
    {"fill", fill},
    {"fill_indented", fill_indented},
    {"fill_even", fill_even},
    {"fill_preserving", fill_preserving},
    {"fill_unbroken", fill_unbroken},
    {"wrap", wrap},
    {"wrap_indented", wrap_indented},
    {"fill_at_breaks", fill_at_breaks},
    {"wrap_at_breaks", wrap_at_breaks},
    {"wrap_columns", wrap_columns},
    {"refill", refill},
    {"unfill", unfill},
    {"indent", indent},
    {"dedent", dedent},
    {"fill_inplace", fill_inplace},
    {"find_words", find_words},
    {"split_words", split_words},
    {"break_words", pieces},
    {"unicode_cuts", unicode_cuts},
    {"align", align},
    {"justify", justify},
    {"expand_tabs", expand_tabs},
    {"fill_justified", fill_justified},
    {"shorten", shorten},
    {"carry_styles", carry_styles},
    {"wrap_balanced", wrap_balanced},
    {"fitting_widths", fitting_widths},
    {"table", table},
};

static double seconds(void) {
    struct timespec now;
    clock_gettime(CLOCK_PROCESS_CPUTIME_ID, &now);
    return (double)now.tv_sec + (double)now.tv_nsec * 1e-9;
}

static textwrap_status (*call_of(const char *name))(work *) {
    for (size_t i = 0; i < sizeof calls / sizeof *calls; i++)
        if (strcmp(calls[i].name, name) == 0) return calls[i].call;
    return NULL;
}

/* The least time of a call among the runs, -1 if one fails. Short texts are done many times a run. */
static double least_time(textwrap_status (*call)(work *), work *w) {
    double least = 1e9;
    size_t repeats = 1 + 100000 / (w->text_len + 1);
    for (int run = 0; run < RUNS; run++) {
        double start = seconds();
        for (size_t i = 0; i < repeats; i++)
            if (call(w) != TEXTWRAP_DONE) return -1;
        double time = (seconds() - start) / (double)repeats;
        if (time < least) least = time;
    }
    return least;
}

int main(int argc, char **argv) {
    textwrap_status (*call)(work *) = argc == 4 ? call_of(argv[1]) : NULL;
    if (call == NULL) {
        fputs("usage: bench CALL WIDTH first|optimal\n", stderr);
        return 2;
    }
    work w = {.text = malloc(MOST)};
    if (w.text == NULL) return 1;
    w.text_len = fread(w.text, 1, MOST, stdin);
    w.room_len = 4096 + 8 * w.text_len;
    w.lines_len = w.text_len + 1;
    w.room = malloc(w.room_len);
    w.lines = malloc(w.lines_len * sizeof *w.lines);
    w.pieces = malloc(w.lines_len * sizeof *w.pieces);
    w.cuts = malloc(w.lines_len * sizeof *w.cuts);
    w.texts = malloc(w.lines_len * sizeof *w.texts);
    if (w.room == NULL || w.lines == NULL || w.pieces == NULL || w.cuts == NULL || w.texts == NULL)
        return 1;
    w.texts_len = texts_of(&w);
    w.options = textwrap_options_new(strtoul(argv[2], NULL, 10));
    w.options.optimal_fit = strcmp(argv[3], "optimal") == 0;
    double time = least_time(call, &w);
    if (time < 0) return 1;
    printf("%.2f\n", time * 1e9 / (double)w.text_len);
    return 0;
}
