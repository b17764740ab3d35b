/* textwrap_wrap_by and textwrap_fill_by: functions of the caller say where a paragraph is cut into words,
 * where these are split and where its lines end. The library makes the lines of that. */
#include <stdlib.h>

#include "textwrap_proved.h"

/* What a call works on. What is found of one paragraph after another, its cuts, its points and its ends,
 * stands in one list of places. Nothing more is asked once the status is not DONE. */
typedef struct {
    textwrap_status status;
    const uint8_t *text;
    textwrap_options options;
    const textwrap_functions *functions;
    textwrap_paragraph *paragraphs;
    textwrap_steps *steps;
    size_t count;
    size_t *places, *next; /* all of them, and where the next ones go */
    textwrap_piece *pieces;
    size_t pieces_room, pieces_len;
    size_t is_later; /* whether a line stands before the paragraph */
} work;

/* Takes so many places that were found, of which there may be so many, and adds them to a length. */
static void take(work *w, size_t count, size_t most, size_t *len) {
    if (w->status == TEXTWRAP_DONE && count > most)
        w->status = count == TEXTWRAP_NO_MEMORY ? TEXTWRAP_OUT_OF_MEMORY : TEXTWRAP_WRONG_PLACES;
    if (w->status != TEXTWRAP_DONE) return;
    w->next += count;
    *len += count;
}

/* Finds the pieces of a paragraph by what was found of it. */
static void find_pieces(work *w, const uint8_t *paragraph, size_t len, const textwrap_options *options,
                        const textwrap_steps *s) {
    w->status = textwrap_pieces_at(paragraph, len, s->cuts, s->cuts_len, s->points, s->points_len,
                                   options, w->pieces, w->pieces_room, &w->pieces_len);
}

/* Finds the cuts of a paragraph, by the caller's function or before the words that the options name. The
 * pieces are its words then: they are neither split nor broken. */
static void find_words(work *w, const uint8_t *paragraph, size_t len, textwrap_steps *s) {
    const textwrap_functions *f = w->functions;
    textwrap_options whole = w->options;
    whole.split_at_hyphens = whole.break_words = 0;
    whole.dictionary.numbers_len = 0;
    if (f->cut != NULL) {
        take(w, f->cut(f->context, paragraph, len, w->next), len, &s->cuts_len);
        if (w->status == TEXTWRAP_DONE) find_pieces(w, paragraph, len, &whole, s);
        return;
    }
    w->status = textwrap_pieces(paragraph, len, &whole, w->pieces, w->pieces_room, &w->pieces_len);
    for (size_t i = 1; w->status == TEXTWRAP_DONE && i < w->pieces_len; i++)
        w->next[i - 1] = w->pieces[i].offset;
    if (w->pieces_len > 1) take(w, w->pieces_len - 1, len, &s->cuts_len);
}

/* Finds the points of a word by the options: those of the dictionary, and those behind hyphens, in order. Both
 * lists stand behind the places that they come to. */
static size_t split(work *w, const uint8_t *word, size_t len, size_t *points) {
    const textwrap_dictionary *dictionary = &w->options.dictionary;
    size_t *known = points + len, *hyphens = known + len, known_len = 0, hyphens_len = 0, count = 0;
    if (dictionary->numbers_len > 0)
        w->status = textwrap_hyphen_points(dictionary, word, len, known, len, &known_len);
    if (w->status == TEXTWRAP_DONE && (w->options.split_at_hyphens == 2 || dictionary->numbers_len > 0))
        w->status = textwrap_split_points_outside(word, len, hyphens, len, &hyphens_len);
    else if (w->status == TEXTWRAP_DONE && w->options.split_at_hyphens)
        w->status = textwrap_split_points(word, len, hyphens, len, &hyphens_len);
    for (size_t i = 0, j = 0; w->status == TEXTWRAP_DONE && (i < known_len || j < hyphens_len); count++) {
        points[count] = j == hyphens_len || (i < known_len && known[i] < hyphens[j]) ? known[i] : hyphens[j];
        if (i < known_len && known[i] == points[count]) i++;
        if (j < hyphens_len && hyphens[j] == points[count]) j++;
    }
    return count;
}

/* Finds the points of a word: offsets of the word, which become those of the paragraph. */
static void find_points(work *w, const uint8_t *paragraph, const textwrap_piece *word,
                        textwrap_steps *s) {
    const textwrap_functions *f = w->functions;
    const uint8_t *at = paragraph + word->offset;
    size_t *points = w->next;
    size_t count = f->split != NULL ? f->split(f->context, at, word->len, points)
                                    : split(w, at, word->len, points);
    take(w, count, word->len, &s->points_len);
    for (; points < w->next; points++) {
        if (*points == 0 || *points >= word->len) w->status = TEXTWRAP_WRONG_PLACES;
        *points += word->offset;
    }
}

/* Finds where the lines of a paragraph end: by the caller's function, or by the algorithm of the
 * options. */
static void find_ends(work *w, const uint8_t *paragraph, size_t len, const textwrap_widths *widths,
                      textwrap_steps *s) {
    const textwrap_functions *f = w->functions;
    const size_t line_widths[2] = {widths->first, widths->later};
    size_t count = 0, most = len + 2;
    if (f->divide == NULL) {
        w->status = textwrap_ends_at(paragraph, len, s->cuts, s->cuts_len, s->points, s->points_len,
                                     &w->options, w->is_later, w->next, most, &count);
    } else {
        find_pieces(w, paragraph, len, &w->options, s);
        if (w->status != TEXTWRAP_DONE) return;
        most = w->pieces_len + 1;
        count = f->divide(f->context, w->pieces, w->pieces_len, line_widths, w->next);
    }
    take(w, count, most, &s->ends_len);
}

/* Finds the steps of a paragraph. One that is a line as a whole has none. */
static void find_steps(work *w, const uint8_t *paragraph, size_t len, textwrap_steps *s) {
    textwrap_widths widths = {0, 0, 0};
    w->status = textwrap_paragraph_widths(paragraph, len, &w->options, w->is_later, &widths);
    s->cuts = s->points = s->ends = w->next;
    if (w->status == TEXTWRAP_DONE && !widths.is_whole) {
        find_words(w, paragraph, len, s);
        s->points = w->next;
        for (size_t i = 0; w->status == TEXTWRAP_DONE && i < w->pieces_len; i++)
            find_points(w, paragraph, &w->pieces[i], s);
        s->ends = w->next;
        if (w->status == TEXTWRAP_DONE) find_ends(w, paragraph, len, &widths, s);
    }
    if (widths.is_whole || s->ends_len > 0) w->is_later = 1;
}

/* Finds the paragraphs of a text, and makes room for all that can be found of them: in each no more cuts
 * and points than bytes, one piece more, and lines one more than pieces; and as many places as bytes to find
 * points in. If the text or the options are refused, this says so, before any function is called. A
 * dictionary was tested then. */
static textwrap_status find_paragraphs(work *w, const uint8_t *text, size_t len) {
    textwrap_status status = textwrap_paragraphs(text, len, &w->options, NULL, 0, &w->count);
    if (status != TEXTWRAP_TOO_SMALL) return status;
    if (len > SIZE_MAX / 8) return TEXTWRAP_OUT_OF_MEMORY;
    w->paragraphs = (textwrap_paragraph *)calloc(w->count, sizeof *w->paragraphs);
    w->steps = (textwrap_steps *)calloc(w->count, sizeof *w->steps);
    w->places = w->next = (size_t *)calloc(4 * len + 2 * w->count, sizeof *w->places);
    if (!w->paragraphs || !w->steps || !w->places) return TEXTWRAP_OUT_OF_MEMORY;
    status = textwrap_paragraphs(text, len, &w->options, w->paragraphs, w->count, &w->count);
    for (size_t i = 0; status == TEXTWRAP_DONE && i < w->count; i++)
        if (w->pieces_room < w->paragraphs[i].len + 1) w->pieces_room = w->paragraphs[i].len + 1;
    w->options.dictionary.is_checked = 1;
    w->pieces = (textwrap_piece *)calloc(w->pieces_room, sizeof *w->pieces);
    return status == TEXTWRAP_DONE && !w->pieces ? TEXTWRAP_OUT_OF_MEMORY : status;
}

/* Finds the steps of a text. No function may be set that this library does not know. */
static void run(work *w, const uint8_t *text, size_t len, const textwrap_options *options,
                const textwrap_functions *functions) {
    const textwrap_functions none = textwrap_functions_new(NULL);
    memset(w, 0, sizeof *w);
    w->text = len > 0 ? text : (const uint8_t *)"";
    w->options = *options;
    w->functions = functions;
    w->status = TEXTWRAP_UNKNOWN_OPTIONS;
    if (memcmp(functions->reserved, none.reserved, sizeof none.reserved) == 0)
        w->status = find_paragraphs(w, w->text, len);
    for (size_t i = 0; w->status == TEXTWRAP_DONE && i < w->count; i++)
        find_steps(w, w->text + w->paragraphs[i].offset, w->paragraphs[i].len, &w->steps[i]);
}

static textwrap_status end(const work *w) {
    free(w->paragraphs);
    free(w->steps);
    free(w->places);
    free(w->pieces);
    return w->status;
}

size_t textwrap_cut_at_breaks(void *context, const uint8_t *paragraph, size_t paragraph_len,
                              size_t *cuts) {
    size_t count = 0;
    (void)context;
    textwrap_status status =
        textwrap_unicode_cuts(paragraph, paragraph_len, cuts, paragraph_len, &count);
    return status == TEXTWRAP_DONE ? count : TEXTWRAP_NO_MEMORY;
}

textwrap_status textwrap_wrap_by(const uint8_t *text, size_t text_len,
                                 const textwrap_options *options,
                                 const textwrap_functions *functions, textwrap_line *lines,
                                 size_t lines_len, size_t *count, uint8_t *room, size_t room_len,
                                 size_t *len) {
    work w;
    run(&w, text, text_len, options, functions);
    if (w.status == TEXTWRAP_DONE)
        w.status = textwrap_wrap_at(w.text, text_len, w.steps, w.count, &w.options, lines, lines_len,
                                    count, room, room_len, len);
    return end(&w);
}

textwrap_status textwrap_fill_by(const uint8_t *text, size_t text_len,
                                 const textwrap_options *options,
                                 const textwrap_functions *functions, uint8_t *room,
                                 size_t room_len, size_t *len) {
    work w;
    run(&w, text, text_len, options, functions);
    if (w.status == TEXTWRAP_DONE)
        w.status = textwrap_fill_at(w.text, text_len, w.steps, w.count, &w.options, room, room_len, len);
    return end(&w);
}
