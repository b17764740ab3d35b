/* What the page of the browser calls: the proved library, by the few options that the page shows. What a line
 * costs is added up here, as docs/behaviour.md has it, of pieces and ends that are the library's. */
#include "page.h"
#include "textwrap_proved.h"

static page_answer answer;
/* The dictionary; none without numbers. */
static size_t *numbers, numbers_len;

const page_answer *page_answered(void) { return &answer; }

/* ---- The pieces of a paragraph */

/* The pieces of a paragraph, which are fragments, too, and before how many of them each line ends; each list has
 * room for the most that there may be. */
typedef struct {
    textwrap_piece *pieces;
    textwrap_fragment *fragments;
    size_t *ends;
    size_t pieces_len, ends_len;
} page_steps;

static textwrap_status find_pieces(const uint8_t *text, size_t len, const textwrap_options *options,
                                   page_steps *steps) {
    textwrap_status status =
        textwrap_pieces(text, len, options, steps->pieces, len + 2, &steps->pieces_len);
    if (status != TEXTWRAP_DONE) return status;
    for (size_t i = 0; i < steps->pieces_len; i++) {
        const textwrap_piece *piece = &steps->pieces[i];
        size_t break_penalty = piece->penalty_len > 0 ? options->hyphen_penalty : 0;
        steps->fragments[i] =
            (textwrap_fragment){piece->width, piece->whitespace_len, piece->penalty_len, break_penalty};
    }
    return status;
}

static textwrap_status find_ends(const textwrap_options *options, page_steps *steps) {
    if (!options->optimal_fit)
        return textwrap_wrap_first_fit(steps->fragments, steps->pieces_len, &options->width, 1, steps->ends,
                                       steps->pieces_len + 1, &steps->ends_len);
    textwrap_penalties penalties = textwrap_penalties_of(options);
    return textwrap_wrap_optimal_fit(steps->fragments, steps->pieces_len, &options->width, 1, &penalties,
                                     steps->ends, steps->pieces_len + 1, &steps->ends_len);
}

/* ---- What lines cost */

/* The line of these pieces, behind which others stand, or none. */
static page_line measured(const textwrap_piece *pieces, size_t len, int is_last, const textwrap_options *options) {
    size_t target = options->width > 0 ? options->width : 1, columns = 0;
    uint64_t cost = options->nline_penalty;
    for (size_t i = 0; i < len; i++)
        columns += pieces[i].width + (i + 1 < len ? pieces[i].whitespace_len : pieces[i].penalty_len);
    if (len > 0 && pieces[len - 1].penalty_len > 0) cost += options->hyphen_penalty;
    if (columns > target)
        cost += (columns - target) * options->overflow_penalty;
    else if (!is_last)
        cost += (uint64_t)(target - columns) * (target - columns);
    else if (len == 1 && columns * options->short_last_line_fraction < target)
        cost += options->short_last_line_penalty;
    return (page_line){columns, cost};
}

static void measure(const page_steps *steps, const textwrap_options *options, page_line *lines) {
    size_t from = 0;
    for (size_t i = 0; i < steps->ends_len; i++) {
        size_t to = steps->ends[i];
        lines[i] = measured(steps->pieces + from, to - from, to == steps->pieces_len, options);
        from = to;
    }
}

/* ---- The calls */

static textwrap_status lay(const uint8_t *text, size_t len, const textwrap_options *options, page_steps *steps,
                           uint8_t *room, page_line *lines) {
    /* Each byte may be a line, with a hyphen and a line feed. */
    textwrap_status status = textwrap_fill(text, len, options, room, 3 * len + 1, &answer.text_len);
    if (status == TEXTWRAP_DONE) status = find_pieces(text, len, options, steps);
    if (status == TEXTWRAP_DONE) status = find_ends(options, steps);
    if (status != TEXTWRAP_DONE) return status;
    measure(steps, options, lines);
    answer.text = room;
    answer.lines = lines;
    answer.lines_len = steps->ends_len;
    return TEXTWRAP_DONE;
}

/* One room for all lists; what is read afterwards stands in front of it. */
uint32_t page_lay(const uint8_t *text, size_t len, size_t width, uint32_t is_least, uint32_t breaks) {
    static void *room;
    textwrap_options options = textwrap_options_new(width);
    options.optimal_fit = is_least;
    options.unicode_breaks = breaks;
    if (numbers != NULL) options.dictionary = textwrap_dictionary_new(numbers, numbers_len);
    options.dictionary.is_checked = 1;
    page_give(room);
    answer = (page_answer){0};
    size_t most = len + 3;
    size_t each = sizeof(page_line) + sizeof(textwrap_piece) + sizeof(textwrap_fragment) + sizeof(size_t) + 3;
    room = page_take(most * each);
    if (room == NULL) return TEXTWRAP_OUT_OF_MEMORY;
    page_line *lines = room;
    page_steps steps = {.pieces = (void *)(lines + most)};
    steps.fragments = (void *)(steps.pieces + most);
    steps.ends = (void *)(steps.fragments + most);
    return lay(text, len, &options, &steps, (void *)(steps.ends + most), lines);
}

void page_forget(void) {
    page_give(numbers);
    numbers = NULL;
    numbers_len = 0;
}

uint32_t page_read(const uint8_t *text, size_t len) {
    size_t none[1], most;
    page_forget();
    answer = (page_answer){0};
    textwrap_status status = textwrap_patterns_read(text, len, none, 0, &most, &answer.wrong_line);
    if (status != TEXTWRAP_TOO_SMALL) return status;
    size_t *room = page_take(most * sizeof(size_t));
    if (room == NULL) return TEXTWRAP_OUT_OF_MEMORY;
    status = textwrap_patterns_read(text, len, room, most, &most, &answer.wrong_line);
    if (status == TEXTWRAP_DONE) {
        numbers = room;
        numbers_len = most;
    } else {
        page_give(room);
    }
    return status;
}
