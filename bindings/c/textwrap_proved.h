/* textwrap: word wrapping and paragraph filling, proved.
 * SPDX-License-Identifier: MIT AND Unicode-3.0
 *
 * A width counts columns of a terminal: most characters take one, wide ones such as 好 two, and escape
 * sequences none. Words end at blanks, which are spaces (U+0020) and nothing else, or where Unicode lets
 * a line end. A paragraph is what stands between two line feeds, so each line of a mail is one;
 * textwrap_refill joins such lines first. A whole program, which prints the lines of a text:
 *
 *     #include <stdio.h>
 *     #include <stdlib.h>
 *     #include <textwrap_proved.h>
 *
 *     int main(void) {
 *         static const uint8_t text[] = "textwrap: a small library for wrapping text.";
 *         size_t text_len = sizeof text - 1, count, len;
 *         textwrap_options options = textwrap_options_new(18);
 *         options.initial_indent = (textwrap_text){(const uint8_t *)"* ", 2};
 *         // Without room nothing is written, and what suffices is told.
 *         textwrap_status status =
 *             textwrap_wrap(text, text_len, &options, NULL, 0, &count, NULL, 0, &len);
 *         if (status != TEXTWRAP_TOO_SMALL) return 1;
 *         textwrap_line *lines = malloc(count * sizeof *lines);
 *         uint8_t *room = malloc(len);
 *         if (lines == NULL || room == NULL) return 1;
 *         status = textwrap_wrap(text, text_len, &options, lines, count, &count, room, len, &len);
 *         if (status != TEXTWRAP_DONE) return 1;
 *         for (size_t i = 0; i < count; i++) {
 *             const uint8_t *from = lines[i].is_built ? room : text;
 *             printf("%.*s\n", (int)lines[i].len, (const char *)from + lines[i].offset);
 *         }
 *         free(lines);
 *         free(room);
 *         return fflush(stdout) || ferror(stdout);
 *     }
 *
 * A call returns TEXTWRAP_DONE, NOT_UTF8 if a text is not UTF-8, OUT_OF_MEMORY, TOO_SMALL as above, or
 * UNKNOWN_OPTIONS; those by fragments or places have OVERFLOW or WRONG_PLACES too, and those on a
 * dictionary alone WRONG_PATTERNS or DAMAGED_TABLE. If it returns fewer, its comment says which.
 *
 * A text is a pointer and a length in bytes. A pointer is aligned as its type asks, and is not null, but
 * for that of an array of length 0. (null.c sees to these. A program that links the library without it
 * hands in no null pointer.) Within an array no pointer is null, even that of a text without a byte: not
 * in a list of texts or of cells, nor in the lists of options, and not in the indents and dictionaries of
 * a table's columns.
 * What a call gives is written into room that the caller hands in and owns; the library keeps no
 * pointer and leaves nothing allocated behind. The room may be uninitialised. It overlaps nothing
 * else that is handed to the same call, and `count` and `len` are two places. If the room is too small,
 * TEXTWRAP_TOO_SMALL reports the length that suffices, for a second call, or SIZE_MAX where that is
 * more. The room then holds the beginning of the answer, as much of it as has room; it may end inside
 * a character. A call that writes lines and their texts writes as much of both as has room. But for
 * TEXTWRAP_DONE and TEXTWRAP_TOO_SMALL a call leaves the room as it was. Nothing past the answer is
 * touched.
 *
 * The library has no state, so calls may run on several threads at once, if the heap's functions may.
 * It allocates by three of them, which textwrap_heap.h declares and heap.c has over malloc.
 *
 * tools/border writes the arguments of each call from the library's sources and compares all else with
 * them; the tests beside it use each declaration.
 */
#ifndef TEXTWRAP_PROVED_H
#define TEXTWRAP_PROVED_H

#include <stddef.h>
#include <stdint.h>
#include <string.h>

#ifdef __cplusplus
extern "C" {
#endif

/* The version of the library that this header is of: 10,000 times its first number, 100 times its
 * second, and its third. textwrap_library_version returns that of the library that was linked. Within
 * a first number, a later library serves a program that was built for an earlier one. */
#define TEXTWRAP_LIBRARY_VERSION 20000u
uint32_t textwrap_library_version(void);

/* What a call returns. */
typedef enum {
    TEXTWRAP_DONE = 0,            /* the answer is written */
    TEXTWRAP_NOT_UTF8 = 1,        /* a text that was given is not UTF-8 */
    TEXTWRAP_OUT_OF_MEMORY = 2,   /* memory ran out */
    TEXTWRAP_TOO_SMALL = 3,       /* the room is too small, and what suffices is reported */
    TEXTWRAP_UNKNOWN_OPTIONS = 4, /* another version, a number that means nothing, one in reserve that
                                   * is not 0, a damaged dictionary, or a text in no columns */
    TEXTWRAP_OVERFLOW = 5,        /* a sum of widths or a cost needs more than 128 bits */
    TEXTWRAP_WRONG_PLACES = 6,    /* offsets that do not increase, or are no places to cut at */
    TEXTWRAP_WRONG_PATTERNS = 7,  /* a line of a dictionary is wrong, which is reported */
    TEXTWRAP_DAMAGED_TABLE = 8,   /* numbers of a dictionary of another version, or that were damaged */
} textwrap_status;

/* A status in words, as for a message: "out of memory". */
static inline const char *textwrap_status_text(textwrap_status status) {
    switch (status) {
    case TEXTWRAP_DONE:
        return "done";
    case TEXTWRAP_NOT_UTF8:
        return "the text is not UTF-8";
    case TEXTWRAP_OUT_OF_MEMORY:
        return "out of memory";
    case TEXTWRAP_TOO_SMALL:
        return "the room is too small";
    case TEXTWRAP_UNKNOWN_OPTIONS:
        return "the options are unknown";
    case TEXTWRAP_OVERFLOW:
        return "a number needs more than 128 bits";
    case TEXTWRAP_WRONG_PLACES:
        return "an offset is no place to cut at";
    case TEXTWRAP_WRONG_PATTERNS:
        return "a line of the dictionary is wrong";
    case TEXTWRAP_DAMAGED_TABLE:
        return "the numbers of the dictionary are damaged";
    }
    return "an unknown status";
}

/* A status that is not looked at is an error overlooked. */
#if defined(__GNUC__)
#define TEXTWRAP_CHECKED __attribute__((warn_unused_result))
#else
#define TEXTWRAP_CHECKED
#endif

/* A text. */
typedef struct {
    const uint8_t *at; /* null only if it has no bytes, and stands in no array */
    size_t len;        /* in bytes */
} textwrap_text;

/* A dictionary of hyphenation in numbers, and how it is used. Take it from textwrap_dictionary_new, so that
 * later fields have their defaults. A number that says yes or no is 1 or 0. */
typedef struct {
    const size_t *numbers; /* what textwrap_patterns_read wrote */
    size_t numbers_len;    /* how many they are */
    uint32_t in_parts;     /* the parts of a word with a hyphen are hyphenated too; else it has no points */
    uint32_t is_checked;   /* the numbers are not tested, as textwrap_patterns_read wrote them or
                            * textwrap_patterns_check returned DONE for them; else each call tests them. Of
                            * damaged numbers that are not tested a word has points that mean nothing, and
                            * nothing worse: they increase inside the word all the same, and no other
                            * memory is read */
    uint32_t soft_hyphens; /* soft hyphens (U+00AD) are the only points of a word in which a letter stands
                            * directly behind one */
    uint32_t reserved;     /* 0 */
    size_t left;           /* how many letters stay before a point; 0: as many as the numbers say */
    size_t right;          /* how many stay behind a point; 0: as many as the numbers say */
} textwrap_dictionary;

/* A dictionary of these numbers, which each call tests, and which gives a word with a hyphen no points.
 * A test takes longer than to find the points of a word, so a program with more than one word or text
 * checks once:
 *
 *     textwrap_options options = textwrap_options_new(40);
 *     options.dictionary = textwrap_dictionary_new(numbers, numbers_len);
 *     if (textwrap_patterns_check(numbers, numbers_len)) return 1;
 *     options.dictionary.is_checked = 1;
 */
static inline textwrap_dictionary textwrap_dictionary_new(const size_t *numbers, size_t numbers_len) {
    textwrap_dictionary dictionary;
    memset(&dictionary, 0, sizeof dictionary);
    dictionary.numbers = numbers;
    dictionary.numbers_len = numbers_len;
    return dictionary;
}

/* The version of textwrap_options. */
#define TEXTWRAP_VERSION 2u

/* How a text is wrapped. Take it from textwrap_options_new and change what has to differ, so that
 * later options have their defaults. A number that says yes or no is 1 or 0. */
typedef struct {
    uint32_t version;                 /* TEXTWRAP_VERSION */
    uint32_t optimal_fit;             /* lines of the least cost, in place of first fit */
    uint32_t split_at_hyphens;        /* words may end after a hyphen between letters or digits (1), or
                                       * after those alone that stand within no escape sequence (2) */
    uint32_t break_words;             /* words too wide for a line are broken */
    uint32_t preserve_trailing_space; /* blanks at line ends are kept */
    uint32_t even_paragraphs;         /* first lines of later paragraphs are no wider than others */
    uint32_t crlf;                    /* CRLF ends paragraphs and joins lines, in place of LF */
    uint32_t unicode_breaks;          /* words end at blanks (0), or where UAX #14 lets a line end, with
                                       * numbers kept together by pairs (1) or by the expression (2) */
    size_t width;                     /* the columns of a line */
    textwrap_text initial_indent;     /* what is printed before the first line */
    textwrap_text subsequent_indent;  /* what is printed before each later line */
    /* The penalties, for lines of the least cost. */
    size_t nline_penalty;            /* for each line */
    size_t overflow_penalty;         /* for each column past the width */
    size_t short_last_line_fraction; /* a last word narrower than width / this is short */
    size_t short_last_line_penalty;  /* for a short last line of one piece */
    size_t hyphen_penalty;           /* for a line that ends in a hyphen which a dictionary adds */
    /* The dictionary that splits words: where it has hyphens, and behind a hyphen between letters or
     * digits that stands within no escape sequence, whatever split_at_hyphens says. A hyphen is written
     * where a line ends at a point of the dictionary; where words are broken, a part of a word that fits
     * the line, but not with its hyphen, is broken, too, but not at places that a caller gives. Without
     * numbers there is none. One that is tested and was damaged is TEXTWRAP_UNKNOWN_OPTIONS. */
    textwrap_dictionary dictionary;
    size_t reserved_sizes[4]; /* 0 */
} textwrap_options;

/* The library's defaults at a width: lines of the least cost, without indents and a dictionary. */
static inline textwrap_options textwrap_options_new(size_t width) {
    static const uint8_t none[1] = {0};
    static const size_t no_numbers[1] = {0};
    textwrap_options options;
    memset(&options, 0, sizeof options);
    options.version = TEXTWRAP_VERSION;
    options.optimal_fit = 1;
    options.split_at_hyphens = 1;
    options.break_words = 1;
    options.width = width;
    options.initial_indent.at = none;
    options.subsequent_indent.at = none;
    options.nline_penalty = 1000;
    options.overflow_penalty = 2500;
    options.short_last_line_fraction = 4;
    options.short_last_line_penalty = 25;
    options.hyphen_penalty = 25;
    options.dictionary.numbers = no_numbers;
    return options;
}

/* Writes the columns that a text takes in a terminal, without its escape sequences: 4 for "Café".
 * Allocates nothing. DONE or NOT_UTF8. */
TEXTWRAP_CHECKED
textwrap_status textwrap_display_width(const uint8_t *text, size_t text_len, size_t *columns);

/* Writes the text without its escape sequences, as textwrap_fill writes a filled one: "ab" for
 * "a\x1b[1mb". */
TEXTWRAP_CHECKED
textwrap_status textwrap_strip_ansi_escape_sequences(const uint8_t *text, size_t text_len,
                                                     uint8_t *room, size_t room_len, size_t *len);

/* Writes the filled text to the front of the room, and its length. At 10 columns "foo bar baz" is
 * "foo bar\nbaz", and room of 5 bytes holds "foo b". By first fit at blanks, without a dictionary, it
 * allocates nothing, unless split_at_hyphens is 2. With the patterns of hy-phen-ation "the hyphenation" is
 * "the hyphen-\nation" at 11 columns by first fit. */
TEXTWRAP_CHECKED
textwrap_status textwrap_fill(const uint8_t *text, size_t text_len, const textwrap_options *options,
                              uint8_t *room, size_t room_len, size_t *len);

/* Where a line stands. */
typedef struct {
    size_t offset;   /* the bytes before it, in the text or in the room */
    size_t len;      /* its bytes */
    size_t is_built; /* 1: the offset is into the room; 0: it is into the text */
} textwrap_line;

/* Writes where the lines of the text stand, and how many they are. A part of the text is reported at
 * the place that it was cut from, so an empty line at its own paragraph. Lines with an indent
 * or a hyphen of a dictionary are written to the room, one after another, and `len` is that of all of
 * them; without both no room is needed. TOO_SMALL reports both `count` and `len`: a first call may bring
 * no lines and no room, and a second one what the first has reported. With room for some of the lines,
 * the first of them are written. By first fit at blanks, without a dictionary, it allocates nothing, unless
 * split_at_hyphens is 2. */
TEXTWRAP_CHECKED
textwrap_status textwrap_wrap(const uint8_t *text, size_t text_len, const textwrap_options *options,
                              textwrap_line *lines, size_t lines_len, size_t *count, uint8_t *room,
                              size_t room_len, size_t *len);

/* What stands around the cells of a row. Take it from textwrap_gaps_new, so that later fields have
 * their defaults. */
typedef struct {
    textwrap_text left;       /* before the first cell */
    textwrap_text middle;     /* between each two cells */
    textwrap_text right;      /* after the last cell */
    size_t reserved_sizes[4]; /* 0; any other number is TEXTWRAP_UNKNOWN_OPTIONS */
} textwrap_gaps;

/* Gaps of these texts. */
static inline textwrap_gaps textwrap_gaps_new(textwrap_text left, textwrap_text middle,
                                              textwrap_text right) {
    textwrap_gaps gaps;
    memset(&gaps, 0, sizeof gaps);
    gaps.left = left;
    gaps.middle = middle;
    gaps.right = right;
    return gaps;
}

/* Wraps the text into so many columns beside one another, at least 1, and writes the rows to the
 * room and where they stand, as textwrap_wrap does. The width of the options is that of a row. */
TEXTWRAP_CHECKED
textwrap_status textwrap_wrap_columns(const uint8_t *text, size_t text_len, size_t columns,
                                      const textwrap_options *options, const textwrap_gaps *gaps,
                                      textwrap_line *rows, size_t rows_len, size_t *count,
                                      uint8_t *room, size_t room_len, size_t *len);

/* For a caller who wraps the text by functions of their own: writes the width that
 * textwrap_wrap_columns wraps it at, where a row has this one. DONE, NOT_UTF8 or UNKNOWN_OPTIONS. */
TEXTWRAP_CHECKED
textwrap_status textwrap_column_width(size_t width, size_t columns, const textwrap_gaps *gaps,
                                      size_t *column_width);

/* Writes the rows of that width that these lines have in so many columns, at least 1, as
 * textwrap_wrap_columns does. */
TEXTWRAP_CHECKED
textwrap_status textwrap_rows_of_lines(const textwrap_text *lines, size_t lines_len, size_t columns,
                                       size_t width, const textwrap_gaps *gaps, textwrap_line *rows,
                                       size_t rows_len, size_t *count, uint8_t *room,
                                       size_t room_len, size_t *len);

/* Fills a filled text again, with the indents that it has; those of the options are not used. A hyphen
 * that a dictionary added before stays, with a blank behind it. */
TEXTWRAP_CHECKED
textwrap_status textwrap_refill(const uint8_t *text, size_t text_len,
                                const textwrap_options *options, uint8_t *room, size_t room_len,
                                size_t *len);

/* How a text seems to have been filled. */
typedef struct {
    size_t width;                 /* the columns of its widest line */
    size_t crlf;                  /* 1 where lines end in CRLF, and else 0 */
    size_t initial_indent_len;    /* the bytes of the initial indent */
    size_t subsequent_indent_len; /* the bytes of the subsequent indent */
    size_t reserved_sizes[4];     /* written as 0, until a later number takes one */
} textwrap_layout;

/* Joins the lines of a filled text. The room gets the joined text, and after it the initial indent
 * and the subsequent one; `len` is that of all three. If the room is too small, the layout stays as
 * it was. Allocates nothing. */
TEXTWRAP_CHECKED
textwrap_status textwrap_unfill(const uint8_t *text, size_t text_len, uint8_t *room,
                                size_t room_len, size_t *len, textwrap_layout *layout);

/* Writes the text with a prefix before each line. Allocates nothing. */
TEXTWRAP_CHECKED
textwrap_status textwrap_indent(const uint8_t *text, size_t text_len, const uint8_t *prefix,
                                size_t prefix_len, uint8_t *room, size_t room_len, size_t *len);

/* Writes the text without the whitespace that all its lines begin with. Allocates nothing. */
TEXTWRAP_CHECKED
textwrap_status textwrap_dedent(const uint8_t *text, size_t text_len, uint8_t *room,
                                size_t room_len, size_t *len);

/* How a text of many paragraphs is laid out again. Take it from textwrap_reflow_options_new and change
 * what has to differ, so that later options have their defaults. A number that says yes or no is 1 or
 * 0. */
typedef struct {
    uint32_t version;              /* TEXTWRAP_VERSION */
    uint32_t optimal_fit;          /* lines of the least cost, in place of first fit */
    uint32_t ending;               /* all lines end in LF (1) or CRLF (2); by 0 as the text has it */
    uint32_t markdown;             /* the text has no comments, and # is a heading */
    uint32_t bare;                 /* the later lines of block comments stand behind blanks, not * */
    uint32_t indented;             /* text is filled that is deeper than the text before it */
    uint32_t justify;              /* lines but the last of a paragraph are justified */
    uint32_t reserved;             /* 0 */
    size_t width;                  /* the columns of a line, with its prefix */
    const textwrap_text *markers;  /* further words that mark a comment */
    size_t markers_len;            /* how many */
    const textwrap_text *prefixes; /* only behind marks that begin with one of these text is filled; with
                                    * none all is */
    size_t prefixes_len;           /* how many */
    /* The penalties, for lines of the least cost. */
    size_t nline_penalty;            /* for each line */
    size_t overflow_penalty;         /* for each column past the width */
    size_t short_last_line_fraction; /* a last piece narrower than width / this is short */
    size_t short_last_line_penalty;  /* for a short last line of one piece */
    size_t hyphen_penalty;           /* for a line that ends in an added hyphen; here none does */
    size_t reserved_sizes[4];        /* 0 */
} textwrap_reflow_options;

/* The defaults at a width: first fit, endings as the text has them, and nothing declared. */
static inline textwrap_reflow_options textwrap_reflow_options_new(size_t width) {
    static const textwrap_text none[1] = {{NULL, 0}};
    textwrap_reflow_options options;
    memset(&options, 0, sizeof options);
    options.version = TEXTWRAP_VERSION;
    options.width = width;
    options.markers = none;
    options.prefixes = none;
    options.nline_penalty = 1000;
    options.overflow_penalty = 2500;
    options.short_last_line_fraction = 4;
    options.short_last_line_penalty = 25;
    options.hyphen_penalty = 25;
    return options;
}

/* Fills the paragraphs of a text again, behind the marks that stand before their words: those of
 * comments and quotes, and bullets. What a reader takes as it stands stays so, such as code, tables,
 * headings and signatures. So a mail is filled, with the texts that it quotes:
 *
 *     static const uint8_t mail[] = "> one two three four\n> five\nsix seven eight nine ten\n";
 *     const textwrap_reflow_options options = textwrap_reflow_options_new(16);
 *     uint8_t room[80];
 *     size_t len;
 *     if (textwrap_reflow(mail, sizeof mail - 1, &options, room, sizeof room, &len)) return 1;
 *     // "> one two three\n> four five\nsix seven eight\nnine ten\n"
 */
TEXTWRAP_CHECKED
textwrap_status textwrap_reflow(const uint8_t *text, size_t text_len,
                                const textwrap_reflow_options *options, uint8_t *room,
                                size_t room_len, size_t *len);

/* Fills a text in its own place: blanks of it become line feeds. It does so by first fit, keeps words
 * whole, and takes each line of the text for a paragraph. DONE, NOT_UTF8 or OUT_OF_MEMORY. */
TEXTWRAP_CHECKED
textwrap_status textwrap_fill_inplace(uint8_t *text, size_t text_len, size_t width);

/* ---- Lines for display. A list of lines is written to the room one after another, and all are
 * reported as lines of their own, as the rows of textwrap_wrap_columns are. */

/* Where a line stands in its width. */
typedef enum {
    TEXTWRAP_LEFT = 0,
    TEXTWRAP_RIGHT = 1,
    TEXTWRAP_CENTRE = 2, /* an odd blank follows the line */
} textwrap_alignment;

/* Writes the line with blanks up to the width. An alignment that is none is UNKNOWN_OPTIONS. */
TEXTWRAP_CHECKED
textwrap_status textwrap_align(const uint8_t *line, size_t line_len, size_t width,
                               uint32_t alignment, uint8_t *room, size_t room_len, size_t *len);

/* Writes the line with its gaps between words widened up to the width. */
TEXTWRAP_CHECKED
textwrap_status textwrap_justify(const uint8_t *line, size_t line_len, size_t width, uint8_t *room,
                                 size_t room_len, size_t *len);

/* Fills a text, and justifies all lines but the last of each paragraph. */
TEXTWRAP_CHECKED
textwrap_status textwrap_fill_justified(const uint8_t *text, size_t text_len,
                                        const textwrap_options *options, uint8_t *room,
                                        size_t room_len, size_t *len);

/* Writes the text with blanks in the place of each tab, up to the next column of its line that `stop`
 * divides; where that is 0, without its tabs. */
TEXTWRAP_CHECKED
textwrap_status textwrap_expand_tabs(const uint8_t *text, size_t text_len, size_t stop,
                                     uint8_t *room, size_t room_len, size_t *len);

/* Writes the columns that a text takes on a terminal, by the whole grammar of ECMA-48. The other calls take
 * ESC with the character behind it for a sequence, unless that is [ or ]: so "\x1b(Ba" has 1 column here, and 2
 * by textwrap_display_width. Allocates nothing. DONE or NOT_UTF8. */
TEXTWRAP_CHECKED
textwrap_status textwrap_terminal_width(const uint8_t *text, size_t text_len, size_t *columns);

/* Writes the text without the sequences that a terminal takes as such and the other calls do not: charsets,
 * control strings but commands (OSC), and the controls from U+0080 to U+009F; also a command that U+009C ends,
 * and a sequence without an end. Colours and links stay. By textwrap_display_width what is left has the columns
 * that the text takes on a terminal. */
TEXTWRAP_CHECKED
textwrap_status textwrap_strip_other_sequences(const uint8_t *text, size_t text_len, uint8_t *room,
                                               size_t room_len, size_t *len);

/* Writes the line; one that is wider than the width is cut, so that it ends in the placeholder. It is
 * cut between words, and in no escape sequence; a style or a link that is open there is ended before
 * the placeholder. */
TEXTWRAP_CHECKED
textwrap_status textwrap_shorten(const uint8_t *line, size_t line_len, size_t width,
                                 const uint8_t *placeholder, size_t placeholder_len, uint8_t *room,
                                 size_t room_len, size_t *len);

/* Writes the same, but where break_words is 1, as much as fits is kept too of the first word that is
 * left out, if that word is wider than what the placeholder leaves of the width. Any number but 0 and 1
 * is UNKNOWN_OPTIONS. */
TEXTWRAP_CHECKED
textwrap_status textwrap_shorten_by(const uint8_t *line, size_t line_len, size_t width,
                                    const uint8_t *placeholder, size_t placeholder_len,
                                    uint32_t break_words, uint8_t *room, size_t room_len,
                                    size_t *len);

/* Writes so many of the lines at most. If some are left out, the last that is written ends in the
 * placeholder. */
TEXTWRAP_CHECKED
textwrap_status textwrap_shorten_lines(const textwrap_text *lines, size_t lines_len, size_t most,
                                       size_t width, const uint8_t *placeholder,
                                       size_t placeholder_len, textwrap_line *places,
                                       size_t places_len, size_t *count, uint8_t *room,
                                       size_t room_len, size_t *len);

/* Writes the same, where words may be cut as textwrap_shorten_by cuts them. */
TEXTWRAP_CHECKED
textwrap_status textwrap_shorten_lines_by(const textwrap_text *lines, size_t lines_len, size_t most,
                                          size_t width, const uint8_t *placeholder,
                                          size_t placeholder_len, uint32_t break_words,
                                          textwrap_line *places, size_t places_len, size_t *count,
                                          uint8_t *room, size_t room_len, size_t *len);

/* Writes the lines of one text so that each stands by itself: after its indent it sets anew the link
 * that the lines before it left open and, of each attribute such as bold or the foreground, the last
 * setting that did not end, and at its end it takes back what is open. The link is set with its id, or
 * with one made of its number. What is not in the table of SGR (ECMA-48) is carried until all is taken
 * back. The indents are those of the options; nothing else of them is used. */
TEXTWRAP_CHECKED
textwrap_status textwrap_carry_styles(const textwrap_text *lines, size_t lines_len,
                                      const textwrap_options *options, textwrap_line *places,
                                      size_t places_len, size_t *count, uint8_t *room,
                                      size_t room_len, size_t *len);

/* The same as textwrap_carry_styles, by a second name. */
TEXTWRAP_CHECKED
textwrap_status textwrap_carry_attributes(const textwrap_text *lines, size_t lines_len,
                                          const textwrap_options *options, textwrap_line *places,
                                          size_t places_len, size_t *count, uint8_t *room,
                                          size_t room_len, size_t *len);

/* Writes the lines of a text as textwrap_wrap does, balanced, as titles and centred texts should be: as
 * many as first fit makes at the width of the options, and about equally wide. They are those of first
 * fit at the width of textwrap_balanced_width. At blanks, without a dictionary, nothing is allocated, unless
 * split_at_hyphens is 2. */
TEXTWRAP_CHECKED
textwrap_status textwrap_wrap_balanced(const uint8_t *text, size_t text_len,
                                       const textwrap_options *options, textwrap_line *lines,
                                       size_t lines_len, size_t *count, uint8_t *room,
                                       size_t room_len, size_t *len);

/* Writes the least width at which first fit takes no more lines of a text than at the width of the
 * options, and at which there is room for the wider of the indents and, after it, for any one word,
 * split but not broken. Where some word has no room at the width of the options, it is that width. The
 * algorithm of the options is not used. DONE, NOT_UTF8, UNKNOWN_OPTIONS or OUT_OF_MEMORY; at blanks,
 * without a dictionary, nothing is allocated, unless split_at_hyphens is 2. */
TEXTWRAP_CHECKED
textwrap_status textwrap_balanced_width(const uint8_t *text, size_t text_len,
                                        const textwrap_options *options, size_t *width);

/* A column of a table: how its texts are wrapped, and where their lines stand in its width. */
typedef struct {
    textwrap_options options;
    uint32_t alignment; /* a textwrap_alignment */
    uint32_t reserved;  /* 0; any other number is TEXTWRAP_UNKNOWN_OPTIONS */
} textwrap_column;

/* Writes the rows of a table. The cells are given row after row. Each is wrapped by the options of
 * its column, and its lines are aligned in that width. Cells beside one another take as many rows as
 * the highest of them has lines; those that the last row lacks have no lines. Without columns there
 * are no rows. */
TEXTWRAP_CHECKED
textwrap_status textwrap_table(const textwrap_text *cells, size_t cells_len,
                               const textwrap_column *columns, size_t columns_len,
                               const textwrap_gaps *gaps, textwrap_line *rows, size_t rows_len,
                               size_t *count, uint8_t *room, size_t room_len, size_t *len);

/* The lines of a cell, for a caller who wraps the texts by functions of their own. */
typedef struct {
    const textwrap_text *lines;
    size_t lines_len;
} textwrap_cell;

/* Writes the rows of a table whose cells have these lines. Of the options of a column only the width
 * is used, but they have to be known. */
TEXTWRAP_CHECKED
textwrap_status textwrap_table_of_lines(const textwrap_cell *cells, size_t cells_len,
                                        const textwrap_column *columns, size_t columns_len,
                                        const textwrap_gaps *gaps, textwrap_line *rows,
                                        size_t rows_len, size_t *count, uint8_t *room,
                                        size_t room_len, size_t *len);

/* Writes widths for the columns of a table, by what stands in its cells, which are given row after row;
 * the last row may be shorter. The total is what a row has beside its gaps, and the widths add up to
 * it. Each column gets its widest word, and what is left is shared out in proportion to what each still
 * lacks of its widest line. `count` is the number of columns. So options have widths for textwrap_table:
 *
 *     size_t widths[2], count;
 *     if (textwrap_fitting_widths(cells, 4, 2, 20, widths, 2, &count)) return 1;
 *     columns[0].options.width = widths[0];
 *     columns[1].options.width = widths[1];
 */
TEXTWRAP_CHECKED
textwrap_status textwrap_fitting_widths(const textwrap_text *cells, size_t cells_len,
                                        size_t columns, size_t total, size_t *widths,
                                        size_t widths_len, size_t *count);

/* ---- Hyphenation by patterns */

/* Reads a dictionary of hyphenation, a text of TeX, of libhyphen in UTF-8, or a list with a pattern such
 * as hy3ph or an exception such as ta-ble on each line, and writes it to the room as numbers. They hold
 * no address, so they may be copied, and kept in a file for a machine of the same byte order. DONE,
 * NOT_UTF8, OUT_OF_MEMORY, TOO_SMALL, or WRONG_PATTERNS: then the first line that is wrong is written to
 * `line`, counted from 1. That is the last where neither a pattern nor an exception is listed. Otherwise
 * `line` stays as it was. */
TEXTWRAP_CHECKED
textwrap_status textwrap_patterns_read(const uint8_t *text, size_t text_len, size_t *room,
                                       size_t room_len, size_t *len, size_t *line);

/* Tests the numbers of a dictionary, as after they were read from a file. It reads all of them. DONE, or
 * DAMAGED_TABLE if their version or their sum is wrong, as where one became another. */
TEXTWRAP_CHECKED
textwrap_status textwrap_patterns_check(const size_t *numbers, size_t numbers_len);

/* Writes the offsets in bytes at which a word has a hyphen by a dictionary: 2 and 6 for "hyphenation"
 * with the patterns of hy-phen-ation. They increase, and are character boundaries inside the word.
 * UNKNOWN_OPTIONS for a dictionary that is not known, and DAMAGED_TABLE as textwrap_patterns_check, where
 * its numbers are tested. */
TEXTWRAP_CHECKED
textwrap_status textwrap_hyphen_points(const textwrap_dictionary *dictionary, const uint8_t *word,
                                       size_t word_len, size_t *points, size_t points_len,
                                       size_t *count);

/* ---- Fragments of the caller's own, and the two algorithms */

/* An item that is placed on a line and never cut, in one unit of the caller's choice. */
typedef struct {
    size_t width;            /* what it takes */
    size_t whitespace_width; /* what the space after it takes, where another follows on the line */
    size_t penalty_width;    /* what it takes more at the end of a line, as a hyphen does */
    size_t break_penalty;    /* what a line costs more that ends with it, by least cost */
} textwrap_fragment;

/* What lines of the least cost are measured by. Take it from textwrap_penalties_new or
 * textwrap_penalties_of and change what has to differ, so that later penalties have their defaults. */
typedef struct {
    size_t nline_penalty;            /* for each line */
    size_t overflow_penalty;         /* for each unit past the width */
    size_t short_last_line_fraction; /* a last fragment narrower than width / this is short */
    size_t short_last_line_penalty;  /* for a short last line of one fragment */
    size_t reserved_sizes[4];        /* 0; any other number is TEXTWRAP_UNKNOWN_OPTIONS */
} textwrap_penalties;

/* The library's default penalties. */
static inline textwrap_penalties textwrap_penalties_new(void) {
    textwrap_penalties penalties;
    memset(&penalties, 0, sizeof penalties);
    penalties.nline_penalty = 1000;
    penalties.overflow_penalty = 2500;
    penalties.short_last_line_fraction = 4;
    penalties.short_last_line_penalty = 25;
    return penalties;
}

/* Those of the options. */
static inline textwrap_penalties textwrap_penalties_of(const textwrap_options *options) {
    textwrap_penalties penalties = textwrap_penalties_new();
    penalties.nline_penalty = options->nline_penalty;
    penalties.overflow_penalty = options->overflow_penalty;
    penalties.short_last_line_fraction = options->short_last_line_fraction;
    penalties.short_last_line_penalty = options->short_last_line_penalty;
    return penalties;
}

/* Divides fragments into lines by first fit, and writes where each line ends: how many fragments
 * stand before its end. Line l, counted from 0, may be line_widths[l] wide; the last width serves all
 * later lines, and without any it is 0. No fragments are one empty line. DONE, OUT_OF_MEMORY or
 * TOO_SMALL. */
TEXTWRAP_CHECKED
textwrap_status textwrap_wrap_first_fit(const textwrap_fragment *fragments, size_t fragments_len,
                                        const size_t *line_widths, size_t line_widths_len,
                                        size_t *ends, size_t ends_len, size_t *count);

/* The same by least cost. OVERFLOW if all widths together, or the least cost of some first fragments,
 * need more than 128 bits; UNKNOWN_OPTIONS if a number of the penalties in reserve is not 0. */
TEXTWRAP_CHECKED
textwrap_status textwrap_wrap_optimal_fit(const textwrap_fragment *fragments, size_t fragments_len,
                                          const size_t *line_widths, size_t line_widths_len,
                                          const textwrap_penalties *penalties, size_t *ends,
                                          size_t ends_len, size_t *count);

/* ---- Words and pieces, by where they stand. There is none without a byte, but for one empty piece in
 * front; so words, cuts and points are no more than the bytes of their text, and pieces one more. */

/* Where a word stands, or a part of one. */
typedef struct {
    size_t offset;         /* the bytes before it */
    size_t len;            /* its bytes, without the blanks after it */
    size_t whitespace_len; /* the blanks after it */
    size_t penalty_len;    /* 1: a line that ends with it shows a hyphen more; else 0 */
    size_t width;          /* its columns */
} textwrap_piece;

/* Writes the pieces that textwrap_wrap divides a paragraph into lines of: its words, split and broken
 * as the options say. With words neither split nor broken these are its words. If words are broken and
 * there is an initial indent, an empty piece stands before them. A paragraph has no line ending; one
 * in it is taken for a character. */
TEXTWRAP_CHECKED
textwrap_status textwrap_pieces(const uint8_t *paragraph, size_t paragraph_len,
                                const textwrap_options *options, textwrap_piece *pieces,
                                size_t pieces_len, size_t *count);

/* Writes the words of a line that may be broken at these offsets, as a line segmenter gives them. They
 * count the bytes of the line without its escape sequences, increase, and are character boundaries of
 * that text; else WRONG_PLACES, even if there is no memory. The line is not cut at its ends, nor directly
 * after a hyphen. */
TEXTWRAP_CHECKED
textwrap_status textwrap_find_words_at(const uint8_t *line, size_t line_len, const size_t *offsets,
                                       size_t offsets_len, textwrap_piece *words, size_t words_len,
                                       size_t *count);

/* A place of a text where a line may or must end. */
typedef struct {
    size_t offset;       /* how many bytes of the text come before it */
    size_t is_mandatory; /* 1 where a line must end, and else 0 */
} textwrap_line_break;

/* Writes where a line of the text may end, and where it must, by the Unicode line breaking algorithm
 * (UAX #14 at Unicode 15.0). The last place is the end, unless the text is empty: 4, 8, where a line
 * must end, and 11 for "foo bar\nbaz". Numbers are kept together by pairs (1) or by the expression (2),
 * as by unicode_breaks of the options; any other number is TEXTWRAP_UNKNOWN_OPTIONS. */
TEXTWRAP_CHECKED
textwrap_status textwrap_line_breaks(const uint8_t *text, size_t text_len, uint32_t unicode_breaks,
                                     textwrap_line_break *breaks, size_t breaks_len, size_t *count);

/* Writes where a line is cut into words by the Unicode line breaking algorithm (UAX #14 at Unicode 15.0):
 * at the places of its text without escape sequences where it may end, but not directly after a hyphen.
 * They are cuts for textwrap_pieces_at. */
TEXTWRAP_CHECKED
textwrap_status textwrap_unicode_cuts(const uint8_t *line, size_t line_len, size_t *cuts,
                                      size_t cuts_len, size_t *count);

/* Writes the offsets at which a word may be split: after each hyphen between letters or digits. */
TEXTWRAP_CHECKED
textwrap_status textwrap_split_points(const uint8_t *word, size_t word_len, size_t *points,
                                      size_t points_len, size_t *count);

/* Writes those of these offsets that stand within no escape sequence, as the address of a link does: of
 * "\x1b]8;;x-y\x1b\\b-c\x1b]8;;\x1b\\" 12 alone. */
TEXTWRAP_CHECKED
textwrap_status textwrap_split_points_outside(const uint8_t *word, size_t word_len, size_t *points,
                                      size_t points_len, size_t *count);

/* Writes the pieces of a word that is broken into pieces of so many columns at most. A piece that has
 * a single character with columns may be wider. */
TEXTWRAP_CHECKED
textwrap_status textwrap_break_apart(const uint8_t *word, size_t word_len, size_t line_width,
                                     textwrap_piece *pieces, size_t pieces_len, size_t *count);

/* ---- A paragraph in steps, for a caller who finds words, points or lines in another way */

/* Writes the pieces of a paragraph that is cut into words at these offsets, whose words may be split at
 * these points, and are broken as the options say. Both are offsets of the paragraph, increase, and are
 * character boundaries inside it; else WRONG_PLACES. A point outside the text of a word is not used.
 * A piece before a point shows a hyphen at the end of a line, if it does not end in one. */
TEXTWRAP_CHECKED
textwrap_status textwrap_pieces_at(const uint8_t *paragraph, size_t paragraph_len,
                                   const size_t *cuts, size_t cuts_len, const size_t *points,
                                   size_t points_len, const textwrap_options *options,
                                   textwrap_piece *pieces, size_t pieces_len, size_t *count);

/* Writes the lines of these pieces, as textwrap_wrap does: each ends before so many of the pieces.
 * `is_later` is 1 if a line stands before them, and else 0; another number is UNKNOWN_OPTIONS. The ends
 * do not decrease, and are no more than the pieces; else WRONG_PLACES. Pieces after the last end are in no line. */
TEXTWRAP_CHECKED
textwrap_status textwrap_lines_at(const uint8_t *paragraph, size_t paragraph_len, const size_t *cuts,
                                  size_t cuts_len, const size_t *points, size_t points_len,
                                  const size_t *ends, size_t ends_len,
                                  const textwrap_options *options, size_t is_later,
                                  textwrap_line *lines, size_t lines_len, size_t *count,
                                  uint8_t *room, size_t room_len, size_t *len);

/* Writes where the lines of these pieces end by the algorithm of the options: how many of the pieces
 * stand before each end. There are no more lines than pieces, and one. `is_later` as in
 * textwrap_lines_at, OVERFLOW as in textwrap_wrap_optimal_fit. */
TEXTWRAP_CHECKED
textwrap_status textwrap_ends_at(const uint8_t *paragraph, size_t paragraph_len, const size_t *cuts,
                                 size_t cuts_len, const size_t *points, size_t points_len,
                                 const textwrap_options *options, size_t is_later, size_t *ends,
                                 size_t ends_len, size_t *count);

/* Where a paragraph of a text stands. */
typedef struct {
    size_t offset; /* the bytes of the text before it */
    size_t len;    /* its bytes, without the line ending after it */
} textwrap_paragraph;

/* Writes where the paragraphs of a text stand: what is between its line endings. There is at least
 * one. */
TEXTWRAP_CHECKED
textwrap_status textwrap_paragraphs(const uint8_t *text, size_t text_len,
                                    const textwrap_options *options,
                                    textwrap_paragraph *paragraphs, size_t paragraphs_len,
                                    size_t *count);

/* How a paragraph is laid out. */
typedef struct {
    size_t is_whole; /* 1 where it is one line as a whole, whatever its words are; else 0 */
    size_t first;    /* the columns of its first line, without the indent */
    size_t later;    /* the columns of its other lines, without the indent */
} textwrap_widths;

/* Writes how a paragraph is laid out. `is_later` is 1 if a line of the text stands before it, and else
 * 0; another number is UNKNOWN_OPTIONS. DONE, NOT_UTF8 or UNKNOWN_OPTIONS. */
TEXTWRAP_CHECKED
textwrap_status textwrap_paragraph_widths(const uint8_t *paragraph, size_t paragraph_len,
                                          const textwrap_options *options, size_t is_later,
                                          textwrap_widths *widths);

/* What a caller found of a paragraph: where it is cut into words, where these are split, and before how
 * many of the pieces each line ends. No pointer may be null. */
typedef struct {
    const size_t *cuts;
    size_t cuts_len;
    const size_t *points;
    size_t points_len;
    const size_t *ends;
    size_t ends_len;
} textwrap_steps;

/* Writes the lines of a text as textwrap_wrap does, each paragraph of which is cut, split and divided at
 * the steps that are given for it. Offsets are those of the paragraph; the steps of one that is one line as
 * a whole are not used. WRONG_PLACES where textwrap_lines_at says so, or if there are not as many steps
 * as paragraphs. */
TEXTWRAP_CHECKED
textwrap_status textwrap_wrap_at(const uint8_t *text, size_t text_len, const textwrap_steps *steps,
                                 size_t steps_len, const textwrap_options *options,
                                 textwrap_line *lines, size_t lines_len, size_t *count,
                                 uint8_t *room, size_t room_len, size_t *len);

/* Writes these lines joined by the line ending, as textwrap_fill writes a filled text. */
TEXTWRAP_CHECKED
textwrap_status textwrap_fill_at(const uint8_t *text, size_t text_len, const textwrap_steps *steps,
                                 size_t steps_len, const textwrap_options *options, uint8_t *room,
                                 size_t room_len, size_t *len);

/* The same with all lines but the last of each paragraph justified after their indents, as
 * textwrap_fill_justified writes them. */
TEXTWRAP_CHECKED
textwrap_status textwrap_fill_justified_at(const uint8_t *text, size_t text_len,
                                           const textwrap_steps *steps, size_t steps_len,
                                           const textwrap_options *options, uint8_t *room,
                                           size_t room_len, size_t *len);

/* What a function of the caller returns if memory runs out: the call that asked it then returns
 * TEXTWRAP_OUT_OF_MEMORY. */
#define TEXTWRAP_NO_MEMORY SIZE_MAX

/* Functions of the caller, each called with the context. NULL stands for the part that the options
 * name. They write offsets in bytes, and return how many, or TEXTWRAP_NO_MEMORY. Take it from
 * textwrap_functions_new and set what takes part, so that later functions are NULL. */
typedef struct {
    void *context;
    /* Where a paragraph is cut into words, in its order; no more than it has bytes. */
    size_t (*cut)(void *context, const uint8_t *paragraph, size_t paragraph_len, size_t *cuts);
    /* Where a word may be split, inside it and in its order; no more than it has bytes. */
    size_t (*split)(void *context, const uint8_t *word, size_t word_len, size_t *points);
    /* Before how many of the pieces each line ends, where the first line and the others may be so
     * wide; no more than there are pieces, and one. */
    size_t (*divide)(void *context, const textwrap_piece *pieces, size_t pieces_len,
                     const size_t line_widths[2], size_t *ends);
    void (*reserved[4])(void); /* NULL; any other is TEXTWRAP_UNKNOWN_OPTIONS */
} textwrap_functions;

/* No functions, and this context. */
static inline textwrap_functions textwrap_functions_new(void *context) {
    textwrap_functions functions;
    memset(&functions, 0, sizeof functions);
    functions.context = context;
    return functions;
}

/* A function for `cut`, which finds Unicode line breaks by textwrap_unicode_cuts. It needs no context.
 * Without other functions, `unicode_breaks` of the options does the same in one call. */
size_t textwrap_cut_at_breaks(void *context, const uint8_t *paragraph, size_t paragraph_len,
                              size_t *cuts);

/* textwrap_wrap by functions of the caller. It is written in C over the calls above (custom.c), and so
 * tested, not proved; it allocates by malloc. WRONG_PLACES if a function writes what these refuse. */
TEXTWRAP_CHECKED
textwrap_status textwrap_wrap_by(const uint8_t *text, size_t text_len,
                                 const textwrap_options *options,
                                 const textwrap_functions *functions, textwrap_line *lines,
                                 size_t lines_len, size_t *count, uint8_t *room, size_t room_len,
                                 size_t *len);

/* textwrap_fill by functions of the caller, in the same way: with textwrap_cut_at_breaks for `cut` lines
 * end where Unicode lets them. */
TEXTWRAP_CHECKED
textwrap_status textwrap_fill_by(const uint8_t *text, size_t text_len,
                                 const textwrap_options *options,
                                 const textwrap_functions *functions, uint8_t *room,
                                 size_t room_len, size_t *len);

/* ---- Texts that are known to be UTF-8. Each call above tests the texts that it is handed, which can be
 * most of the time that a short one takes. These do not: they are for languages whose texts are UTF-8
 * always, such as Rust. What the caller owes is that `text`, and of textwrap_indent_utf8 `prefix` too, is
 * UTF-8; of any other bytes nothing is promised, not even that the call stays within its memory. All
 * else is as in the call without _utf8 in its name: indents in the options are tested, and are what
 * NOT_UTF8 is about. */

TEXTWRAP_CHECKED
textwrap_status textwrap_fill_utf8(const uint8_t *text, size_t text_len,
                                   const textwrap_options *options, uint8_t *room, size_t room_len,
                                   size_t *len);

TEXTWRAP_CHECKED
textwrap_status textwrap_wrap_utf8(const uint8_t *text, size_t text_len,
                                   const textwrap_options *options, textwrap_line *lines,
                                   size_t lines_len, size_t *count, uint8_t *room, size_t room_len,
                                   size_t *len);

TEXTWRAP_CHECKED
textwrap_status textwrap_refill_utf8(const uint8_t *text, size_t text_len,
                                     const textwrap_options *options, uint8_t *room,
                                     size_t room_len, size_t *len);

/* It returns DONE or TOO_SMALL, and so do the next two. */
TEXTWRAP_CHECKED
textwrap_status textwrap_unfill_utf8(const uint8_t *text, size_t text_len, uint8_t *room,
                                     size_t room_len, size_t *len, textwrap_layout *layout);

TEXTWRAP_CHECKED
textwrap_status textwrap_indent_utf8(const uint8_t *text, size_t text_len, const uint8_t *prefix,
                                     size_t prefix_len, uint8_t *room, size_t room_len, size_t *len);

TEXTWRAP_CHECKED
textwrap_status textwrap_dedent_utf8(const uint8_t *text, size_t text_len, uint8_t *room,
                                     size_t room_len, size_t *len);

/* It returns DONE. */
TEXTWRAP_CHECKED
textwrap_status textwrap_display_width_utf8(const uint8_t *text, size_t text_len, size_t *columns);

/* ---- Room that is enough, by the length of a text alone: for a caller who would rather allocate once
 * than call twice. A bound that a size_t cannot hold is SIZE_MAX. Filling, wrapping and columns have
 * bounds. Each other call that has a `len` or a `count` tells it in a first call without room; of
 * these textwrap_unfill, textwrap_indent and textwrap_dedent allocate nothing. */

/* How many bytes textwrap_fill writes at most for a text of so many bytes, by these options: each byte
 * on a line of its own, after a line ending and the subsequent indent, and the initial indent; with a
 * dictionary a hyphen behind each line. */
TEXTWRAP_CHECKED
size_t textwrap_fill_bound(size_t text_len, const textwrap_options *options);

/* How many lines textwrap_wrap reports at most: one more than the text has bytes. */
TEXTWRAP_CHECKED
size_t textwrap_wrap_lines_bound(size_t text_len);

/* How many bytes textwrap_wrap writes at most to the room, for lines with an indent or a hyphen: without
 * indents and a dictionary none. */
TEXTWRAP_CHECKED
size_t textwrap_wrap_room_bound(size_t text_len, const textwrap_options *options);

/* How many rows textwrap_wrap_columns writes at most: text_len / columns + 1, and 0 without columns. */
TEXTWRAP_CHECKED
size_t textwrap_wrap_columns_rows_bound(size_t text_len, size_t columns);

/* How many bytes it writes at most to the room, by these options and gaps. */
TEXTWRAP_CHECKED
size_t textwrap_wrap_columns_room_bound(size_t text_len, size_t columns,
                                        const textwrap_options *options,
                                        const textwrap_gaps *gaps);

#ifdef __cplusplus
}
#endif
#endif
