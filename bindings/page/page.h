/* What the page of the browser calls, and what it is given to call. */
#ifndef PAGE_H
#define PAGE_H

#include <stddef.h>
#include <stdint.h>

#ifdef __wasm__
#define EXPORT(name) __attribute__((export_name(#name)))
#else
#define EXPORT(name)
#endif

/* Room of so many bytes, or NULL. */
EXPORT(take) void *page_take(size_t size);

/* Gives such room back; NULL is none. */
EXPORT(give) void page_give(void *room);

/* A line. */
typedef struct {
    uint64_t columns; /* what it takes */
    uint64_t cost;    /* what it costs, at widths below 2^32 */
} page_line;

/* What a call gave. It stays until the next one. */
typedef struct {
    const uint8_t *text; /* the lines, with a line feed between each two */
    size_t text_len;
    const page_line *lines;
    size_t lines_len;
    size_t wrong_line; /* of a dictionary, counted from 1 */
} page_answer;

EXPORT(answer) const page_answer *page_answered(void);

/* Lays a paragraph out by the library's defaults, but for the width, whether the lines are those of least cost,
 * and where words end: as `unicode_breaks` of textwrap_options has it. Words have hyphens if a dictionary was
 * read. Returns a status of the library. */
EXPORT(lay)
uint32_t page_lay(const uint8_t *text, size_t len, size_t width, uint32_t is_least, uint32_t breaks);

/* Reads a dictionary in the place of the one before. */
EXPORT(read) uint32_t page_read(const uint8_t *text, size_t len);

/* From here on no word has hyphens of a dictionary. */
EXPORT(forget) void page_forget(void);

#endif
