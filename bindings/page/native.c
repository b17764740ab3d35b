/* Makes the calls of the page natively: from the standard input, in numbers of 64 bits and bytes, to the standard
 * output likewise. What a call is, `test` beside this file says. */
#include <stdio.h>
#include <stdlib.h>

#include "page.h"
#include "textwrap_proved.h"

void *page_take(size_t size) { return malloc(size); }
void page_give(void *room) { free(room); }

static void put(const void *from, size_t size, size_t count) {
    if (fwrite(from, size, count, stdout) != count) exit(1);
}

static void put_number(uint64_t number) { put(&number, sizeof number, 1); }

/* The columns of each line, as the library tells them of its text. */
static void put_columns(const uint8_t *text, size_t len, size_t lines_len) {
    for (size_t i = 0; i < lines_len; i++) {
        const uint8_t *end = len > 0 ? memchr(text, '\n', len) : NULL;
        size_t line_len = end != NULL ? (size_t)(end - text) : len, columns;
        if (textwrap_display_width(text, line_len, &columns) != TEXTWRAP_DONE) exit(1);
        put_number(columns);
        if (end != NULL) line_len++;
        text += line_len;
        len -= line_len;
    }
}

static void put_answer(uint64_t status) {
    const page_answer *answer = page_answered();
    put_number(status);
    put_number(answer->wrong_line);
    put_number(answer->text_len);
    put(answer->text, 1, answer->text_len);
    put_number(answer->lines_len);
    put(answer->lines, sizeof(page_line), answer->lines_len);
    put_columns(answer->text, answer->text_len, answer->lines_len);
}

int main(void) {
    /* The kind of the call, the width, whether least cost, which breaks, and the bytes of the text. */
    uint64_t call[5];
    while (fread(call, sizeof call, 1, stdin) == 1) {
        uint8_t *text = malloc(call[4] + 1);
        if (text == NULL || fread(text, 1, call[4], stdin) != call[4]) return 1;
        if (call[0] == 2)
            page_forget();
        else
            put_answer(call[0] == 1 ? page_read(text, call[4])
                                    : page_lay(text, call[4], call[1], (uint32_t)call[2], (uint32_t)call[3]));
        free(text);
    }
    return fflush(stdout) != 0;
}
