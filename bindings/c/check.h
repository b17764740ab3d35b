/* What the tests share. Each of them is one file, with its count of failures. */
#ifndef TEXTWRAP_CHECK_H
#define TEXTWRAP_CHECK_H

#include <stdio.h>
#include <string.h>

#include "textwrap_proved.h"

static int failures = 0;

#define CHECK(condition)                                                       \
    do {                                                                       \
        if (!(condition)) {                                                    \
            printf("%s:%d: %s\n", __FILE__, __LINE__, #condition);             \
            failures++;                                                        \
        }                                                                      \
    } while (0)

static inline const uint8_t *bytes(const char *text) { return (const uint8_t *)text; }

static inline textwrap_text text_of(const char *text) {
    return (textwrap_text){bytes(text), strlen(text)};
}

/* Whether these bytes are the text. */
static inline int is_text(const uint8_t *at, size_t len, const char *text) {
    return len == strlen(text) && memcmp(at, text, len) == 0;
}

#endif
