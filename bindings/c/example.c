/* Fills standard input with lines of 40 columns. */
#include <stdio.h>
#include <stdlib.h>

#include "textwrap_proved.h"

/* All of standard input, and its length, or NULL where memory runs out or the input cannot be read. */
static uint8_t *read_all(size_t *len) {
    size_t room = 4096, got;
    uint8_t *text = malloc(room);
    for (*len = 0; text != NULL; *len += got) {
        if (*len == room) {
            uint8_t *longer = realloc(text, room *= 2);
            if (longer == NULL) free(text);
            if ((text = longer) == NULL) break;
        }
        if ((got = fread(text + *len, 1, room - *len, stdin)) == 0) break;
    }
    if (text == NULL || !ferror(stdin)) return text;
    free(text);
    return NULL;
}

/* Writes a text to standard output. What it still holds back is written too, as else nobody would be told
 * that this failed. */
static int write_all(const uint8_t *text, size_t len) {
    return fwrite(text, 1, len, stdout) == len && fflush(stdout) == 0;
}

int main(void) {
    size_t text_len, len = 0;
    uint8_t *text = read_all(&text_len);
    if (text == NULL) {
        perror("standard input");
        return 1;
    }
    textwrap_options options = textwrap_options_new(40);
    size_t room_len = text_len + text_len / 8 + 64;
    uint8_t *room = malloc(room_len);
    textwrap_status status = TEXTWRAP_DONE;
    while (room != NULL) {
        status = textwrap_fill(text, text_len, &options, room, room_len, &len);
        if (status != TEXTWRAP_TOO_SMALL) break;
        free(room);
        room = malloc(room_len = len);
    }
    if (room == NULL) status = TEXTWRAP_OUT_OF_MEMORY;
    int is_written = status == TEXTWRAP_DONE && write_all(room, len);
    if (status != TEXTWRAP_DONE)
        fprintf(stderr, "%s\n", textwrap_status_text(status));
    else if (!is_written)
        perror("standard output");
    free(room);
    free(text);
    return !is_written;
}
