/* The heap of the proved library: three functions that a program defines if it links libtextwrap_c.a, or
 * a textwrap_proved.s of dist/, by itself. heap.c has them over malloc. What `make install` puts in place has
 * that heap within it, and asks for no other.
 * SPDX-License-Identifier: MIT
 *
 * If calls of the library run on several threads at once, so may these.
 */
#ifndef TEXTWRAP_HEAP_H
#define TEXTWRAP_HEAP_H

#include <stdbool.h>
#include <stddef.h>

#ifdef __cplusplus
extern "C" {
#endif

/* On Windows too the library calls them as on Linux. */
#ifdef _WIN32
#define RATTLE_CALL __attribute__((sysv_abi))
#else
#define RATTLE_CALL
#endif

/* What a request brings. */
typedef struct {
    bool ok;  /* whether there is memory */
    void *at; /* the block; where there is none, any pointer but null */
} rattle_block;

/* A block of so many bytes, fewer than 2^63, at an address that `align` divides: a power of two, at most
 * 16. A block of size 0 is one too, and is handed back like any other. */
RATTLE_CALL rattle_block rattle_alloc(size_t size, size_t align);

/* The block at another size, here or elsewhere, with its first `kept` bytes as they were: no more than the
 * new size. Where there is no memory for it, the block stays as it was. */
RATTLE_CALL rattle_block rattle_realloc(void *block, size_t kept, size_t size, size_t align);

/* Lets a block go that one of these has given. */
RATTLE_CALL void rattle_dealloc(void *block);

#ifdef __cplusplus
}
#endif

#endif
