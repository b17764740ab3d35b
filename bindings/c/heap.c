/* The heap of the proved library, over malloc, whose blocks have any alignment that is asked for. */
#include <stdlib.h>

#include "textwrap_heap.h"

static _Alignas(max_align_t) char nothing[sizeof(max_align_t)];

static rattle_block block_at(void *at) {
    return (rattle_block){at != NULL, at != NULL ? at : nothing};
}

RATTLE_CALL rattle_block rattle_alloc(size_t size, size_t align) {
    return block_at(malloc(size > 0 ? size : align));
}

RATTLE_CALL rattle_block rattle_realloc(void *block, size_t kept, size_t size, size_t align) {
    (void)kept;
    return block_at(realloc(block, size > 0 ? size : align));
}

RATTLE_CALL void rattle_dealloc(void *block) { free(block); }
