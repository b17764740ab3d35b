/* What the proved library asks of the machine, for WebAssembly with 64-bit memory: a heap, arithmetic of 128 bits,
 * and the copying of bytes. Nothing proves this file.
 *
 * The heap has blocks of 2^n bytes, at least 32, and of each size a list of those that are free. Memory grows,
 * and is never given back. */
#include <string.h>

#include "page.h"

/* As textwrap_heap.h has it, but that the caller reads all 8 bytes of `ok`. */
typedef struct {
    uint64_t ok;
    void *at;
} rattle_block;

/* What stands before each block: 16 bytes, as blocks have to be aligned. */
typedef struct {
    uint64_t size; /* the binary logarithm of the block's, with these bytes */
    uint64_t unused;
} block_head;

extern unsigned char __heap_base;
static uintptr_t end_of_blocks;
static void *free_blocks[64];
static _Alignas(16) unsigned char nothing[16];

static uint64_t logarithm(size_t size) {
    size_t whole = size + sizeof(block_head);
    return whole <= 32 ? 5 : 64 - (uint64_t)__builtin_clzll(whole - 1);
}

/* A new block behind all others. */
static block_head *added(uint64_t size) {
    if (end_of_blocks == 0) end_of_blocks = ((uintptr_t)&__heap_base + 15) & ~(uintptr_t)15;
    uintptr_t end = end_of_blocks + ((uintptr_t)1 << size);
    uintptr_t has = (uintptr_t)__builtin_wasm_memory_size(0) << 16;
    if (end > has && __builtin_wasm_memory_grow(0, (end - has + 0xffff) >> 16) == SIZE_MAX) return NULL;
    block_head *head = (block_head *)end_of_blocks;
    end_of_blocks = end;
    return head;
}

void *page_take(size_t size) {
    if (size > (size_t)1 << 40) return NULL;
    uint64_t log = logarithm(size);
    void *found = free_blocks[log];
    if (found != NULL) {
        free_blocks[log] = *(void **)found;
        return found;
    }
    block_head *head = added(log);
    if (head == NULL) return NULL;
    head->size = log;
    return head + 1;
}

void page_give(void *room) {
    if (room == NULL) return;
    block_head *head = (block_head *)room - 1;
    *(void **)room = free_blocks[head->size];
    free_blocks[head->size] = room;
}

static rattle_block block_at(void *at) { return (rattle_block){at != NULL, at != NULL ? at : nothing}; }

rattle_block rattle_alloc(size_t size, size_t align) {
    (void)align;
    return block_at(page_take(size));
}

rattle_block rattle_realloc(void *block, size_t kept, size_t size, size_t align) {
    (void)align;
    block_head *head = (block_head *)block - 1;
    if (size <= ((size_t)1 << head->size) - sizeof(block_head)) return block_at(block);
    void *to = page_take(size);
    if (to != NULL) {
        memcpy(to, block, kept);
        page_give(block);
    }
    return block_at(to);
}

void rattle_dealloc(void *block) { page_give(block); }

/* ---- 128 bits */

typedef unsigned __int128 wide;

static uint64_t low_of(wide number) { return (uint64_t)number; }
static uint64_t high_of(wide number) { return (uint64_t)(number >> 64); }

/* The product of two numbers of 64 bits, by their halves. */
static wide product(uint64_t a, uint64_t b) {
    uint64_t a0 = (uint32_t)a, a1 = a >> 32, b0 = (uint32_t)b, b1 = b >> 32;
    uint64_t low = a0 * b0, middle = a1 * b0 + (low >> 32), other = a0 * b1 + (uint32_t)middle;
    return (wide)(a1 * b1 + (middle >> 32) + (other >> 32)) << 64 | (other << 32 | (uint32_t)low);
}

wide __multi3(wide a, wide b) {
    uint64_t crossed = low_of(a) * high_of(b) + high_of(a) * low_of(b);
    return product(low_of(a), low_of(b)) + ((wide)crossed << 64);
}

/* Digit by digit, unless 64 bits suffice. */
wide __udivti3(wide a, wide b) {
    if (high_of(a) == 0 && high_of(b) == 0) return low_of(a) / low_of(b);
    wide quotient = 0, rest = 0;
    for (int digit = 127; digit >= 0; digit--) {
        int has_passed = (int)(rest >> 127);
        rest = rest << 1 | (a >> digit & 1);
        if (has_passed || rest >= b) {
            rest -= b;
            quotient |= (wide)1 << digit;
        }
    }
    return quotient;
}

void *memcpy(void *restrict to, const void *restrict from, size_t size) {
    __builtin_memcpy(to, from, size);
    return to;
}

void *memmove(void *to, const void *from, size_t size) {
    __builtin_memmove(to, from, size);
    return to;
}

void *memset(void *to, int byte, size_t size) {
    __builtin_memset(to, byte, size);
    return to;
}
