/* Memory with a page without access straight before or straight behind it: a read or write past either end stops the test. */
#ifndef GUARDED_H
#define GUARDED_H

#include <stdint.h>
#include <stdio.h>
#include <stdlib.h>
#include <string.h>
#include <sys/mman.h>
#include <unistd.h>

struct guarded {
    uint8_t *first; /* behind the page without access at the front */
    uint8_t *past;  /* before the page without access at the end */
};

static inline struct guarded guarded_new(size_t room)
{
    size_t page = (size_t)sysconf(_SC_PAGESIZE), size = (room + page - 1) / page * page;
    uint8_t *base = mmap(NULL, size + 2 * page, PROT_READ | PROT_WRITE, MAP_PRIVATE | MAP_ANONYMOUS, -1, 0);
    if (base == MAP_FAILED || mprotect(base, page, PROT_NONE) || mprotect(base + page + size, page, PROT_NONE)) {
        perror("guarded memory");
        exit(2);
    }
    struct guarded g = {base + page, base + page + size};
    return g;
}

/* A block of that length that ends at the page behind, or begins at the page before. */
static inline uint8_t *guarded_block(const struct guarded *g, size_t length, int at_end)
{
    return at_end ? g->past - length : g->first;
}

static inline uint8_t *guarded_copy(const struct guarded *g, const void *from, size_t length, int at_end)
{
    uint8_t *block = guarded_block(g, length, at_end);
    if (length > 0)
        memcpy(block, from, length);
    return block;
}

#endif
