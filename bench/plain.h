/* The same questions answered by hand-written C, with no proof and no checks: the policy file must be a valid one. */
#ifndef PLAIN_H
#define PLAIN_H

#include <stddef.h>
#include <stdint.h>

struct hit {
    int exposed;
    unsigned m, i;
};

/* The set of the policy for a request of ascending pairs. */
unsigned plain_decide(const uint8_t *policy, const uint32_t *pairs, unsigned count);

/* The first exposure on these pairs: judging one subset at a time, and 64 to a word. */
struct hit plain_search_single(const uint8_t *policy, const uint32_t *pairs, unsigned count);
struct hit plain_search_words(const uint8_t *policy, const uint32_t *pairs, unsigned count);

#endif
