/* decide by hand-written C that reads and checks the same two files, with the same refusals and places, in one pass over each. */
#ifndef CAREFUL_H
#define CAREFUL_H

#include <stddef.h>
#include <stdint.h>

/* The same word as sinkheron_decide. */
uint64_t careful_decide(const uint8_t *policy, size_t policy_len, const uint8_t *request, size_t request_len);

#endif
