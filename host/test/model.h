/* An evaluator of its own for the tests: it shares nothing with the library, and works another way where it can. */
#ifndef MODEL_H
#define MODEL_H

#include <stddef.h>
#include <stdint.h>

struct answer {
    unsigned number;
    size_t place;
    unsigned set;      /* decide */
    unsigned rule;     /* certify */
    unsigned verdict;  /* search */
    unsigned pairs;    /* search, list_pairs */
    unsigned subset, hides;
    size_t bytes;      /* search, normal_form, read_text, write_text */
};

struct answer model_decide(const uint8_t *policy, size_t policy_len, const uint8_t *request, size_t request_len);
struct answer model_search(const uint8_t *policy, size_t policy_len, uint8_t *space, size_t space_len);
struct answer model_list_pairs(const uint8_t *policy, size_t policy_len, uint32_t *pairs, size_t pairs_len);
struct answer model_normal_form(const uint8_t *policy, size_t policy_len, const uint8_t *request, size_t request_len, uint8_t *space,
                                size_t space_len);
struct answer model_certify(const uint8_t *policy, size_t policy_len);
struct answer model_read_text(const uint8_t *text, size_t text_len, uint8_t *space, size_t space_len);
struct answer model_write_text(const uint8_t *policy, size_t policy_len, uint8_t *space, size_t space_len);

#endif
