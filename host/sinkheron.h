/* Sinkheron: whether a batch may be released, and whether leaving a fact out of a request can open a release.
 *
 * Every call ends with an answer for every byte string and lent space, and keeps nothing. A call reads policy[0 .. policy_len),
 * request[0 .. request_len) and text[0 .. text_len) and writes nothing but space[0 .. space_len) or pairs[0 .. pairs_len). A refusal
 * alters no lent memory.
 *
 * What the caller provides: each pointer names a readable block (space and pairs: writable too) of at least the stated length, of
 * the stated type's alignment; a written block overlaps no other. Where a length is 0 the pointer is not followed and may be NULL.
 * Calls share no state: several threads may call at once on blocks of their own.
 *
 * The answer is one word. Bits 0 to 7 have the number; 0 is success. Where the number is not 0, bits 8 to 39 have the place, a byte
 * offset in the file or text concerned, and all other bits are 0. Where it is 0 the operation's values stand as described at each
 * call, and all other bits are 0.
 *
 *  number  when                                              what an operator does
 *  1, 2, 3 policy file: shorter than 3 bytes; version byte   the policy file is cut or not one: fetch it again
 *          is not 1; stated length is not the file's
 *  4, 5    policy body ends too early; byte is no tag        the policy file is damaged: fetch it again
 *  15      a policy where a target is due, or a target       the policy was put together wrongly: have its author mend
 *          where a policy is due                             it at the place
 *  6, 7    deeper than 32; more than 255 nodes               the policy is too large for a station: split it
 *  8       bytes after the finished policy                   the policy file is damaged: fetch it again
 *  21 - 24 request file: shorter than 3 bytes; version       the station's message is damaged: send it again
 *          byte; stated length; not a multiple of 4
 *  25      more than 256 pairs                               send only the attributes that the policy uses
 *  26      pair not above the one before                     the station must send pairs sorted and once each
 *  51      text: a word not due here, or another byte where  mend the line at the place
 *          a space is due
 *  52      text: no number up to 65535 where one is due      mend the line at the place
 *  53      text ends where a word, space or line feed is     finish the line
 *          due
 *  54      text: no line feed behind the last word, or       end the line, and the text behind it
 *          bytes behind the line feed
 *  12      search: more than 16 pairs                        rely on the certificate, or split the policy
 *  13      lent space too small                              lend more: each call says how much suffices
 *  14      decision set came out empty                       report it: hold the batch
 */
#ifndef SINKHERON_H
#define SINKHERON_H

#include <stddef.h>
#include <stdint.h>

#ifdef __cplusplus
extern "C" {
#endif

/* What the policy comes to for the request: bits 8 to 10 have the set's code, 1 for allow, plus 2 for deny, plus 4 for undefined.
 * Only allow alone, code 1, releases a batch. Numbers 1 to 8, 15, 21 to 26, 14. */
uint64_t sinkheron_decide(const uint8_t *policy, size_t policy_len, const uint8_t *request, size_t request_len);

/* The same answer on all inputs, without calls that nest: nothing that it calls calls itself, calls go at most two deep, and 624 bytes of
 * stack suffice beside the call's own (measured; decide uses 1656). */
uint64_t sinkheron_decide_flat(const uint8_t *policy, size_t policy_len, const uint8_t *request, size_t request_len);

/* Whether leaving a fact out of a request can open a release, for a policy of at most 16 pairs: bit 8 has the verdict (0 resistant,
 * 1 exposed), bits 16 to 23 the number of pairs, bits 24 to 31 the bytes written, bits 32 to 47 m, bits 48 to 63 i. Exposed: the
 * subset m of the policy's pairs is not released, without pair i it is; the space begins with the smaller request's file and
 * straight behind it the larger's, and is unaltered past them. Resistant: m, i and the bytes written are 0 and the space is
 * unaltered. Numbers 1 to 8, 15, 12, 13 (below 130 bytes). */
uint64_t sinkheron_search(const uint8_t *policy, size_t policy_len, uint8_t *space, size_t space_len);

/* The policy's pairs, ascending, each name * 65536 + value, at the front of `pairs`; entries past them are unaltered. Bits 16 to 23
 * have the number of pairs. Numbers 1 to 8, 15, 13 (fewer entries than pairs; 254 always suffice). */
uint64_t sinkheron_list_pairs(const uint8_t *policy, size_t policy_len, uint32_t *pairs, size_t pairs_len);

/* The request's normal form as a request file at the front of the space; bytes past it are unaltered. Bits 32 to 47 have the file's
 * length. Numbers 1 to 8, 15, 21 to 26, 13 (shorter than the file; 1019 bytes always suffice). */
uint64_t sinkheron_normal_form(const uint8_t *policy, size_t policy_len, const uint8_t *request, size_t request_len, uint8_t *space,
                               size_t space_len);

/* The policy file of the policy that the text is the line of, at the front of the space; bytes past it are unaltered. A line has the
 * policy's words in prefix order, single spaces between them and a line feed at the end: tatom with name and value in decimal without
 * leading zeros, tnot, topt, tand, tor, pzero (deny), pone (allow), ptar (targeted), pnot, pdbd (deny by default), pand, por. Bits 32 to
 * 47 have the file's length. Numbers 6 and 7 at a word, 51 to 54, 13 (shorter than the file; 766 bytes always suffice). */
uint64_t sinkheron_read_text(const uint8_t *text, size_t text_len, uint8_t *space, size_t space_len);

/* The line of the file's policy at the front of the space, without a zero byte behind it; bytes past it are unaltered. Bits 32 to 47
 * have the line's length. Numbers 1 to 8, 15, 13 (shorter than the line; 2927 bytes always suffice). */
uint64_t sinkheron_write_text(const uint8_t *policy, size_t policy_len, uint8_t *space, size_t space_len);

/* The smallest number, 1 to 7, of a structural rule that shows the policy resistant, or 0: bits 12 to 15. Numbers 1 to 8, 15. */
uint64_t sinkheron_certify(const uint8_t *policy, size_t policy_len);

/* The fields of a word. */
static inline unsigned sinkheron_number(uint64_t word) { return (unsigned)(word & 0xff); }
static inline uint32_t sinkheron_place(uint64_t word) { return (uint32_t)(word >> 8 & 0xffffffff); }
static inline unsigned sinkheron_set(uint64_t word) { return (unsigned)(word >> 8 & 7); }
static inline unsigned sinkheron_rule(uint64_t word) { return (unsigned)(word >> 12 & 15); }
static inline unsigned sinkheron_verdict(uint64_t word) { return (unsigned)(word >> 8 & 1); }
static inline unsigned sinkheron_pair_count(uint64_t word) { return (unsigned)(word >> 16 & 0xff); }
static inline unsigned sinkheron_bytes(uint64_t word) { return (unsigned)(word >> 24 & 0xff); }
static inline unsigned sinkheron_subset(uint64_t word) { return (unsigned)(word >> 32 & 0xffff); }
static inline unsigned sinkheron_hides(uint64_t word) { return (unsigned)(word >> 48 & 0xffff); }
/* Of the file or line written. */
static inline unsigned sinkheron_file_length(uint64_t word) { return (unsigned)(word >> 32 & 0xffff); }

/* Whether the word is decide's answer, or decide_flat's, that releases: number 0 and allow alone. */
static inline int sinkheron_releases(uint64_t word) { return word == (uint64_t)1 << 8; }

#ifdef __cplusplus
}
#endif

#endif
