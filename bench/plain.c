#include "plain.h"

enum { ALLOW = 1, DENY = 2, UNDEFINED = 4 };

static uint32_t pair_at(const uint8_t *at)
{
    return (uint32_t)at[0] << 24 | (uint32_t)at[1] << 16 | (uint32_t)at[2] << 8 | at[3];
}

/* ---- one request: a target is 1, 0 or 2 for undefined */

struct request {
    const uint32_t *pairs;
    unsigned count;
};

static int target(const uint8_t **at, const struct request *q)
{
    int a, b, named = 0;
    uint32_t pair;
    uint8_t tag = *(*at)++;
    switch (tag) {
    case 0x10:
        pair = pair_at(*at);
        *at += 4;
        for (unsigned k = 0; k < q->count; k++) {
            if (q->pairs[k] == pair)
                return 1;
            named |= q->pairs[k] >> 16 == pair >> 16;
        }
        return named ? 0 : 2;
    case 0x11: a = target(at, q); return a == 2 ? 2 : 1 - a;
    case 0x12: a = target(at, q); return a == 2 ? 0 : a;
    default:
        a = target(at, q);
        b = target(at, q);
        if (tag == 0x14)
            return a == 1 || b == 1 ? 1 : a == 2 || b == 2 ? 2 : 0;
        return a == 0 || b == 0 ? 0 : a == 2 || b == 2 ? 2 : 1;
    }
}

static unsigned and_sets(unsigned s, unsigned r)
{
    return (s & r & ALLOW) | ((s | r) & DENY) | ((s & UNDEFINED && r & (UNDEFINED | ALLOW)) || (r & UNDEFINED && s & ALLOW) ? UNDEFINED : 0);
}

static unsigned or_sets(unsigned s, unsigned r)
{
    return ((s | r) & ALLOW) | (s & r & DENY) | ((s & UNDEFINED && r & (UNDEFINED | DENY)) || (r & UNDEFINED && s & DENY) ? UNDEFINED : 0);
}

static unsigned policy(const uint8_t **at, const struct request *q)
{
    unsigned s, r;
    int t;
    uint8_t tag = *(*at)++;
    switch (tag) {
    case 0x20: return DENY;
    case 0x21: return ALLOW;
    case 0x22:
        t = target(at, q);
        s = policy(at, q);
        return t == 1 ? s : t == 0 ? UNDEFINED : s | UNDEFINED;
    case 0x23: s = policy(at, q); return (s & UNDEFINED) | (s & ALLOW) << 1 | (s & DENY) >> 1;
    case 0x24: s = policy(at, q); return (s & UNDEFINED) ? (s & ALLOW) | DENY : s;
    default:
        s = policy(at, q);
        r = policy(at, q);
        return tag == 0x25 ? and_sets(s, r) : or_sets(s, r);
    }
}

unsigned plain_decide(const uint8_t *file, const uint32_t *pairs, unsigned count)
{
    const uint8_t *at = file + 3;
    struct request q = {pairs, count};
    return policy(&at, &q);
}

struct hit plain_search_single(const uint8_t *file, const uint32_t *pairs, unsigned count)
{
    static uint8_t allowed[65536];
    struct hit none = {0, 0, 0};
    for (unsigned m = 0; m < 1u << count; m++) {
        uint32_t held[16];
        unsigned n = 0;
        for (unsigned k = 0; k < count; k++)
            if (m >> k & 1)
                held[n++] = pairs[k];
        allowed[m] = plain_decide(file, held, n) == ALLOW;
        if (!allowed[m])
            for (unsigned i = 0; i < count; i++)
                if ((m >> i & 1) && allowed[m - (1u << i)]) {
                    struct hit first = {1, m, i};
                    return first;
                }
    }
    return none;
}

/* ---- 64 subsets in a word: a target is where it is 1 and where it is 0, a set where each value is a member */

struct lanes {
    const uint32_t *pairs;
    unsigned count;
    uint64_t holds[16];
};

struct two {
    uint64_t is1, is0;
};

struct three {
    uint64_t allow, deny, undefined;
};

static struct two target_word(const uint8_t **at, const struct lanes *l)
{
    struct two a, b, r;
    uint64_t held = 0, named = 0;
    uint32_t pair;
    uint8_t tag = *(*at)++;
    switch (tag) {
    case 0x10:
        pair = pair_at(*at);
        *at += 4;
        for (unsigned k = 0; k < l->count; k++)
            if (l->pairs[k] >> 16 == pair >> 16) {
                named |= l->holds[k];
                if (l->pairs[k] == pair)
                    held |= l->holds[k];
            }
        r.is1 = held;
        r.is0 = named & ~held;
        return r;
    case 0x11: a = target_word(at, l); r.is1 = a.is0; r.is0 = a.is1; return r;
    case 0x12: a = target_word(at, l); r.is1 = a.is1; r.is0 = ~a.is1; return r;
    default:
        a = target_word(at, l);
        b = target_word(at, l);
        r.is1 = tag == 0x13 ? a.is1 & b.is1 : a.is1 | b.is1;
        r.is0 = tag == 0x13 ? a.is0 | b.is0 : a.is0 & b.is0;
        return r;
    }
}

static struct three and_words(struct three s, struct three r)
{
    struct three o;
    o.allow = s.allow & r.allow;
    o.deny = s.deny | r.deny;
    o.undefined = (s.undefined & (r.undefined | r.allow)) | (r.undefined & (s.undefined | s.allow));
    return o;
}

static struct three or_words(struct three s, struct three r)
{
    struct three o;
    o.allow = s.allow | r.allow;
    o.deny = s.deny & r.deny;
    o.undefined = (s.undefined & (r.undefined | r.deny)) | (r.undefined & (s.undefined | s.deny));
    return o;
}

static struct three policy_word(const uint8_t **at, const struct lanes *l)
{
    struct three s, r, o = {0, 0, 0};
    struct two t;
    uint8_t tag = *(*at)++;
    switch (tag) {
    case 0x20: o.deny = ~UINT64_C(0); return o;
    case 0x21: o.allow = ~UINT64_C(0); return o;
    case 0x22:
        t = target_word(at, l);
        s = policy_word(at, l);
        o.allow = s.allow & ~t.is0;
        o.deny = s.deny & ~t.is0;
        o.undefined = s.undefined | ~t.is1;
        return o;
    case 0x23: s = policy_word(at, l); o.allow = s.deny; o.deny = s.allow; o.undefined = s.undefined; return o;
    case 0x24: s = policy_word(at, l); o.allow = s.allow; o.deny = s.deny | s.undefined; return o;
    default:
        s = policy_word(at, l);
        r = policy_word(at, l);
        return tag == 0x25 ? and_words(s, r) : or_words(s, r);
    }
}

/* The smallest pair of an exposing subset. */
static struct hit first_pair(const uint64_t *allowed, unsigned m, unsigned count)
{
    struct hit first = {1, m, 0};
    for (unsigned i = 0; i < count; i++) {
        unsigned less = m - (1u << i);
        if ((m >> i & 1) && (allowed[less / 64] >> (less % 64) & 1)) {
            first.i = i;
            break;
        }
    }
    return first;
}

struct hit plain_search_words(const uint8_t *file, const uint32_t *pairs, unsigned count)
{
    static const uint64_t low[6] = {0xAAAAAAAAAAAAAAAA, 0xCCCCCCCCCCCCCCCC, 0xF0F0F0F0F0F0F0F0, 0xFF00FF00FF00FF00, 0xFFFF0000FFFF0000, 0xFFFFFFFF00000000};
    static uint64_t allowed[1024];
    struct lanes l;
    struct hit none = {0, 0, 0};
    unsigned words = count < 6 ? 1 : 1u << (count - 6);
    l.pairs = pairs;
    l.count = count;
    for (unsigned w = 0; w < words; w++) {
        const uint8_t *at = file + 3;
        for (unsigned k = 0; k < count; k++)
            l.holds[k] = k < 6 ? low[k] : (w >> (k - 6) & 1) ? ~UINT64_C(0) : 0;
        struct three s = policy_word(&at, &l);
        allowed[w] = s.allow & ~(s.deny | s.undefined);
        uint64_t hits = 0;
        for (unsigned k = 0; k < count; k++) {
            uint64_t less = k < 6 ? allowed[w] << (1u << k) : (w >> (k - 6) & 1) ? allowed[w - (1u << (k - 6))] : 0;
            hits |= l.holds[k] & less & ~allowed[w];
        }
        if (count < 6)
            hits &= (UINT64_C(1) << (1u << count)) - 1;
        if (hits != 0)
            return first_pair(allowed, 64 * w + (unsigned)__builtin_ctzll(hits), count);
    }
    return none;
}
