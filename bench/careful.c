#include "careful.h"

enum { ALLOW = 1, DENY = 2, UNDEFINED = 4, DEPTH = 32, NODES = 255, PAIRS = 256 };

struct refusal {
    unsigned number;
    size_t place;
};

static const struct refusal none = {0, 0};

static struct refusal refused(unsigned number, size_t place)
{
    struct refusal r = {number, place};
    return r;
}

static uint32_t number_at(const uint8_t *at)
{
    return (uint32_t)at[0] << 8 | at[1];
}

static uint32_t pair_at(const uint8_t *at)
{
    return number_at(at) << 16 | number_at(at + 2);
}

/* The first three refusals of a file, numbered from `first` on. */
static struct refusal unframe(const uint8_t *file, size_t length, unsigned first)
{
    if (length < 3)
        return refused(first, length);
    if (file[0] != 1)
        return refused(first + 1, 0);
    if (number_at(file + 1) != length - 3)
        return refused(first + 2, 1);
    return none;
}

static struct refusal check_request(const uint8_t *file, size_t length)
{
    struct refusal r = unframe(file, length, 21);
    if (r.number != 0)
        return r;
    if ((length - 3) % 4 != 0)
        return refused(24, 3);
    if ((length - 3) / 4 > PAIRS)
        return refused(25, 1027);
    for (size_t at = 7; at < length; at += 4)
        if (pair_at(file + at) <= pair_at(file + at - 4))
            return refused(26, at);
    return none;
}

/* Where the one pass over the policy is. `pairs` and `count` are the request's; a request at fault counts as empty here. */
struct pass {
    const uint8_t *file;
    size_t length, at;
    unsigned nodes;
    struct refusal refusal;
    const uint8_t *pairs;
    size_t count;
};

static int stop(struct pass *p, unsigned number, size_t place)
{
    p->refusal = refused(number, place);
    return -1;
}

static int is_tag(uint8_t byte)
{
    return (byte >= 0x10 && byte <= 0x14) || (byte >= 0x20 && byte <= 0x26);
}

/* The tag of the node that is due, from `low` to `high`; -1 for a refusal. A tag that is not due is one of the other sort. */
static int tag(struct pass *p, unsigned left, uint8_t low, uint8_t high)
{
    if (p->at >= p->length)
        return stop(p, 4, p->length);
    uint8_t t = p->file[p->at];
    if (t < low || t > high)
        return stop(p, is_tag(t) ? 15 : 5, p->at);
    if (left == 0)
        return stop(p, 6, p->at);
    if (p->nodes == NODES)
        return stop(p, 7, p->at);
    p->nodes++;
    p->at++;
    return t;
}

/* An atom's value by the first pair that is not below its own, and the one before: 1, 0, or 2 for undefined. */
static int look_up(const struct pass *p, uint32_t pair)
{
    size_t low = 0, high = p->count;
    while (low < high) {
        size_t middle = low + (high - low) / 2;
        if (pair_at(p->pairs + 4 * middle) < pair)
            low = middle + 1;
        else
            high = middle;
    }
    if (low < p->count) {
        uint32_t here = pair_at(p->pairs + 4 * low);
        if (here == pair)
            return 1;
        if (here >> 16 == pair >> 16)
            return 0;
    }
    return low > 0 && pair_at(p->pairs + 4 * low - 4) >> 16 == pair >> 16 ? 0 : 2;
}

static int and_values(int a, int b) { return a == 0 || b == 0 ? 0 : a == 2 || b == 2 ? 2 : 1; }

static int or_values(int a, int b) { return a == 1 || b == 1 ? 1 : a == 2 || b == 2 ? 2 : 0; }

static int target(struct pass *p, unsigned left)
{
    int a, b, t = tag(p, left, 0x10, 0x14);
    uint32_t pair;
    switch (t) {
    case -1: return -1;
    case 0x10:
        if (p->length - p->at < 4)
            return stop(p, 4, p->length);
        pair = pair_at(p->file + p->at);
        p->at += 4;
        return look_up(p, pair);
    case 0x11: a = target(p, left - 1); return a == 0 ? 1 : a == 1 ? 0 : a;
    case 0x12: a = target(p, left - 1); return a == 2 ? 0 : a;
    default:
        if ((a = target(p, left - 1)) < 0 || (b = target(p, left - 1)) < 0)
            return -1;
        return t == 0x13 ? and_values(a, b) : or_values(a, b);
    }
}

static int and_sets(int s, int r)
{
    return (s & r & ALLOW) | ((s | r) & DENY) | ((s & UNDEFINED && r & (UNDEFINED | ALLOW)) || (r & UNDEFINED && s & ALLOW) ? UNDEFINED : 0);
}

static int or_sets(int s, int r)
{
    return ((s | r) & ALLOW) | (s & r & DENY) | ((s & UNDEFINED && r & (UNDEFINED | DENY)) || (r & UNDEFINED && s & DENY) ? UNDEFINED : 0);
}

static int policy(struct pass *p, unsigned left)
{
    int t = tag(p, left, 0x20, 0x26), s, r, value;
    switch (t) {
    case -1: return -1;
    case 0x20: return DENY;
    case 0x21: return ALLOW;
    case 0x22:
        if ((value = target(p, left - 1)) < 0 || (s = policy(p, left - 1)) < 0)
            return -1;
        return value == 1 ? s : value == 0 ? UNDEFINED : s | UNDEFINED;
    case 0x23:
        if ((s = policy(p, left - 1)) < 0)
            return -1;
        return (s & UNDEFINED) | (s & ALLOW) << 1 | (s & DENY) >> 1;
    case 0x24:
        if ((s = policy(p, left - 1)) < 0)
            return -1;
        return s & UNDEFINED ? (s & ALLOW) | DENY : s;
    default:
        if ((s = policy(p, left - 1)) < 0 || (r = policy(p, left - 1)) < 0)
            return -1;
        return t == 0x25 ? and_sets(s, r) : or_sets(s, r);
    }
}

static uint64_t word_of(struct refusal r)
{
    return r.number | (uint64_t)r.place << 8;
}

uint64_t careful_decide(const uint8_t *file, size_t length, const uint8_t *request, size_t request_len)
{
    struct refusal framed = unframe(file, length, 1);
    if (framed.number != 0)
        return word_of(framed);
    struct refusal asked = check_request(request, request_len);
    struct pass p = {file, length, 3, 0, none, NULL, 0};
    if (asked.number == 0) {
        p.pairs = request + 3;
        p.count = (request_len - 3) / 4;
    }
    int set = policy(&p, DEPTH);
    if (set < 0)
        return word_of(p.refusal);
    if (p.at < length)
        return word_of(refused(8, p.at));
    return asked.number != 0 ? word_of(asked) : (uint64_t)set << 8;
}
