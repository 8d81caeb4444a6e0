#include "model.h"

#include <stdio.h>
#include <stdlib.h>
#include <string.h>

enum { ONE, ZERO, UNDEFINED };

/* ---- a policy as an array of nodes, each with its parts' numbers */

struct node {
    uint8_t tag;
    uint32_t pair;
    int first, second;
};

struct policy {
    int count;
    struct node node[256];
};

struct request {
    int count;
    uint32_t pair[256];
};

static struct answer refuse(unsigned number, size_t place)
{
    struct answer a = {0};
    a.number = number;
    a.place = place;
    return a;
}

/* ---- the walk that bytes and words share, without recursion: slots that wait for a term, the one due next on top */

struct slot {
    int parent, second, target, depth;
};

struct walk {
    struct policy *policy;
    int waiting;
    struct slot due[520];
};

static void begin(struct walk *w, struct policy *p)
{
    static const struct slot root = {-1, 0, 0, 1};
    p->count = 0;
    w->policy = p;
    w->due[0] = root;
    w->waiting = 1;
}

static int parts_of(unsigned tag)
{
    switch (tag) {
    case 0x10: case 0x20: case 0x21: return 0;
    case 0x11: case 0x12: case 0x23: case 0x24: return 1;
    default: return 2;
    }
}

static int is_tag(int target, unsigned byte)
{
    return target ? byte >= 0x10 && byte <= 0x14 : byte >= 0x20 && byte <= 0x26;
}

/* Gives the slot due next a node of that tag, and its parts slots of their own; else the refusal's number. */
static unsigned settle(struct walk *w, unsigned tag)
{
    struct slot slot = w->due[w->waiting - 1];
    struct node *node = w->policy->node;
    if (!is_tag(slot.target, tag))
        return is_tag(!slot.target, tag) ? 15 : 5;
    if (slot.depth > 32)
        return 6;
    if (w->policy->count >= 255)
        return 7;
    int me = w->policy->count++;
    node[me].tag = (uint8_t)tag;
    node[me].pair = 0;
    node[me].first = node[me].second = -1;
    if (slot.parent >= 0)
        *(slot.second ? &node[slot.parent].second : &node[slot.parent].first) = me;
    w->waiting--;
    for (int part = parts_of(tag); part > 0; part--) {
        struct slot below = {me, part == 2, slot.target || (tag == 0x22 && part == 1), slot.depth + 1};
        w->due[w->waiting++] = below;
    }
    return 0;
}

/* ---- files */

static struct answer frame(unsigned first, const uint8_t *file, size_t len)
{
    if (len < 3)
        return refuse(first, len);
    if (file[0] != 1)
        return refuse(first + 1, 0);
    if ((size_t)file[1] * 256 + file[2] != len - 3)
        return refuse(first + 2, 1);
    return refuse(0, 0);
}

static uint32_t big32(const uint8_t *at)
{
    return (uint32_t)at[0] << 24 | (uint32_t)at[1] << 16 | (uint32_t)at[2] << 8 | at[3];
}

static struct answer parse(const uint8_t *file, size_t len, struct policy *p)
{
    struct walk w;
    size_t at = 3;
    struct answer a = frame(1, file, len);
    if (a.number != 0)
        return a;
    begin(&w, p);
    while (w.waiting > 0) {
        if (at >= len)
            return refuse(4, len);
        unsigned number = settle(&w, file[at]);
        if (number != 0)
            return refuse(number, at);
        int atom = file[at++] == 0x10;
        if (atom && len - at < 4)
            return refuse(4, len);
        if (atom) {
            p->node[p->count - 1].pair = big32(file + at);
            at += 4;
        }
    }
    return at < len ? refuse(8, at) : refuse(0, 0);
}

static struct answer read_request(const uint8_t *file, size_t len, struct request *q)
{
    struct answer a = frame(21, file, len);
    if (a.number != 0)
        return a;
    if ((len - 3) % 4 != 0)
        return refuse(24, 3);
    if ((len - 3) / 4 > 256)
        return refuse(25, 1027);
    q->count = (int)((len - 3) / 4);
    for (int i = 0; i < q->count; i++)
        q->pair[i] = big32(file + 3 + 4 * i);
    for (int i = 1; i < q->count; i++)
        if (q->pair[i] <= q->pair[i - 1])
            return refuse(26, (size_t)(3 + 4 * i));
    return refuse(0, 0);
}

/* ---- text */

static const struct {
    uint8_t tag;
    const char *word;
} words[] = {
    {0x10, "tatom"}, {0x11, "tnot"}, {0x12, "topt"}, {0x13, "tand"}, {0x14, "tor"},  {0x20, "pzero"},
    {0x21, "pone"},  {0x22, "ptar"}, {0x23, "pnot"}, {0x24, "pdbd"}, {0x25, "pand"}, {0x26, "por"},
};

static const char *word_of(unsigned tag)
{
    for (size_t k = 0; k < sizeof words / sizeof *words; k++)
        if (words[k].tag == tag)
            return words[k].word;
    return "";
}

/* 0, which is no node's tag, for bytes that are none of the words. */
static unsigned tag_of_run(const uint8_t *bytes, size_t length)
{
    for (size_t k = 0; k < sizeof words / sizeof *words; k++)
        if (strlen(words[k].word) == length && memcmp(words[k].word, bytes, length) == 0)
            return words[k].tag;
    return 0;
}

/* The number that the run is, or -1. It is one if the number that it begins with, printed, is the run again. */
static long number_of_run(const uint8_t *bytes, size_t length)
{
    char digits[6] = "", printed[24];
    if (length > 5)
        return -1;
    memcpy(digits, bytes, length);
    long number = strtol(digits, NULL, 10);
    size_t same = (size_t)sprintf(printed, "%ld", number);
    return same == length && memcmp(printed, digits, length) == 0 && number >= 0 && number <= 65535 ? number : -1;
}

/* Where in a text a reader is. */
struct reader {
    const uint8_t *text;
    size_t len, at;
};

static size_t run_at(const struct reader *r)
{
    size_t end = r->at;
    while (end < r->len && r->text[end] != ' ' && r->text[end] != '\n')
        end++;
    return end - r->at;
}

/* The byte behind a word or number: a space where more follows, else the line feed. */
static struct answer pass_gap(struct reader *r, int more)
{
    if (r->at == r->len)
        return refuse(53, r->len);
    if (r->text[r->at] != (more ? ' ' : '\n'))
        return refuse(more ? 51 : 54, r->at);
    r->at++;
    return refuse(0, 0);
}

static struct answer pass_number(struct reader *r, int more, uint32_t *pair)
{
    size_t length = run_at(r);
    long number = number_of_run(r->text + r->at, length);
    if (number < 0)
        return refuse(52, r->at);
    *pair = *pair << 16 | (uint32_t)number;
    r->at += length;
    return pass_gap(r, more);
}

/* A word, the numbers of an atom, and the byte behind each. */
static struct answer pass_node(struct reader *r, struct walk *w)
{
    if (r->at == r->len)
        return refuse(53, r->len);
    size_t length = run_at(r);
    unsigned tag = tag_of_run(r->text + r->at, length), number = settle(w, tag);
    if (number == 5 || number == 15) /* a text has one number for both */
        return refuse(51, r->at);
    if (number != 0)
        return refuse(number, r->at);
    r->at += length;
    struct answer a = pass_gap(r, w->waiting > 0 || tag == 0x10);
    struct node *node = &w->policy->node[w->policy->count - 1];
    if (a.number == 0 && tag == 0x10)
        a = pass_number(r, 1, &node->pair);
    if (a.number == 0 && tag == 0x10)
        a = pass_number(r, w->waiting > 0, &node->pair);
    return a;
}

static struct answer parse_text(const uint8_t *text, size_t len, struct policy *p)
{
    struct walk w;
    struct reader r = {text, len, 0};
    struct answer a = refuse(0, 0);
    begin(&w, p);
    while (a.number == 0 && w.waiting > 0)
        a = pass_node(&r, &w);
    return a.number == 0 && r.at < len ? refuse(54, r.at) : a;
}

/* The nodes were numbered as they were read, so they stand in prefix order. */
static size_t write_policy(const struct policy *p, uint8_t *into)
{
    size_t n = 3;
    for (int i = 0; i < p->count; i++) {
        into[n++] = p->node[i].tag;
        if (p->node[i].tag == 0x10)
            for (int shift = 24; shift >= 0; shift -= 8)
                into[n++] = (uint8_t)(p->node[i].pair >> shift);
    }
    into[0] = 1;
    into[1] = (uint8_t)((n - 3) >> 8);
    into[2] = (uint8_t)(n - 3);
    return n;
}

static size_t write_line(const struct policy *p, char *into)
{
    size_t n = 0;
    for (int i = 0; i < p->count; i++) {
        const struct node *t = &p->node[i];
        n += (size_t)sprintf(into + n, "%s%s", i == 0 ? "" : " ", word_of(t->tag));
        if (t->tag == 0x10)
            n += (size_t)sprintf(into + n, " %u %u", (unsigned)(t->pair >> 16), (unsigned)(t->pair & 0xffff));
    }
    into[n] = '\n';
    return n + 1;
}

/* ---- meaning, by goal: what a target is, and whether a policy may come to a value */

/* The value that either side of an and or an or can bring about alone. */
static int wins(unsigned tag) { return tag == 0x13 || tag == 0x25 ? ZERO : ONE; }

static int joined_value(int winner, int a, int b)
{
    if (a == winner || b == winner)
        return winner;
    return a == UNDEFINED || b == UNDEFINED ? UNDEFINED : 1 - winner;
}

static int target_value(const struct policy *p, int n, const struct request *q)
{
    const struct node *t = &p->node[n];
    int a, b, named = 0;
    switch (t->tag) {
    case 0x10:
        for (int i = 0; i < q->count; i++) {
            if (q->pair[i] == t->pair)
                return ONE;
            named |= q->pair[i] >> 16 == t->pair >> 16;
        }
        return named ? ZERO : UNDEFINED;
    case 0x11:
        a = target_value(p, t->first, q);
        return a == UNDEFINED ? UNDEFINED : 1 - a;
    case 0x12:
        a = target_value(p, t->first, q);
        return a == UNDEFINED ? ZERO : a;
    default:
        a = target_value(p, t->first, q);
        b = target_value(p, t->second, q);
        return joined_value(wins(t->tag), a, b);
    }
}

static int may(const struct policy *p, int n, const struct request *q, int v);

/* Either side brings about the value that wins; the other takes both sides; undefined takes one side, and the other not at what wins. */
static int joined_may(const struct policy *p, const struct node *t, const struct request *q, int v)
{
    int winner = wins(t->tag), loser = 1 - winner;
    if (v == winner)
        return may(p, t->first, q, v) || may(p, t->second, q, v);
    if (v == loser)
        return may(p, t->first, q, v) && may(p, t->second, q, v);
    if (may(p, t->first, q, UNDEFINED))
        return may(p, t->second, q, UNDEFINED) || may(p, t->second, q, loser);
    return may(p, t->second, q, UNDEFINED) && may(p, t->first, q, loser);
}

static int may(const struct policy *p, int n, const struct request *q, int v)
{
    const struct node *t = &p->node[n];
    int a;
    switch (t->tag) {
    case 0x20: return v == ZERO;
    case 0x21: return v == ONE;
    case 0x22:
        a = target_value(p, t->first, q);
        return a == ONE ? may(p, t->second, q, v) : v == UNDEFINED || (a == UNDEFINED && may(p, t->second, q, v));
    case 0x23: return may(p, t->first, q, v == UNDEFINED ? UNDEFINED : 1 - v);
    case 0x24: return v != UNDEFINED && (may(p, t->first, q, v) || (v == ZERO && may(p, t->first, q, UNDEFINED)));
    default: return joined_may(p, t, q, v);
    }
}

static unsigned set_of(const struct policy *p, const struct request *q)
{
    return (unsigned)(may(p, 0, q, ONE) | may(p, 0, q, ZERO) << 1 | may(p, 0, q, UNDEFINED) << 2);
}

/* ---- pairs, by repeated selection of the smallest that is left */

static int names(const struct policy *p, uint32_t pair)
{
    for (int i = 0; i < p->count; i++)
        if (p->node[i].tag == 0x10 && p->node[i].pair == pair)
            return 1;
    return 0;
}

static uint32_t fresh(const struct policy *p, uint32_t name)
{
    uint32_t value = 0;
    while (names(p, name << 16 | value))
        value++;
    return name << 16 | value;
}

static int pairs_of(const struct policy *p, uint32_t *into)
{
    int count = 0;
    for (;;) {
        int found = 0;
        uint32_t best = 0;
        for (int i = 0; i < p->count; i++) {
            if (p->node[i].tag != 0x10)
                continue;
            uint32_t two[2] = {p->node[i].pair, fresh(p, p->node[i].pair >> 16)};
            for (int k = 0; k < 2; k++)
                if ((count == 0 || two[k] > into[count - 1]) && (!found || two[k] < best)) {
                    found = 1;
                    best = two[k];
                }
        }
        if (!found)
            return count;
        into[count++] = best;
    }
}

static size_t write_file(const uint32_t *pair, int count, uint8_t *into)
{
    into[0] = 1;
    into[1] = (uint8_t)(count * 4 >> 8);
    into[2] = (uint8_t)(count * 4);
    for (int i = 0; i < count; i++)
        for (int k = 0; k < 4; k++)
            into[3 + 4 * i + k] = (uint8_t)(pair[i] >> (24 - 8 * k));
    return (size_t)(3 + 4 * count);
}

/* ---- structural rules */

/* Of an and or an or: the value that wins takes both sides never at it, the other takes one side. */
static int never(const struct policy *p, int n, int v)
{
    const struct node *t = &p->node[n];
    switch (t->tag) {
    case 0x20: return v == ONE;
    case 0x21: return v == ZERO;
    case 0x22: return never(p, t->second, v);
    case 0x23: return never(p, t->first, 1 - v);
    case 0x24: return v == ONE && never(p, t->first, ONE);
    default:
        return v == wins(t->tag) ? never(p, t->first, v) && never(p, t->second, v) : never(p, t->first, v) || never(p, t->second, v);
    }
}

static int lacks(const struct policy *p, int n, uint8_t tag)
{
    if (n < 0)
        return 1;
    return p->node[n].tag != tag && lacks(p, p->node[n].first, tag) && lacks(p, p->node[n].second, tag);
}

static unsigned rule(const struct policy *p, int n)
{
    int plain = lacks(p, n, 0x11);
    if (never(p, n, ONE))
        return 1;
    if (lacks(p, n, 0x22))
        return 2;
    if (plain && lacks(p, n, 0x24))
        return 3;
    if (plain && lacks(p, n, 0x23))
        return 4;
    if (p->node[n].tag == 0x24 && rule(p, p->node[n].first))
        return 5;
    if (p->node[n].tag == 0x25 && rule(p, p->node[n].first) && rule(p, p->node[n].second))
        return 6;
    if (p->node[n].tag == 0x26 && rule(p, p->node[n].first) && rule(p, p->node[n].second))
        return 7;
    return 0;
}

/* ---- the operations */

struct answer model_decide(const uint8_t *policy, size_t policy_len, const uint8_t *request, size_t request_len)
{
    struct policy p;
    struct request q;
    struct answer a = parse(policy, policy_len, &p);
    if (a.number == 0)
        a = read_request(request, request_len, &q);
    if (a.number == 0)
        a.set = set_of(&p, &q);
    return a;
}

struct answer model_list_pairs(const uint8_t *policy, size_t policy_len, uint32_t *pairs, size_t pairs_len)
{
    struct policy p;
    uint32_t list[256];
    struct answer a = parse(policy, policy_len, &p);
    if (a.number != 0)
        return a;
    int count = pairs_of(&p, list);
    if (pairs_len < (size_t)count)
        return refuse(13, 0);
    memcpy(pairs, list, (size_t)count * sizeof *list);
    a.pairs = (unsigned)count;
    return a;
}

struct answer model_normal_form(const uint8_t *policy, size_t policy_len, const uint8_t *request, size_t request_len, uint8_t *space,
                                size_t space_len)
{
    struct policy p;
    struct request q;
    uint32_t list[256], kept[256];
    int n = 0;
    struct answer a = parse(policy, policy_len, &p);
    if (a.number == 0)
        a = read_request(request, request_len, &q);
    if (a.number != 0)
        return a;
    int count = pairs_of(&p, list);
    for (int i = 0; i < count; i++) {
        int in = 0, named = names(&p, list[i]);
        for (int k = 0; k < q.count; k++)
            in |= named ? q.pair[k] == list[i] : q.pair[k] >> 16 == list[i] >> 16 && !names(&p, q.pair[k]);
        if (in)
            kept[n++] = list[i];
    }
    if (space_len < (size_t)(3 + 4 * n))
        return refuse(13, 0);
    a.bytes = write_file(kept, n, space);
    return a;
}

struct answer model_certify(const uint8_t *policy, size_t policy_len)
{
    struct policy p;
    struct answer a = parse(policy, policy_len, &p);
    if (a.number == 0)
        a.rule = rule(&p, 0);
    return a;
}

static struct request subset(const uint32_t *list, int count, unsigned m)
{
    struct request q;
    q.count = 0;
    for (int i = 0; i < count; i++)
        if (m >> i & 1)
            q.pair[q.count++] = list[i];
    return q;
}

/* One subset within another, with pairs to spare: by the definition of resistance, not by single steps. */
static int some_pair_exposes(const uint8_t *allowed, int count)
{
    for (unsigned larger = 0; larger < 1u << count; larger++)
        if (!allowed[larger])
            for (unsigned smaller = larger; smaller > 0; smaller = (smaller - 1) & larger)
                if (allowed[(smaller - 1) & larger])
                    return 1;
    return 0;
}

struct answer model_search(const uint8_t *policy, size_t policy_len, uint8_t *space, size_t space_len)
{
    static uint8_t allowed[65536];
    struct policy p;
    uint32_t list[256];
    struct answer a = parse(policy, policy_len, &p);
    if (a.number != 0)
        return a;
    int count = pairs_of(&p, list);
    if (count > 16)
        return refuse(12, 0);
    if (space_len < 130)
        return refuse(13, 0);
    a.pairs = (unsigned)count;
    for (unsigned m = 0; m < 1u << count; m++) {
        struct request q = subset(list, count, m);
        allowed[m] = set_of(&p, &q) == 1;
    }
    for (unsigned m = 0; m < 1u << count && !a.verdict; m++)
        for (unsigned i = 0; i < (unsigned)count && !a.verdict; i++)
            if (!allowed[m] && (m >> i & 1) && allowed[m & ~(1u << i)]) {
                a.verdict = 1;
                a.subset = m;
                a.hides = i;
            }
    if (count <= 8 && some_pair_exposes(allowed, count) != (int)a.verdict)
        return refuse(255, 0); /* the model disagrees with itself */
    if (a.verdict) {
        struct request less = subset(list, count, a.subset & ~(1u << a.hides)), more = subset(list, count, a.subset);
        a.bytes = write_file(less.pair, less.count, space);
        a.bytes += write_file(more.pair, more.count, space + a.bytes);
    }
    return a;
}

static struct answer hand_over(const void *output, size_t length, uint8_t *space, size_t space_len)
{
    if (space_len < length)
        return refuse(13, 0);
    struct answer a = refuse(0, 0);
    memcpy(space, output, length);
    a.bytes = length;
    return a;
}

/* 255 nodes are at most 255 bytes of tags and 255 * 4 of numbers, and as words at most 18 bytes each. */
struct answer model_read_text(const uint8_t *text, size_t text_len, uint8_t *space, size_t space_len)
{
    struct policy p;
    uint8_t file[3 + 255 * 5];
    struct answer a = parse_text(text, text_len, &p);
    return a.number != 0 ? a : hand_over(file, write_policy(&p, file), space, space_len);
}

struct answer model_write_text(const uint8_t *policy, size_t policy_len, uint8_t *space, size_t space_len)
{
    struct policy p;
    char line[255 * 18 + 1];
    struct answer a = parse(policy, policy_len, &p);
    return a.number != 0 ? a : hand_over(line, write_line(&p, line), space, space_len);
}
