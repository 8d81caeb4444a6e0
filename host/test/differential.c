/* The library against the model on policies, requests and texts that are valid, cut and damaged: number, place, every field and every
 * byte of the lent memory, which ends at a page without access. Usage: differential COUNT [SEED] */
#define _DEFAULT_SOURCE
#include "../sinkheron.h"
#include "guarded.h"
#include "model.h"

static uint64_t state;

static uint32_t next(void)
{
    state ^= state << 13;
    state ^= state >> 7;
    state ^= state << 17;
    return (uint32_t)(state >> 16);
}

static unsigned below(unsigned n) { return next() % n; }

enum { ROOM = 8192 };

struct bytes {
    size_t length;
    uint8_t at[ROOM];
};

static void put(struct bytes *b, unsigned byte)
{
    if (b->length < ROOM)
        b->at[b->length++] = (uint8_t)byte;
}

static void put_pair(struct bytes *b)
{
    unsigned wide = below(20) == 0, name = wide ? below(65536) : below(4), value = wide ? below(65536) : below(3);
    put(b, name >> 8);
    put(b, name);
    put(b, value >> 8);
    put(b, value);
}

static void target(struct bytes *b, unsigned depth)
{
    unsigned k = depth == 0 ? 0 : below(7);
    if (k <= 2) {
        put(b, 0x10);
        put_pair(b);
    } else {
        put(b, 0x0e + k);
        target(b, depth - 1);
        if (k >= 5)
            target(b, depth - 1);
    }
}

/* Of an and or of an or. */
static unsigned join_tag(void) { return 0x25 + below(2); }

static void policy(struct bytes *b, unsigned depth)
{
    static const uint8_t tags[] = {0x20, 0x21, 0x22, 0x22, 0x23, 0x24, 0x25, 0x26};
    unsigned tag = tags[below(depth == 0 ? 2 : sizeof tags)];
    put(b, tag);
    if (tag == 0x22)
        target(b, depth - 1);
    if (tag >= 0x22)
        policy(b, depth - 1);
    if (tag >= 0x25)
        policy(b, depth - 1);
}

/* A balanced tree of ands and ors: twice as many nodes as leaves less one, about the limit of 255. */
static void broad(struct bytes *b, unsigned leaves)
{
    if (leaves == 1) {
        put(b, 0x20 + below(2));
        return;
    }
    put(b, join_tag());
    broad(b, leaves / 2);
    broad(b, leaves - leaves / 2);
}

static void nots(struct bytes *b, unsigned count)
{
    while (count-- > 0)
        put(b, 0x23 + below(2));
}

/* About the limit of nodes, which may be met in a policy of every kind. */
static void broad_and_more(struct bytes *b)
{
    put(b, join_tag());
    broad(b, 118 + below(14));
    policy(b, 1 + below(4));
}

/* About both limits at once: behind 255 nodes the next may be at depth 33. */
static void broad_and_deep(struct bytes *b)
{
    put(b, join_tag());
    broad(b, 111 + below(3));
    nots(b, 30 + below(3));
    put(b, 0x20 + below(2));
}

/* ---- one long branch with short sides: a side on its right waits on the walk's stack until the branch is done, and 31 of them fill it */

/* How often a branch goes on at the right and how often through a node of one part, so many times in 8; and how often a side is none that leaves
 * the branch as it is, so many times in 32: what is deep inside shows only where that is seldom. */
struct bend {
    unsigned right, single, loud;
};

/* Of few pairs, since search judges every subset of them. */
static void branch_atom(struct bytes *b, unsigned name, unsigned value)
{
    const uint8_t atom[] = {0x10, 0, (uint8_t)name, 0, (uint8_t)value};
    for (size_t k = 0; k < sizeof atom; k++)
        put(b, atom[k]);
}

/* In ands (0,0) and in ors (1,1): some requests have the one, and of the other's name another value. */
static void target_side(struct bytes *b, unsigned join, const struct bend *bend)
{
    if (below(32) >= bend->loud) {
        branch_atom(b, join == 0x14, join == 0x14);
        return;
    }
    if (below(2) == 0)
        put(b, 0x11 + below(2));
    branch_atom(b, below(2), below(2));
}

/* In ands allow and in ors deny. */
static void policy_side(struct bytes *b, unsigned join, const struct bend *bend)
{
    int is_loud = below(32) < bend->loud;
    if (is_loud && below(2) == 0) {
        put(b, 0x22);
        branch_atom(b, below(2), below(2));
    }
    put(b, is_loud || join == 0x22 ? 0x20 + below(2) : join == 0x26 ? 0x20 : 0x21);
}

static void target_branch(struct bytes *b, unsigned nodes, const struct bend *bend)
{
    if (nodes == 0) {
        branch_atom(b, below(2), below(2));
        return;
    }
    int is_single = below(8) < bend->single, is_right = below(8) < bend->right;
    unsigned tag = (is_single ? 0x11 : 0x13) + below(2);
    put(b, tag);
    if (!is_single && is_right)
        target_side(b, tag, bend);
    target_branch(b, nodes - 1, bend);
    if (!is_single && !is_right)
        target_side(b, tag, bend);
}

/* At a targeted node the branch goes on in its target, or in the policy that it guards. */
static void policy_branch(struct bytes *b, unsigned nodes, const struct bend *bend)
{
    if (nodes == 0) {
        put(b, 0x20 + below(2));
        return;
    }
    int is_single = below(8) < bend->single, is_right = below(8) < bend->right, is_targeted = !is_single && below(12) == 0;
    unsigned tag = is_targeted ? 0x22 : is_single ? 0x23 + below(2) : join_tag();
    put(b, tag);
    if (is_targeted && is_right)
        target_side(b, tag, bend);
    if (!is_targeted && !is_single && is_right)
        policy_side(b, tag, bend);
    if (is_targeted && !is_right)
        target_branch(b, nodes - 1, bend);
    else
        policy_branch(b, nodes - 1, bend);
    if (!is_single && !is_right)
        policy_side(b, tag, bend);
}

/* About the limit of depth. Half of them go to the left only and through joins, some of these not as deep, so that each height is met. */
static void branch(struct bytes *b)
{
    unsigned loud = below(2) == 0 ? below(2) : below(9);
    struct bend left = {0, 0, loud}, other = {below(8), below(4), loud};
    if (below(2) == 0)
        policy_branch(b, below(4) == 0 ? below(33) : 30 + below(3), &left);
    else
        policy_branch(b, 28 + below(5), &other);
}

static void close_frame(struct bytes *b)
{
    b->at[0] = 1;
    b->at[1] = (uint8_t)((b->length - 3) >> 8);
    b->at[2] = (uint8_t)(b->length - 3);
}

static void make_policy(struct bytes *b)
{
    b->length = 3;
    if (below(8) == 0)
        nots(b, below(40));
    if (below(40) == 0)
        broad_and_more(b);
    else if (below(400) == 0)
        broad_and_deep(b);
    else if (below(10) == 0)
        branch(b);
    else
        policy(b, 1 + below(below(10) == 0 ? 9 : 5));
    close_frame(b);
}

static void put_atom(struct bytes *b, unsigned name, unsigned value)
{
    const uint8_t atom[] = {0x10, 0, (uint8_t)name, 0, (uint8_t)value};
    for (size_t k = 0; k < sizeof atom; k++)
        put(b, atom[k]);
}

/* A target with the value 1 of that name, now and then beside an atom that was there before, which is no pair more. */
static void wide_target(struct bytes *b, unsigned name)
{
    if (below(3) == 0)
        put(b, 0x11 + below(2));
    if (below(3) == 0) {
        put(b, 0x13 + below(2));
        put_atom(b, below(name + 1), 1);
    }
    put_atom(b, name, 1);
}

/* Targets of so many names with one value each, and now and then one value more: up to 16 pairs, or 17. */
static void make_wide_policy(struct bytes *b)
{
    unsigned names = 5 + below(4);
    b->length = 3;
    for (unsigned k = 0; k < names; k++) {
        if (below(4) == 0) {
            put(b, join_tag());
            put(b, 0x20 + below(2));
        }
        put(b, 0x22);
        wide_target(b, k);
        if (below(2) == 0)
            put(b, 0x23 + below(2));
    }
    if (below(4) == 0) {
        put(b, 0x22);
        put_atom(b, 0, 2);
    }
    put(b, 0x20 + below(2));
    close_frame(b);
}

static int by_number(const void *x, const void *y)
{
    uint32_t a = *(const uint32_t *)x, b = *(const uint32_t *)y;
    return (a > b) - (a < b);
}

static void make_request(struct bytes *b)
{
    uint32_t pair[300];
    unsigned count = below(50) == 0 ? 250 + below(12) : below(8);
    for (unsigned k = 0; k < count; k++)
        pair[k] = below(10) == 0 || count > 20 ? next() : below(5) << 16 | below(4);
    qsort(pair, count, sizeof *pair, by_number);
    b->length = 3;
    for (unsigned k = 0; k < count; k++)
        if (k == 0 || pair[k] != pair[k - 1] || below(30) == 0)
            for (int shift = 24; shift >= 0; shift -= 8)
                put(b, pair[k] >> shift);
    close_frame(b);
}

/* One kind of damage, in one of three files none. */
static void damage(struct bytes *b)
{
    switch (below(9)) {
    case 0: b->length = below((unsigned)b->length + 1); break;
    case 1: b->at[below((unsigned)b->length)] = (uint8_t)next(); break;
    case 2: b->at[below((unsigned)b->length)] ^= (uint8_t)(1u << below(8)); break;
    case 3: put(b, next()); break;
    case 4: put(b, next()); close_frame(b); break;
    case 5:
        if (b->length > 3) {
            b->length--;
            close_frame(b);
        }
        break;
    default: break;
    }
}

/* The place of a node's tag in a policy file that is not damaged yet: of any, or of the 33rd or 256th, where the limits are, or the last. */
static size_t some_tag(const struct bytes *p)
{
    unsigned body = (unsigned)p->length - 3, kind = below(8);
    size_t last = kind < 2 ? body + 2 : 3 + below(body), at = 3, next = 3;
    for (unsigned nodes = kind == 0 ? 33 : kind == 1 ? 256 : body; nodes > 0 && next <= last; nodes--) {
        at = next;
        next += p->at[at] == 0x10 ? 5 : 1;
    }
    return at;
}

/* Of policies one damage more: at a tag's place a tag of the other sort, or a byte that is just none. */
static void damage_policy(struct bytes *p)
{
    static const uint8_t no_tags[] = {0x00, 0x0f, 0x15, 0x1f, 0x27, 0xff};
    if (below(4) != 0) {
        damage(p);
        return;
    }
    uint8_t *tag = &p->at[some_tag(p)];
    if (below(3) == 0)
        *tag = no_tags[below(sizeof no_tags)];
    else
        *tag = (uint8_t)(*tag < 0x20 ? 0x20 + below(7) : 0x10 + below(5));
}

/* ---- texts */

static void put_string(struct bytes *b, const char *string)
{
    for (; *string != 0; string++)
        put(b, (unsigned char)*string);
}

static void put_decimal(struct bytes *b, const uint8_t *number)
{
    char decimal[8];
    sprintf(decimal, " %u", (unsigned)number[0] << 8 | number[1]);
    put_string(b, decimal);
}

/* The line of a policy file that is not damaged yet; one past the limits has a line too. */
static void make_text(struct bytes *t, const struct bytes *p)
{
    static const char *const target_words[] = {"tatom", "tnot", "topt", "tand", "tor"};
    static const char *const policy_words[] = {"pzero", "pone", "ptar", "pnot", "pdbd", "pand", "por"};
    t->length = 0;
    for (size_t at = 3; at < p->length; at++) {
        unsigned tag = p->at[at];
        put_string(t, at == 3 ? "" : " ");
        put_string(t, tag < 0x20 ? target_words[tag - 0x10] : policy_words[tag - 0x20]);
        if (tag == 0x10 && at + 4 < p->length) {
            put_decimal(t, p->at + at + 1);
            put_decimal(t, p->at + at + 3);
            at += 4;
        }
    }
    put(t, '\n');
}

/* Slips of a hand or of an editor: the bytes that one befalls, what goes there (nothing, the byte, its whole run) and what comes. */
enum { NOTHING, BYTE, RUN };
#define GAPS " \n"
#define DIGITS "0123456789"
#define LETTERS "abdemnoprtz"

static const struct slip {
    const char *befalls;
    int goes;
    const char *comes;
} slips[] = {
    {" ", BYTE, ""}, {" ", NOTHING, " "}, {" ", BYTE, "\t"}, {" ", NOTHING, "\t"}, {" ", BYTE, "\r"}, {" ", NOTHING, "\r"}, {" ", BYTE, "\n"},
    {" ", BYTE, "\r\n"}, {" ", BYTE, "\v"}, {" ", BYTE, "\xa0"}, {" ", BYTE, "\xc2\xa0"}, {" ", BYTE, ","}, {"\n", BYTE, ""}, {"\n", BYTE, "\r"},
    {"\n", NOTHING, "\r"}, {"\n", NOTHING, " "}, {"\n", NOTHING, "\n"}, {"\n", BYTE, " "}, {"\n", BYTE, "\n "}, {"\n", NOTHING, " pone"},
    {DIGITS, NOTHING, "0"}, {DIGITS, NOTHING, "+"}, {DIGITS, NOTHING, "-"}, {DIGITS, NOTHING, "1"}, {DIGITS, BYTE, ""}, {DIGITS, RUN, ""},
    {DIGITS, RUN, "0"}, {DIGITS, RUN, "00"}, {DIGITS, RUN, "00001"}, {DIGITS, RUN, "65535"}, {DIGITS, RUN, "65536"}, {DIGITS, RUN, "65537"},
    {DIGITS, RUN, "99999"}, {DIGITS, RUN, "100000"}, {DIGITS, RUN, "4294967297"}, {DIGITS, RUN, "18446744073709551617"},
    {DIGITS, RUN, "12345678901234567890"}, {DIGITS, RUN, "0x10"}, {DIGITS, RUN, "pone"}, {DIGITS, BYTE, "/"}, {DIGITS, BYTE, ":"},
    {DIGITS, BYTE, "\xb2"}, {LETTERS, BYTE, ""}, {LETTERS, NOTHING, "t"}, {LETTERS, BYTE, "p"}, {LETTERS, BYTE, "\xef"}, {LETTERS, RUN, ""},
    {LETTERS, RUN, "tatom"}, {LETTERS, RUN, "tnot"}, {LETTERS, RUN, "topt"}, {LETTERS, RUN, "tand"}, {LETTERS, RUN, "tor"}, {LETTERS, RUN, "pzero"},
    {LETTERS, RUN, "pone"}, {LETTERS, RUN, "ptar"}, {LETTERS, RUN, "pnot"}, {LETTERS, RUN, "pdbd"}, {LETTERS, RUN, "pand"}, {LETTERS, RUN, "por"},
    {LETTERS, RUN, "or"}, {LETTERS, RUN, "1"}, {GAPS, NOTHING, "s"},
    {GAPS, NOTHING, "0"}, {GAPS, NOTHING, "\x80"},
};

/* The first byte of those from some place on, from the front again if need be; the length if there is none. */
static size_t somewhere(const struct bytes *t, const char *bytes)
{
    size_t from = below((unsigned)t->length + 1), k = 0;
    while (k < t->length && memchr(bytes, t->at[(from + k) % t->length], strlen(bytes)) == NULL)
        k++;
    return k < t->length ? (from + k) % t->length : t->length;
}

static int parts(uint8_t byte) { return byte == ' ' || byte == '\n'; }

static size_t run_begin(const struct bytes *t, size_t at)
{
    while (at > 0 && !parts(t->at[at - 1]))
        at--;
    return at;
}

static size_t run_end(const struct bytes *t, size_t at)
{
    while (at < t->length && !parts(t->at[at]))
        at++;
    return at;
}

static void replace(struct bytes *t, size_t begin, size_t end, const char *comes)
{
    size_t more = strlen(comes), behind = t->length - end;
    if (begin + more + behind > ROOM)
        return;
    memmove(t->at + begin + more, t->at + end, behind);
    memcpy(t->at + begin, comes, more);
    t->length = begin + more + behind;
}

static void slip(struct bytes *t)
{
    const struct slip *s = &slips[below(sizeof slips / sizeof *slips)];
    size_t at = somewhere(t, s->befalls);
    if (at == t->length)
        return;
    if (s->goes == RUN)
        replace(t, run_begin(t, at), run_end(t, at), s->comes);
    else
        replace(t, at, s->goes == BYTE ? at + 1 : at, s->comes);
}

static void change_case(struct bytes *t)
{
    size_t at = somewhere(t, LETTERS);
    if (at < t->length)
        t->at[at] ^= 0x20;
}

static void damage_text(struct bytes *t)
{
    unsigned kind = below(16);
    if (kind == 0 || t->length == 0)
        t->length = below((unsigned)t->length + 1);
    else if (kind == 1)
        t->at[below((unsigned)t->length)] = (uint8_t)next();
    else if (kind == 2)
        t->at[below((unsigned)t->length)] ^= (uint8_t)(1u << below(8));
    else if (kind == 3)
        change_case(t);
    else
        slip(t);
}

/* ---- trials */

static uint64_t packed(struct answer a, uint64_t values) { return a.number != 0 ? a.number | (uint64_t)a.place << 8 : values; }

static const char *operation;

/* What was met: a test that meets little says little. */
enum { NUMBERS = 55 };
static unsigned long numbers[NUMBERS], read_numbers[NUMBERS], written_numbers[NUMBERS], sets[8], rules[8], verdicts[2], searched[17];
static unsigned long misplaced[2]; /* of refusal 15: policies where a target is due, targets where a policy is */
static unsigned long ors[2]; /* policies that were decided with a target or in them, with a policy or */
static unsigned long heights[33]; /* of the stack in a walk over a policy that was decided */

/* Whether a policy that was read has a node of that tag. */
static int has_node(const struct bytes *p, unsigned tag)
{
    size_t at = 3;
    while (at < p->length && p->at[at] != tag)
        at += p->at[at] == 0x10 ? 5 : 1;
    return at < p->length;
}

/* What the node leaves on the stack less what it takes from it. */
static int growth(unsigned tag)
{
    switch (tag) {
    case 0x10: case 0x20: case 0x21: return 1;
    case 0x11: case 0x12: case 0x23: case 0x24: return 0;
    default: return -1;
    }
}

/* The most values that wait at once while a policy that was read is walked from its last node to its first. Once a node is taken, those that
 * wait are the terms that were due in reading when it stood next: so they are counted from the first node on. */
static int height(const struct bytes *p)
{
    int due = 1, most = 1;
    for (size_t at = 3; at < p->length; at += p->at[at] == 0x10 ? 5 : 1) {
        most = due > most ? due : most;
        due -= growth(p->at[at]);
    }
    return most;
}

static void met_decided(const struct bytes *p, unsigned set)
{
    sets[set]++;
    heights[height(p)]++;
    ors[0] += (unsigned)has_node(p, 0x14);
    ors[1] += (unsigned)has_node(p, 0x26);
}

static void met(const struct bytes *p, const struct answer *decided, const struct answer *certified, const struct answer *search)
{
    numbers[decided->number % NUMBERS]++;
    if (decided->number == 15)
        misplaced[p->at[decided->place] < 0x20]++;
    if (search->number == 12 || search->number == 13)
        numbers[search->number]++;
    if (decided->number == 0)
        met_decided(p, decided->set);
    if (certified->number == 0)
        rules[certified->rule]++;
    if (search->number == 0) {
        verdicts[search->verdict]++;
        searched[search->pairs]++;
    }
}

static void print_counts(const char *what, const unsigned long *counts, size_t length)
{
    printf("%s:", what);
    for (size_t k = 0; k < length; k++)
        if (counts[k] != 0)
            printf(" %zu in %lu", k, counts[k]);
    putchar('\n');
}

static int differs(uint64_t got, uint64_t wanted, const void *left, const void *expected, size_t length)
{
    return got != wanted || (length > 0 && memcmp(left, expected, length) != 0);
}

static uint8_t fill[ROOM], model_space[ROOM];

static void new_fill(size_t length)
{
    for (size_t k = 0; k < length; k++)
        fill[k] = (uint8_t)next();
}

/* Equal memory for library and model. */
static uint8_t *lend(const struct guarded *memory, size_t length, int at_end)
{
    memcpy(model_space, fill, length);
    return guarded_copy(memory, fill, length, at_end);
}

/* The two engines against the one model. */
static int decide_trial(const struct bytes *p, const uint8_t *policy, const struct bytes *q, const uint8_t *request, struct answer *decided)
{
    *decided = model_decide(policy, p->length, request, q->length);
    uint64_t wanted = packed(*decided, (uint64_t)decided->set << 8);
    operation = "decide";
    if (differs(sinkheron_decide(policy, p->length, request, q->length), wanted, NULL, NULL, 0))
        return 1;
    operation = "decide_flat";
    return differs(sinkheron_decide_flat(policy, p->length, request, q->length), wanted, NULL, NULL, 0);
}

/* The same call of library and model on equal memory. */
static int trial(const struct bytes *p, const struct bytes *q, const struct guarded *memory, size_t space_len, int at_end)
{
    static uint32_t fill32[512], model_pairs[512];
    const uint8_t *policy = guarded_copy(&memory[0], p->at, p->length, at_end), *request = guarded_copy(&memory[1], q->at, q->length, at_end);
    struct answer a, decided, certified;
    new_fill(space_len);
    for (size_t k = 0; k < space_len / 4; k++)
        fill32[k] = next();

    if (decide_trial(p, policy, q, request, &decided))
        return 1;

    operation = "certify";
    certified = model_certify(policy, p->length);
    if (differs(sinkheron_certify(policy, p->length), packed(certified, (uint64_t)certified.rule << 12), NULL, NULL, 0))
        return 1;

    operation = "search";
    uint8_t *space = lend(&memory[2], space_len, at_end);
    a = model_search(policy, p->length, model_space, space_len);
    if (differs(sinkheron_search(policy, p->length, space, space_len),
                packed(a, (uint64_t)a.verdict << 8 | (uint64_t)a.pairs << 16 | (uint64_t)a.bytes << 24 | (uint64_t)a.subset << 32 | (uint64_t)a.hides << 48),
                space, model_space, space_len))
        return 1;
    met(p, &decided, &certified, &a);

    operation = "normal_form";
    space = lend(&memory[2], space_len, at_end);
    a = model_normal_form(policy, p->length, request, q->length, model_space, space_len);
    if (differs(sinkheron_normal_form(policy, p->length, request, q->length, space, space_len), packed(a, (uint64_t)a.bytes << 32), space, model_space, space_len))
        return 1;

    operation = "list_pairs";
    size_t room = space_len / 4;
    uint32_t *pairs = (uint32_t *)(void *)guarded_copy(&memory[2], fill32, room * 4, at_end);
    memcpy(model_pairs, fill32, room * 4);
    a = model_list_pairs(policy, p->length, model_pairs, room);
    return differs(sinkheron_list_pairs(policy, p->length, pairs, room), packed(a, (uint64_t)a.pairs << 16), pairs, model_pairs, room * 4);
}

/* A text read, and where it is accepted the file that the library made of it written: that gives the text again. */
static int text_trial(const struct bytes *t, const struct guarded *memory, size_t space_len, int at_end)
{
    new_fill(space_len);
    const uint8_t *text = guarded_copy(&memory[1], t->at, t->length, at_end);
    uint8_t *space = lend(&memory[2], space_len, at_end);
    operation = "read_text";
    struct answer a = model_read_text(text, t->length, model_space, space_len);
    read_numbers[a.number % NUMBERS]++;
    if (differs(sinkheron_read_text(text, t->length, space, space_len), packed(a, (uint64_t)a.bytes << 32), space, model_space, space_len))
        return 1;
    if (a.number != 0)
        return 0;
    operation = "write_text of what read_text wrote";
    uint8_t *line = guarded_block(&memory[0], t->length, at_end);
    return differs(sinkheron_write_text(space, a.bytes, line, t->length), (uint64_t)t->length << 32, line, t->at, t->length);
}

static int line_trial(const struct bytes *p, const struct guarded *memory, size_t space_len, int at_end)
{
    new_fill(space_len);
    const uint8_t *policy = guarded_copy(&memory[0], p->at, p->length, at_end);
    uint8_t *space = lend(&memory[2], space_len, at_end);
    operation = "write_text";
    struct answer a = model_write_text(policy, p->length, model_space, space_len);
    written_numbers[a.number % NUMBERS]++;
    return differs(sinkheron_write_text(policy, p->length, space, space_len), packed(a, (uint64_t)a.bytes << 32), space, model_space, space_len);
}

/* A space that just suffices for so many bytes, is one short, or is of another length. */
static size_t room_for(size_t length)
{
    unsigned kind = below(8);
    size_t room = kind < 3 ? length : kind == 3 ? length - 1 : kind == 4 ? below((unsigned)length) : length + below(50);
    return room < ROOM ? room : ROOM;
}

static void show(const char *what, const struct bytes *b)
{
    printf("%s:", what);
    for (size_t k = 0; k < b->length; k++)
        printf(" %02x", b->at[k]);
    putchar('\n');
}

/* The numbers of the documents that an input can get; nothing gets 14. */
static const uint8_t of_files[] = {0, 1, 2, 3, 4, 5, 15, 6, 7, 8, 12, 13, 21, 22, 23, 24, 25, 26};
static const uint8_t of_texts[] = {0, 6, 7, 13, 51, 52, 53, 54};
static const uint8_t of_lines[] = {0, 1, 2, 3, 4, 5, 15, 6, 7, 8, 13};
static const uint8_t of_sets[] = {1, 2, 3, 4, 5, 6, 7};
static const uint8_t of_rules[] = {0, 1, 2, 3, 4, 5, 6, 7};
static const uint8_t of_two[] = {0, 1};
static const uint8_t of_heights[] = {1,  2,  3,  4,  5,  6,  7,  8,  9,  10, 11, 12, 13, 14, 15, 16,
                                     17, 18, 19, 20, 21, 22, 23, 24, 25, 26, 27, 28, 29, 30, 31, 32};

static int all_met(const unsigned long *counts, const uint8_t *wanted, size_t length)
{
    size_t k = 0;
    while (k < length && counts[wanted[k]] > 0)
        k++;
    return k == length;
}

static int everything_met(void)
{
    return all_met(numbers, of_files, sizeof of_files) && all_met(read_numbers, of_texts, sizeof of_texts) &&
           all_met(written_numbers, of_lines, sizeof of_lines) && all_met(sets, of_sets, sizeof of_sets) &&
           all_met(rules, of_rules, sizeof of_rules) && all_met(verdicts, of_two, sizeof of_two) &&
           all_met(misplaced, of_two, sizeof of_two) && all_met(ors, of_two, sizeof of_two) && all_met(heights, of_heights, sizeof of_heights);
}

struct inputs {
    struct bytes policy, request, text;
};

static int one_trial(struct inputs *in, const struct guarded *memory, int at_end)
{
    static const size_t lengths[] = {0, 3, 7, 8, 10, 11, 16, 129, 130, 130, 131, 131, 140, 200, 200, 260, 400, 600, 800, 1020};
    if (below(2000) == 0)
        make_wide_policy(&in->policy);
    else
        make_policy(&in->policy);
    make_request(&in->request);
    make_text(&in->text, &in->policy);
    size_t file_room = room_for(in->policy.length), line_room = room_for(in->text.length);
    if (below(3) == 0)
        damage_policy(&in->policy);
    if (below(3) == 0)
        damage(&in->request);
    for (unsigned k = below(3); k > 0; k--)
        damage_text(&in->text);
    return trial(&in->policy, &in->request, memory, lengths[below(sizeof lengths / sizeof *lengths)], at_end) ||
           text_trial(&in->text, memory, file_room, at_end) || line_trial(&in->policy, memory, line_room, at_end);
}

static void print_met(void)
{
    print_counts("numbers met", numbers, NUMBERS);
    print_counts("numbers met in reading texts", read_numbers, NUMBERS);
    print_counts("numbers met in writing texts", written_numbers, NUMBERS);
    printf("misplaced: policies in %lu, targets in %lu\n", misplaced[0], misplaced[1]);
    printf("ors decided: of targets in %lu, of policies in %lu\n", ors[0], ors[1]);
    print_counts("heights met", heights, 33);
    print_counts("sets met", sets, 8);
    print_counts("certificates met", rules, 8);
    print_counts("verdicts met", verdicts, 2);
    print_counts("pairs searched", searched, 17);
}

int main(int count, char **argument)
{
    enum { LONG_RUN = 100000 }; /* a shorter one may miss something */
    static struct inputs in;
    struct guarded memory[3] = {guarded_new(ROOM), guarded_new(ROOM), guarded_new(ROOM)};
    unsigned long trials = count > 1 ? strtoul(argument[1], NULL, 10) : 10000;
    state = 88172645463325252u ^ (count > 2 ? strtoull(argument[2], NULL, 10) << 20 : 0);
    for (unsigned long k = 0; k < trials; k++) {
        if (one_trial(&in, memory, (int)(k & 1))) {
            printf("%s differs at trial %lu\n", operation, k);
            show("policy", &in.policy);
            show("request", &in.request);
            show("text", &in.text);
            puts("0 passed, 1 failed");
            return 1;
        }
    }
    printf("%lu inputs, eight operations each, no difference\n", trials);
    print_met();
    if (trials >= LONG_RUN && !everything_met()) {
        puts("a refusal, set, certificate, verdict, node or height of the documents was not met\n0 passed, 1 failed");
        return 1;
    }
    puts("1 passed, 0 failed");
    return 0;
}
