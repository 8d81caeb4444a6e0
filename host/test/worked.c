/* The worked policies and edges, the written form, the telling of tags, the or and the second engine of decide through the
 * C face, all operations. */
#include "../sinkheron.h"
#include "file.h"

static int passed, failed;

static void expect(const char *what, uint64_t got, uint64_t wanted)
{
    if (got == wanted) {
        passed++;
    } else {
        failed++;
        printf("%s: got %016llx, wanted %016llx\n", what, (unsigned long long)got, (unsigned long long)wanted);
    }
}

static void expect_bytes(const char *what, const uint8_t *got, const uint8_t *wanted, size_t count)
{
    expect(what, (uint64_t)(memcmp(got, wanted, count) != 0), 0);
}

/* What the policy comes to for the request: the two engines say the same, whatever the row asks of their word. */
static uint64_t decide(const uint8_t *policy, size_t policy_len, const uint8_t *request, size_t request_len)
{
    uint64_t word = sinkheron_decide(policy, policy_len, request, request_len);
    expect("decide_flat beside decide", sinkheron_decide_flat(policy, policy_len, request, request_len), word);
    return word;
}

/* A file by repeated bytes and an end. */
static void repeated(struct file *f, uint8_t byte, size_t count, const char *end)
{
    memset(f->bytes + 3, byte, count);
    f->length = 3 + count;
    put_hex(f, end);
    put_frame(f);
}

static uint64_t refused(unsigned number, uint64_t place) { return number | place << 8; }

static uint64_t exposed(unsigned pairs, unsigned bytes, uint64_t m, uint64_t i)
{
    return (uint64_t)1 << 8 | (uint64_t)pairs << 16 | (uint64_t)bytes << 24 | m << 32 | i << 48;
}

static uint64_t resistant(unsigned pairs) { return (uint64_t)pairs << 16; }

static const char *A = "23 24 23 22 10 0001 0001 20", *B = "24 22 10 0001 0002 21", *C = "22 11 10 0001 0001 21",
                  *D = "22 11 12 10 0001 0001 21", *E = "23 23 24 22 10 0001 0002 21", *F = "21",
                  *G = "24 22 14 10 0001 0002 10 0002 0001 21"; /* allow only if the column is verified or a supervisor is present */

static void sets(void)
{
    static struct file p, q;
    const struct { const char *policy, *request; unsigned set; } row[] = {
        {A, "", 3}, {A, "00010002", 1}, {A, "00010001", 2}, {A, "00010001 00010002", 2},
        {B, "", 3}, {B, "00010002", 1}, {B, "00010001", 2}, {B, "00010001 00010002", 1},
        {C, "00010000", 1}, {C, "00010000 00010001", 4}, {D, "", 1}, {F, "", 1}, {"20", "", 2},
        {G, "", 3}, {G, "00010002", 1}, {G, "00020001", 1}, {G, "00010001", 3}, {G, "00010001 00020001", 1}, {G, "00010001 00020000", 2},
    };
    for (size_t k = 0; k < sizeof row / sizeof *row; k++) {
        file(&p, row[k].policy);
        file(&q, row[k].request);
        expect("set", decide(p.bytes, p.length, q.bytes, q.length), (uint64_t)row[k].set << 8);
    }
    file(&q, "00010002");
    file(&p, A);
    expect("only allow alone releases", (uint64_t)sinkheron_releases(decide(p.bytes, p.length, q.bytes, q.length)), 1);
    file(&q, "");
    expect("a missing fact holds", (uint64_t)sinkheron_releases(decide(p.bytes, p.length, q.bytes, q.length)), 0);
}

static void verdicts(void)
{
    static struct file p;
    const struct { const char *policy; unsigned rule; } row[] = {
        {A, 0}, {B, 4}, {C, 0}, {D, 0}, {E, 0}, {F, 2}, {"20", 1}, {G, 4},
    };
    const uint64_t search[] = {exposed(2, 18, 3, 1), resistant(2), exposed(2, 18, 3, 1), exposed(2, 10, 2, 1),
                               resistant(2), resistant(0), resistant(0), resistant(4)};
    uint8_t space[130];
    for (size_t k = 0; k < sizeof row / sizeof *row; k++) {
        file(&p, row[k].policy);
        expect("certificate", sinkheron_certify(p.bytes, p.length), (uint64_t)row[k].rule << 12);
        memset(space, 0xee, sizeof space);
        expect("search", sinkheron_search(p.bytes, p.length, space, sizeof space), search[k]);
    }
}

static void files_of_A(void)
{
    static struct file p;
    static const uint8_t two[18] = {1, 0, 4, 0, 1, 0, 0, 1, 0, 8, 0, 1, 0, 0, 0, 1, 0, 1};
    uint8_t space[140];
    memset(space, 0xee, sizeof space);
    file(&p, A);
    sinkheron_search(p.bytes, p.length, space, sizeof space);
    expect_bytes("A's two files", space, two, 18);
    expect("bytes past the files are kept", space[18] == 0xee && space[139] == 0xee, 1);
    memset(space, 0xee, sizeof space);
    expect("129 bytes are too few", sinkheron_search(p.bytes, p.length, space, 129), refused(13, 0));
    expect("a refusal alters nothing", space[0] == 0xee && space[17] == 0xee, 1);
}

static void pairs_and_normal_forms(void)
{
    static struct file p, q;
    uint32_t pairs[4] = {9, 9, 9, 9};
    uint8_t space[16];
    static const uint8_t normal[11] = {1, 0, 8, 0, 1, 0, 0, 0, 1, 0, 1};
    file(&p, A);
    expect("pairs of A", sinkheron_list_pairs(p.bytes, p.length, pairs, 4), (uint64_t)2 << 16);
    expect("named and fresh", pairs[0] == 0x10000 && pairs[1] == 0x10001 && pairs[2] == 9 && pairs[3] == 9, 1);
    pairs[0] = 9;
    expect("one entry is too few", sinkheron_list_pairs(p.bytes, p.length, pairs, 1), refused(13, 0));
    expect("the slice is unaltered", pairs[0], 9);
    file(&q, "00010001 00010007 00020005");
    memset(space, 0xee, sizeof space);
    expect("normal form", sinkheron_normal_form(p.bytes, p.length, q.bytes, q.length, space, 16), (uint64_t)11 << 32);
    expect_bytes("its file", space, normal, 11);
    expect("bytes past it are kept", space[11], 0xee);
    memset(space, 0xee, sizeof space);
    expect("10 bytes are too few", sinkheron_normal_form(p.bytes, p.length, q.bytes, q.length, space, 10), refused(13, 0));
    expect("the space is unaltered", space[0], 0xee);
}

static void edges(void)
{
    static struct file p, q;
    static uint8_t space[130];
    char names[400] = "", one[40];
    repeated(&p, 0x23, 31, "21");
    expect("31 nots are read", sinkheron_certify(p.bytes, p.length), (uint64_t)1 << 12);
    repeated(&p, 0x23, 32, "21");
    expect("32 nots", sinkheron_certify(p.bytes, p.length), refused(6, 35));
    file(&p, "");
    expect("an empty body", sinkheron_certify(p.bytes, p.length), refused(4, 3));
    expect("no bytes", sinkheron_certify(p.bytes, 0), refused(1, 0));
    expect("two bytes", sinkheron_certify(p.bytes, 2), refused(1, 2));
    file(&p, F);
    expect("request of no bytes", decide(p.bytes, p.length, q.bytes, 0), refused(21, 0));
    for (int k = 0; k < 8; k++) {
        sprintf(one, "22 10 %04x 0001 ", k);
        strcat(names, one);
    }
    strcat(names, "21");
    file(&p, names);
    uint64_t word = sinkheron_search(p.bytes, p.length, space, sizeof space);
    expect("16 pairs are searched", word & 0xff00ff, (uint64_t)16 << 16);
    sprintf(one, "22 10 0000 0002 ");
    memmove(names + strlen(one), names, strlen(names) + 1);
    memcpy(names, one, strlen(one));
    file(&p, names);
    expect("17 pairs", sinkheron_search(p.bytes, p.length, space, sizeof space), refused(12, 0));
    file(&p, F);
    q.bytes[0] = 1;
    for (unsigned k = 0; k < 257; k++) {
        const uint8_t pair[4] = {0, 7, (uint8_t)(k >> 8), (uint8_t)k};
        memcpy(q.bytes + 3 + 4 * k, pair, 4);
    }
    q.bytes[1] = 4;
    q.bytes[2] = 0;
    expect("256 pairs", decide(p.bytes, p.length, q.bytes, 1027), (uint64_t)1 << 8);
    q.bytes[2] = 4;
    expect("257 pairs", decide(p.bytes, p.length, q.bytes, 1031), refused(25, 1027));
    memset(p.bytes, 0x20, sizeof p.bytes);
    p.bytes[0] = 1;
    p.bytes[1] = p.bytes[2] = 255;
    expect("65,538 bytes", sinkheron_certify(p.bytes, 65538), refused(8, 4));
}

/* 128 leaves under 127 ands or ors are 255 nodes; a not over them is a 256th. */
static void tree(struct file *f, uint8_t join, unsigned leaves)
{
    if (leaves > 1) {
        f->bytes[f->length++] = join;
        tree(f, join, leaves / 2);
        tree(f, join, leaves - leaves / 2);
    } else {
        f->bytes[f->length++] = 0x21;
    }
}

static void most_nodes(uint8_t join)
{
    static struct file p;
    p.length = 3;
    tree(&p, join, 128);
    p.bytes[0] = 1;
    p.bytes[1] = 0;
    p.bytes[2] = 255;
    expect("255 nodes are read", sinkheron_certify(p.bytes, 258), (uint64_t)2 << 12);
    p.length = 4;
    tree(&p, join, 128);
    p.bytes[1] = 1;
    p.bytes[2] = 0;
    p.bytes[3] = 0x23;
    expect("a 256th node", sinkheron_certify(p.bytes, 259), refused(7, 258));
}

/* ---- policy files that are not read */

enum { KEPT = 0xee, LONGEST_FILE = 766, LONGEST_LINE = 2927, MOST_PAIRS = 254 };

static int is_kept(const uint8_t *from, const uint8_t *end)
{
    while (from < end && *from == KEPT)
        from++;
    return from == end;
}

/* Lent to an operation beside the policy file: a request, memory for bytes and memory for pairs. */
struct lent {
    size_t request_len, space_len, pairs_len;
    uint8_t request[3], space[LONGEST_LINE];
    uint32_t pairs[MOST_PAIRS];
};

static const struct lent enough = {3, LONGEST_LINE, MOST_PAIRS, {1, 0, 0}, {0}, {0}}, nothing;

/* The words of the seven operations that read a policy file. */
enum { READERS = 7 };

static void read_by_all(const struct file *f, size_t length, struct lent *l, uint64_t *word)
{
    word[0] = sinkheron_decide(f->bytes, length, l->request, l->request_len);
    word[1] = sinkheron_list_pairs(f->bytes, length, l->pairs, l->pairs_len);
    word[2] = sinkheron_normal_form(f->bytes, length, l->request, l->request_len, l->space, l->space_len);
    word[3] = sinkheron_certify(f->bytes, length);
    word[4] = sinkheron_search(f->bytes, length, l->space, l->space_len);
    word[5] = sinkheron_write_text(f->bytes, length, l->space, l->space_len);
    word[6] = sinkheron_decide_flat(f->bytes, length, l->request, l->request_len);
}

static void expect_read(const char *what, const struct file *f)
{
    struct lent lent = enough;
    uint64_t word[READERS];
    read_by_all(f, f->length, &lent, word);
    for (int k = 0; k < READERS; k++)
        expect(what, sinkheron_number(word[k]), 0);
}

/* Each of them refuses the file so, also where the request and the memory are at fault, and alters nothing. */
static void expect_unread(const char *what, const struct file *f, size_t length, uint64_t wanted)
{
    const struct lent *each[] = {&enough, &nothing};
    for (int e = 0; e < 2; e++) {
        struct lent lent = *each[e];
        uint64_t word[READERS];
        memset(lent.space, KEPT, sizeof lent.space);
        memset(lent.pairs, KEPT, sizeof lent.pairs);
        read_by_all(f, length, &lent, word);
        for (int k = 0; k < READERS; k++)
            expect(what, word[k], wanted);
        expect(what, (uint64_t)is_kept(lent.space, lent.space + sizeof lent.space), 1);
        expect(what, (uint64_t)is_kept((const uint8_t *)lent.pairs, (const uint8_t *)(lent.pairs + MOST_PAIRS)), 1);
    }
}

static void unread_files(void)
{
    static struct file f;
    file(&f, A);
    expect_unread("two bytes of A", &f, 2, refused(1, 2));
    expect_unread("A cut", &f, 12, refused(3, 1));
    f.bytes[0] = 2;
    expect_unread("A of version 2", &f, f.length, refused(2, 0));
    const struct { const char *body; unsigned number; uint64_t place; } row[] = {
        {"23", 4, 4}, {"22", 4, 4}, {"22 10 0001 00", 4, 8}, {"21 21", 8, 4}, {"21 10", 8, 4}, {"21 27", 8, 4},
        {"10", 15, 3}, {"10 0001 00", 15, 3}, {"22 20", 15, 4}, {"27", 5, 3}, {"22 27", 5, 4},
        {"25 27 10", 5, 4}, {"25 10 27", 15, 4}, {"22 27 10", 5, 4}, {"22 20 27", 15, 4},
        {"22 10 2021 1011 27", 5, 9}, {"22 10 2021 1011 13", 15, 9},
        {"26", 4, 4}, {"26 21", 4, 5}, {"22 14", 4, 5}, {"22 14 10 0001 0001", 4, 10}, {"26 21 21 21", 8, 6}, {"21 26", 8, 4},
        {"14", 15, 3}, {"22 26", 15, 4}, {"26 14 27", 15, 4}, {"26 27 14", 5, 4}, {"22 14 26 15", 15, 5}, {"22 14 15 26", 5, 5},
    };
    for (size_t k = 0; k < sizeof row / sizeof *row; k++) {
        file(&f, row[k].body);
        expect_unread(row[k].body, &f, f.length, refused(row[k].number, row[k].place));
    }
}

/* Each refusal of a file, by its bytes. */
struct refused_file {
    const char *bytes;
    unsigned number;
    uint64_t place;
};

static const struct refused_file policies_refused[] = {
    {"", 1, 0}, {"01", 1, 1}, {"01 00", 1, 2}, {"00 0001 21", 2, 0}, {"02 0001 21", 2, 0}, {"01 0000 21", 3, 1}, {"01 0002 21", 3, 1},
    {"01 0100 21", 3, 1}, {"01 0000", 4, 3}, {"01 0002 25 21", 4, 5}, {"01 0005 22 10 0001 00", 4, 8}, {"01 0001 27", 5, 3},
    {"01 0002 22 15", 5, 4}, {"01 0003 22 20 20", 15, 4}, {"01 0001 10", 15, 3}, {"01 0021 32( 23 ) 21", 6, 35},
    {"01 0026 31( 23 ) 22 10 0001 0001 21", 6, 35}, {"01 0041 32( 25 ) 33( 21 )", 6, 35}, {"01 0002 21 21", 8, 4},
    {"01 0100 21( 25 23 23 23 23 23 23 23 23 23 23 21 ) 23 23 23 21", 7, 258},
};

static const struct refused_file requests_refused[] = {
    {"", 21, 0}, {"01", 21, 1}, {"01 00", 21, 2}, {"00 0000", 22, 0}, {"02 0000", 22, 0}, {"01 0001", 23, 1}, {"01 0000 00", 23, 1},
    {"01 0400 0001 0001", 23, 1}, {"01 0001 00", 24, 3}, {"01 0403 256( 0001 0001 ) 0001 00", 24, 3}, {"01 0404 257( 0001 0001 )", 25, 1027},
    {"01 0008 0001 0001 0001 0001", 26, 7}, {"01 0008 0002 0001 0001 0001", 26, 7}, {"01 000c 0001 0001 0002 0001 0001 0002", 26, 11},
};

enum { POLICIES_REFUSED = sizeof policies_refused / sizeof *policies_refused, REQUESTS_REFUSED = sizeof requests_refused / sizeof *requests_refused };

/* A policy's refusal comes before each refusal of the request. */
static void expect_policy_first(const struct refused_file *policy, const struct refused_file *request)
{
    static struct file p, q;
    uint64_t wanted = refused(policy->number, policy->place);
    whole_file(&p, policy->bytes);
    whole_file(&q, request->bytes);
    expect(policy->bytes, decide(p.bytes, p.length, q.bytes, q.length), wanted);
    expect(policy->bytes, sinkheron_normal_form(p.bytes, p.length, q.bytes, q.length, NULL, 0), wanted);
}

static void policy_before_request(void)
{
    static struct file p, q;
    file(&p, "20");
    for (size_t k = 0; k < REQUESTS_REFUSED; k++) {
        whole_file(&q, requests_refused[k].bytes);
        expect(requests_refused[k].bytes, decide(p.bytes, p.length, q.bytes, q.length),
               refused(requests_refused[k].number, requests_refused[k].place));
    }
    for (size_t k = 0; k < POLICIES_REFUSED * REQUESTS_REFUSED; k++)
        expect_policy_first(&policies_refused[k / REQUESTS_REFUSED], &requests_refused[k % REQUESTS_REFUSED]);
}

/* Where a node is due: its sort, and what stands before it and behind it. */
enum { POLICY, TARGET, NEITHER };
#define ATOM " 10 0001 0001 "
static const struct slot { int sort; const char *before, *behind; } slots[] = {
    {POLICY, "", ""}, {POLICY, "23", ""}, {POLICY, "24", ""}, {POLICY, "25", "20"}, {POLICY, "25 20", ""}, {POLICY, "22" ATOM, ""},
    {POLICY, "26", "20"}, {POLICY, "26 20", ""},
    {TARGET, "22", "20"}, {TARGET, "22 11", "20"}, {TARGET, "22 12", "20"}, {TARGET, "22 13", ATOM "20"}, {TARGET, "22 13" ATOM, "20"},
    {TARGET, "22 14", ATOM "20"}, {TARGET, "22 14" ATOM, "20"},
};

/* The tags, each with what makes a whole node of it, and bytes beside them that are none. */
static const struct met { int sort; const char *byte, *parts; } bytes_met[] = {
    {TARGET, "10", "0001 0001"}, {TARGET, "11", ATOM}, {TARGET, "12", ATOM}, {TARGET, "13", ATOM ATOM}, {TARGET, "14", ATOM ATOM},
    {POLICY, "20", ""}, {POLICY, "21", ""}, {POLICY, "22", ATOM "20"}, {POLICY, "23", "20"}, {POLICY, "24", "20"}, {POLICY, "25", "20 20"},
    {POLICY, "26", "20 20"},
    {NEITHER, "00", ""}, {NEITHER, "0f", ""}, {NEITHER, "15", ""}, {NEITHER, "1f", ""}, {NEITHER, "27", ""}, {NEITHER, "ff", ""},
};

/* A node of the sort due is read; one of the other sort is 15 at its tag, and a byte that is no tag 5 there. */
static void expect_told(const struct slot *slot, const struct met *met)
{
    static struct file f;
    char body[80];
    file(&f, slot->before);
    uint64_t refusal = refused(met->sort == NEITHER ? 5 : 15, f.length);
    sprintf(body, "%s %s %s %s", slot->before, met->byte, met->parts, slot->behind);
    file(&f, body);
    if (met->sort == slot->sort)
        expect_read(body, &f);
    else
        expect_unread(body, &f, f.length, refusal);
}

static void told_tags(void)
{
    for (size_t k = 0; k < sizeof slots / sizeof *slots; k++)
        for (size_t m = 0; m < sizeof bytes_met / sizeof *bytes_met; m++)
            expect_told(&slots[k], &bytes_met[m]);
}

/* At depth 33 a node of the sort due is 6, and 15 and 5 are as elsewhere. */
static void deep_tags(void)
{
    static struct file f;
    const struct { size_t nots; const char *end; unsigned number; } row[] = {
        {32, "20", 6}, {32, "26", 6}, {32, "10 0001 0001", 15}, {32, "14", 15}, {32, "15", 5}, {32, "27", 5},
        {31, "22 10 0001 0001 20", 6}, {31, "22 14", 6}, {31, "22 20", 15}, {31, "22 26", 15}, {31, "22 15", 5}, {31, "22 27", 5},
    };
    for (size_t k = 0; k < sizeof row / sizeof *row; k++) {
        repeated(&f, 0x23, row[k].nots, row[k].end);
        expect_unread(row[k].end, &f, f.length, refused(row[k].number, 35));
    }
}

static void append_hex(char *body, const char *part, unsigned times)
{
    while (times-- > 0)
        strcat(body, part);
}

/* So many ors, each the left side of the one before, and their leaves. */
static void nest(struct file *f, const char *front, const char *or, const char *leaf, unsigned ors, const char *end)
{
    char body[600] = "";
    append_hex(body, front, 1);
    append_hex(body, or, ors);
    append_hex(body, leaf, ors + 1);
    append_hex(body, end, 1);
    file(f, body);
}

/* The leaves of 31 ors of policies are at depth 32, and so are those of 30 ors of targets under a targeted node. */
static void deep_ors(void)
{
    static struct file f;
    nest(&f, "", "26 ", "21 ", 31, "");
    expect_read("31 ors of policies", &f);
    nest(&f, "", "26 ", "21 ", 32, "");
    expect_unread("32 ors of policies", &f, f.length, refused(6, 35));
    nest(&f, "22 ", "14 ", ATOM, 30, "21");
    expect_read("30 ors of targets", &f);
    nest(&f, "22 ", "14 ", ATOM, 31, "21");
    expect_unread("31 ors of targets", &f, f.length, refused(6, 35));
    nest(&f, "", "26 21 ", "", 31, "21");
    expect_read("31 ors on the right", &f);
    nest(&f, "", "26 21 ", "", 32, "21");
    expect_unread("32 ors on the right", &f, f.length, refused(6, 66));
}

/* An and or an or, a tree of them on its left, nots on its right and one node more are 255 nodes; then a byte. */
static void fill(struct file *f, uint8_t join, unsigned nots, uint8_t last, uint8_t byte)
{
    f->length = 3;
    f->bytes[f->length++] = join;
    tree(f, join, (254 - nots) / 2);
    memset(f->bytes + f->length, 0x23, nots);
    f->length += nots;
    f->bytes[f->length++] = last;
    f->bytes[f->length++] = byte;
    memcpy(f->bytes, "\1\1\0", 3);
}

/* Behind 255 nodes one of the sort due is 7, at depth 33 even there 6. */
static void tags_behind_255_nodes(uint8_t join)
{
    static struct file f;
    enum { LIMIT = 0 };
    static const struct { unsigned nots, number; } limit[] = {{28, 7}, {30, 6}};
    static const struct { uint8_t last, byte; unsigned number; } row[] = {
        {0x23, 0x20, LIMIT}, {0x23, 0x26, LIMIT}, {0x23, 0x10, 15}, {0x23, 0x14, 15}, {0x23, 0x15, 5}, {0x23, 0x27, 5},
        {0x22, 0x10, LIMIT}, {0x22, 0x14, LIMIT}, {0x22, 0x20, 15}, {0x22, 0x26, 15}, {0x22, 0x15, 5}, {0x22, 0x27, 5},
    };
    for (size_t n = 0; n < sizeof limit / sizeof *limit; n++)
        for (size_t k = 0; k < sizeof row / sizeof *row; k++) {
            fill(&f, join, limit[n].nots, row[k].last, row[k].byte);
            unsigned number = row[k].number == LIMIT ? limit[n].number : row[k].number;
            expect_unread("a byte behind 255 nodes", &f, f.length, refused(number, 258));
        }
}

/* ---- an or */

#define OTHER " 10 0002 0001 "

static uint64_t decided(const char *policy, const char *request)
{
    static struct file p, q;
    file(&p, policy);
    file(&q, request);
    return decide(p.bytes, p.length, q.bytes, q.length);
}

/* A targeted allow tells its target's value: 1 by allow alone, 0 by undefined alone, undefined by both. */
static void ors_of_values(void)
{
    enum { ONE = 1, ZERO = 4, UNDEFINED = 5 };
    static const struct { const char *request; unsigned value; } row[] = {
        {"00010001 00020001", ONE}, {"00010001 00020000", ONE}, {"00010001", ONE},
        {"00010000 00020001", ONE}, {"00010000 00020000", ZERO}, {"00010000", UNDEFINED},
        {"00020001", ONE}, {"00020000", UNDEFINED}, {"", UNDEFINED},
    };
    for (size_t k = 0; k < sizeof row / sizeof *row; k++)
        expect("or of values", decided("22 14" ATOM OTHER "21", row[k].request), (uint64_t)row[k].value << 8);
}

/* Policies that come to the sets 1 to 7 where the request has nothing of the name 1. */
enum { SETS = 7 };
static const char *const of_set[SETS] = {
    "21", "20", "24 22" ATOM "21", "22 12" ATOM "21", "22" ATOM "21", "22" ATOM "20", "22" ATOM "24 22" ATOM "21",
};

/* The or of each two. */
static void ors_of_sets(void)
{
    static const uint8_t wanted[SETS][SETS] = {
        {1, 1, 1, 1, 1, 1, 1}, {1, 2, 3, 4, 5, 6, 7}, {1, 3, 3, 5, 5, 7, 7}, {1, 4, 5, 4, 5, 4, 5},
        {1, 5, 5, 5, 5, 5, 5}, {1, 6, 7, 4, 5, 6, 7}, {1, 7, 7, 5, 5, 7, 7},
    };
    for (unsigned k = 0; k < SETS * SETS; k++) {
        char body[100];
        sprintf(body, "26 %s %s", of_set[k / SETS], of_set[k % SETS]);
        expect(body, decided(body, ""), (uint64_t)wanted[k / SETS][k % SETS] << 8);
    }
}

/* The subset m of (1,0), (1,1), (2,0) and (2,1) as a request's body. */
static void subset_of_four(char *body, unsigned m)
{
    static const char *const pair[] = {"00010000", "00010001", "00020000", "00020001"};
    *body = 0;
    for (unsigned k = 0; k < 4; k++)
        strcat(body, m >> k & 1 ? pair[k] : "");
}

/* The two come to the same sets, and to the same verdict with the same files. */
static void expect_same(const char *body, const char *other)
{
    static struct file p, r;
    uint8_t space[130], space_of_other[130];
    memset(space, KEPT, sizeof space);
    memset(space_of_other, KEPT, sizeof space_of_other);
    file(&p, body);
    file(&r, other);
    expect(body, sinkheron_search(p.bytes, p.length, space, sizeof space),
           sinkheron_search(r.bytes, r.length, space_of_other, sizeof space_of_other));
    expect_bytes(body, space, space_of_other, sizeof space);
    for (unsigned m = 0; m < 16; m++) {
        char request[40];
        subset_of_four(request, m);
        expect(body, decided(body, request), decided(other, request));
    }
}

/* An or is not(and(not, not)), wherever it stands. */
static void ors_by_and(void)
{
    static const struct { int sort; const char *before, *left, *right, *behind; } row[] = {
        {TARGET, "24 22", ATOM, OTHER, "21"}, {TARGET, "22 11", ATOM, OTHER, "21"}, {TARGET, "23 24 23 22", ATOM, "12" OTHER, "20"},
        {TARGET, "22 12", "11" ATOM, OTHER, "24 22" ATOM "21"}, {TARGET, "22 13" ATOM, "11" OTHER, ATOM, "20"},
        {POLICY, "", "22" ATOM "20", "22" OTHER "21", ""}, {POLICY, "24", "22 11" ATOM "21", "22" OTHER "21", ""},
        {POLICY, "23", "23 24 23 22" ATOM "20", "24 22" OTHER "21", ""}, {POLICY, "25 21", "22" ATOM "20", "20", ""},
    };
    static const char *const by_or[] = {"%s 26 %s %s %s", "%s 14 %s %s %s"};
    static const char *const by_and[] = {"%s 23 25 23 %s 23 %s %s", "%s 11 13 11 %s 11 %s %s"};
    for (size_t k = 0; k < sizeof row / sizeof *row; k++) {
        char body[150], other[150];
        sprintf(body, by_or[row[k].sort], row[k].before, row[k].left, row[k].right, row[k].behind);
        sprintf(other, by_and[row[k].sort], row[k].before, row[k].left, row[k].right, row[k].behind);
        expect_same(body, other);
    }
}

struct certificate {
    const char *body;
    unsigned rule;
};

/* A certificate's number; and what is certified is resistant. */
static void expect_certificates(const struct certificate *row, size_t count)
{
    static struct file p;
    uint8_t space[130];
    for (size_t k = 0; k < count; k++) {
        file(&p, row[k].body);
        expect(row[k].body, sinkheron_certify(p.bytes, p.length), (uint64_t)row[k].rule << 12);
        uint64_t word = sinkheron_search(p.bytes, p.length, space, sizeof space);
        expect(row[k].body, sinkheron_number(word) == 0 && (row[k].rule == 0 || sinkheron_verdict(word) == 0), 1);
    }
}

/* A targeted node that rules 3 and 4 do not like. */
#define UNPLAIN " 22 11" ATOM

/* Never allows takes both sides. Never denies takes either; it is told by a not over the or, which then never allows. */
static void never_by_or(void)
{
    static const struct certificate allows[] = {
        {"26 20 20", 1}, {"26" UNPLAIN "20" UNPLAIN "20", 1}, {"26 23" UNPLAIN "21 24" UNPLAIN "20", 1}, {"22 11" ATOM "26 20 20", 1},
        {"26" UNPLAIN "20 21", 7}, {"26 21" UNPLAIN "20", 7}, {"26" UNPLAIN "20" UNPLAIN "21", 0}, {"26" UNPLAIN "21" UNPLAIN "20", 0},
    };
    static const struct certificate denies[] = {
        {"23 26 21" UNPLAIN "20", 1}, {"23 26" UNPLAIN "20 21", 1}, {"23 26" UNPLAIN "21" UNPLAIN "21", 1},
        {"23 26 23" UNPLAIN "20" UNPLAIN "20", 1}, {"23 26" UNPLAIN "20" UNPLAIN "20", 0}, {"23 26 24" UNPLAIN "21" UNPLAIN "20", 0},
        {"23 25 21" UNPLAIN "20", 0}, {"26" UNPLAIN "21 21", 0},
    };
    expect_certificates(allows, sizeof allows / sizeof *allows);
    expect_certificates(denies, sizeof denies / sizeof *denies);
}

#define BY_3 " 23 22" ATOM "20 "
#define BY_4 " 24 22" ATOM "21 "
#define BY_5 " 24 23 22" ATOM "20 "
#define BY_6 " 25" BY_4 BY_3
#define BY_7 " 26" BY_4 BY_3

static void certificates_by_or(void)
{
    static const struct certificate smaller[] = {
        {"26 20 21", 2}, {"24 26 20 23 20", 2}, {"26" BY_3 "22" OTHER "21", 3}, {"26" BY_4 "22" OTHER "21", 4}, {"24" BY_7, 5},
    };
    static const struct certificate plain[] = {
        {"22 14" ATOM OTHER "21", 3}, {"22 12 14" ATOM "14" OTHER "13" ATOM OTHER "21", 3}, {"24 22 14" ATOM "12" OTHER "21", 4},
        {"22 14 11" ATOM OTHER "21", 0}, {"22 14" ATOM "11" OTHER "21", 0}, {"22 11 14" ATOM OTHER "21", 0},
        {"24 22 14" ATOM "14 11" OTHER ATOM "21", 0},
    };
    static const struct certificate two[] = {
        {BY_7, 7}, {"26" BY_3 BY_4, 7}, {"26" BY_5 "20", 7}, {"26 21" BY_5, 7}, {"26" BY_5 BY_5, 7}, {"26" BY_6 BY_6, 7}, {"26" BY_7 BY_7, 7},
        {"25" BY_7 "21", 6}, {"25 21" BY_7, 6}, {"25" BY_7 BY_7, 6}, {BY_6, 6}, {BY_5, 5},
    };
    static const struct certificate one_or_none[] = {
        {"26" UNPLAIN "21" BY_4, 0}, {"26" BY_4 UNPLAIN "21", 0}, {"26" UNPLAIN "21" BY_7, 0}, {"26" BY_7 UNPLAIN "21", 0},
        {"26" UNPLAIN "21" UNPLAIN "21", 0}, {"25" BY_7 UNPLAIN "21", 0}, {"25" UNPLAIN "21" BY_7, 0}, {"24 26" BY_7 UNPLAIN "21", 0},
        {"22" ATOM BY_7, 0}, {"23 26" BY_4 BY_4, 0},
    };
    expect_certificates(smaller, sizeof smaller / sizeof *smaller);
    expect_certificates(plain, sizeof plain / sizeof *plain);
    expect_certificates(two, sizeof two / sizeof *two);
    expect_certificates(one_or_none, sizeof one_or_none / sizeof *one_or_none);
}

static void pairs_through_or(void)
{
    static struct file p, q;
    static const uint32_t wanted[] = {0x00000, 0x00001, 0x10000, 0x10002, 0x10003, 0x20000, 0x20001};
    static const uint8_t normal[] = {1, 0, 16, 0, 0, 0, 1, 0, 1, 0, 0, 0, 1, 0, 3, 0, 2, 0, 1};
    uint32_t pairs[7];
    uint8_t space[sizeof normal];
    file(&p, "26 22 14 10 0001 0002" OTHER "21 22 14 10 0001 0003 10 0000 0000 20");
    expect("pairs through ors", sinkheron_list_pairs(p.bytes, p.length, pairs, 7), (uint64_t)7 << 16);
    expect_bytes("the pairs through ors", (const uint8_t *)pairs, (const uint8_t *)wanted, sizeof wanted);
    file(&q, "00000005 00010003 00010009 00020001 00030001");
    expect("normal form through ors", sinkheron_normal_form(p.bytes, p.length, q.bytes, q.length, space, sizeof space), (uint64_t)19 << 32);
    expect_bytes("its file", space, normal, sizeof normal);
}

/* Of each the first exposure, and the two requests that show it. */
static void exposures_through_or(void)
{
    static struct file p;
    static const struct { const char *body; unsigned m, i; size_t length; uint8_t files[26]; } row[] = {
        {"22 11 14" ATOM OTHER "21", 7, 1, 26, {1, 0, 8, 0, 1, 0, 0, 0, 2, 0, 0, 1, 0, 12, 0, 1, 0, 0, 0, 1, 0, 1, 0, 2, 0, 0}},
        {"26 22 11" OTHER "21 22" ATOM "21", 12, 3, 18, {1, 0, 4, 0, 2, 0, 0, 1, 0, 8, 0, 2, 0, 0, 0, 2, 0, 1}},
    };
    for (size_t k = 0; k < sizeof row / sizeof *row; k++) {
        uint8_t space[130];
        memset(space, KEPT, sizeof space);
        file(&p, row[k].body);
        expect(row[k].body, sinkheron_search(p.bytes, p.length, space, sizeof space), exposed(4, (unsigned)row[k].length, row[k].m, row[k].i));
        expect_bytes(row[k].body, space, row[k].files, row[k].length);
        expect(row[k].body, (uint64_t)is_kept(space + row[k].length, space + sizeof space), 1);
    }
}

/* Of eight names, so of 16 pairs: allow if it is known of each name that it is not 1; allow if it is known of some name. */
static void wide_exposures_through_or(void)
{
    static struct file p;
    uint8_t space[130];
    char targets[300] = "22 11 ", policies[300] = "", one[40];
    for (int k = 1; k <= 8; k++) {
        sprintf(one, "%s 10 %04x 0001 ", k < 8 ? "14" : "", k);
        strcat(targets, one);
        sprintf(one, "%s 22 11 10 %04x 0001 21 ", k < 8 ? "26" : "", k);
        strcat(policies, one);
    }
    strcat(targets, "21");
    file(&p, targets);
    expect("an or of eight targets", sinkheron_search(p.bytes, p.length, space, sizeof space), exposed(16, 74, 0x5557, 1));
    file(&p, policies);
    expect("an or of eight policies", sinkheron_search(p.bytes, p.length, space, sizeof space), exposed(16, 18, 3, 1));
}

static void an_or(void)
{
    ors_of_values();
    ors_of_sets();
    ors_by_and();
    never_by_or();
    certificates_by_or();
    pairs_through_or();
    exposures_through_or();
    wide_exposures_through_or();
}

/* ---- deciding without calls that nest: what a walk from the last node to the first might take wrongly */

struct decided_row {
    const char *policy, *request;
    unsigned set;
};

static void expect_sets(const struct decided_row *row, size_t count)
{
    for (size_t k = 0; k < count; k++)
        expect(row[k].policy, decided(row[k].policy, row[k].request), (uint64_t)row[k].set << 8);
}

/* 31 joins, each the left side of the one before, and 32 leaves: when the walk comes to the joins it holds 32 values. The first leaf is the
 * innermost, the last the side of the first join. Where ands and ors take turns each side leaves the other side as it is, so that all
 * comes to the innermost leaf; one leaf taken for the next one, and an and has a deny beside it. */
static void left_deep_rows(void)
{
    static const struct decided_row joins[] = {
        {"31( 25 ) 32( 21 )", "", 1}, {"31( 25 ) 20 31( 21 )", "", 2}, {"31( 25 ) 31( 21 ) 20", "", 2},
        {"31( 26 ) 32( 20 )", "", 2}, {"31( 26 ) 21 31( 20 )", "", 1}, {"31( 26 ) 31( 20 ) 21", "", 1},
        {"15( 25 26 ) 25 21 15( 21 20 ) 21", "", 1}, {"15( 25 26 ) 25 20 15( 21 20 ) 21", "", 2},
        {"15( 26 25 ) 26 21 15( 20 21 ) 20", "", 1}, {"15( 26 25 ) 26 20 15( 20 21 ) 20", "", 2},
    };
    static const struct decided_row targets[] = {
        {"22 30( 13 ) 31(" ATOM ") 21", "00010001", 1}, {"22 30( 13 ) 31(" ATOM ") 21", "00010000", 4}, {"22 30( 13 ) 31(" ATOM ") 21", "", 5},
        {"22 30( 14 ) 31(" ATOM ") 20", "00010001", 2}, {"22 30( 14 ) 31(" ATOM ") 20", "00010000", 4}, {"22 30( 14 ) 31(" ATOM ") 20", "", 6},
    };
    expect_sets(joins, sizeof joins / sizeof *joins);
    expect_sets(targets, sizeof targets / sizeof *targets);
}

/* The same with a targeted node among the joins, of which the innermost leaf, (2,1), is the target: the atoms beside it, (1,0) in an or and
 * (1,1) in an and, are 0 and 1. */
static void left_deep_targeted_rows(void)
{
    static const char *const over_deny = "7( 25 26 ) 22 8( 13 14 )" OTHER "8( 10 0001 0000 10 0001 0001 ) 20 7( 20 21 )";
    static const char *const over_allow = "22 15( 13 14 )" OTHER "15( 10 0001 0000 10 0001 0001 ) 21";
    const struct decided_row row[] = {
        {over_deny, "00010001 00020001", 2}, {over_deny, "00010001 00020000", 4}, {over_deny, "00010001", 6},
        {over_allow, "00010001 00020001", 1}, {over_allow, "00010001 00020000", 4}, {over_allow, "00010001", 5},
    };
    expect_sets(row, sizeof row / sizeof *row);
}

/* The next of the chain on the right: few values wait. A not turns the leaf round, 31 of them as one does. */
static void other_deep_rows(void)
{
    static const struct decided_row right[] = {
        {"31( 25 21 ) 21", "", 1}, {"31( 25 21 ) 20", "", 2}, {"31( 26 20 ) 20", "", 2}, {"31( 26 20 ) 21", "", 1},
        {"15( 25 21 26 20 ) 25 21 21", "", 1}, {"15( 25 21 26 20 ) 25 21 20", "", 2},
        {"31( 22" ATOM ") 21", "00010001", 1}, {"31( 22" ATOM ") 21", "00010000", 4}, {"31( 22" ATOM ") 21", "", 5},
        {"22 30( 13" ATOM ")" OTHER "20", "00010001 00020001", 2}, {"22 30( 13" ATOM ")" OTHER "20", "00010001 00020000", 4},
        {"22 30( 13" ATOM ")" OTHER "20", "00010001", 6}, {"22 30( 14" ATOM ")" OTHER "20", "00010000 00020001", 2},
    };
    static const struct decided_row nots[] = {
        {"31( 23 ) 21", "", 2}, {"30( 23 ) 21", "", 1}, {"31( 24 ) 21", "", 1}, {"31( 24 ) 20", "", 2}, {"22 30( 11 )" ATOM "21", "00010001", 1},
        {"22 29( 11 )" ATOM "21", "00010001", 4}, {"22 30( 12 )" ATOM "21", "", 4}, {"29( 24 ) 22" ATOM "21", "", 3},
    };
    expect_sets(right, sizeof right / sizeof *right);
    expect_sets(nots, sizeof nots / sizeof *nots);
}

/* A number of an atom may look like nodes. Of the values of (n, v): 1 where the request has the pair, 0 where it has another of that name. */
static void numbers_like_nodes(void)
{
    static const struct decided_row one[] = {
        {"22 10 2021 1011 21", "20211011", 1}, {"22 10 2021 1011 21", "20211010", 4}, {"22 10 2021 1011 21", "", 5},
        {"22 11 10 1112 1314 20", "11120000", 2}, {"22 11 10 1112 1314 20", "11121314", 4}, {"22 11 10 1112 1314 20", "", 6},
        {"22 10 2322 2324 20", "23222324", 2}, {"23 22 10 2323 2323 20", "23232323", 1}, {"24 22 10 2424 1224 21", "", 3},
    };
    static const struct decided_row two[] = {
        {"22 13 10 2526 2222 10 1010 1010 21", "10101010 25262222", 1}, {"22 13 10 2526 2222 10 1010 1010 21", "10101010 25260000", 4},
        {"22 13 10 2526 2222 10 1010 1010 21", "10101010", 5}, {"22 14 10 2023 2424 12 10 2120 2521 20", "20232424", 2},
        {"22 14 10 2023 2424 12 10 2120 2521 20", "20230000", 4}, {"22 14 10 2023 2424 12 10 2120 2521 20", "", 6},
        {"25 22 10 2020 2020 21 22 10 2121 2121 21", "20202020 21212121", 1}, {"25 22 10 2020 2020 21 22 10 2121 2121 21", "20202020", 5},
        {"25 22 10 2020 2020 21 22 10 2121 2121 21", "20200000 21212121", 4}, {"22 30( 13 ) 31( 10 2021 1011 ) 20", "20211011", 2},
        {"22 30( 14 ) 31( 10 1313 2525 ) 21", "13130000", 4},
    };
    expect_sets(one, sizeof one / sizeof *one);
    expect_sets(two, sizeof two / sizeof *two);
}

/* A target at 1 leaves the body's set, at 0 undefined alone, and undefined adds undefined. Taken for each other, a deny for a target and an
 * atom at 1 for a body give undefined alone in the place of deny. */
static void targets_and_bodies(void)
{
    for (unsigned set = 1; set <= SETS; set++) {
        char body[100];
        sprintf(body, "22" OTHER "%s", of_set[set - 1]);
        expect(body, decided(body, "00020001"), (uint64_t)set << 8);
        expect(body, decided(body, "00020000"), (uint64_t)4 << 8);
        expect(body, decided(body, ""), (uint64_t)(set | 4) << 8);
    }
}

/* 128 leaves, allow under ands and deny under ors, but for one: 255 nodes. */
static void odd_tree(struct file *f, uint8_t join, unsigned odd)
{
    unsigned leaf = 0;
    tree(f, join, 128);
    for (size_t at = f->length - 255; at < f->length; at++)
        if (f->bytes[at] != join)
            f->bytes[at] = (uint8_t)(0x20 + ((join == 0x25) ^ (leaf++ == odd)));
    put_frame(f);
}

/* One deny makes ands deny and one allow makes ors allow, wherever it stands; the last tree has none. A not over it is a 256th node. */
static void most_nodes_decided(uint8_t join)
{
    static struct file p;
    static const uint8_t no_facts[] = {1, 0, 0};
    for (unsigned odd = 0; odd <= 128; odd++) {
        p.length = 3;
        odd_tree(&p, join, odd);
        uint64_t set = (join == 0x25) ^ (odd < 128) ? 1 : 2;
        expect("255 nodes are decided", decide(p.bytes, p.length, no_facts, sizeof no_facts), set << 8);
    }
    p.length = 4;
    p.bytes[3] = 0x23;
    odd_tree(&p, join, 128);
    expect("256 nodes are not", decide(p.bytes, p.length, no_facts, sizeof no_facts), refused(7, 258));
}

/* A chain of 31 links, each on the left of the one before: ands and ors, and among them at most one targeted node, below which they are of
 * targets. It has 32 leaves: the innermost, which is number 0, and then the links' other sides from the innermost to the outermost. */
enum { LINKS = 31 };

/* The values in this order: of two, an and comes to the smaller and an or to the larger. */
enum value { ZERO_VALUE, UNDEFINED_VALUE, ONE_VALUE };

struct chain {
    unsigned targeted; /* the link that is the targeted node, the outermost being 0; none if it is LINKS */
    uint32_t ors;      /* bit k: link k is an or */
    enum value value[LINKS + 1];
};

static int is_target(const struct chain *c, unsigned leaf) { return LINKS - leaf > c->targeted; }

/* A target is the atom (its number, 1), whose value the request gives it; a policy is deny, undefined (a target of 0), allow. */
static void put_leaf(struct file *f, const struct chain *c, unsigned leaf)
{
    static const char *const of_value[] = {"20", "22 12 10 ffff ffff 21", "21"};
    if (is_target(c, leaf)) {
        put_hex(f, "10 00");
        put_byte(f, leaf);
        put_hex(f, "0001");
    } else {
        put_hex(f, of_value[c->value[leaf]]);
    }
}

static void put_chain(struct file *f, const struct chain *c)
{
    for (unsigned k = 0; k < LINKS; k++)
        put_byte(f, k == c->targeted ? 0x22 : (k < c->targeted ? 0x25 : 0x13) + (c->ors >> k & 1));
    for (unsigned leaf = 0; leaf <= LINKS; leaf++)
        put_leaf(f, c, leaf);
}

/* For a target at 1 the pair itself, at 0 another of its name, undefined none of its name. */
static void put_facts(struct file *f, const struct chain *c)
{
    for (unsigned leaf = 0; leaf <= LINKS; leaf++)
        if (is_target(c, leaf) && c->value[leaf] != UNDEFINED_VALUE) {
            put_byte(f, 0);
            put_byte(f, leaf);
            put_byte(f, 0);
            put_byte(f, c->value[leaf] == ONE_VALUE);
        }
}

/* What comes of a value at a link. A targeted node with an undefined target comes to two: its body, and undefined; `guarded` asks for the
 * first. Members of a set act one by one. */
static enum value linked(const struct chain *c, unsigned link, enum value inner, int guarded)
{
    enum value side = c->value[LINKS - link];
    if (link == c->targeted)
        return inner == ONE_VALUE || (inner == UNDEFINED_VALUE && guarded) ? side : UNDEFINED_VALUE;
    int is_or = c->ors >> link & 1;
    return (side > inner) == is_or ? side : inner;
}

/* The chain is a fold: from the innermost leaf outwards, link by link. */
static unsigned folded(const struct chain *c, int guarded)
{
    static const unsigned code[] = {2, 4, 1};
    enum value value = c->value[0];
    for (unsigned link = LINKS; link-- > 0;)
        value = linked(c, link, value, guarded);
    return code[value];
}

static uint32_t pattern(uint32_t *state)
{
    *state = *state * 1664525 + 1013904223;
    return *state >> 8;
}

/* Most sides leave the value as it is, in every second chain all but one in 32, so that what is deep inside shows. An undefined policy takes two
 * nodes more below it, for which there is no depth at the last links. */
static void make_chain(struct chain *c, unsigned targeted, uint32_t seed)
{
    uint32_t state = seed * 32 + targeted, one_in = seed % 2 == 0 ? 32 : 4;
    c->targeted = targeted;
    c->ors = pattern(&state) << 16 ^ pattern(&state);
    for (unsigned leaf = 0; leaf <= LINKS; leaf++) {
        int keeps = leaf > 0 && pattern(&state) % one_in != 0, is_or = leaf > 0 && (c->ors >> (LINKS - leaf) & 1);
        c->value[leaf] = keeps ? (is_or ? ZERO_VALUE : ONE_VALUE) : (enum value)(pattern(&state) % 3);
        if (leaf < 3 && !is_target(c, leaf) && c->value[leaf] == UNDEFINED_VALUE)
            c->value[leaf] = ONE_VALUE;
    }
}

/* The chain, and what it comes to; a not over it is one too deep, at the innermost leaf. */
static void expect_chain(const struct chain *c)
{
    static struct file p, q;
    p.length = q.length = 3;
    put_chain(&p, c);
    put_frame(&p);
    put_facts(&q, c);
    put_frame(&q);
    expect("a chain that fills the stack", decide(p.bytes, p.length, q.bytes, q.length), (uint64_t)(folded(c, 1) | folded(c, 0)) << 8);
    p.length = 3;
    put_byte(&p, 0x23);
    put_chain(&p, c);
    put_frame(&p);
    expect("a chain that is one deeper", decide(p.bytes, p.length, q.bytes, q.length), refused(6, 35));
}

static void chains(void)
{
    enum { SEEDS = 40 };
    for (unsigned k = 0; k < SEEDS * (LINKS + 1); k++) {
        struct chain c;
        make_chain(&c, k % (LINKS + 1), 1 + k / (LINKS + 1));
        expect_chain(&c);
    }
}

static void without_nested_calls(void)
{
    left_deep_rows();
    left_deep_targeted_rows();
    other_deep_rows();
    numbers_like_nodes();
    targets_and_bodies();
    most_nodes_decided(0x25);
    most_nodes_decided(0x26);
    chains();
}

/* ---- the written form */

struct text {
    size_t length;
    char bytes[80000];
};

static void append(struct text *t, const char *end)
{
    size_t more = strlen(end);
    memcpy(t->bytes + t->length, end, more);
    t->length += more;
}

static void append_times(struct text *t, const char *end, unsigned times)
{
    while (times-- > 0)
        append(t, end);
}

static void text(struct text *t, const char *bytes)
{
    t->length = 0;
    append(t, bytes);
}

static uint64_t length_word(uint64_t length) { return length << 32; }

/* The text is refused, and no byte of the space is altered. */
static void expect_refused(const char *what, const struct text *t, unsigned number, uint64_t place)
{
    uint8_t space[LONGEST_FILE];
    memset(space, KEPT, sizeof space);
    expect(what, sinkheron_read_text((const uint8_t *)t->bytes, t->length, space, sizeof space), refused(number, place));
    expect(what, (uint64_t)is_kept(space, space + sizeof space), 1);
}

/* Text to file and back in spaces that just suffice and in larger ones; one byte less is 13. */
static void expect_both_forms(const char *what, const struct text *t, const struct file *f)
{
    uint8_t file_space[LONGEST_FILE + 1], line_space[LONGEST_LINE + 1];
    const uint8_t *line = (const uint8_t *)t->bytes;
    memset(file_space, KEPT, sizeof file_space);
    memset(line_space, KEPT, sizeof line_space);
    expect(what, sinkheron_read_text(line, t->length, file_space, f->length - 1), refused(13, 0));
    expect(what, sinkheron_write_text(f->bytes, f->length, line_space, t->length - 1), refused(13, 0));
    expect(what, (uint64_t)is_kept(file_space, file_space + sizeof file_space), 1);
    expect(what, (uint64_t)is_kept(line_space, line_space + sizeof line_space), 1);
    expect(what, sinkheron_read_text(line, t->length, file_space, f->length), length_word(f->length));
    expect(what, sinkheron_write_text(f->bytes, f->length, line_space, t->length), length_word(t->length));
    expect(what, sinkheron_read_text(line, t->length, file_space, sizeof file_space), length_word(f->length));
    expect(what, sinkheron_write_text(f->bytes, f->length, line_space, sizeof line_space), length_word(t->length));
    expect_bytes(what, file_space, f->bytes, f->length);
    expect_bytes(what, line_space, line, t->length);
    expect(what, (uint64_t)is_kept(file_space + f->length, file_space + sizeof file_space), 1);
    expect(what, (uint64_t)is_kept(line_space + t->length, line_space + sizeof line_space), 1);
}

static void lines(void)
{
    static struct file f;
    static struct text t;
    const struct { const char *line, *body; } row[] = {
        {"pnot pdbd pnot ptar tatom 1 1 pzero\n", A},
        {"pdbd ptar tatom 1 2 pone\n", B},
        {"ptar tnot tatom 1 1 pone\n", C},
        {"ptar tnot topt tatom 1 1 pone\n", D},
        {"pnot pnot pdbd ptar tatom 1 2 pone\n", E},
        {"pone\n", F},
        {"pzero\n", "20"},
        {"pand pzero ptar tand tatom 0 65535 topt tatom 256 10 pone\n", "25 20 22 13 10 0000 ffff 12 10 0100 000a 21"},
        {"pdbd ptar tor tatom 1 2 tatom 2 1 pone\n", G},
        {"por pzero por ptar tor tnot tatom 0 65535 tor tatom 1 2 tand tatom 3 4 tatom 5 6 pone pand pone por pzero pone\n",
         "26 20 26 22 14 11 10 0000 ffff 14 10 0001 0002 13 10 0003 0004 10 0005 0006 21 25 21 26 20 21"},
    };
    for (size_t k = 0; k < sizeof row / sizeof *row; k++) {
        text(&t, row[k].line);
        file(&f, row[k].body);
        expect_both_forms(row[k].line, &t, &f);
    }
}

/* Each way a text can be refused, with its place. */
struct fault {
    const char *text;
    uint64_t place;
};

static void expect_each_refused(unsigned number, const struct fault *row, size_t count)
{
    static struct text t;
    for (size_t k = 0; k < count; k++) {
        text(&t, row[k].text);
        expect_refused(row[k].text, &t, number, row[k].place);
    }
}

static void texts_with_another_word(void)
{
    static const struct fault word[] = {
        {"tatom 1 1\n", 0}, {"ptar pzero pzero\n", 5}, {"ptar tnot pone pzero\n", 10}, {"ptar tatom 1 1 tatom 1 1\n", 15}, {"7\n", 0},
        {"pzer\n", 0}, {"pzeros\n", 0}, {"pnot Pzero\n", 5}, {"pnot p", 5}, {"pnot pon\xe9\n", 5}, {"pzero\r\n", 0}, {"pnot\tpzero\n", 0},
        {"tor tatom 1 1 tatom 1 1\n", 0}, {"por tor pone\n", 4}, {"por pone tor\n", 9}, {"ptar por pone pone\n", 5}, {"ptar tor por\n", 9},
        {"ptar tor tatom 1 1 pone\n", 19}, {"ptar tatom 1 1 tor\n", 15}, {"po pone pone\n", 0}, {"pora pone pone\n", 0}, {"or pone pone\n", 0},
        {"porpone pone\n", 0}, {"por\tpone pone\n", 0}, {"Por pone pone\n", 0}, {"ptar to", 5}, {"ptar tors", 5}, {"ptar tar", 5},
    };
    static const struct fault no_word[] = {{"\n", 0}, {" pzero\n", 0}, {"pnot  pzero\n", 5}, {"pnot \n", 5}, {"pand pone \n", 10},
                                           {"por  pone pone\n", 4}, {"por pone \n", 9}, {"ptar tor  tatom 1 1\n", 9}};
    static const struct fault no_space[] = {
        {"pnot\npzero\n", 4}, {"ptar tatom\n1 1 pone\n", 10}, {"ptar tatom 1\n1 pone\n", 12}, {"ptar tatom 1 1\npone\n", 14},
        {"por\npone pone\n", 3}, {"por pone\npone\n", 8}, {"ptar tor\n", 8},
    };
    expect_each_refused(51, word, sizeof word / sizeof *word);
    expect_each_refused(51, no_word, sizeof no_word / sizeof *no_word);
    expect_each_refused(51, no_space, sizeof no_space / sizeof *no_space);
}

static void texts_without_a_number(void)
{
    static const struct fault name[] = {
        {"ptar tatom ", 11}, {"ptar tatom \n", 11}, {"ptar tatom  1 pone\n", 11}, {"ptar tatom pone\n", 11}, {"ptar tatom 01 1 pone\n", 11},
        {"ptar tatom +1 1 pone\n", 11}, {"ptar tatom -0 1 pone\n", 11}, {"ptar tatom 1x 1 pone\n", 11}, {"ptar tatom 0x1 1 pone\n", 11},
        {"ptar tatom 1.0 1 pone\n", 11}, {"ptar tatom 1\t1 pone\n", 11}, {"ptar tatom 99999", 11}, {"ptar tatom 65536 1 pone\n", 11},
        {"ptar tatom 65537 1 pone\n", 11}, {"ptar tatom 4294967297 1 pone\n", 11}, {"ptar tatom 18446744073709551617 1 pone\n", 11},
    };
    static const struct fault value[] = {
        {"ptar tatom 1 ", 13}, {"ptar tatom 1  pone\n", 13}, {"ptar tatom 1 00 pone\n", 13}, {"ptar tatom 1 -1 pone\n", 13},
        {"ptar tatom 1 65536 pone\n", 13}, {"ptar tatom 1 12345678901234567890 pone\n", 13}, {"ptar tatom 1 1\r\n", 13},
    };
    expect_each_refused(52, name, sizeof name / sizeof *name);
    expect_each_refused(52, value, sizeof value / sizeof *value);
}

static void texts_that_end_early(void)
{
    static const struct fault row[] = {
        {"", 0}, {"pnot ", 5}, {"ptar tatom 1 1 ", 15}, {"pnot", 4}, {"ptar tatom", 10}, {"ptar tatom 1", 12}, {"ptar tatom 1 1", 14}, {"pzero", 5},
        {"por", 3}, {"por ", 4}, {"por pone", 8}, {"por pone ", 9}, {"por pone pone", 13}, {"ptar tor", 8}, {"ptar tor ", 9},
        {"ptar tor tatom 1 1 ", 19},
    };
    expect_each_refused(53, row, sizeof row / sizeof *row);
}

static void texts_that_go_on(void)
{
    static const struct fault row[] = {
        {"pzero \n", 5}, {"pzero ", 5}, {"pzero pzero\n", 5}, {"ptar tatom 1 1 pone pone\n", 19},
        {"pzero\n\n", 6}, {"pzero\npzero\n", 6}, {"pzero\n ", 6}, {"por pone pone pone\n", 13}, {"por pone pone\n\n", 14},
    };
    expect_each_refused(54, row, sizeof row / sizeof *row);
}

static void texts_with_a_zero_byte(void)
{
    static struct text t;
    memcpy(t.bytes, "pzero\n\0", 7);
    t.length = 7;
    expect_refused("a zero byte behind the line", &t, 54, 6);
    memcpy(t.bytes, "pone\0\n", 6);
    t.length = 6;
    expect_refused("a zero byte behind the word", &t, 51, 0);
}

/* No limit on the length of a text but the refusals'. */
static void long_texts(void)
{
    static struct text t;
    text(&t, "ptar tatom ");
    append_times(&t, "1", 1000);
    append(&t, " 1 pone\n");
    expect_refused("a number of a thousand digits", &t, 52, 11);
    text(&t, "ptar tatom 1 ");
    append_times(&t, "0", 70000);
    expect_refused("70,000 zeros", &t, 52, 13);
    text(&t, "pnot ");
    append_times(&t, "p", 70000);
    expect_refused("a word of 70,000 letters", &t, 51, 5);
    text(&t, "pone\n");
    append_times(&t, "pone\n", 14000);
    expect_refused("70,000 bytes behind the line", &t, 54, 5);
}

static void deep_texts(void)
{
    static struct file f;
    static struct text t;
    text(&t, "");
    append_times(&t, "pnot ", 31);
    append(&t, "pzero\n");
    repeated(&f, 0x23, 31, "20");
    expect_both_forms("31 nots as text", &t, &f);
    const struct { const char *what, *end; unsigned number; } row[] = {
        {"32 nots as text", "pzero\n", 6}, {"6 where the text then ends", "pzero", 6}, {"51 before 6", "pzera\n", 51},
        {"a target's word, 51 before 6", "tnot\n", 51}, {"no word, 51 before 6", " \n", 51}, {"the end, 53", "", 53},
    };
    for (size_t k = 0; k < sizeof row / sizeof *row; k++) {
        text(&t, "");
        append_times(&t, "pnot ", 32);
        append(&t, row[k].end);
        expect_refused(row[k].what, &t, row[k].number, 32 * 5);
    }
    text(&t, "");
    append_times(&t, "pnot ", 31);
    append(&t, "ptar tatom 1 1 pzero\n");
    expect_refused("a target at depth 33", &t, 6, 32 * 5);
}

/* Nested ors as in deep_ors. */
static void deep_or_texts(void)
{
    static struct file f;
    static struct text t;
    text(&t, "");
    append_times(&t, "por ", 31);
    append_times(&t, "pone ", 31);
    append(&t, "pone\n");
    nest(&f, "", "26 ", "21 ", 31, "");
    expect_both_forms("31 ors of policies as text", &t, &f);
    text(&t, "ptar ");
    append_times(&t, "tor ", 30);
    append_times(&t, "tatom 1 1 ", 31);
    append(&t, "pone\n");
    nest(&f, "22 ", "14 ", ATOM, 30, "21");
    expect_both_forms("30 ors of targets as text", &t, &f);
    text(&t, "");
    append_times(&t, "por ", 32);
    append(&t, "pone\n");
    expect_refused("32 ors of policies as text", &t, 6, 32 * 4);
    text(&t, "ptar ");
    append_times(&t, "tor ", 31);
    append(&t, "tatom 1 1\n");
    expect_refused("31 ors of targets as text", &t, 6, 5 + 31 * 4);
}

/* An and or an or as a byte and as a word with the space behind it. */
struct join {
    uint8_t tag;
    const char *word;
};

static const struct join ands = {0x25, "pand "}, ors = {0x26, "por "};

/* A tree of so many leaves: twice as many words less one. */
static void append_tree(struct text *t, const struct join *join, unsigned leaves)
{
    if (leaves > 1) {
        append(t, join->word);
        append_tree(t, join, leaves / 2);
        append_tree(t, join, leaves - leaves / 2);
    } else {
        append(t, "pone ");
    }
}

/* `last` is the place of the 256th word, where a not stands over 255. */
static void broad_texts(const struct join *join, uint64_t last)
{
    static struct file f;
    static struct text t;
    f.length = 3;
    tree(&f, join->tag, 128);
    memcpy(f.bytes, "\1\0\377", 3);
    text(&t, "");
    append_tree(&t, join, 128);
    t.bytes[t.length - 1] = '\n';
    expect_both_forms("255 nodes as text", &t, &f);
    const struct { const char *what, *end; unsigned number; } row[] = {
        {"a 256th node as text", "pone\n", 7}, {"7 where the text then ends", "pone", 7}, {"51 before 7", "pona\n", 51}, {"the end, 53", "", 53},
    };
    for (size_t k = 0; k < sizeof row / sizeof *row; k++) {
        text(&t, "pnot ");
        append_tree(&t, join, 128);
        t.length -= 5;
        append(&t, row[k].end);
        expect_refused(row[k].what, &t, row[k].number, last);
    }
}

/* An and or an or, 223 nodes on its left and 31 nots on its right are 255; the next word, at `last`, is the 256th and at depth 33. */
static void deep_and_broad_texts(const struct join *join, uint64_t last)
{
    static struct text t;
    const struct { const char *what, *end; unsigned number; } row[] = {
        {"6 before 7", "pone\n", 6}, {"51 before 6 and 7", "pona\n", 51},
    };
    for (size_t k = 0; k < sizeof row / sizeof *row; k++) {
        text(&t, join->word);
        append_tree(&t, join, 112);
        append_times(&t, "pnot ", 31);
        append(&t, row[k].end);
        expect_refused(row[k].what, &t, row[k].number, last);
    }
}

static void add_hex_targets(char *body, unsigned atoms)
{
    if (atoms > 1) {
        strcat(body, "13 ");
        add_hex_targets(body, atoms / 2);
        add_hex_targets(body, atoms - atoms / 2);
    } else {
        strcat(body, "10 ffff ffff ");
    }
}

static void append_targets(struct text *t, unsigned atoms)
{
    if (atoms > 1) {
        append(t, "tand ");
        append_targets(t, atoms / 2);
        append_targets(t, atoms - atoms / 2);
    } else {
        append(t, "tatom 65535 65535 ");
    }
}

/* 127 atoms of the longest numbers, 126 ands over them, and pzero, the longer leaf: no policy is longer in either form. */
static void longest(void)
{
    static struct file f;
    static struct text t;
    static char body[4000] = "22 ";
    add_hex_targets(body, 127);
    strcat(body, "20");
    file(&f, body);
    text(&t, "ptar ");
    append_targets(&t, 127);
    append(&t, "pzero\n");
    expect("the longest file", f.length, LONGEST_FILE);
    expect("the longest line", t.length, LONGEST_LINE);
    expect_both_forms("the longest policy", &t, &f);
}

/* 13 comes behind every other refusal; with no space at all a text or file at fault still gets its own. */
static void no_space(void)
{
    const uint8_t *line = (const uint8_t *)"pone\n ", *cut = (const uint8_t *)"ptar tatom 1";
    expect("no space", sinkheron_read_text(line, 5, NULL, 0), refused(13, 0));
    expect("54 before 13", sinkheron_read_text(line, 6, NULL, 0), refused(54, 5));
    expect("53 before 13", sinkheron_read_text(cut, 12, NULL, 0), refused(53, 12));
    expect("52 before 13", sinkheron_read_text(cut, 11, NULL, 0), refused(52, 11));
    expect("51 before 13", sinkheron_read_text(cut, 9, NULL, 0), refused(51, 5));
}

static void nulls(void)
{
    static struct file p;
    file(&p, F);
    expect("NULL policy", decide(NULL, 0, NULL, 0), refused(1, 0));
    expect("NULL request", decide(p.bytes, p.length, NULL, 0), refused(21, 0));
    expect("NULL space", sinkheron_search(p.bytes, p.length, NULL, 0), refused(13, 0));
    expect("NULL pairs, and none to list", sinkheron_list_pairs(p.bytes, p.length, NULL, 0), 0);
    expect("NULL certify", sinkheron_certify(NULL, 0), refused(1, 0));
    expect("NULL text", sinkheron_read_text(NULL, 0, NULL, 0), refused(53, 0));
    expect("NULL policy to write", sinkheron_write_text(NULL, 0, NULL, 0), refused(1, 0));
    expect("NULL space to write to", sinkheron_write_text(p.bytes, p.length, NULL, 0), refused(13, 0));
}

int main(void)
{
    sets();
    verdicts();
    files_of_A();
    pairs_and_normal_forms();
    edges();
    most_nodes(0x25);
    most_nodes(0x26);
    unread_files();
    policy_before_request();
    told_tags();
    deep_tags();
    deep_ors();
    tags_behind_255_nodes(0x25);
    tags_behind_255_nodes(0x26);
    an_or();
    without_nested_calls();
    lines();
    texts_with_another_word();
    texts_without_a_number();
    texts_that_end_early();
    texts_that_go_on();
    texts_with_a_zero_byte();
    long_texts();
    deep_texts();
    deep_or_texts();
    broad_texts(&ands, 1275);
    broad_texts(&ors, 1148);
    deep_and_broad_texts(&ands, 1275);
    deep_and_broad_texts(&ors, 1163);
    longest();
    no_space();
    nulls();
    printf("%d passed, %d failed\n", passed, failed);
    return failed != 0;
}
