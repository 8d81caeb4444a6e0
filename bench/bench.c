/* The library through its C face beside hand-written C, on the same machine in the same run: medians, and how many times as long the
 * library takes. */
#define _POSIX_C_SOURCE 199309L
#include "../host/sinkheron.h"
#include "careful.h"
#include "plain.h"

#include <stdio.h>
#include <stdlib.h>
#include <string.h>
#include <time.h>

/* ---- policies and requests */

struct file {
    size_t length;
    uint8_t bytes[4096];
};

static struct file policy, request;
static uint32_t pairs[254];
static unsigned pair_count, leaf_number, names;

static void append(struct file *f, const uint8_t *bytes, size_t count)
{
    memcpy(f->bytes + f->length, bytes, count);
    f->length += count;
}

static void frame(struct file *f)
{
    f->bytes[0] = 1;
    f->bytes[1] = (uint8_t)((f->length - 3) >> 8);
    f->bytes[2] = (uint8_t)(f->length - 3);
}

/* Resistant with no certificate: not not deny-by-default (allow if the name is 1). */
static void resistant_leaf(struct file *f)
{
    const uint8_t leaf[] = {0x23, 0x23, 0x24, 0x22, 0x10, 0, (uint8_t)(leaf_number++ % names), 0, 1, 0x21};
    append(f, leaf, sizeof leaf);
}

/* The same of two names with an or between them. */
static void or_leaf(struct file *f)
{
    const uint8_t left = (uint8_t)(leaf_number++ % names), right = (uint8_t)(leaf_number % names);
    const uint8_t leaf[] = {0x23, 0x23, 0x24, 0x22, 0x14, 0x10, 0, left, 0, 1, 0x10, 0, right, 0, 1, 0x21};
    append(f, leaf, sizeof leaf);
}

/* Exposed among the first subsets: allow unless the name is known to be 1. */
static void early_leaf(struct file *f)
{
    const uint8_t leaf[] = {0x22, 0x11, 0x12, 0x10, 0, (uint8_t)(leaf_number++ % names), 0, 1, 0x21};
    append(f, leaf, sizeof leaf);
}

/* Exposed among the last: of the values 1 to 15 of one name, 9 to 15 must be there and 1 to 8 must not. */
static void late_leaf(struct file *f)
{
    const uint8_t value = (uint8_t)(1 + leaf_number++ % 15);
    const uint8_t leaf[] = {0x23, 0x24, 0x22, 0x10, 0, 0, 0, value, 0x21};
    append(f, value < 9 ? leaf : leaf + 1, value < 9 ? sizeof leaf : sizeof leaf - 1);
}

/* A target: of so many names each the values from 0 on. */
static void atom_leaf(struct file *f)
{
    const uint8_t leaf[] = {0x10, 0, (uint8_t)(leaf_number % names), 0, (uint8_t)(leaf_number / names)};
    leaf_number++;
    append(f, leaf, sizeof leaf);
}

/* A balanced tree of ands or ors over so many leaves. */
static void tree(struct file *f, unsigned leaves, uint8_t join, void (*leaf)(struct file *))
{
    if (leaves == 1) {
        leaf(f);
        return;
    }
    f->bytes[f->length++] = join;
    tree(f, leaves / 2, join, leaf);
    tree(f, leaves - leaves / 2, join, leaf);
}

/* All the policy's pairs, and then, above them, so many more that a request has. */
static void ask_all(unsigned more)
{
    pair_count = sinkheron_pair_count(sinkheron_list_pairs(policy.bytes, policy.length, pairs, 254));
    request.length = 3;
    for (unsigned k = 0; k < pair_count + more; k++) {
        uint32_t pair = k < pair_count ? pairs[k] : 0xFFFF0000u + k;
        const uint8_t bytes[] = {(uint8_t)(pair >> 24), (uint8_t)(pair >> 16), (uint8_t)(pair >> 8), (uint8_t)pair};
        append(&request, bytes, sizeof bytes);
    }
    frame(&request);
}

/* Leaves with an or are joined by ors, all others by ands. */
static void build(unsigned leaves, unsigned of_names, void (*leaf)(struct file *))
{
    policy.length = 3;
    leaf_number = 0;
    names = of_names;
    tree(&policy, leaves, leaf == or_leaf ? 0x26 : 0x25, leaf);
    frame(&policy);
    ask_all(0);
}

/* not not (allow if all of 126 atoms are 1): 255 nodes. */
static void build_target(unsigned of_names)
{
    static const uint8_t before[] = {0x23, 0x23, 0x22}, behind[] = {0x21};
    policy.length = 3;
    leaf_number = 0;
    names = of_names;
    append(&policy, before, sizeof before);
    tree(&policy, 126, 0x13, atom_leaf);
    append(&policy, behind, sizeof behind);
    frame(&policy);
    ask_all(0);
}

/* ---- times */

static uint64_t sink;

static void library_search(void)
{
    uint8_t space[130];
    sink += sinkheron_search(policy.bytes, policy.length, space, sizeof space);
}
static void single_search(void) { sink += plain_search_single(policy.bytes, pairs, pair_count).m; }
static void words_search(void) { sink += plain_search_words(policy.bytes, pairs, pair_count).m; }
static void library_decide(void) { sink += sinkheron_decide(policy.bytes, policy.length, request.bytes, request.length); }
static void library_flat(void) { sink += sinkheron_decide_flat(policy.bytes, policy.length, request.bytes, request.length); }
static void c_decide(void) { sink += careful_decide(policy.bytes, policy.length, request.bytes, request.length); }
static void library_certify(void) { sink += sinkheron_certify(policy.bytes, policy.length); }
static void library_list(void)
{
    static uint32_t list[254];
    sink += sinkheron_list_pairs(policy.bytes, policy.length, list, 254);
}

static double seconds(void)
{
    struct timespec t;
    clock_gettime(CLOCK_MONOTONIC, &t);
    return (double)t.tv_sec + (double)t.tv_nsec * 1e-9;
}

static int ascending(const void *x, const void *y)
{
    double a = *(const double *)x, b = *(const double *)y;
    return (a > b) - (a < b);
}

/* As many calls as take about a millisecond. */
static unsigned long calls_of(void (*call)(void))
{
    unsigned long calls = 0;
    double start = seconds();
    do {
        call();
        calls++;
    } while (seconds() - start < 1e-3);
    return calls;
}

enum { MOST = 4, REPETITIONS = 41 };

static double took[MOST][REPETITIONS];

static double median(const double *x)
{
    double sorted[REPETITIONS];
    memcpy(sorted, x, sizeof sorted);
    qsort(sorted, REPETITIONS, sizeof *sorted, ascending);
    return sorted[REPETITIONS / 2];
}

/* The programs take turns, so that what else the machine does falls on all of them. */
static void time_all(void (*const *program)(void), int programs)
{
    unsigned long calls[MOST];
    for (int p = 0; p < programs; p++)
        calls[p] = calls_of(program[p]);
    for (int k = 0; k < REPETITIONS; k++)
        for (int p = 0; p < programs; p++) {
            double start = seconds();
            for (unsigned long c = 0; c < calls[p]; c++)
                program[p]();
            took[p][k] = (seconds() - start) / (double)calls[p] * 1e6;
        }
}

/* How many times as long as program b program a takes: the median over the turns. */
static double times(int a, int b)
{
    double ratio[REPETITIONS];
    for (int k = 0; k < REPETITIONS; k++)
        ratio[k] = took[a][k] / took[b][k];
    return median(ratio);
}

/* ---- the programs give the same answers */

static void hold(int same, const char *what)
{
    if (!same) {
        printf("%s disagree\n", what);
        exit(1);
    }
}

static void hold_searches(void)
{
    uint8_t space[130];
    uint64_t word = sinkheron_search(policy.bytes, policy.length, space, sizeof space);
    struct hit single = plain_search_single(policy.bytes, pairs, pair_count), words = plain_search_words(policy.bytes, pairs, pair_count);
    hold(sinkheron_number(word) == 0 && sinkheron_verdict(word) == (unsigned)single.exposed && sinkheron_subset(word) == single.m
             && sinkheron_hides(word) == single.i && words.exposed == single.exposed && words.m == single.m && words.i == single.i,
         "the searches");
}

static void hold_decide(const struct file *p, const struct file *q)
{
    uint64_t word = careful_decide(p->bytes, p->length, q->bytes, q->length);
    hold(sinkheron_decide(p->bytes, p->length, q->bytes, q->length) == word, "the decisions");
    hold(sinkheron_decide_flat(p->bytes, p->length, q->bytes, q->length) == word, "the decisions without calls that nest");
}

/* Cut at every length, and with every byte changed in a few ways, the length stated anew or not. */
static void hold_damaged(struct file *damaged)
{
    static const uint8_t changes[] = {0x01, 0x02, 0x04, 0x10, 0x32, 0xFF};
    const struct file whole = *damaged;
    for (size_t k = 0; k < whole.length; k++) {
        damaged->length = k;
        hold_decide(&policy, &request);
        if (k >= 3)
            frame(damaged);
        hold_decide(&policy, &request);
        *damaged = whole;
        for (unsigned c = 0; c < sizeof changes; c++) {
            damaged->bytes[k] ^= changes[c];
            hold_decide(&policy, &request);
            damaged->bytes[k] = whole.bytes[k];
        }
    }
    damaged->bytes[damaged->length++] = 0x21;
    frame(damaged);
    hold_decide(&policy, &request);
    *damaged = whole;
}

static void hold_decisions(void)
{
    hold_decide(&policy, &request);
    hold_damaged(&policy);
    hold_damaged(&request);
}

/* ---- rows */

static unsigned nodes(void)
{
    unsigned count = 0;
    for (size_t at = 3; at < policy.length; at += policy.bytes[at] == 0x10 ? 5 : 1)
        count++;
    return count;
}

static void search_row(unsigned leaves, unsigned of_names, void (*leaf)(struct file *), const char *kind)
{
    static void (*const programs[])(void) = {library_search, single_search, words_search, library_decide};
    build(leaves, of_names, leaf);
    hold_searches();
    time_all(programs, 4);
    printf("%5u %5u  %-14s %10.2f %12.3f %10.2f %10.1f\n", nodes(), pair_count, kind, median(took[0]), times(0, 1), times(0, 2), times(0, 3));
}

static void decide_row(const char *kind)
{
    enum { NESTED, FLAT, CAREFUL, PROGRAMS };
    static void (*const programs[])(void) = {library_decide, library_flat, c_decide};
    hold_decisions();
    time_all(programs, PROGRAMS);
    printf("%5u %8u  %-10s %8.3f %8.3f %8.3f %10.2f %10.2f %9.2f\n", nodes(), (unsigned)(request.length - 3) / 4, kind, median(took[NESTED]),
           median(took[FLAT]), median(took[CAREFUL]), times(NESTED, CAREFUL), times(FLAT, CAREFUL), times(FLAT, NESTED));
}

static void list_row(unsigned of_names, const char *kind)
{
    static void (*const programs[])(void) = {library_list, library_certify};
    build_target(of_names);
    time_all(programs, 2);
    printf("%5u %5u  %-26s %10.2f %10.2f\n", nodes(), pair_count, kind, median(took[0]), median(took[1]));
}

static void search_rows(void)
{
    static const unsigned sizes[] = {2, 6, 12, 36};
    printf("search                         library  one at a time  64 to a word   decide\nnodes pairs  kind                   us         times        times      times\n");
    for (unsigned k = 0; k < sizeof sizes / sizeof *sizes; k++)
        for (unsigned n = 1; n <= 8; n *= 2)
            if (n <= sizes[k])
                search_row(sizes[k], n, resistant_leaf, "resistant");
    search_row(9, 8, or_leaf, "with ors");
    search_row(28, 8, or_leaf, "with ors");
    for (unsigned k = 0; k < sizeof sizes / sizeof *sizes; k++)
        search_row(sizes[k], sizes[k] < 8 ? sizes[k] : 8, early_leaf, "exposed early");
    search_row(45, 1, late_leaf, "exposed late");
}

static void decide_rows(void)
{
    static const unsigned sizes[] = {1, 2, 4, 6, 12, 36};
    printf("\ndecide                      decide     flat  careful   decide /     flat /    flat /\n"
           "nodes  request  kind            us       us       us    careful    careful    decide\n");
    policy.length = 4;
    policy.bytes[3] = 0x21;
    frame(&policy);
    ask_all(0);
    decide_row("allow");
    for (unsigned k = 0; k < sizeof sizes / sizeof *sizes; k++)
        for (unsigned n = 1; n <= 8; n *= 2)
            if (n <= sizes[k]) {
                build(sizes[k], n, resistant_leaf);
                decide_row("resistant");
            }
    build(9, 8, or_leaf);
    decide_row("with ors");
    build(28, 8, or_leaf);
    decide_row("with ors");
    build(36, 8, early_leaf);
    decide_row("exposed");
    ask_all(256 - pair_count);
    decide_row("exposed");
    build_target(1);
    decide_row("one name");
    build_target(63);
    decide_row("63 names");
}

int main(void)
{
    search_rows();
    decide_rows();
    printf("\n                                    list_pairs    certify\nnodes pairs  kind                             us         us\n");
    list_row(1, "126 values of one name");
    list_row(63, "63 names, 2 values each");
    return sink == 0;
}
