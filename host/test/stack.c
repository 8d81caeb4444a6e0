/* How many bytes of stack the two engines of decide use on the deepest and largest files and on files that they refuse. Each call runs on a
 * painted stack of its own: what it used reaches down to the lowest byte that it altered. What an empty call uses is taken off. */
#define _XOPEN_SOURCE 700
#include "../sinkheron.h"
#include "file.h"

#include <ucontext.h>

/* The header says so; the goal was 4096. */
enum { MOST_OF_FLAT = 624 };

enum { ROOM = 1 << 18 };

typedef uint64_t engine(const uint8_t *policy, size_t policy_len, const uint8_t *request, size_t request_len);

static uint8_t stack[ROOM];
static ucontext_t outside, on_stack;
static struct file policy, request;

/* A call, by what it finds and leaves here: a context's function takes no pointers. */
static engine *called;
static uint8_t paint;
static size_t used;

static uint64_t empty(const uint8_t *p, size_t p_len, const uint8_t *q, size_t q_len)
{
    (void)p;
    (void)q;
    return p_len + q_len;
}

/* Leaving the stack uses it too, so the bytes are looked at before. */
static void call(void)
{
    volatile uint64_t word = called(policy.bytes, policy.length, request.bytes, request.length);
    size_t kept = 0;
    (void)word;
    while (kept < ROOM && stack[kept] == paint)
        kept++;
    used = ROOM - kept;
}

static size_t used_with(engine *by, uint8_t with)
{
    called = by;
    paint = with;
    memset(stack, with, ROOM);
    if (getcontext(&on_stack) != 0) {
        perror("stack");
        exit(2);
    }
    on_stack.uc_stack.ss_sp = stack;
    on_stack.uc_stack.ss_size = ROOM;
    on_stack.uc_link = &outside;
    makecontext(&on_stack, call, 0);
    swapcontext(&outside, &on_stack);
    return used;
}

/* A byte that a call sets to the paint shows with the other paint. The first call is off the stack: it may bind memset. */
static size_t used_by(engine *by)
{
    by(policy.bytes, policy.length, request.bytes, request.length);
    size_t one = used_with(by, 0xa5), other = used_with(by, 0x5a);
    return one > other ? one : other;
}

#define ATOM " 10 0001 0001 "
#define TEN_NOTS " 23 23 23 23 23 23 23 23 23 23 "

/* Files by all their bytes, or by their body, and the numbers that they get. */
struct row {
    int is_body;
    const char *hex;
    unsigned number;
};

/* The deepest: on the left, on the right and through nodes of one part. The largest: of 255 nodes, and the last two of them as deep and as
 * high as the deepest. And one for each refusal. */
static const struct row policies[] = {
    {1, "31( 25 ) 32( 21 )", 0}, {1, "31( 26 ) 32( 20 )", 0}, {1, "22 30( 13 ) 31(" ATOM ") 21", 0}, {1, "22 30( 14 ) 31(" ATOM ") 20", 0},
    {1, "31( 25 21 ) 21", 0}, {1, "31( 26 20 ) 21", 0}, {1, "31( 22" ATOM ") 21", 0}, {1, "22 30( 13" ATOM ")" ATOM "21", 0},
    {1, "31( 23 ) 21", 0}, {1, "31( 24 ) 20", 0}, {1, "22 30( 11 )" ATOM "21", 0}, {1, "21", 0},
    {1, "21( 25" TEN_NOTS "21 ) 23 23 21", 0}, {1, "31( 26 ) 3( 20 ) 28( 25 26 20 21 26 21 20 ) 12( 26 20 ) 20", 0},
    {1, "22 30( 13 ) 3(" ATOM ") 27( 14 13" ATOM ATOM "13" ATOM ATOM ") 15( 13" ATOM ")" ATOM "21", 0},
    {0, "", 1}, {0, "01 00", 1}, {0, "02 0001 21", 2}, {0, "01 0002 21", 3}, {1, "", 4}, {1, "22 10 0001 00", 4}, {1, "27", 5}, {1, "10", 15},
    {1, "32( 25 ) 33( 21 )", 6}, {1, "32( 23 ) 21", 6}, {1, "21( 25" TEN_NOTS "21 ) 23 23 23 21", 7}, {1, "31( 25 ) 32( 21 ) 21", 8},
};

static const struct row requests[] = {
    {1, "", 0}, {1, "0001 0001", 0}, {1, "0001 0000", 0}, {0, "", 21}, {0, "02 0000", 22}, {0, "01 0001", 23}, {1, "00", 24},
    {1, "257( 0001 0001 )", 25}, {1, "2( 0001 0001 )", 26},
};

enum { POLICIES = sizeof policies / sizeof *policies, REQUESTS = sizeof requests / sizeof *requests };

static int passed, failed;

static void expect(const char *what, int is_so)
{
    passed += is_so;
    failed += !is_so;
    if (!is_so)
        printf("failed: %s\n", what);
}

static void take(struct file *f, const struct row *row)
{
    if (row->is_body)
        file(f, row->hex);
    else
        whole_file(f, row->hex);
}

/* 256 pairs, among them those of the atoms. */
static void most_pairs(struct file *f)
{
    f->length = 3;
    for (unsigned value = 0; value < 256; value++) {
        put_hex(f, "0001 00");
        put_byte(f, value);
    }
    put_frame(f);
}

/* The most that an engine used so far, on the files that it is called with next. */
struct use {
    engine *engine;
    const char *name;
    size_t most;
};

static void use_more(struct use *use, unsigned number)
{
    uint64_t word = use->engine(policy.bytes, policy.length, request.bytes, request.length);
    size_t bytes = used_by(use->engine) - used_by(empty);
    expect("the files are what they are here for", sinkheron_number(word) == number);
    if (bytes > use->most)
        use->most = bytes;
}

static void use_on_all(struct use *use)
{
    for (unsigned k = 0; k < POLICIES * REQUESTS; k++) {
        const struct row *p = &policies[k / REQUESTS], *q = &requests[k % REQUESTS];
        take(&policy, p);
        take(&request, q);
        use_more(use, p->number != 0 ? p->number : q->number);
    }
    most_pairs(&request);
    for (unsigned k = 0; k < POLICIES; k++) {
        take(&policy, &policies[k]);
        use_more(use, policies[k].number);
    }
    printf("%s uses %zu bytes of stack\n", use->name, use->most);
}

int main(void)
{
    struct use flat = {sinkheron_decide_flat, "decide_flat", 0}, nested = {sinkheron_decide, "decide", 0};
    use_on_all(&flat);
    use_on_all(&nested);
    expect("decide_flat uses no more stack than the header says", flat.most <= MOST_OF_FLAT);
    printf("%d passed, %d failed\n", passed, failed);
    return failed != 0;
}
