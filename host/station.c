/* A release station's host.
 *
 *   station POLICY REQUEST          release or hold the batch: exit status 0 only for release, 1 for hold
 *   station --flat POLICY REQUEST   the same without calls that nest, for a controller that allows one call frame
 *   station POLICY                  check a policy before use: exit status 0 for resistant, 1 for exposed or refused
 *
 * Status 2: wrong arguments. Status 3: a file that cannot be read or is larger than any that the library accepts. */
#include "program.h"

enum { STATUS_HOLD = STATUS_REFUSED };

static int load_file(const char *name, struct block *into)
{
    return load("station", name, "a policy or request file", into);
}

/* Only allow alone releases; every other set says what the batch waits for. */
static const char *hold_reason(unsigned set)
{
    switch (set) {
    case 2: return "deny";
    case 3: return "undecided between allow and deny";
    case 4: return "undefined";
    case 5: return "undecided between allow and undefined";
    case 6: return "undecided between deny and undefined";
    case 7: return "undecided between allow, deny and undefined";
    default: return "no decision";
    }
}

/* sinkheron_decide or sinkheron_decide_flat: they give the same answers. */
typedef uint64_t engine(const uint8_t *policy, size_t policy_len, const uint8_t *request, size_t request_len);

static int decide(engine *by, const struct block *policy, const struct block *request)
{
    uint64_t word = by(policy->bytes, policy->length, request->bytes, request->length);
    if (sinkheron_releases(word)) {
        puts("release: allow");
        return 0;
    }
    if (sinkheron_number(word) != 0)
        print_refusal(stdout, "hold", word, policy);
    else
        printf("hold: %s\n", hold_reason(sinkheron_set(word)));
    return STATUS_HOLD;
}

static unsigned two_bytes(const uint8_t *at) { return (unsigned)at[0] << 8 | at[1]; }

/* The pairs of a request file that the library wrote; returns the place behind it. */
static const uint8_t *print_request(const char *title, const uint8_t *file)
{
    unsigned body = two_bytes(file + 1);
    const uint8_t *end = file + 3 + body;
    printf("%s:", title);
    if (body == 0)
        printf(" nothing");
    for (const uint8_t *pair = file + 3; pair < end; pair += 4)
        printf(" (%u,%u)", two_bytes(pair), two_bytes(pair + 2));
    putchar('\n');
    return end;
}

/* The pair that only the larger request has: the first at which the two differ. */
static const uint8_t *hidden_pair(const uint8_t *smaller, const uint8_t *larger)
{
    const uint8_t *end = smaller + 3 + two_bytes(smaller + 1);
    const uint8_t *held = smaller + 3, *pair = larger + 3;
    while (held < end && memcmp(held, pair, 4) == 0) {
        held += 4;
        pair += 4;
    }
    return pair;
}

static int check(const struct block *policy)
{
    uint8_t space[130];
    uint64_t word = sinkheron_search(policy->bytes, policy->length, space, sizeof space);
    if (sinkheron_number(word) != 0) {
        print_refusal(stdout, "not checked", word, policy);
        return STATUS_HOLD;
    }
    if (sinkheron_verdict(word) == 0) {
        puts("resistant: leaving facts out cannot open a release");
        return 0;
    }
    puts("exposed: leaving a fact out opens a release");
    const uint8_t *larger = print_request("released with", space);
    print_request("held with", larger);
    const uint8_t *pair = hidden_pair(space, larger);
    printf("the missing fact: name %u value %u\n", two_bytes(pair), two_bytes(pair + 2));
    return STATUS_HOLD;
}

int main(int count, char **argument)
{
    static struct block policy, request;
    int flat = count > 1 && strcmp(argument[1], "--flat") == 0, files = count - 1 - flat;
    char **file = argument + 1 + flat;
    if (files > 2 || files < 1 + flat) {
        fprintf(stderr, "usage: station POLICY [REQUEST]\n       station --flat POLICY REQUEST\n");
        return STATUS_USAGE;
    }
    if (!load_file(file[0], &policy))
        return STATUS_FILE;
    if (files == 1)
        return check(&policy);
    if (!load_file(file[1], &request))
        return STATUS_FILE;
    return decide(flat ? sinkheron_decide_flat : sinkheron_decide, &policy, &request);
}
