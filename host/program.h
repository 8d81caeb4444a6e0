/* What the programs over the library share: their statuses, a file as a block of bytes, and the refusals in words. */
#ifndef PROGRAM_H
#define PROGRAM_H

#include "sinkheron.h"

#include <errno.h>
#include <stdio.h>
#include <string.h>

enum { STATUS_REFUSED = 1, STATUS_USAGE = 2, STATUS_FILE = 3 };

/* One byte more than the largest file whose length its own header can state. */
enum { LARGEST = 65538, ROOM = LARGEST + 1 };

struct block {
    size_t length;
    uint8_t bytes[ROOM];
};

/* Reads an open file, or says as that program why it cannot; `kind` is what the file was to be. */
static inline int load_open(const char *program, FILE *file, const char *name, const char *kind, struct block *into)
{
    into->length = fread(into->bytes, 1, ROOM, file);
    if (ferror(file)) {
        fprintf(stderr, "%s: cannot read %s\n", program, name);
        return 0;
    }
    if (into->length > LARGEST) {
        fprintf(stderr, "%s: %s is larger than %d bytes: not %s\n", program, name, LARGEST, kind);
        return 0;
    }
    return 1;
}

static inline int load(const char *program, const char *name, const char *kind, struct block *into)
{
    FILE *file = fopen(name, "rb");
    if (file == NULL) {
        fprintf(stderr, "%s: cannot open %s: %s\n", program, name, strerror(errno));
        return 0;
    }
    int loaded = load_open(program, file, name, kind, into);
    fclose(file);
    return loaded;
}

static inline const char *refusal(unsigned number)
{
    switch (number) {
    case 1: return "the policy file is shorter than 3 bytes";
    case 2: return "the policy file's version byte is not 1";
    case 3: return "the policy file's stated length is not its own";
    case 4: return "the policy ends where a node or an atom's numbers are due";
    case 5: return "a byte of the policy is no tag";
    case 6: return "the policy is deeper than 32";
    case 7: return "the policy has more than 255 nodes";
    case 8: return "bytes follow the finished policy";
    case 12: return "the policy has more than 16 pairs";
    case 13: return "the lent space is too small";
    case 14: return "the decision set came out empty";
    case 15: return "a node of the other sort stands here";
    case 21: return "the request file is shorter than 3 bytes";
    case 22: return "the request file's version byte is not 1";
    case 23: return "the request file's stated length is not its own";
    case 24: return "the request's body is not a multiple of 4";
    case 25: return "the request has more than 256 pairs";
    case 26: return "a pair of the request is not above the one before";
    default: return "unknown refusal";
    }
}

/* A refusal in words, of 15 also which sort stands there: whoever built the file by hand looks for that. The byte at the place tells, and
 * is read only where the place is in the file. */
static inline const char *reason(uint64_t word, const struct block *file)
{
    size_t place = sinkheron_place(word);
    unsigned number = sinkheron_number(word), tag = number == 15 && place < file->length ? file->bytes[place] : 0;
    if (tag >= 0x10 && tag <= 0x14)
        return "a target stands where a policy is due";
    if (tag >= 0x20 && tag <= 0x26)
        return "a policy stands where a target is due";
    return refusal(number);
}

/* `file` is the policy or text that was read. Only 15 is told by it, and that is never of a request. */
static inline void print_refusal(FILE *to, const char *what, uint64_t word, const struct block *file)
{
    unsigned long place = sinkheron_place(word);
    fprintf(to, "%s: refused %u at %lu: %s\n", what, sinkheron_number(word), place, reason(word, file));
}

#endif
