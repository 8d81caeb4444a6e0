/* Files for the tests, by their bytes in hexadecimal. N( .. ) stands for N copies of what is between; groups do not nest. */
#ifndef FILE_H
#define FILE_H

#include <stdint.h>
#include <stdio.h>
#include <stdlib.h>
#include <string.h>

struct file {
    size_t length;
    uint8_t bytes[70000];
};

static inline void put_byte(struct file *f, unsigned byte) { f->bytes[f->length++] = (uint8_t)byte; }

/* Bytes that are to stand so many times. */
struct group {
    unsigned long times;
    size_t first;
};

static inline void put_copies(struct file *f, const struct group *group)
{
    size_t length = f->length - group->first;
    for (unsigned long k = 1; k < group->times; k++) {
        memcpy(f->bytes + f->length, f->bytes + group->first, length);
        f->length += length;
    }
}

/* What stands at `at`: the begin or end of a group, a byte, or a space. Returns the place behind it. */
static inline const char *put_item(struct file *f, struct group *group, const char *at)
{
    char *end;
    unsigned byte;
    unsigned long times = strtoul(at, &end, 10);
    if (end > at && *end == '(') {
        group->times = times;
        group->first = f->length;
        return end + 1;
    }
    if (*at == ')')
        put_copies(f, group);
    if (*at == ')' || *at == ' ')
        return at + 1;
    sscanf(at, "%2x", &byte);
    put_byte(f, byte);
    return at + 2;
}

static inline void put_hex(struct file *f, const char *hex)
{
    struct group group = {1, f->length};
    while (*hex != 0)
        hex = put_item(f, &group, hex);
}

/* The version byte, and the length that the file has. */
static inline void put_frame(struct file *f)
{
    f->bytes[0] = 1;
    f->bytes[1] = (uint8_t)((f->length - 3) >> 8);
    f->bytes[2] = (uint8_t)(f->length - 3);
}

/* A file by its body. */
static inline void file(struct file *f, const char *body)
{
    f->length = 3;
    put_hex(f, body);
    put_frame(f);
}

/* A file by all its bytes. */
static inline void whole_file(struct file *f, const char *hex)
{
    f->length = 0;
    put_hex(f, hex);
}

#endif
