/* Bytes that grow. */
#ifndef BYTES_H
#define BYTES_H

#include <stdint.h>
#include <stdio.h>
#include <stdlib.h>
#include <string.h>

typedef struct {
    uint8_t *at;
    size_t length, room;
} Bytes;

/* Makes room for `more` bytes after those that are there; `at` is not null after it. */
static inline void reserve(Bytes *bytes, size_t more)
{
    if (bytes->at != NULL && bytes->room - bytes->length >= more) {
        return;
    }
    bytes->room = bytes->room * 2 + more + 64;
    bytes->at = realloc(bytes->at, bytes->room);
    if (bytes->at == NULL) {
        fputs("fuzz: no memory for a case\n", stderr);
        exit(2);
    }
}

/* Leaves no bytes; `at` is not null after it. */
static inline void clear(Bytes *bytes)
{
    bytes->length = 0;
    reserve(bytes, 1);
}

static inline void put_all(Bytes *bytes, const void *from, size_t count)
{
    reserve(bytes, count);
    if (count > 0) {
        memcpy(bytes->at + bytes->length, from, count);
        bytes->length += count;
    }
}

/* The same so many times. */
static inline void put_times(Bytes *bytes, const void *from, size_t count, size_t times)
{
    for (size_t i = 0; i < times; i++) {
        put_all(bytes, from, count);
    }
}

static inline void put(Bytes *bytes, unsigned byte)
{
    uint8_t one = (uint8_t)byte;
    put_all(bytes, &one, 1);
}

static inline void put_text(Bytes *bytes, const char *text)
{
    put_all(bytes, text, strlen(text));
}

/* The lowest `size` bytes of a number, the lowest first. */
static inline void put_number(Bytes *bytes, uint64_t number, size_t size)
{
    for (size_t i = 0; i < size; i++) {
        put(bytes, (unsigned)(number >> (8 * i)) & 0xff);
    }
}

/* Puts `count` bytes in at `from`; what was there comes after them. */
static inline void insert(Bytes *bytes, size_t from, const uint8_t *more, size_t count)
{
    reserve(bytes, count);
    memmove(bytes->at + from + count, bytes->at + from, bytes->length - from);
    memcpy(bytes->at + from, more, count);
    bytes->length += count;
}

/* Takes `count` bytes out at `from`. */
static inline void take_out(Bytes *bytes, size_t from, size_t count)
{
    memmove(bytes->at + from, bytes->at + from + count, bytes->length - from - count);
    bytes->length -= count;
}

static inline void release(Bytes *bytes)
{
    free(bytes->at);
    memset(bytes, 0, sizeof *bytes);
}

#endif
