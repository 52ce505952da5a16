/* Calls of the library into an area with guards, with a check of all that one call alone promises. */
#ifndef CALLS_H
#define CALLS_H

#include "bytes.h"
#include "prettyless.h"
#include <stdbool.h>
#include <stddef.h>

/* What is laid out. */
typedef enum { PROGRAM, JSON, TOML } Kind;

/* What one call is given besides its room. */
typedef struct {
    const Bytes *given;
    Kind kind;
    size_t width, limit;
    /* Of a program alone. */
    bool crlf, deferred;
    /* Of a text alone. */
    uint32_t indent;
    /* Of a JSON text alone. */
    bool fill, keep_blank_lines;
} Request;

/* What came of it. `out` has `capacity` bytes, within an area that `release_answer` gives back. */
typedef struct {
    uint32_t status;
    size_t written, line, column;
    uint8_t *out;
    size_t capacity;
    uint8_t *area;
} Answer;

/* The status that a text of this kind has where it is refused for what it is. */
uint32_t refusal_of(Kind kind);

/* Calls the library. Ends the process with `wrong` where the call breaks a promise. */
Answer call(const Request *request, size_t capacity);

void release_answer(Answer *answer);

/* How many bytes at the beginning of `out` the call wrote. */
size_t filled(const Answer *answer);

/* Where a case is wrong, and where the process crashes, these say which case it was. */
void now_at(const char *kind, uint64_t seed, size_t number, const Request *request);
void say_case(void);

/* Says what is wrong with which case, and ends the process with status 1. */
void wrong(const char *what, const Answer *answer);

#endif
