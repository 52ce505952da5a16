/* Random programs, whole and damaged. */
#ifndef PROGRAMS_H
#define PROGRAMS_H

#include "bytes.h"
#include "random.h"

typedef struct {
    Bytes bytes;
    /* Where the length of one of its texts is, or 0 where it has no text. */
    size_t text_at;
    /* Its layout may be far longer than the program. */
    bool may_be_long;
} Program;

/* Writes a program that is whole. `program` is empty or was used before. */
void write_program(Random *random, Program *program);

/* Writes bytes that are mostly no whole program: some that were whole, with bytes changed, or any bytes. */
void write_damaged(Random *random, Program *program);

#endif
