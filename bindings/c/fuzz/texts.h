/* What random texts are made of, and how they are damaged. */
#ifndef TEXTS_H
#define TEXTS_H

#include "bytes.h"
#include "random.h"

#define COUNT_OF(list) (sizeof(list) / sizeof((list)[0]))

/* Puts one of these pieces at the end. */
void put_any_of(Random *random, const char *const *pieces, size_t count, Bytes *text);

/* Changes some bytes of the text, at times by one of these pieces. */
void damage_text(Random *random, const char *const *pieces, size_t count, Bytes *text);

#endif
