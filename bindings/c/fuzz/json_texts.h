/* Random JSON texts, whole and damaged. */
#ifndef JSON_TEXTS_H
#define JSON_TEXTS_H

#include "bytes.h"
#include "random.h"

/* Writes a JSON text of a few levels, with spaces anywhere. */
void write_json(Random *random, Bytes *text);

/* Changes some bytes of it. It may still be a JSON text after that. */
void damage_json(Random *random, Bytes *text);

#endif
