/* Random TOML texts, whole and damaged. */
#ifndef TOML_TEXTS_H
#define TOML_TEXTS_H

#include "bytes.h"
#include "random.h"

/* Writes a TOML text of a few lines, with blanks and comments anywhere. */
void write_toml(Random *random, Bytes *text);

/* Changes some bytes of it. It may still be a TOML text after that. */
void damage_toml(Random *random, Bytes *text);

#endif
