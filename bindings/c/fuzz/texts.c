#include "texts.h"

void put_any_of(Random *random, const char *const *pieces, size_t count, Bytes *text)
{
    put_text(text, pieces[below(random, count)]);
}

static void damage_once(Random *random, const char *piece, Bytes *text)
{
    size_t from = below(random, text->length + 1), rest = text->length - from;
    switch (below(random, 5)) {
    case 0:
        text->length = from;
        break;
    case 1:
        take_out(text, from, below(random, (rest < 8 ? rest : 8) + 1));
        break;
    case 2:
        if (rest > 0) {
            text->at[from] = (uint8_t)next_number(random);
        }
        break;
    default:
        insert(text, from, (const uint8_t *)piece, strlen(piece));
        break;
    }
}

void damage_text(Random *random, const char *const *pieces, size_t count, Bytes *text)
{
    size_t times = 1 + below(random, 3);
    for (size_t i = 0; i < times; i++) {
        damage_once(random, pieces[below(random, count)], text);
    }
}
