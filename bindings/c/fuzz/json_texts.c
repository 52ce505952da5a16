#include "json_texts.h"
#include "texts.h"

static const char *const scalars[] = {
    "null",
    "true",
    "false",
    "0",
    "-0",
    "1",
    "22",
    "-3.5",
    "1e9",
    "6.02E+23",
    "1e-7",
    "12345678901234567890123",
    "\"\"",
    "\"a\"",
    "\"a few words in a string\"",
    "\"\\\"\\\\\\/\\b\\f\\n\\r\\t\"",
    "\"\\u00e9\\ud83d\\ude00\"",
    "\"\xc3\xa9\xe4\xbd\xa0\xe5\xa5\xbd\"",
    "\"\xf0\x9f\x98\x80\"",
};
static const char *const names[] = {"\"\"", "\"a\"", "\"name\"", "\"\xc3\xa9\"", "\"a longer name\"", "\"\\u0061\""};
static const char *const spaces[] = {"", "", "", "", " ", "\n", "\r\n", "\t", "   ", "\n\n", "\n \r\n\n"};
static const char *const parts[] = {
    "[", "]", "{", "}",   ",",    ":",  "\"", "\\",   "\\u",  "-",    ".",
    "e", "0", "1", "nul", "true", "//", "'",  "\xff", "\xc3", "\x01",
};

static void put_space(Random *random, Bytes *text)
{
    put_any_of(random, spaces, COUNT_OF(spaces), text);
}

static void write_value(Random *random, size_t levels, Bytes *text);

static void write_items(Random *random, size_t levels, bool have_names, Bytes *text)
{
    size_t count = below(random, 5);
    for (size_t i = 0; i < count; i++) {
        put_text(text, i == 0 ? "" : ",");
        put_space(random, text);
        if (have_names) {
            put_any_of(random, names, COUNT_OF(names), text);
            put_space(random, text);
            put_text(text, ":");
        }
        write_value(random, levels, text);
    }
    put_space(random, text);
}

static void write_value(Random *random, size_t levels, Bytes *text)
{
    bool is_object = once_in(random, 2);
    put_space(random, text);
    if (levels == 0 || once_in(random, 4)) {
        put_any_of(random, scalars, COUNT_OF(scalars), text);
    } else {
        put_text(text, is_object ? "{" : "[");
        write_items(random, levels - 1, is_object, text);
        put_text(text, is_object ? "}" : "]");
    }
    put_space(random, text);
}

/* A value within as many arrays. */
static void write_within(Random *random, size_t arrays, Bytes *text)
{
    put_times(text, "[", 1, arrays);
    write_value(random, 2, text);
    put_times(text, "]", 1, arrays);
}

void write_json(Random *random, Bytes *text)
{
    clear(text);
    if (once_in(random, 50)) {
        write_within(random, 100 + below(random, 27), text);
    } else {
        write_value(random, 1 + below(random, 4), text);
    }
}

void damage_json(Random *random, Bytes *text)
{
    damage_text(random, parts, COUNT_OF(parts), text);
}
