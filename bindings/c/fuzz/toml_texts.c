#include "toml_texts.h"
#include "texts.h"

static const char *const scalars[] = {
    "true",
    "false",
    "0",
    "-17",
    "+1_000",
    "0xdead_BEEF",
    "0o755",
    "0b1",
    "1.5",
    "-1e9",
    "6.02E+23",
    "inf",
    "-nan",
    "1979-05-27",
    "07:32:00",
    "1979-05-27T07:32:00Z",
    "1979-05-27 07:32:00.5-07:00",
    "\"\"",
    "\"a few words in a string\"",
    "\"\\\"\\\\\\b\\f\\n\\r\\t\\u00e9\\U0001f600\"",
    "\"\xc3\xa9\xe4\xbd\xa0\xe5\xa5\xbd\"",
    "''",
    "'C:\\a # b'",
    "\"\"\"\none\n  two \\\n  \"\" three\"\"\"\"",
    "'''a''b\r\n'''",
};
static const char *const keys[] = {"a", "name", "a-long_key", "1234", "\"\"", "\"\xc3\xa9 b\"", "'a.b'", "true"};
static const char *const blanks[] = {"", "", "", "", " ", "\t", "   "};
static const char *const line_ends[] = {"\n", "\n", "\n", "\r\n"};
static const char *const comments[] = {"#", "# a few words", "#\xc3\xa9 \t", "##[a]=\"", "#                         a"};
static const char *const parts[] = {
    "[", "]", "[[", "]]",     "{",      "}", ",", ".",  "=",    "\"",   "\"\"\"", "'", "'''",
    "#", "-", "_",  "1979-05-27", "07:32:00", "\n", "\r", "\\u", "\xff", "\xc3", "\x01",
};

static void put_blank(Random *random, Bytes *text)
{
    put_any_of(random, blanks, COUNT_OF(blanks), text);
}

static void put_line_end(Random *random, Bytes *text)
{
    put_blank(random, text);
    if (once_in(random, 4)) {
        put_any_of(random, comments, COUNT_OF(comments), text);
    }
    put_any_of(random, line_ends, COUNT_OF(line_ends), text);
}

/* What may stand between the values of an array. */
static void put_gap(Random *random, Bytes *text)
{
    put_blank(random, text);
    if (once_in(random, 4)) {
        put_line_end(random, text);
        put_blank(random, text);
    }
}

static void put_key(Random *random, Bytes *text)
{
    size_t more = once_in(random, 4) ? 1 + below(random, 3) : 0;
    put_any_of(random, keys, COUNT_OF(keys), text);
    for (size_t i = 0; i < more; i++) {
        put_blank(random, text);
        put_text(text, ".");
        put_blank(random, text);
        put_any_of(random, keys, COUNT_OF(keys), text);
    }
}

static void write_value(Random *random, size_t levels, Bytes *text);

static void write_entry(Random *random, size_t levels, Bytes *text)
{
    put_key(random, text);
    put_blank(random, text);
    put_text(text, "=");
    put_blank(random, text);
    write_value(random, levels, text);
}

static void write_array(Random *random, size_t levels, Bytes *text)
{
    size_t count = below(random, 5);
    put_text(text, "[");
    put_gap(random, text);
    for (size_t i = 0; i < count; i++) {
        write_value(random, levels, text);
        put_gap(random, text);
        if (i + 1 < count || once_in(random, 2)) {
            put_text(text, ",");
            put_gap(random, text);
        }
    }
    put_text(text, "]");
}

static void write_inline_table(Random *random, size_t levels, Bytes *text)
{
    size_t count = below(random, 4);
    put_text(text, "{");
    put_blank(random, text);
    for (size_t i = 0; i < count; i++) {
        put_text(text, i == 0 ? "" : ",");
        put_blank(random, text);
        write_entry(random, levels, text);
        put_blank(random, text);
    }
    put_text(text, "}");
}

static void write_value(Random *random, size_t levels, Bytes *text)
{
    if (levels == 0 || once_in(random, 3)) {
        put_any_of(random, scalars, COUNT_OF(scalars), text);
    } else if (once_in(random, 3)) {
        write_inline_table(random, levels - 1, text);
    } else {
        write_array(random, levels - 1, text);
    }
}

/* A key whose value is within as many arrays. */
static void write_within(Random *random, size_t arrays, Bytes *text)
{
    put_text(text, "a=");
    put_times(text, "[", 1, arrays);
    write_value(random, 2, text);
    put_times(text, "]", 1, arrays);
}

static void write_header(Random *random, Bytes *text)
{
    bool is_array = once_in(random, 2);
    put_text(text, is_array ? "[[" : "[");
    put_blank(random, text);
    put_key(random, text);
    put_blank(random, text);
    put_text(text, is_array ? "]]" : "]");
}

static void write_line(Random *random, Bytes *text)
{
    size_t kind = below(random, 6);
    put_blank(random, text);
    if (kind == 0) {
        write_header(random, text);
    } else if (kind > 1) {
        write_entry(random, below(random, 4), text);
    }
}

void write_toml(Random *random, Bytes *text)
{
    size_t lines = below(random, 6);
    clear(text);
    for (size_t i = 0; i < lines; i++) {
        write_line(random, text);
        put_line_end(random, text);
    }
    if (once_in(random, 50)) {
        write_within(random, 100 + below(random, 27), text);
    } else {
        write_line(random, text);
    }
}

void damage_toml(Random *random, Bytes *text)
{
    damage_text(random, parts, COUNT_OF(parts), text);
}
