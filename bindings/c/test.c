/* Tests prettyless.h: the bytes that each call adds, layouts of docs/GUIDE.md and README.md, each status, and memory
   that is refused. Says which lines fail, and exits with 1 if any does. */
#include <stdio.h>
#include <stdlib.h>

/* The header takes its memory here. It is refused once so many requests were granted. */
static size_t granted = (size_t)-1;

static void *test_realloc(void *old, size_t size)
{
    if (granted == 0) return NULL;
    granted--;
    return realloc(old, size);
}

#define realloc test_realloc
#include "prettyless.h"
#undef realloc

static int failures = 0;

static void check(bool holds, int line)
{
    if (holds) return;
    printf("test.c:%d fails\n", line);
    failures++;
}

#define CHECK(condition) check(condition, __LINE__)

/* ---- Bytes ---- */

/* Whether the document has these bytes. It is cleared. */
static bool has(pl_doc *doc, const char *bytes, size_t length)
{
    const bool same = doc->length == length && memcmp(doc->bytes, bytes, length) == 0;
    pl_clear(doc);
    return same;
}

#define ADDS(call, bytes) (call, check(has(&doc, bytes, sizeof bytes - 1), __LINE__))

static void test_leaves(void)
{
    pl_doc doc = PL_DOC_INIT;
    ADDS(pl_nil(&doc), "\x00");
    ADDS(pl_fail(&doc), "\x01");
    ADDS(pl_weak_space(&doc), "\x02");
    ADDS(pl_hard_line(&doc), "\x03");
    ADDS(pl_weak_line(&doc), "\x04");
    ADDS(pl_expand_parent(&doc), "\x05");
    ADDS(pl_line(&doc), "\x06");
    ADDS(pl_line_or_nil(&doc), "\x07");
    ADDS(pl_soft_line(&doc), "\x06\x20");
    ADDS(pl_soft_line_or_nil(&doc), "\x07\x20");
    ADDS(pl_text(&doc, "ab"), "\x10\x02\0\0\0ab");
    ADDS(pl_text_n(&doc, NULL, 0), "\x10\0\0\0\0");
    ADDS(pl_ascii(&doc, "ab"), "\x11\x02\0\0\0ab");
    ADDS(pl_ascii_n(&doc, "abc", 1), "\x11\x01\0\0\0a");
    ADDS(pl_text_width(&doc, "ab", 0x0807060504030201), "\x12\x01\x02\x03\x04\x05\x06\x07\x08\x02\0\0\0ab");
    ADDS(pl_text_width_n(&doc, NULL, 0, 1), "\x12\x01\0\0\0\0\0\0\0\0\0\0\0");
    ADDS(pl_multiline(&doc, "a\n"), "\x13\x02\0\0\0a\n");
    pl_free(&doc);
}

static void test_nodes(void)
{
    pl_doc doc = PL_DOC_INIT;
    ADDS(pl_group(&doc), "\x20");
    ADDS(pl_flatten(&doc), "\x21");
    ADDS(pl_align(&doc), "\x22");
    ADDS(pl_dedent_to_root(&doc), "\x23");
    ADDS(pl_line_suffix(&doc), "\x24");
    ADDS(pl_nest(&doc, -2), "\x25\xfe\xff\xff\xff\xff\xff\xff\xff");
    ADDS(pl_append(&doc), "\x30");
    ADDS(pl_flat_alt(&doc), "\x31");
    ADDS(pl_union(&doc), "\x32");
    ADDS(pl_partial_union(&doc), "\x33");
    ADDS(pl_if_column_at_most(&doc, 1), "\x34\x01\0\0\0\0\0\0\0");
    ADDS(pl_if_column_at_least(&doc, 2), "\x35\x02\0\0\0\0\0\0\0");
    ADDS(pl_if_column_is_nesting(&doc), "\x36");
    ADDS(pl_if_nesting_at_most(&doc, 3), "\x37\x03\0\0\0\0\0\0\0");
    ADDS(pl_if_nesting_at_least(&doc, SIZE_MAX), "\x38\xff\xff\xff\xff\xff\xff\xff\xff");
    pl_free(&doc);
}

static void test_sequences(void)
{
    pl_doc doc = PL_DOC_INIT, other = PL_DOC_INIT;
    ADDS(pl_open(&doc), "\x40");
    ADDS(pl_close(&doc), "\x41");
    ADDS(pl_close_group(&doc), "\x41\x20");
    ADDS(pl_close_flatten(&doc), "\x41\x21");
    ADDS(pl_close_align(&doc), "\x41\x22");
    ADDS(pl_close_dedent_to_root(&doc), "\x41\x23");
    ADDS(pl_close_line_suffix(&doc), "\x41\x24");
    ADDS(pl_close_nest(&doc, 2), "\x41\x25\x02\0\0\0\0\0\0\0");
    ADDS(pl_include(&doc, &other), "\x40\x41");
    pl_line(&other);
    pl_fail(&other);
    ADDS(pl_include(&doc, &other), "\x40\x06\x01\x41");
    pl_free(&doc);
    pl_free(&other);
}

/* ---- Layouts ---- */

/* Whether the result is this. Its text is freed. */
static bool is(pl_result result, uint32_t status, const char *text)
{
    const size_t length = strlen(text);
    const bool same = result.status == status && result.text != NULL && result.length == length &&
                      memcmp(result.text, text, length + 1) == 0;
    free(result.text);
    return same;
}

#define SHOWS(width, text) CHECK(is(pl_layout(&doc, width, NULL), PL_OK, text))

static void call(pl_doc *doc)
{
    pl_open(doc);
    pl_text(doc, "f(");
    pl_line_or_nil(doc);
    pl_text(doc, "a,");
    pl_line(doc);
    pl_text(doc, "b");
    pl_text(doc, ",");
    pl_nil(doc);
    pl_flat_alt(doc);
    pl_line_or_nil(doc);
    pl_text(doc, ")");
    pl_close_group(doc);
}

static void header_example(pl_doc *doc)
{
    pl_open(doc);
    pl_text(doc, "f(");
    pl_open(doc);
    pl_line_or_nil(doc);
    pl_text(doc, "x");
    pl_close_nest(doc, 2);
    pl_line_or_nil(doc);
    pl_text(doc, ")");
    pl_close_group(doc);
}

static void test_groups(void)
{
    pl_doc doc = PL_DOC_INIT;
    SHOWS(80, "");
    call(&doc);
    SHOWS(7, "f(a, b)");
    SHOWS(6, "f(\na,\nb,\n)");
    pl_clear(&doc);
    header_example(&doc);
    SHOWS(4, "f(x)");
    SHOWS(3, "f(\n  x\n)");
    pl_clear(&doc);
    pl_text(&doc, "aa");
    pl_soft_line(&doc);
    pl_text(&doc, "bb");
    pl_soft_line(&doc);
    pl_text(&doc, "cc");
    SHOWS(7, "aa bb\ncc");
    SHOWS(4, "aa\nbb\ncc");
    pl_free(&doc);
}

static void test_indents(void)
{
    pl_doc doc = PL_DOC_INIT;
    pl_options late = PL_OPTIONS_INIT;
    pl_text(&doc, "sum = ");
    pl_open(&doc);
    pl_text(&doc, "one");
    pl_line(&doc);
    pl_text(&doc, "+ two");
    pl_close_group(&doc);
    pl_align(&doc);
    SHOWS(15, "sum = one + two");
    SHOWS(14, "sum = one\n      + two");
    pl_clear(&doc);
    pl_open(&doc);
    pl_text(&doc, "a");
    pl_hard_line(&doc);
    pl_hard_line(&doc);
    pl_text(&doc, "b");
    pl_close_nest(&doc, 2);
    SHOWS(80, "a\n  \n  b");
    late.deferred = true;
    CHECK(is(pl_layout(&doc, 80, &late), PL_OK, "a\n\n  b"));
    late.crlf = true;
    CHECK(is(pl_layout(&doc, 80, &late), PL_OK, "a\r\n\r\n  b"));
    pl_free(&doc);
}

static void body(pl_doc *doc, const char *text)
{
    pl_open(doc);
    pl_text(doc, "head");
    pl_hard_line(doc);
    pl_text(doc, text);
    pl_close(doc);
}

static void test_choices(void)
{
    pl_doc doc = PL_DOC_INIT;
    body(&doc, "long body");
    body(&doc, "body");
    pl_union(&doc);
    SHOWS(9, "head\nlong body");
    SHOWS(8, "head\nbody");
    pl_clear(&doc);
    body(&doc, "long body");
    body(&doc, "body");
    pl_partial_union(&doc);
    SHOWS(4, "head\nlong body");
    SHOWS(3, "head\nbody");
    pl_clear(&doc);
    pl_text(&doc, "let y =");
    pl_soft_line(&doc);
    pl_text(&doc, "  f(x)");
    pl_text(&doc, "f(x)");
    pl_if_column_is_nesting(&doc);
    SHOWS(12, "let y = f(x)");
    SHOWS(11, "let y =\n  f(x)");
    pl_free(&doc);
}

static void test_comments(void)
{
    pl_doc doc = PL_DOC_INIT;
    pl_open(&doc);
    pl_text(&doc, "a");
    pl_open(&doc);
    pl_text(&doc, " // ");
    pl_text(&doc, "why");
    pl_close_line_suffix(&doc);
    pl_text(&doc, ",");
    pl_line(&doc);
    pl_text(&doc, "b");
    pl_close_group(&doc);
    SHOWS(4, "a, b // why");
    SHOWS(3, "a, // why\nb");
    pl_free(&doc);
}

/* ---- Statuses ---- */

/* A program that is wrong leaves the area unchanged. */
static bool refuses(const char *program, size_t length, uint32_t status)
{
    uint8_t out[4] = {1, 2, 3, 4};
    const uint8_t before[4] = {1, 2, 3, 4};
    size_t written = 9;
    return prettyless_layout((const uint8_t *)program, length, 80, false, false, 0, out, 4, &written) == status &&
           written == 0 && memcmp(out, before, 4) == 0;
}

#define REFUSES(program, status) CHECK(refuses(program, sizeof program - 1, status))

static void test_programs(void)
{
    REFUSES("\x10\x01\0\0\0a\x08", PL_NO_INSTRUCTION);
    REFUSES("\x10\x02\0\0\0a", PL_CUT_OFF);
    REFUSES("\x00\x25\x01", PL_CUT_OFF);
    REFUSES("\x10\x01\0\0\0\xff", PL_NOT_UTF8);
    REFUSES("\x20", PL_TOO_FEW);
    REFUSES("\x00\x40\x00\x30", PL_TOO_FEW);
    REFUSES("\x00\x41", PL_NOT_OPENED);
    REFUSES("\x40\x40\x41", PL_NOT_CLOSED);
}

static void test_areas(void)
{
    static const uint8_t program[] = "\x10\x05\0\0\0hello\x01";
    uint8_t out[9] = "........";
    size_t written;
    CHECK(prettyless_layout(program, 10, 80, false, false, 0, out, 5, &written) == PL_OK);
    CHECK(written == 5 && memcmp(out, "hello...", 8) == 0);
    memset(out, '.', 8);
    CHECK(prettyless_layout(program, 10, 80, false, false, 0, out, 3, &written) == PL_TOO_SMALL);
    CHECK(written == 5 && memcmp(out, "hel.....", 8) == 0);
    CHECK(prettyless_layout(program, 10, 80, false, false, 0, out, 0, &written) == PL_TOO_SMALL && written == 5);
    CHECK(prettyless_layout(program, 10, 80, false, false, 5, out, 8, &written) == PL_OK && written == 5);
    CHECK(prettyless_layout(program, 10, 80, false, false, 4, out, 2, &written) == PL_PAST_LIMIT && written <= 2);
    CHECK(prettyless_layout(program, 11, 80, false, false, 0, out, 2, &written) == PL_FAILS && written == 2);
}

static void test_long_layouts(void)
{
    pl_doc doc = PL_DOC_INIT;
    pl_options options = PL_OPTIONS_INIT;
    pl_result result;
    pl_open(&doc);
    pl_hard_line(&doc);
    pl_text(&doc, "a");
    pl_close_nest(&doc, 5000);
    result = pl_layout(&doc, 80, &options);
    CHECK(result.status == PL_OK && result.length == 5002 && strlen(result.text) == 5002 && result.text[5001] == 'a');
    free(result.text);
    options.limit = 5001;
    result = pl_layout(&doc, 80, &options);
    CHECK(result.status == PL_PAST_LIMIT && result.length <= 5001 && strspn(result.text, "\n ") == result.length);
    free(result.text);
    pl_fail(&doc);
    result = pl_layout(&doc, 80, NULL);
    CHECK(result.status == PL_FAILS && result.length == 5002 && strlen(result.text) == 5002);
    free(result.text);
    pl_free(&doc);
}

/* ---- JSON ---- */

static void test_json(void)
{
    static const char json[] = "{\"name\":\"Ada\",\"list\":[1,22,333],\"empty\":{}}";
    pl_result result = pl_layout_json(json, sizeof json - 1, 24, NULL);
    CHECK(result.line == 0 && result.column == 0);
    CHECK(is(result, PL_OK, "{\n  \"name\": \"Ada\",\n  \"list\": [1, 22, 333],\n  \"empty\": {}\n}\n"));
    result = pl_layout_json("[1,\n \"\xc3\xa9\" 2]", 11, 80, NULL);
    CHECK(result.line == 2 && result.column == 6);
    CHECK(is(result, PL_NOT_JSON, "`,` or `]`"));
    CHECK(is(pl_layout_json(NULL, 0, 80, NULL), PL_NOT_JSON, "a value"));
}

/* Of lists in lists: so many levels are JSON here, one more is not. */
#define LEVELS 100000

static void test_json_depth(void)
{
    static char json[2 * LEVELS + 2];
    pl_result result;
    memset(json, '[', LEVELS + 1);
    memset(json + LEVELS + 1, ']', LEVELS + 1);
    result = pl_layout_json(json + 1, 2 * LEVELS, SIZE_MAX, NULL);
    CHECK(result.status == PL_OK && result.length == 2 * LEVELS + 1);
    free(result.text);
    result = pl_layout_json(json, 2 * LEVELS + 2, SIZE_MAX, NULL);
    CHECK(result.status == PL_NOT_JSON && result.line == 1 && result.column == LEVELS + 1);
    free(result.text);
}

/* Each option of JSON, and its default. */
static void test_json_options(void)
{
    static const char json[] = "[1,\n\n\n2,333]";
    pl_options options = PL_OPTIONS_INIT;
    CHECK(is(pl_layout_json(json, sizeof json - 1, 9, &options), PL_OK, "[\n  1,\n  2,\n  333\n]\n"));
    options.indent = 3;
    CHECK(is(pl_layout_json(json, sizeof json - 1, 9, &options), PL_OK, "[\n   1,\n   2,\n   333\n]\n"));
    options.indent = PL_NO_INDENT;
    CHECK(is(pl_layout_json(json, sizeof json - 1, 9, &options), PL_OK, "[\n1,\n2,\n333\n]\n"));
    options.keep_blank_lines = true;
    CHECK(is(pl_layout_json(json, sizeof json - 1, 9, &options), PL_OK, "[\n1,\n\n2,\n333\n]\n"));
    options.keep_blank_lines = false;
    options.indent = 0;
    options.fill = true;
    CHECK(is(pl_layout_json(json, sizeof json - 1, 9, &options), PL_OK, "[\n  1, 2,\n  333\n]\n"));
    options.limit = 18;
    CHECK(is(pl_layout_json(json, sizeof json - 1, 9, &options), PL_OK, "[\n  1, 2,\n  333\n]\n"));
    options.limit = 17;
    CHECK(is(pl_layout_json(json, sizeof json - 1, 9, &options), PL_PAST_LIMIT, "[\n  1, 2,\n  333\n]"));
}

/* What the call for JSON answers for an area of two bytes. */
static uint32_t json_status(const char *json, size_t limit, uint8_t *out, size_t *written, size_t *line, size_t *column)
{
    const uint8_t *text = (const uint8_t *)json;
    return prettyless_layout_json(text, strlen(json), 80, 2, false, false, limit, out, 2, written, line, column);
}

/* No more is said to be written than there is room for. */
static void test_json_areas(void)
{
    uint8_t out[2];
    size_t written, line, column;
    CHECK(json_status("[1, 2]", 0, out, &written, &line, &column) == PL_TOO_SMALL);
    CHECK(written == 7 && memcmp(out, "[1", 2) == 0 && line == 0 && column == 0);
    CHECK(json_status("[1, 2]", 6, out, &written, &line, &column) == PL_PAST_LIMIT);
    CHECK(written <= 2);
    CHECK(json_status("[1,", 0, out, &written, &line, &column) == PL_NOT_JSON);
    CHECK(written <= 2 && line == 1 && column == 4);
}

/* ---- TOML ---- */

static void test_toml(void)
{
    static const char toml[] = "# first\nname=\"Ada\"\nlist=[1,22,333]#last\n[ empty ]\n";
    pl_result result = pl_layout_toml(toml, sizeof toml - 1, 16, NULL);
    CHECK(result.line == 0 && result.column == 0);
    CHECK(is(result, PL_OK, "# first\nname = \"Ada\"\nlist = [\n  1, 22, 333,\n] #last\n[empty]\n"));
    CHECK(is(pl_layout_toml("a=1\r\nb=2", 8, 80, NULL), PL_OK, "a = 1\r\nb = 2\r\n"));
    CHECK(is(pl_layout_toml(NULL, 0, 80, NULL), PL_OK, ""));
    result = pl_layout_toml("a = 1\n\"\xc3\xa9\" = [1 2]", 18, 80, NULL);
    CHECK(result.line == 2 && result.column == 10);
    CHECK(is(result, PL_NOT_TOML, "`,` or `]`"));
}

/* Of arrays in arrays: 128 brackets may be in one another, 129 may not. */
static void test_toml_depth(void)
{
    char toml[260];
    pl_result result;
    memcpy(toml, "a=", 2);
    memset(toml + 2, '[', 128);
    memset(toml + 130, ']', 128);
    result = pl_layout_toml(toml, 258, SIZE_MAX, NULL);
    CHECK(result.status == PL_OK && result.length == 261);
    free(result.text);
    memset(toml + 2, '[', 129);
    memset(toml + 131, ']', 129);
    result = pl_layout_toml(toml, 260, SIZE_MAX, NULL);
    CHECK(result.status == PL_NOT_TOML && result.line == 1 && result.column == 131);
    free(result.text);
}

/* Each option of TOML, and its default. */
static void test_toml_options(void)
{
    pl_options options = PL_OPTIONS_INIT;
    CHECK(is(pl_layout_toml("a=[1,2]", 7, 9, &options), PL_OK, "a = [\n  1, 2,\n]\n"));
    options.indent = 1;
    CHECK(is(pl_layout_toml("a=[1,2]", 7, 9, &options), PL_OK, "a = [\n 1, 2,\n]\n"));
    options.indent = PL_NO_INDENT;
    CHECK(is(pl_layout_toml("a=[1,2]", 7, 9, &options), PL_OK, "a = [\n1, 2,\n]\n"));
    options.limit = 3;
    CHECK(is(pl_layout_toml("a=[1,2]", 7, 9, &options), PL_PAST_LIMIT, "a ="));
}

/* No more is said to be written than there is room for. */
static void test_toml_areas(void)
{
    uint8_t out[2];
    size_t written, line, column;
    const uint8_t *one = (const uint8_t *)"a=1", *open = (const uint8_t *)"a=";
    CHECK(prettyless_layout_toml(one, 3, 80, 2, 0, out, 2, &written, &line, &column) == PL_TOO_SMALL);
    CHECK(written == 6 && memcmp(out, "a ", 2) == 0 && line == 0 && column == 0);
    CHECK(prettyless_layout_toml(one, 3, 80, 2, 5, out, 2, &written, &line, &column) == PL_PAST_LIMIT);
    CHECK(written <= 2);
    CHECK(prettyless_layout_toml(open, 2, 80, 2, 0, out, 2, &written, &line, &column) == PL_NOT_TOML);
    CHECK(written <= 2 && line == 1 && column == 3);
}

/* ---- Refusals ---- */

/* Whether the document is refused, stays so, and is well after pl_clear. */
static bool is_refused(pl_doc *doc)
{
    bool all = doc->refused && doc->bytes == NULL;
    pl_result result = pl_layout(doc, 80, NULL);
    all = all && result.status == PL_MEMORY && result.text == NULL && result.length == 0;
    pl_text(doc, "a");
    all = all && doc->refused && doc->length == 0;
    pl_clear(doc);
    pl_text(doc, "a");
    all = all && is(pl_layout(doc, 80, NULL), PL_OK, "a");
    pl_free(doc);
    return all;
}

static void test_lengths(void)
{
    pl_doc doc = PL_DOC_INIT, other = PL_DOC_INIT;
    pl_text_n(&doc, "", (size_t)PL_LONGEST + 1);
    CHECK(is_refused(&doc));
    pl_text_width_n(&doc, "", SIZE_MAX, 1);
    CHECK(is_refused(&doc));
    pl_multiline_n(&other, "", SIZE_MAX);
    pl_line(&doc);
    pl_include(&doc, &other);
    CHECK(other.refused);
    CHECK(is_refused(&doc));
    pl_free(&other);
}

/* Refuses each request in turn, until there is none left to refuse. */
static void test_memory(void)
{
    size_t n;
    uint32_t status = PL_MEMORY;
    for (n = 0; n < 100 && status == PL_MEMORY; n++) {
        pl_doc doc = PL_DOC_INIT;
        pl_result result;
        int i;
        granted = n;
        for (i = 0; i < 100; i++) call(&doc);
        result = pl_layout(&doc, 6, NULL);
        status = result.status;
        CHECK(granted > 0 || doc.refused == (doc.bytes == NULL));
        granted = (size_t)-1;
        free(result.text);
        pl_free(&doc);
    }
    CHECK(status == PL_OK && n > 3);
}

static void test_messages(void)
{
    uint32_t status, other;
    for (status = 0; status <= 21; status++)
        for (other = 0; other < status; other++)
            if (status < 7 || other < 7 || other > 15) CHECK(strcmp(pl_message(status), pl_message(other)) != 0);
    CHECK(strcmp(pl_message(7), pl_message(UINT32_MAX)) == 0);
}

int main(void)
{
    test_leaves();
    test_nodes();
    test_sequences();
    test_groups();
    test_indents();
    test_choices();
    test_comments();
    test_programs();
    test_areas();
    test_long_layouts();
    test_json();
    test_json_depth();
    test_json_options();
    test_json_areas();
    test_toml();
    test_toml_depth();
    test_toml_options();
    test_toml_areas();
    test_lengths();
    test_memory();
    test_messages();
    if (failures == 0) puts("test: all well");
    return failures == 0 ? 0 : 1;
}
