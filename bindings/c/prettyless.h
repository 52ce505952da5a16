/* prettyless.h: lays out documents within a line width. C99 and C++17; link with libprettyless.a or libprettyless.so.

   A document is built by calls on a pl_doc, and laid out by pl_layout:

       pl_doc doc = PL_DOC_INIT;
       pl_open(&doc);
       pl_text(&doc, "f(");
       pl_open(&doc);
       pl_line_or_nil(&doc);
       pl_text(&doc, "x");
       pl_close_nest(&doc, 2);
       pl_line_or_nil(&doc);
       pl_text(&doc, ")");
       pl_close_group(&doc);
       pl_result result = pl_layout(&doc, 80, NULL);
       puts(result.status == PL_OK ? result.text : pl_message(result.status));
       free(result.text);
       pl_free(&doc);

   It shows `f(x)`; at a width of 3, `x` has a line of its own, with an indent of two columns.

   The library has three calls, prettyless_layout, prettyless_layout_json and prettyless_layout_toml. All else here is
   inline code over them, with the prefix pl_; it is tested, not proved. A program in C calls pl_layout, pl_layout_json
   and pl_layout_toml, which take options by name and answer a string.

   Memory: the library calls malloc, realloc and free of the program that it is linked into, and so does this header.
   They must be of one allocator, and answer memory that is aligned as C demands (for any type). A call of the library
   keeps no memory after it returns. No call may come from a signal handler, as those three may not.

   Threads: any number of threads may call the library at once. A pl_doc is used by one thread at a time; while none
   changes it, any number may lay it out.

   Names begin with pl_, PL_ or prettyless_. Those that end in _ are for this header alone. */
#ifndef PRETTYLESS_H
#define PRETTYLESS_H

#include <stdbool.h>
#include <stddef.h>
#include <stdint.h>
#include <stdlib.h>
#include <string.h>

#if SIZE_MAX < UINT64_MAX
#error "the library is for machines whose size_t has 64 bits"
#endif

/* The version of this header, and of the library that it came with. */
#define PL_VERSION "0.4.0"

#ifdef __cplusplus
extern "C" {
#endif

/* ---- The library's calls ---- */

/* What a call answers. The numbers stay as they are; later versions may add others. Those from 16 on say what is wrong
   with a program, and not where. */
enum pl_status {
    /* The layout is whole. */
    PL_OK = 0,
    /* The layout has more bytes than the area given has room for. Calls that begin with pl_ never answer this. */
    PL_TOO_SMALL = 1,
    /* Memory was refused. The inline calls also answer this for a text longer than PL_LONGEST. */
    PL_MEMORY = 2,
    /* The layout comes to a node that cannot be laid: pl_fail, or a hard line or a payload of several lines in
       pl_flatten. The calls for JSON and TOML never answer this. */
    PL_FAILS = 3,
    /* The layout is longer than the limit given. */
    PL_PAST_LIMIT = 4,
    /* The text is not JSON, or has more than 100,000 levels. Only the calls for JSON answer this. */
    PL_NOT_JSON = 5,
    /* The text is not TOML, or has more than 128 brackets in one another. Only the calls for TOML answer this. */
    PL_NOT_TOML = 6,
    /* A byte of the program begins no instruction. */
    PL_NO_INSTRUCTION = 16,
    /* The program ends inside an instruction. */
    PL_CUT_OFF = 17,
    /* A text is not UTF-8. */
    PL_NOT_UTF8 = 18,
    /* An instruction takes more documents than were made since a sequence was opened last. */
    PL_TOO_FEW = 19,
    /* A sequence is closed that was not opened. */
    PL_NOT_OPENED = 20,
    /* A sequence is open at the end. */
    PL_NOT_CLOSED = 21
};

/* The instructions of a program. A program has one for each node of a document, after those of the documents below it.
   Numbers and lengths are little endian. The codes stay as they are; later versions may add others. */
enum pl_op {
    /* Nothing. */
    PL_OP_NIL = 0,
    /* A document that cannot be laid. */
    PL_OP_FAIL = 1,
    /* A space, but nothing at the beginning and at the end of a line. */
    PL_OP_WEAK_SPACE = 2,
    /* A line break. */
    PL_OP_HARD_LINE = 3,
    /* A line break. At the beginning of a line it is nothing, unless a suffix is pending there. */
    PL_OP_WEAK_LINE = 4,
    /* Nothing, but the groups around it are broken. */
    PL_OP_EXPAND_PARENT = 5,
    /* A line break, or one space where lines are flat. */
    PL_OP_LINE = 6,
    /* A line break, or nothing where lines are flat. */
    PL_OP_LINE_OR_NIL = 7,

    /* A text as wide as it is shown: its length in four bytes, its bytes. */
    PL_OP_TEXT = 16,
    /* A text as wide as it has bytes: its length in four bytes, its bytes. */
    PL_OP_ASCII = 17,
    /* A text with a width of its own: the width in eight bytes, the length in four bytes, its bytes. */
    PL_OP_TEXT_WIDTH = 18,
    /* A payload: its length in four bytes, its bytes. They are written as they are if they hold LF or CR; else as
       PL_OP_TEXT. */
    PL_OP_MULTILINE = 19,

    /* The last document, flat if it fits on its line. */
    PL_OP_GROUP = 32,
    /* The last document, flat at every width. */
    PL_OP_FLATTEN = 33,
    /* The last document; its lines begin in the column where it starts. */
    PL_OP_ALIGN = 34,
    /* The last document; its lines begin in column 0. */
    PL_OP_DEDENT_TO_ROOT = 35,
    /* The last document, at the end of its line. */
    PL_OP_LINE_SUFFIX = 36,
    /* The last document, its lines indented by more columns: eight bytes of two's complement. */
    PL_OP_NEST = 37,

    /* The last document but one, and then the last. */
    PL_OP_APPEND = 48,
    /* The last document but one where lines are broken, the last where they are flat. */
    PL_OP_FLAT_ALT = 49,
    /* The last document but one if all of its lines fit, else the last. */
    PL_OP_UNION = 50,
    /* The last document but one if its first line fits, else the last. */
    PL_OP_PARTIAL_UNION = 51,
    /* The last document but one if it would begin at most at a column (eight bytes), else the last. */
    PL_OP_COLUMN_AT_MOST = 52,
    /* The last document but one if it would begin at least at a column (eight bytes), else the last. */
    PL_OP_COLUMN_AT_LEAST = 53,
    /* The last document but one if it would begin at the indent, else the last. */
    PL_OP_COLUMN_IS_NESTING = 54,
    /* The last document but one if the indent is at most a number (eight bytes), else the last. */
    PL_OP_NESTING_AT_MOST = 55,
    /* The last document but one if the indent is at least a number (eight bytes), else the last. */
    PL_OP_NESTING_AT_LEAST = 56,

    /* Opens a sequence. */
    PL_OP_OPEN = 64,
    /* Closes the sequence that was opened last: the documents made since are one document, in order, or nothing if
       none. */
    PL_OP_CLOSE = 65
};

/* Lays out the document that the bytes program[0..length) write, and answers a pl_status. What is left at the end of
   the program is one sequence; an empty program is nothing.

   width      the width of lines in columns
   crlf       lines end in CR LF, else in LF
   deferred   false: the indent of a line is written at once, so an empty line inside a nest has trailing spaces;
              true: it is written before the first text of the line, so an empty line has none
   limit      the greatest length of the layout in bytes, 0 for none; give one where a program comes from someone
              else, since a few bytes of program can ask for a very long layout. It does not bound the memory of the
              first branch of a union, which is laid in memory: see "Limits" in docs/BINDINGS.md
   out        gets the layout, at most `capacity` bytes; no 0 is put after it
   *written   gets the number of bytes that were written to `out`; after PL_TOO_SMALL, the length of the whole layout

   After PL_OK, out[0..*written) is the layout, and what comes after it in `out` is unchanged. A layout ends in a line
   end only if the document does. After PL_TOO_SMALL, all of `out` is the beginning of the layout. After PL_MEMORY and
   PL_PAST_LIMIT, out[0..*written) is a beginning of the layout. After PL_FAILS, it is the bytes before the node that
   fails, as far as there is room; if *written is `capacity`, there may be more of them, and a call with more room gets
   them. What is not the whole layout may end inside a character. After statuses from 16 on, `out` is unchanged and
   *written is 0.

   No pointer may be null, also for a length or a capacity of 0. The areas of program, out and written may not overlap.
   The call keeps no pointer. */
uint32_t prettyless_layout(const uint8_t *program, size_t length, size_t width, bool crlf, bool deferred, size_t limit,
                           uint8_t *out, size_t capacity, size_t *written);

/* Lays out the JSON text text[0..length) (RFC 8259, at most 100,000 levels deep), and answers a pl_status below 16. A
   layout ends in one LF.

   width      the width of lines in columns
   indent     how many columns each level is indented by
   fill       arrays of numbers fill their lines, else each broken array has a line for each item
   keep_blank_lines
              blank lines between members stay where lines are broken, of several one

   limit, out, capacity and written are as of prettyless_layout. The layout is made straight into `out`, and ends where
   it is past the limit. So give one where a text comes from someone else: see "Limits" in docs/BINDINGS.md.

   After PL_NOT_JSON, *line and *column say where the token begins that is wrong, in a string where the escape or
   control character does or the line or the text ends before a closing quote, or where the first bytes are that are
   not UTF-8 (both from 1; a column is a character). Then out[0..*written) is the name of what was expected there, as
   far as there is room: a name has fewer than 100 bytes.
   After other statuses *line and *column are 0.

   No pointer may be null, also for a length or a capacity of 0. The areas of text, out, written, line and column may
   not overlap. The call keeps no pointer. */
uint32_t prettyless_layout_json(const uint8_t *text, size_t length, size_t width, uint32_t indent, bool fill,
                                bool keep_blank_lines, size_t limit, uint8_t *out, size_t capacity, size_t *written,
                                size_t *line, size_t *column);

/* Lays out the TOML text text[0..length) (TOML 1.0, at most 128 brackets in one another), and answers a pl_status
   below 16. A key that is defined twice is no fault. The layout has the same statements, with all comments. Its lines
   end as the first line of the text does that ends outside of strings, or in LF if there is none. It ends in a line
   end, unless it is empty.

   width      the width of lines in columns
   indent     how many columns the members of a broken array are further in than its brackets

   limit, out, capacity, written, line and column are as of prettyless_layout_json, with PL_NOT_TOML for PL_NOT_JSON,
   but the whole layout is made in memory before it is copied to `out`. So a limit bounds neither memory nor time.
   After PL_NOT_TOML, *line and *column say where the token begins that is wrong, or the first bytes are that are not
   UTF-8, and out[0..*written) is the name of what was expected there, as far as there is room.

   No pointer may be null, also for a length or a capacity of 0. The areas of text, out, written, line and column may
   not overlap. The call keeps no pointer. */
uint32_t prettyless_layout_toml(const uint8_t *text, size_t length, size_t width, uint32_t indent, size_t limit,
                                uint8_t *out, size_t capacity, size_t *written, size_t *line, size_t *column);

#ifdef __cplusplus
}
#endif

/* The version of this header, for languages that read no macros. */
static inline const char *pl_version(void)
{
    return PL_VERSION;
}

/* A short message for a status, in English, without a full stop. */
static inline const char *pl_message(uint32_t status)
{
    switch (status) {
    case PL_OK: return "the layout is whole";
    case PL_TOO_SMALL: return "the layout has more bytes than there is room for";
    case PL_MEMORY: return "memory was refused, or a text has 2^32 bytes or more";
    case PL_FAILS: return "the document cannot be laid out";
    case PL_PAST_LIMIT: return "the layout is longer than the limit";
    case PL_NOT_JSON: return "the text is not JSON, or has more than 100,000 levels";
    case PL_NOT_TOML: return "the text is not TOML, or has more than 128 brackets in one another";
    case PL_NO_INSTRUCTION: return "a byte of the program begins no instruction";
    case PL_CUT_OFF: return "the program ends inside an instruction";
    case PL_NOT_UTF8: return "a text is not UTF-8";
    case PL_TOO_FEW: return "an instruction takes more documents than were made";
    case PL_NOT_OPENED: return "a sequence is closed that was not opened";
    case PL_NOT_CLOSED: return "a sequence is open at the end";
    default: return "a status that this header does not know";
    }
}

/* ---- Building a document ---- */

/* A document that is being built: a program that grows. It begins as PL_DOC_INIT (or as all zeros) and ends by pl_free.
   A call whose memory is refused, or whose text is longer than PL_LONGEST, sets `refused` and gives back the memory;
   from there on calls add nothing, and pl_layout answers PL_MEMORY. So no call needs to be checked. */
typedef struct pl_doc {
    uint8_t *bytes;  /* the program, null while there is no memory */
    size_t length;   /* its length in bytes */
    size_t capacity; /* how many bytes there is memory for */
    bool refused;    /* memory was refused, or a text was too long */
} pl_doc;

/* The document to begin with: nothing, with no memory taken. */
#define PL_DOC_INIT {NULL, 0, 0, false}

/* The greatest length of a text, in bytes. */
#define PL_LONGEST UINT32_MAX

/* Gives the memory back. The document is as PL_DOC_INIT after it. */
static inline void pl_free(pl_doc *doc)
{
    free(doc->bytes);
    memset(doc, 0, sizeof *doc);
}

/* Makes the document nothing again, and keeps its memory for the next one. A refusal is forgotten. */
static inline void pl_clear(pl_doc *doc)
{
    doc->length = 0;
    doc->refused = false;
}

static inline uint8_t *pl_refuse_(pl_doc *doc)
{
    pl_free(doc);
    doc->refused = true;
    return NULL;
}

/* Grows the program by n bytes, and answers where they begin, or null. The memory doubles at least, so that all calls
   together copy a byte once or twice. */
static inline uint8_t *pl_grow_(pl_doc *doc, size_t n)
{
    const size_t length = doc->length;
    size_t capacity = doc->capacity <= SIZE_MAX / 2 ? 2 * doc->capacity : SIZE_MAX;
    uint8_t *bytes;
    if (doc->refused || n > SIZE_MAX - length) return pl_refuse_(doc);
    if (capacity < 256) capacity = 256;
    if (capacity < length + n) capacity = length + n;
    bytes = (uint8_t *)realloc(doc->bytes, capacity);
    if (bytes == NULL) return pl_refuse_(doc);
    doc->bytes = bytes;
    doc->capacity = capacity;
    doc->length = length + n;
    return bytes + length;
}

static inline uint8_t *pl_room_(pl_doc *doc, size_t n)
{
    uint8_t *at;
    if (doc->capacity - doc->length < n) return pl_grow_(doc, n);
    at = doc->bytes + doc->length;
    doc->length += n;
    return at;
}

static inline uint8_t *pl_put_u32_(uint8_t *at, uint32_t n)
{
    at[0] = (uint8_t)n;
    at[1] = (uint8_t)(n >> 8);
    at[2] = (uint8_t)(n >> 16);
    at[3] = (uint8_t)(n >> 24);
    return at + 4;
}

static inline uint8_t *pl_put_u64_(uint8_t *at, uint64_t n)
{
    return pl_put_u32_(pl_put_u32_(at, (uint32_t)n), (uint32_t)(n >> 32));
}

static inline void pl_op_(pl_doc *doc, uint8_t op)
{
    uint8_t *at = pl_room_(doc, 1);
    if (at != NULL) at[0] = op;
}

static inline void pl_op_number_(pl_doc *doc, uint8_t op, uint64_t n)
{
    uint8_t *at = pl_room_(doc, 9);
    if (at == NULL) return;
    at[0] = op;
    pl_put_u64_(at + 1, n);
}

static inline void pl_op_text_(pl_doc *doc, uint8_t op, const char *text, size_t length)
{
    uint8_t *at = length <= PL_LONGEST ? pl_room_(doc, 5 + length) : pl_refuse_(doc);
    if (at == NULL) return;
    at[0] = op;
    at = pl_put_u32_(at + 1, (uint32_t)length);
    if (length > 0) memcpy(at, text, length);
}

/* ---- Texts. They are UTF-8 (else the layout answers PL_NOT_UTF8), and are copied. A text is never broken.

   pl_text writes LF, CR and tabs as they are, and counts one column for each (for CR LF one where the text is not
   ASCII). Use pl_multiline for a text with line ends in it. ---- */

/* A text of so many bytes, as wide as it is shown: a column for an ASCII character, two for a wide one. `text` may be
   null if the length is 0. */
static inline void pl_text_n(pl_doc *doc, const char *text, size_t length)
{
    pl_op_text_(doc, PL_OP_TEXT, text, length);
}

/* The same of a string that ends in 0. */
static inline void pl_text(pl_doc *doc, const char *text)
{
    pl_text_n(doc, text, strlen(text));
}

/* A text of so many bytes, as wide as it has bytes; it is meant for ASCII. `text` may be null if the length is 0. */
static inline void pl_ascii_n(pl_doc *doc, const char *text, size_t length)
{
    pl_op_text_(doc, PL_OP_ASCII, text, length);
}

/* The same of a string that ends in 0. */
static inline void pl_ascii(pl_doc *doc, const char *text)
{
    pl_ascii_n(doc, text, strlen(text));
}

/* A text of so many bytes that counts as `width` columns, for instance 0 for an escape sequence of a terminal. `text`
   may be null if the length is 0. */
static inline void pl_text_width_n(pl_doc *doc, const char *text, size_t length, size_t width)
{
    uint8_t *at = length <= PL_LONGEST ? pl_room_(doc, 13 + length) : pl_refuse_(doc);
    if (at == NULL) return;
    at[0] = PL_OP_TEXT_WIDTH;
    at = pl_put_u32_(pl_put_u64_(at + 1, width), (uint32_t)length);
    if (length > 0) memcpy(at, text, length);
}

/* The same of a string that ends in 0. */
static inline void pl_text_width(pl_doc *doc, const char *text, size_t width)
{
    pl_text_width_n(doc, text, strlen(text), width);
}

/* A text of so many bytes that may have several lines: if it holds LF or CR, it is written byte for byte, without
   indents, and groups around it are broken; else it is as pl_text_n. `text` may be null if the length is 0. */
static inline void pl_multiline_n(pl_doc *doc, const char *text, size_t length)
{
    pl_op_text_(doc, PL_OP_MULTILINE, text, length);
}

/* The same of a string that ends in 0. */
static inline void pl_multiline(pl_doc *doc, const char *text)
{
    pl_multiline_n(doc, text, strlen(text));
}

/* ---- Lines, spaces, and documents that show nothing ---- */

/* A line break. A group that would show it flat is broken. */
static inline void pl_hard_line(pl_doc *doc)
{
    pl_op_(doc, PL_OP_HARD_LINE);
}

/* A line break, or one space where lines are flat. */
static inline void pl_line(pl_doc *doc)
{
    pl_op_(doc, PL_OP_LINE);
}

/* A line break, or nothing where lines are flat. */
static inline void pl_line_or_nil(pl_doc *doc)
{
    pl_op_(doc, PL_OP_LINE_OR_NIL);
}

/* A line break, also where lines are flat. At the beginning of a line it is nothing, unless a suffix is pending
   there. */
static inline void pl_weak_line(pl_doc *doc)
{
    pl_op_(doc, PL_OP_WEAK_LINE);
}

/* A space, but nothing at the beginning and at the end of a line. */
static inline void pl_weak_space(pl_doc *doc)
{
    pl_op_(doc, PL_OP_WEAK_SPACE);
}

/* Nothing. */
static inline void pl_nil(pl_doc *doc)
{
    pl_op_(doc, PL_OP_NIL);
}

/* Nothing, but the groups around it are broken. */
static inline void pl_expand_parent(pl_doc *doc)
{
    pl_op_(doc, PL_OP_EXPAND_PARENT);
}

/* A document that cannot be laid. An alternative or a flat group that comes to it is rejected; anywhere else the layout
   answers PL_FAILS. */
static inline void pl_fail(pl_doc *doc)
{
    pl_op_(doc, PL_OP_FAIL);
}

/* ---- Of the last document ---- */

/* Lays it flat if it fits on its line, with what follows up to the next possible break. */
static inline void pl_group(pl_doc *doc)
{
    pl_op_(doc, PL_OP_GROUP);
}

/* Lays it flat at every width. */
static inline void pl_flatten(pl_doc *doc)
{
    pl_op_(doc, PL_OP_FLATTEN);
}

/* Lets its lines begin `columns` columns further to the right, or to the left where that is negative. No indent goes
   below 0. Only breaks inside the nest are indented, so put the break before its first line inside as well. */
static inline void pl_nest(pl_doc *doc, int64_t columns)
{
    pl_op_number_(doc, PL_OP_NEST, (uint64_t)columns);
}

/* Lets its lines begin in the column where it starts. */
static inline void pl_align(pl_doc *doc)
{
    pl_op_(doc, PL_OP_ALIGN);
}

/* Lets its lines begin in column 0. */
static inline void pl_dedent_to_root(pl_doc *doc)
{
    pl_op_(doc, PL_OP_DEDENT_TO_ROOT);
}

/* Lays it at the end of its line, without counting for what fits. */
static inline void pl_line_suffix(pl_doc *doc)
{
    pl_op_(doc, PL_OP_LINE_SUFFIX);
}

/* A soft line: a group of pl_line. A space where what follows fits, up to the next possible break, else a break. */
static inline void pl_soft_line(pl_doc *doc)
{
    pl_line(doc);
    pl_group(doc);
}

/* A soft line of pl_line_or_nil: nothing where what follows fits, up to the next possible break, else a break. */
static inline void pl_soft_line_or_nil(pl_doc *doc)
{
    pl_line_or_nil(doc);
    pl_group(doc);
}

/* ---- Of the last two documents, called the first and the second ----

   A trailing comma, where lines are broken (the first document), and nothing where they are flat (the second):

       pl_text(&doc, ",");
       pl_nil(&doc);
       pl_flat_alt(&doc); */

/* The first, and then the second. A sequence (pl_open) is shorter for more than two. */
static inline void pl_append(pl_doc *doc)
{
    pl_op_(doc, PL_OP_APPEND);
}

/* The first where lines are broken, the second where they are flat. */
static inline void pl_flat_alt(pl_doc *doc)
{
    pl_op_(doc, PL_OP_FLAT_ALT);
}

/* The first if it can be laid and all of its lines fit, else the second. In flat lines the first, without a test. */
static inline void pl_union(pl_doc *doc)
{
    pl_op_(doc, PL_OP_UNION);
}

/* The first if it can be laid up to the end of its first line, and this fits, else the second. In flat lines the first,
   without a test. */
static inline void pl_partial_union(pl_doc *doc)
{
    pl_op_(doc, PL_OP_PARTIAL_UNION);
}

/* The first if it would begin in this column or before it, else the second. Columns count from 0. */
static inline void pl_if_column_at_most(pl_doc *doc, size_t column)
{
    pl_op_number_(doc, PL_OP_COLUMN_AT_MOST, column);
}

/* The first if it would begin in this column or after it, else the second. Columns count from 0. */
static inline void pl_if_column_at_least(pl_doc *doc, size_t column)
{
    pl_op_number_(doc, PL_OP_COLUMN_AT_LEAST, column);
}

/* The first if it would begin in the column of the indent, else the second. */
static inline void pl_if_column_is_nesting(pl_doc *doc)
{
    pl_op_(doc, PL_OP_COLUMN_IS_NESTING);
}

/* The first if the indent is at most so many columns, else the second. */
static inline void pl_if_nesting_at_most(pl_doc *doc, size_t columns)
{
    pl_op_number_(doc, PL_OP_NESTING_AT_MOST, columns);
}

/* The first if the indent is at least so many columns, else the second. */
static inline void pl_if_nesting_at_least(pl_doc *doc, size_t columns)
{
    pl_op_number_(doc, PL_OP_NESTING_AT_LEAST, columns);
}

/* ---- Sequences. One may be in another. The whole document is a sequence too, without pl_open and pl_close. ---- */

/* Opens a sequence. */
static inline void pl_open(pl_doc *doc)
{
    pl_op_(doc, PL_OP_OPEN);
}

/* Closes the sequence that was opened last. What was made since is one document, in order; nothing, if none was. */
static inline void pl_close(pl_doc *doc)
{
    pl_op_(doc, PL_OP_CLOSE);
}

/* pl_close, and then pl_group. */
static inline void pl_close_group(pl_doc *doc)
{
    pl_close(doc);
    pl_group(doc);
}

/* pl_close, and then pl_flatten. */
static inline void pl_close_flatten(pl_doc *doc)
{
    pl_close(doc);
    pl_flatten(doc);
}

/* pl_close, and then pl_nest. */
static inline void pl_close_nest(pl_doc *doc, int64_t columns)
{
    pl_close(doc);
    pl_nest(doc, columns);
}

/* pl_close, and then pl_align. */
static inline void pl_close_align(pl_doc *doc)
{
    pl_close(doc);
    pl_align(doc);
}

/* pl_close, and then pl_dedent_to_root. */
static inline void pl_close_dedent_to_root(pl_doc *doc)
{
    pl_close(doc);
    pl_dedent_to_root(doc);
}

/* pl_close, and then pl_line_suffix. */
static inline void pl_close_line_suffix(pl_doc *doc)
{
    pl_close(doc);
    pl_line_suffix(doc);
}

/* Adds a copy of another document, as one document. `other` is not `doc`, and closes the sequences that it opens. If
   `other` was refused memory, so is `doc`. */
static inline void pl_include(pl_doc *doc, const pl_doc *other)
{
    pl_open(doc);
    if (other->refused) {
        pl_refuse_(doc);
    } else if (other->length > 0) {
        uint8_t *at = pl_room_(doc, other->length);
        if (at != NULL) memcpy(at, other->bytes, other->length);
    }
    pl_close(doc);
}

/* ---- Laying out into a string ---- */

/* How a document or a text is laid out within a width. Zero is the default of each field: begin with PL_OPTIONS_INIT,
   or name those that differ, as `const pl_options options = {.deferred = true, .limit = 1 << 20};`. A null pointer is
   for all defaults. Later versions may add fields at the end, whose zero changes nothing. */
typedef struct pl_options {
    size_t limit;          /* the greatest length of the layout in bytes, 0 for none; "Limits" in docs/BINDINGS.md says
                              what it does not bound */
    uint32_t indent;       /* JSON: how many columns each level is further in. TOML: the members of a broken array. 0 is
                              for 2 columns, PL_NO_INDENT for none */
    bool crlf;             /* documents: lines end in CR LF, else in LF */
    bool deferred;         /* documents: an empty line inside a nest has no indent, else it has trailing spaces */
    bool fill;             /* JSON: arrays of numbers fill their lines */
    bool keep_blank_lines; /* JSON: blank lines between members stay where lines are broken, of several one */
} pl_options;

/* The options to begin with. */
#define PL_OPTIONS_INIT {0, 0, false, false, false, false}

/* The indent of no columns, for pl_options. */
#define PL_NO_INDENT UINT32_MAX

/* What comes of a layout. The caller frees `text`, at each status. */
typedef struct pl_result {
    uint32_t status; /* a pl_status, never PL_TOO_SMALL */
    char *text;      /* PL_OK: the layout. PL_FAILS: the bytes before the node that fails. PL_NOT_JSON, PL_NOT_TOML: the
                        name of what was expected. PL_MEMORY, PL_PAST_LIMIT: a beginning of the layout, which may end
                        inside a character. Else empty. A 0 comes after it. Null where memory for it was refused, or
                        for the document. */
    size_t length;   /* the length of `text` in bytes, without that 0; a text may hold a 0 too */
    size_t line;     /* PL_NOT_JSON, PL_NOT_TOML: the line where the token begins that is wrong, from 1; else 0 */
    size_t column;   /* PL_NOT_JSON, PL_NOT_TOML: its column there, in characters from 1; else 0 */
} pl_result;

/* The options that a pointer names. */
static inline pl_options pl_options_(const pl_options *options)
{
    const pl_options defaults = PL_OPTIONS_INIT;
    return options != NULL ? *options : defaults;
}

/* The indent that options name, in columns. */
static inline uint32_t pl_indent_(const pl_options *options)
{
    if (options->indent == PL_NO_INDENT) return 0;
    return options->indent != 0 ? options->indent : 2;
}

/* Room for a layout at first: indents may make it longer than what it is made of. */
static inline size_t pl_capacity_(size_t length)
{
    return length <= SIZE_MAX / 4 ? 2 * length + 256 : length;
}

/* Gives `text` room for so many bytes and a 0. Where this is refused, the result is PL_MEMORY without a text. */
static inline bool pl_reserve_(pl_result *result, size_t capacity)
{
    char *text = capacity < SIZE_MAX ? (char *)realloc(result->text, capacity + 1) : NULL;
    if (text == NULL) {
        free(result->text);
        memset(result, 0, sizeof *result);
        result->status = PL_MEMORY;
        return false;
    }
    result->text = text;
    return true;
}

/* How much room a next call needs, or 0 where the last one, with this room, says all. */
static inline size_t pl_wanted_(const pl_result *result, size_t capacity)
{
    if (result->status == PL_TOO_SMALL) return result->length;
    /* What comes before a node that fails may have been cut off. */
    if (result->status == PL_FAILS && result->length == capacity) return pl_capacity_(capacity);
    return 0;
}

/* Puts the 0 after the text, and gives back the room that is left. */
static inline void pl_finish_(pl_result *result)
{
    char *text = (char *)realloc(result->text, result->length + 1);
    if (text != NULL) result->text = text;
    result->text[result->length] = '\0';
}

/* Lays out a document within lines of so many columns; `options` may be null. The library is called once, and again
   only where the layout, or what comes before a node that fails, is more than twice as long as the program (and 256
   bytes). The status is PL_MEMORY if the document was refused memory. */
static inline pl_result pl_layout(const pl_doc *doc, size_t width, const pl_options *options)
{
    const uint8_t *program = doc->bytes != NULL ? doc->bytes : (const uint8_t *)"";
    const pl_options o = pl_options_(options);
    pl_result result = {PL_MEMORY, NULL, 0, 0, 0};
    size_t capacity, wanted = pl_capacity_(doc->length);
    if (doc->refused) return result;
    do {
        capacity = wanted;
        if (!pl_reserve_(&result, capacity)) return result;
        result.status = prettyless_layout(program, doc->length, width, o.crlf, o.deferred, o.limit,
                                          (uint8_t *)result.text, capacity, &result.length);
        wanted = pl_wanted_(&result, capacity);
    } while (wanted != 0);
    pl_finish_(&result);
    return result;
}

/* Lays out a JSON text of so many bytes within lines of so many columns. `json` may be null if the length is 0, and so
   may `options`. */
static inline pl_result pl_layout_json(const char *json, size_t length, size_t width, const pl_options *options)
{
    const uint8_t *bytes = (const uint8_t *)(json != NULL ? json : "");
    const pl_options o = pl_options_(options);
    pl_result result = {PL_MEMORY, NULL, 0, 0, 0};
    size_t capacity, wanted = pl_capacity_(length);
    do {
        capacity = wanted;
        if (!pl_reserve_(&result, capacity)) return result;
        result.status = prettyless_layout_json(bytes, length, width, pl_indent_(&o), o.fill, o.keep_blank_lines,
                                               o.limit, (uint8_t *)result.text, capacity, &result.length,
                                               &result.line, &result.column);
        wanted = pl_wanted_(&result, capacity);
    } while (wanted != 0);
    pl_finish_(&result);
    return result;
}

/* Lays out a TOML text of so many bytes within lines of so many columns. `toml` may be null if the length is 0, and so
   may `options`. */
static inline pl_result pl_layout_toml(const char *toml, size_t length, size_t width, const pl_options *options)
{
    const uint8_t *bytes = (const uint8_t *)(toml != NULL ? toml : "");
    const pl_options o = pl_options_(options);
    pl_result result = {PL_MEMORY, NULL, 0, 0, 0};
    size_t capacity, wanted = pl_capacity_(length);
    do {
        capacity = wanted;
        if (!pl_reserve_(&result, capacity)) return result;
        result.status = prettyless_layout_toml(bytes, length, width, pl_indent_(&o), o.limit, (uint8_t *)result.text,
                                               capacity, &result.length, &result.line, &result.column);
        wanted = pl_wanted_(&result, capacity);
    } while (wanted != 0);
    pl_finish_(&result);
    return result;
}

#endif
