#include "programs.h"
#include "prettyless.h"

#define MOST_OPEN 32

/* A program that is being written. */
typedef struct {
    Random *random;
    Program *program;
    /* How many sequences are open, and how many documents were made in each, and outside of all. */
    size_t open;
    size_t made[MOST_OPEN + 1];
    size_t texts;
} Writer;

static void op(Writer *writer, unsigned code)
{
    put(&writer->program->bytes, code);
}

/* A number of columns that is mostly small. Huge ones are left to programs that may have a long layout. */
static uint64_t columns(Writer *writer, bool may_be_huge)
{
    Random *random = writer->random;
    if (may_be_huge && once_in(random, 4)) {
        return next_number(random) >> below(random, 64);
    }
    return once_in(random, 16) ? below(random, 100) : below(random, 12);
}

/* Columns of a nest: some of them negative. */
static uint64_t offset(Writer *writer)
{
    uint64_t number = columns(writer, writer->program->may_be_long);
    return once_in(writer->random, 5) ? ~number : number;
}

static const char *const pieces[] = {
    "a",
    "bc",
    "def",
    "x = 1",
    " ",
    "  ",
    ",",
    "(",
    ")",
    "{}",
    "\t",
    "a longer piece of text",
    "",
    "=>",
    "\xc3\xa9",
    "\xe4\xbd\xa0\xe5\xa5\xbd",
    "\xf0\x9f\x98\x80",
    "e\xcc\x81",
    "\xe2\x80\x8b",
    "\xf0\x9f\x91\xa9\xe2\x80\x8d\xf0\x9f\x92\xbb",
    "\xf0\x9f\x87\xa9\xf0\x9f\x87\xaa",
    "\xef\xb8\x8f",
    "\xf4\x8f\xbf\xbf",
};
static const char *const line_ends[] = {"\n", "\r\n", "\r", "\n\n"};

#define COUNT_OF(list) (sizeof(list) / sizeof((list)[0]))

/* A text of a few pieces. A line end is frequent where the text may have several lines, and else rare. */
static void write_pieces(Random *random, bool is_multiline, Bytes *to)
{
    size_t count = once_in(random, 8) ? 0 : 1 + below(random, 4);
    for (size_t i = 0; i < count; i++) {
        put_text(to, pieces[below(random, COUNT_OF(pieces))]);
        if (once_in(random, is_multiline ? 3 : 200)) {
            put_text(to, line_ends[below(random, COUNT_OF(line_ends))]);
        }
    }
}

static void write_text(Writer *writer)
{
    Random *random = writer->random;
    unsigned code = PL_OP_TEXT + (unsigned)below(random, 4);
    Bytes text = {0};
    write_pieces(random, code == PL_OP_MULTILINE, &text);
    op(writer, code);
    if (code == PL_OP_TEXT_WIDTH) {
        put_number(&writer->program->bytes, columns(writer, writer->program->may_be_long), 8);
    }
    writer->texts++;
    if (once_in(random, writer->texts)) {
        writer->program->text_at = writer->program->bytes.length;
    }
    put_number(&writer->program->bytes, text.length, 4);
    put_all(&writer->program->bytes, text.at, text.length);
    release(&text);
}

/* An instruction that takes no document. */
static void write_leaf(Writer *writer)
{
    Random *random = writer->random;
    if (once_in(random, 2)) {
        write_text(writer);
    } else {
        unsigned leaf = (unsigned)below(random, 8);
        bool is_rare = leaf == PL_OP_FAIL && !once_in(random, 12);
        op(writer, is_rare ? PL_OP_LINE : leaf);
    }
    writer->made[writer->open]++;
}

/* An instruction that takes the last document. */
static void write_wrapper(Writer *writer)
{
    unsigned code = PL_OP_GROUP + (unsigned)below(writer->random, 6);
    if (code == PL_OP_FLATTEN && !once_in(writer->random, 4)) {
        code = PL_OP_GROUP;
    }
    op(writer, code);
    if (code == PL_OP_NEST) {
        put_number(&writer->program->bytes, offset(writer), 8);
    }
}

/* An instruction that takes the last two documents. */
static void write_join(Writer *writer)
{
    Random *random = writer->random;
    unsigned code = PL_OP_APPEND + (once_in(random, 2) ? 0 : (unsigned)below(random, 9));
    op(writer, code);
    if (code >= PL_OP_COLUMN_AT_MOST && code <= PL_OP_NESTING_AT_LEAST && code != PL_OP_COLUMN_IS_NESTING) {
        put_number(&writer->program->bytes, columns(writer, true), 8);
    }
    writer->made[writer->open]--;
}

static void write_open(Writer *writer)
{
    op(writer, PL_OP_OPEN);
    writer->made[++writer->open] = 0;
}

static void write_close(Writer *writer)
{
    op(writer, PL_OP_CLOSE);
    writer->made[--writer->open]++;
}

/* Any instruction that may come next. */
static void write_instruction(Writer *writer)
{
    size_t made = writer->made[writer->open];
    size_t kind = below(writer->random, 16);
    if (kind < 4 && made >= 2) {
        write_join(writer);
    } else if (kind < 8 && made >= 1) {
        write_wrapper(writer);
    } else if (kind == 8 && writer->open < MOST_OPEN) {
        write_open(writer);
    } else if (kind == 9 && writer->open > 0) {
        write_close(writer);
    } else {
        write_leaf(writer);
    }
}

static void write_instructions(Random *random, size_t count, Program *program)
{
    Writer writer = {.random = random, .program = program};
    clear(&program->bytes);
    program->text_at = 0;
    for (size_t i = 0; i < count; i++) {
        write_instruction(&writer);
    }
    while (writer.open > 0) {
        write_close(&writer);
    }
}

void write_program(Random *random, Program *program)
{
    program->may_be_long = once_in(random, 500);
    size_t count = once_in(random, 200) ? 1000 + below(random, 4000) : below(random, 61);
    write_instructions(random, count, program);
}

/* Gives a text another length than it has. */
static void change_length(Random *random, Program *program)
{
    static const uint32_t lengths[] = {0, 1, 2, 255, 65536, 0x7fffffff, 0x80000000, 0xffffffff};
    if (program->text_at == 0 || program->text_at + 4 > program->bytes.length) {
        return;
    }
    uint8_t *at = program->bytes.at + program->text_at;
    bool is_near = once_in(random, 2);
    uint32_t length = is_near ? at[0] + (uint32_t)below(random, 7) - 3 : lengths[below(random, COUNT_OF(lengths))];
    for (size_t i = 0; i < 4; i++) {
        at[i] = (uint8_t)(length >> (8 * i));
    }
}

static const uint8_t codes[] = {0,  1,  2,  3,  4,  5,  6,  7,  16, 17, 18, 19, 32, 33, 34, 35,
                                36, 37, 48, 49, 50, 51, 52, 53, 54, 55, 56, 64, 65, 8,  255};

static uint8_t any_byte(Random *random)
{
    return once_in(random, 2) ? codes[below(random, COUNT_OF(codes))] : (uint8_t)next_number(random);
}

/* Changes bytes that are there, at a place of them. */
static void change_byte(Random *random, Bytes *bytes)
{
    if (bytes->length > 0) {
        uint8_t *at = bytes->at + below(random, bytes->length);
        uint8_t turned = (uint8_t)(*at ^ (1u << below(random, 8)));
        *at = once_in(random, 2) ? any_byte(random) : turned;
    }
}

/* Some bytes that stand anywhere: taken out, or doubled. */
static void take_or_double(Random *random, Bytes *bytes)
{
    size_t from = below(random, bytes->length + 1);
    size_t count = below(random, bytes->length - from + 1);
    count = count > 40 ? count % 40 : count;
    if (once_in(random, 2)) {
        take_out(bytes, from, count);
        return;
    }
    uint8_t piece[40];
    memcpy(piece, bytes->at + from, count);
    insert(bytes, from, piece, count);
}

static void insert_some(Random *random, Bytes *bytes)
{
    uint8_t piece[8];
    size_t count = 1 + below(random, sizeof piece);
    for (size_t i = 0; i < count; i++) {
        piece[i] = any_byte(random);
    }
    insert(bytes, below(random, bytes->length + 1), piece, count);
}

static void damage(Random *random, Program *program)
{
    Bytes *bytes = &program->bytes;
    switch (below(random, 6)) {
    case 0:
        bytes->length = below(random, bytes->length + 1);
        break;
    case 1:
        take_or_double(random, bytes);
        break;
    case 2:
        insert_some(random, bytes);
        break;
    case 3:
        change_length(random, program);
        break;
    default:
        change_byte(random, bytes);
        break;
    }
}

static void write_any(Random *random, Bytes *bytes)
{
    size_t count = below(random, 80);
    clear(bytes);
    for (size_t i = 0; i < count; i++) {
        put(bytes, any_byte(random));
    }
}

void write_damaged(Random *random, Program *program)
{
    program->may_be_long = false;
    write_instructions(random, 1 + below(random, 40), program);
    /* A changed byte of a number may make it huge. */
    program->may_be_long = true;
    if (once_in(random, 8)) {
        write_any(random, &program->bytes);
        return;
    }
    size_t times = 1 + below(random, 3);
    for (size_t i = 0; i < times; i++) {
        damage(random, program);
    }
}
