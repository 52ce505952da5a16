/* Answers cases: replay <CASES. docs/CASES.md has their language.

   Each case has one line of answer: `ok HEX` or `fail HEX` with the bytes of the layout in hexadecimal (`-` for none),
   or `error` if the line is no case. Empty lines and those that begin with `#` have no answer. Each document is built
   by the calls of the header, one for each node. Exits with 1 where memory, reading or writing fails, with 2 where
   there is an argument. */
#include "prettyless.h"
#include <stdio.h>

/* A part of a line. */
typedef struct {
    char *at;
    size_t length;
} word;

/* A node whose documents have not all been read. */
typedef struct {
    uint8_t op;      /* its instruction */
    unsigned to_come; /* how many of its documents are to come */
    uint64_t number; /* its number, if it has one */
    word text;       /* its text, if it has one */
} node;

/* The nodes around the one that is read next, the outermost first. */
typedef struct {
    node *nodes;
    size_t length;
    size_t capacity;
} nodes;

/* What follows the first word of a node, before its documents. */
enum operand { NOTHING, TEXT, LINES, WIDTH_AND_TEXT, INTEGER, COLUMN_TEST, NESTING_TEST };

typedef struct {
    const char *name;
    uint8_t op;
    uint8_t documents; /* how many documents it holds */
    enum operand operand;
} token;

static const token tokens[] = {
    {"app", PL_OP_APPEND, 2, NOTHING},
    {"t", PL_OP_ASCII, 0, TEXT},
    {"hl", PL_OP_HARD_LINE, 0, NOTHING},
    {"bof", PL_OP_FLAT_ALT, 2, NOTHING},
    {"grp", PL_OP_GROUP, 1, NOTHING},
    {"nest", PL_OP_NEST, 1, INTEGER},
    {"nil", PL_OP_NIL, 0, NOTHING},
    {"fail", PL_OP_FAIL, 0, NOTHING},
    {"ws", PL_OP_WEAK_SPACE, 0, NOTHING},
    {"wl", PL_OP_WEAK_LINE, 0, NOTHING},
    {"exp", PL_OP_EXPAND_PARENT, 0, NOTHING},
    {"w", PL_OP_TEXT_WIDTH, 0, WIDTH_AND_TEXT},
    {"m", PL_OP_MULTILINE, 0, LINES},
    {"flat", PL_OP_FLATTEN, 1, NOTHING},
    {"align", PL_OP_ALIGN, 1, NOTHING},
    {"root", PL_OP_DEDENT_TO_ROOT, 1, NOTHING},
    {"sfx", PL_OP_LINE_SUFFIX, 1, NOTHING},
    {"uni", PL_OP_UNION, 2, NOTHING},
    {"puni", PL_OP_PARTIAL_UNION, 2, NOTHING},
    {"oncol", PL_OP_COLUMN_IS_NESTING, 2, COLUMN_TEST},
    {"onnest", PL_OP_NESTING_AT_MOST, 2, NESTING_TEST},
};

static void out_of_memory(void)
{
    fputs("replay: memory was refused\n", stderr);
    exit(1);
}

/* ---- Words ---- */

static bool is_word(word w, const char *name)
{
    return w.length == strlen(name) && memcmp(w.at, name, w.length) == 0;
}

/* Takes the next word of a line: what comes before a space or the end. False if there is none, or two spaces. */
static bool next_word(word *line, word *next)
{
    char *space = line->length > 0 ? (char *)memchr(line->at, ' ', line->length) : NULL;
    next->at = line->at;
    next->length = space != NULL ? (size_t)(space - line->at) : line->length;
    if (next->length == 0) return false;
    line->at += next->length;
    line->length -= next->length;
    if (line->length == 1) return false;
    if (space != NULL) {
        line->at++;
        line->length--;
    }
    return true;
}

static bool read_digits(word w, uint64_t most, uint64_t *number)
{
    size_t i;
    *number = 0;
    for (i = 0; i < w.length; i++) {
        const unsigned digit = (unsigned)(unsigned char)w.at[i] - '0';
        if (digit > 9 || *number > (most - digit) / 10) return false;
        *number = 10 * *number + digit;
    }
    return w.length > 0;
}

static bool read_number(word *line, uint64_t *number)
{
    word w;
    return next_word(line, &w) && read_digits(w, UINT64_MAX, number);
}

/* A number that may be negative, in two's complement. */
static bool read_integer(word *line, uint64_t *number)
{
    word w;
    if (!next_word(line, &w)) return false;
    if (w.at[0] != '-') return read_digits(w, INT64_MAX, number);
    w.at++;
    w.length--;
    if (!read_digits(w, (uint64_t)1 << 63, number)) return false;
    *number = 0 - *number;
    return true;
}

static int hex_digit(char c)
{
    if (c >= '0' && c <= '9') return c - '0';
    return c >= 'a' && c <= 'f' ? c - 'a' + 10 : -1;
}

/* A text in hexadecimal. Its bytes are put in place of their digits. */
static bool read_text(word *line, word *text)
{
    size_t i;
    if (!next_word(line, text)) return false;
    if (is_word(*text, "-")) text->length = 0;
    if (text->length % 2 != 0) return false;
    text->length /= 2;
    for (i = 0; i < text->length; i++) {
        const int high = hex_digit(text->at[2 * i]), low = hex_digit(text->at[2 * i + 1]);
        if (high < 0 || low < 0) return false;
        text->at[i] = (char)(16 * high + low);
    }
    return true;
}

/* ---- Documents ---- */

static bool has_line_end(word text)
{
    return memchr(text.at, '\n', text.length) != NULL || memchr(text.at, '\r', text.length) != NULL;
}

/* What a choice asks. */
static bool read_test(word *line, bool of_column, node *n)
{
    word w;
    if (!next_word(line, &w)) return false;
    if (of_column && is_word(w, "nesting")) return true;
    if (is_word(w, "atmost")) n->op = of_column ? PL_OP_COLUMN_AT_MOST : PL_OP_NESTING_AT_MOST;
    else if (is_word(w, "atleast")) n->op = of_column ? PL_OP_COLUMN_AT_LEAST : PL_OP_NESTING_AT_LEAST;
    else return false;
    return read_number(line, &n->number);
}

static bool read_operand(word *line, enum operand operand, node *n)
{
    switch (operand) {
    case TEXT: return read_text(line, &n->text);
    case LINES: return read_text(line, &n->text) && has_line_end(n->text);
    case WIDTH_AND_TEXT: return read_number(line, &n->number) && read_text(line, &n->text);
    case INTEGER: return read_integer(line, &n->number);
    case COLUMN_TEST: return read_test(line, true, n);
    case NESTING_TEST: return read_test(line, false, n);
    case NOTHING: break;
    }
    return true;
}

/* Reads a node without its documents. */
static bool read_node(word *line, node *n)
{
    word name;
    size_t i = 0;
    if (!next_word(line, &name)) return false;
    while (i < sizeof tokens / sizeof *tokens && !is_word(name, tokens[i].name)) i++;
    if (i == sizeof tokens / sizeof *tokens) return false;
    memset(n, 0, sizeof *n);
    n->op = tokens[i].op;
    n->to_come = tokens[i].documents;
    return read_operand(line, tokens[i].operand, n);
}

/* Adds a node whose documents have been added. */
static void add_node(pl_doc *doc, const node *n)
{
    switch (n->op) {
    case PL_OP_NIL: pl_nil(doc); break;
    case PL_OP_FAIL: pl_fail(doc); break;
    case PL_OP_WEAK_SPACE: pl_weak_space(doc); break;
    case PL_OP_HARD_LINE: pl_hard_line(doc); break;
    case PL_OP_WEAK_LINE: pl_weak_line(doc); break;
    case PL_OP_EXPAND_PARENT: pl_expand_parent(doc); break;
    case PL_OP_ASCII: pl_ascii_n(doc, n->text.at, n->text.length); break;
    case PL_OP_TEXT_WIDTH: pl_text_width_n(doc, n->text.at, n->text.length, n->number); break;
    case PL_OP_MULTILINE: pl_multiline_n(doc, n->text.at, n->text.length); break;
    case PL_OP_GROUP: pl_group(doc); break;
    case PL_OP_FLATTEN: pl_flatten(doc); break;
    case PL_OP_ALIGN: pl_align(doc); break;
    case PL_OP_DEDENT_TO_ROOT: pl_dedent_to_root(doc); break;
    case PL_OP_LINE_SUFFIX: pl_line_suffix(doc); break;
    case PL_OP_NEST: pl_nest(doc, (int64_t)n->number); break;
    case PL_OP_APPEND: pl_append(doc); break;
    case PL_OP_FLAT_ALT: pl_flat_alt(doc); break;
    case PL_OP_UNION: pl_union(doc); break;
    case PL_OP_PARTIAL_UNION: pl_partial_union(doc); break;
    case PL_OP_COLUMN_AT_MOST: pl_if_column_at_most(doc, n->number); break;
    case PL_OP_COLUMN_AT_LEAST: pl_if_column_at_least(doc, n->number); break;
    case PL_OP_COLUMN_IS_NESTING: pl_if_column_is_nesting(doc); break;
    case PL_OP_NESTING_AT_MOST: pl_if_nesting_at_most(doc, n->number); break;
    case PL_OP_NESTING_AT_LEAST: pl_if_nesting_at_least(doc, n->number); break;
    }
}

static node *push(nodes *open)
{
    if (open->length == open->capacity) {
        open->capacity = 2 * open->capacity + 64;
        open->nodes = (node *)realloc(open->nodes, open->capacity * sizeof *open->nodes);
        if (open->nodes == NULL) out_of_memory();
    }
    return &open->nodes[open->length++];
}

/* Reads a document. A case has a node before its documents, a program after them: so each node waits in `open`. */
static bool read_document(word *line, nodes *open, pl_doc *doc)
{
    open->length = 0;
    do {
        if (!read_node(line, push(open))) return false;
        while (open->length > 0 && open->nodes[open->length - 1].to_come == 0) {
            add_node(doc, &open->nodes[--open->length]);
            if (open->length > 0) open->nodes[open->length - 1].to_come--;
        }
    } while (open->length > 0);
    return true;
}

/* ---- Cases ---- */

static bool read_choice(word *line, const char *no, const char *yes, bool *chosen)
{
    word w;
    if (!next_word(line, &w)) return false;
    *chosen = is_word(w, yes);
    return *chosen || is_word(w, no);
}

/* Whether a line may end so: with nothing, or with a word `=>` and anything. */
static bool is_end(word rest)
{
    if (rest.length < 2) return rest.length == 0;
    return memcmp(rest.at, "=>", 2) == 0 && (rest.length == 2 || rest.at[2] == ' ');
}

static bool read_case(word line, nodes *open, pl_doc *doc, uint64_t *width, pl_options *options)
{
    return read_number(&line, width) && read_choice(&line, "lf", "crlf", &options->crlf) &&
           read_choice(&line, "eager", "deferred", &options->deferred) && read_document(&line, open, doc) &&
           is_end(line);
}

static void answer(const char *name, const pl_result *layout)
{
    size_t i;
    printf("%s ", name);
    for (i = 0; i < layout->length; i++) {
        const unsigned char byte = (unsigned char)layout->text[i];
        putchar("0123456789abcdef"[byte >> 4]);
        putchar("0123456789abcdef"[byte & 15]);
    }
    puts(layout->length == 0 ? "-" : "");
}

static void answer_line(word line, nodes *open, pl_doc *doc)
{
    uint64_t width;
    pl_options options = PL_OPTIONS_INIT;
    pl_result layout;
    pl_clear(doc);
    if (!read_case(line, open, doc, &width, &options)) {
        puts("error");
        return;
    }
    layout = pl_layout(doc, width, &options);
    if (layout.status == PL_MEMORY) out_of_memory();
    if (layout.status == PL_OK) answer("ok", &layout);
    else if (layout.status == PL_FAILS) answer("fail", &layout);
    else puts("error");
    free(layout.text);
}

/* Reads a line without its LF into memory that grows. False at the end of the input. */
static bool read_line(FILE *file, char **bytes, size_t *capacity, size_t *length)
{
    int c;
    *length = 0;
    while ((c = getc(file)) != EOF && c != '\n') {
        if (*length == *capacity) {
            *capacity = 2 * *capacity + 4096;
            *bytes = (char *)realloc(*bytes, *capacity);
            if (*bytes == NULL) out_of_memory();
        }
        (*bytes)[(*length)++] = (char)c;
    }
    return c == '\n' || *length > 0;
}

static void answer_all(FILE *file)
{
    pl_doc doc = PL_DOC_INIT;
    nodes open = {NULL, 0, 0};
    char *bytes = NULL;
    size_t capacity = 0, length;
    while (read_line(file, &bytes, &capacity, &length)) {
        const word line = {bytes, length};
        if (length > 0 && bytes[0] != '#') answer_line(line, &open, &doc);
    }
    free(bytes);
    free(open.nodes);
    pl_free(&doc);
}

int main(int argc, char **argv)
{
    (void)argv;
    if (argc > 1) {
        fputs("usage: replay <CASES\n", stderr);
        return 2;
    }
    answer_all(stdin);
    if (ferror(stdin) || fflush(stdout) != 0 || ferror(stdout)) {
        perror("replay");
        return 1;
    }
    return 0;
}
