/* Lays out S-expressions: example [WIDTH] <FILE

   A list is on one line where it fits into WIDTH columns (80 if none is given); else each item but the first has a line
   of its own, indented by two columns. Atoms and strings are written as they are. Exits with 1 where the input is
   wrong, or where memory, reading or writing fails; with 2 where the arguments are wrong. */
#include "prettyless.h"
#include <errno.h>
#include <stdio.h>

/* The indents of lists in lists can make a layout far longer than its input. */
#define LONGEST_LAYOUT ((size_t)1 << 30)

/* What is left of the input. */
typedef struct {
    const char *at;
    const char *end;
    size_t line; /* that of `at`, from 1 */
} input;

static bool is_space(char c)
{
    return c == ' ' || (c >= '\t' && c <= '\r');
}

static void skip_spaces(input *in)
{
    for (; in->at < in->end && is_space(*in->at); in->at++)
        if (*in->at == '\n') in->line++;
}

static bool is_of_atom(char c)
{
    return !is_space(c) && c != '(' && c != ')' && c != '"';
}

static void atom(input *in, pl_doc *doc)
{
    const char *start = in->at;
    while (in->at < in->end && is_of_atom(*in->at)) in->at++;
    pl_text_n(doc, start, (size_t)(in->at - start));
}

/* A string, in which a backslash escapes a character. False if it has no end. */
static bool string(input *in, pl_doc *doc)
{
    const char *start = in->at++;
    size_t line = in->line;
    for (; in->at < in->end && *in->at != '"'; in->at++) {
        if (*in->at == '\\' && in->at + 1 < in->end) in->at++;
        if (*in->at == '\n') line++;
    }
    if (in->at == in->end) return false;
    in->at++;
    in->line = line;
    pl_multiline_n(doc, start, (size_t)(in->at - start));
    return true;
}

static void open_list(input *in, pl_doc *doc)
{
    in->at++;
    pl_open(doc);
    pl_ascii(doc, "(");
}

static void close_list(input *in, pl_doc *doc)
{
    in->at++;
    pl_ascii(doc, ")");
    pl_close_nest(doc, 2);
    pl_group(doc);
}

/* Builds the document of all expressions. Answers what is wrong, or null. No function calls itself: the document knows
   which lists are open. */
static const char *expressions(input *in, pl_doc *doc)
{
    size_t depth = 0;
    bool first = true; /* nothing comes before the next item in its list */
    for (skip_spaces(in); in->at < in->end; skip_spaces(in)) {
        const char c = *in->at;
        if (!first && c != ')') {
            if (depth > 0) pl_line(doc);
            else pl_hard_line(doc);
        }
        first = c == '(';
        switch (c) {
        case '(':
            open_list(in, doc);
            depth++;
            break;
        case ')':
            if (depth == 0) return "this `)` closes no list";
            close_list(in, doc);
            depth--;
            break;
        case '"':
            if (!string(in, doc)) return "the string that begins here has no end";
            break;
        default:
            atom(in, doc);
        }
    }
    if (depth > 0) return "a list has no end";
    if (!first) pl_hard_line(doc);
    return NULL;
}

/* Reads a stream to its end. Answers its bytes, which the caller frees, or null. */
static char *read_all(FILE *file, size_t *length)
{
    char *bytes = NULL;
    size_t capacity = 1 << 13;
    *length = 0;
    for (;;) {
        char *more = (char *)realloc(bytes, capacity);
        if (more == NULL) break;
        bytes = more;
        *length += fread(bytes + *length, 1, capacity - *length, file);
        if (ferror(file)) break;
        if (*length < capacity) return bytes;
        capacity *= 2;
    }
    free(bytes);
    return NULL;
}

/* Lays out the document and writes it. Answers what is wrong, or null. */
static const char *lay_out(const pl_doc *doc, size_t width, FILE *file)
{
    const char *wrong = NULL;
    pl_options options = PL_OPTIONS_INIT;
    pl_result layout;
    options.limit = LONGEST_LAYOUT;
    layout = pl_layout(doc, width, &options);
    if (layout.status != PL_OK) wrong = pl_message(layout.status);
    else if (fwrite(layout.text, 1, layout.length, file) < layout.length || fflush(file) != 0) wrong = strerror(errno);
    free(layout.text);
    return wrong;
}

static int format(const char *bytes, size_t length, size_t width)
{
    input in = {bytes, bytes + length, 1};
    pl_doc doc = PL_DOC_INIT;
    const char *wrong = expressions(&in, &doc);
    if (wrong != NULL) {
        fprintf(stderr, "example: line %zu: %s\n", in.line, wrong);
    } else {
        wrong = lay_out(&doc, width, stdout);
        if (wrong != NULL) fprintf(stderr, "example: %s\n", wrong);
    }
    pl_free(&doc);
    return wrong == NULL ? 0 : 1;
}

/* A width in decimal digits. False if the word is none. */
static bool read_width(const char *word, size_t *width)
{
    char *end;
    if (*word < '0' || *word > '9') return false;
    errno = 0;
    *width = strtoull(word, &end, 10);
    return *end == '\0' && errno == 0;
}

int main(int argc, char **argv)
{
    char *bytes;
    size_t length, width = 80;
    int status;
    if (argc > 2 || (argc == 2 && !read_width(argv[1], &width))) {
        fputs("usage: example [WIDTH] <FILE\n", stderr);
        return 2;
    }
    bytes = read_all(stdin, &length);
    if (bytes == NULL) {
        perror("example");
        return 1;
    }
    status = format(bytes, length, width);
    free(bytes);
    return status;
}
