#include "calls.h"
#include "memory.h"

#define GUARD 64

static struct {
    const char *kind;
    uint64_t seed;
    size_t number;
    const Request *request;
    size_t capacity;
} current;

void now_at(const char *kind, uint64_t seed, size_t number, const Request *request)
{
    current.kind = kind;
    current.seed = seed;
    current.number = number;
    current.request = request;
}

static void say_bytes(const Bytes *bytes)
{
    size_t shown = bytes->length < 20000 ? bytes->length : 20000;
    for (size_t i = 0; i < shown; i++) {
        fprintf(stderr, "%02x", bytes->at[i]);
    }
    fprintf(stderr, "%s\n", shown < bytes->length ? ".." : "");
}

void say_case(void)
{
    const Request *request = current.request;
    if (request == NULL) {
        return;
    }
    fprintf(stderr, "fuzz: %s, seed %llu, number %zu, ", current.kind, (unsigned long long)current.seed,
            current.number);
    fprintf(stderr, "width %zu, limit %zu, capacity %zu, ", request->width, request->limit, current.capacity);
    if (request->kind == PROGRAM) {
        fprintf(stderr, "crlf %d, deferred %d", request->crlf, request->deferred);
    } else {
        fprintf(stderr, "indent %u, fill %d, keep_blank_lines %d", request->indent, request->fill,
                request->keep_blank_lines);
    }
    fprintf(stderr, ", %zu bytes:\n", request->given->length);
    say_bytes(request->given);
}

void wrong(const char *what, const Answer *answer)
{
    say_case();
    fprintf(stderr, "fuzz: wrong: %s", what);
    if (answer != NULL) {
        fprintf(stderr, " (status %u, written %zu, capacity %zu)", answer->status, answer->written, answer->capacity);
    }
    fputs("\n", stderr);
    exit(1);
}

/* What a byte is before a call. No UTF-8 has these bytes, so a byte of a layout differs from them. */
static uint8_t unwritten(size_t i)
{
    return (uint8_t)(0xf8 | ((i * 5 + (i >> 3)) & 7));
}

static bool is_unwritten(const uint8_t *area, size_t from, size_t to)
{
    for (size_t i = from; i < to; i++) {
        if (area[i] != unwritten(i)) {
            return false;
        }
    }
    return true;
}

static bool is_written(const uint8_t *bytes, size_t count)
{
    for (size_t i = 0; i < count; i++) {
        if (bytes[i] >= 0xf8) {
            return false;
        }
    }
    return true;
}

static Answer room(size_t capacity)
{
    size_t size = capacity + 2 * GUARD;
    Answer answer = {.capacity = capacity, .area = malloc(size)};
    if (answer.area == NULL) {
        fputs("fuzz: no memory for an area\n", stderr);
        exit(2);
    }
    for (size_t i = 0; i < size; i++) {
        answer.area[i] = unwritten(i);
    }
    answer.out = answer.area + GUARD;
    answer.written = answer.line = answer.column = SIZE_MAX;
    return answer;
}

void release_answer(Answer *answer)
{
    free(answer->area);
    answer->area = answer->out = NULL;
}

size_t filled(const Answer *answer)
{
    return answer->written < answer->capacity ? answer->written : answer->capacity;
}

uint32_t refusal_of(Kind kind)
{
    return kind == TOML ? PL_NOT_TOML : PL_NOT_JSON;
}

static bool is_listed(const Answer *answer, Kind kind)
{
    uint32_t status = answer->status;
    if (kind == PROGRAM) {
        return status <= PL_PAST_LIMIT || (status >= PL_NO_INSTRUCTION && status <= PL_NOT_CLOSED);
    }
    return status == PL_OK || status == PL_TOO_SMALL || status == PL_MEMORY || status == PL_PAST_LIMIT ||
           status == refusal_of(kind);
}

static void check_place(const Answer *answer, Kind kind)
{
    bool is_refused = answer->status == refusal_of(kind);
    if (is_refused && (answer->line == 0 || answer->column == 0)) {
        wrong("the line or the column of a text that is refused is 0", answer);
    }
    if (!is_refused && (answer->line != 0 || answer->column != 0)) {
        wrong("the line or the column is not 0", answer);
    }
}

static void check_written(const Request *request, const Answer *answer)
{
    bool is_more = answer->written > answer->capacity;
    bool is_counted = answer->status == PL_TOO_SMALL;
    if (is_counted != is_more) {
        wrong(is_counted ? "`written` is not more than the capacity" : "`written` is more than the capacity", answer);
    }
    if (answer->status >= PL_NO_INSTRUCTION && answer->written != 0) {
        wrong("`written` is not 0", answer);
    }
    if (request->limit != 0 && answer->status <= PL_PAST_LIMIT && answer->written > request->limit) {
        wrong("`written` is more than the limit", answer);
    }
}

static void check_area(const Answer *answer)
{
    size_t end = filled(answer);
    if (!is_unwritten(answer->area, 0, GUARD)) {
        wrong("a byte before `out` was changed", answer);
    }
    if (!is_written(answer->out, end)) {
        wrong("a byte of `out` that counts as written was not", answer);
    }
    if (!is_unwritten(answer->area, GUARD + end, GUARD + answer->capacity)) {
        wrong("a byte of `out` after those written was changed", answer);
    }
    if (!is_unwritten(answer->area, GUARD + answer->capacity, 2 * GUARD + answer->capacity)) {
        wrong("a byte after `out` was changed", answer);
    }
}

static void check_memory(const Answer *answer)
{
    if (areas_kept() != 0) {
        wrong("memory was not given back", answer);
    }
    if (answer->status == PL_MEMORY && requests_refused() == 0) {
        wrong("no memory was refused", answer);
    }
}

static void check_answer(const Request *request, const Answer *answer)
{
    if (!is_listed(answer, request->kind)) {
        wrong("the status is none of the list", answer);
    }
    if (request->kind != PROGRAM) {
        check_place(answer, request->kind);
    }
    check_written(request, answer);
    check_area(answer);
    check_memory(answer);
}

static uint32_t status_of(const Request *request, Answer *answer)
{
    const Bytes *given = request->given;
    switch (request->kind) {
    case JSON:
        return prettyless_layout_json(given->at, given->length, request->width, request->indent, request->fill,
                                      request->keep_blank_lines, request->limit, answer->out, answer->capacity,
                                      &answer->written, &answer->line, &answer->column);
    case TOML:
        return prettyless_layout_toml(given->at, given->length, request->width, request->indent, request->limit,
                                      answer->out, answer->capacity, &answer->written, &answer->line,
                                      &answer->column);
    default:
        return prettyless_layout(given->at, given->length, request->width, request->crlf, request->deferred,
                                 request->limit, answer->out, answer->capacity, &answer->written);
    }
}

Answer call(const Request *request, size_t capacity)
{
    Answer answer = room(capacity);
    current.capacity = capacity;
    begin_watch();
    answer.status = status_of(request, &answer);
    end_watch();
    check_answer(request, &answer);
    return answer;
}
