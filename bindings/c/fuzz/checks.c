#include "checks.h"
#include "memory.h"

/* Requests are refused in turn where the library makes no more than this. */
#define MOST_REQUESTS 60

static size_t refused_calls;

size_t calls_refused(void)
{
    return refused_calls;
}

static void check_same(const Answer *a, const Answer *b)
{
    /* How much memory there is may differ from call to call. */
    if (a->status == PL_MEMORY || b->status == PL_MEMORY) {
        return;
    }
    bool is_same = a->status == b->status && a->written == b->written && a->line == b->line && a->column == b->column;
    if (!is_same || memcmp(a->out, b->out, a->capacity) != 0) {
        wrong("two calls of the same answer differently", b);
    }
}

/* What one call wrote is the beginning of what another wrote. */
static void check_begins(const Answer *whole, const Answer *part)
{
    if (filled(part) > filled(whole) || memcmp(whole->out, part->out, filled(part)) != 0) {
        wrong("what is written is not the beginning of what a call with more room writes", part);
    }
}

/* The same with another limit. */
static Answer call_with_limit(const Request *request, size_t limit, size_t capacity)
{
    Request limited = *request;
    limited.limit = limit;
    return call(&limited, capacity);
}

static void check_limit(const Request *request, size_t limit, const Answer *whole, uint32_t status)
{
    Answer answer = call_with_limit(request, limit, whole->capacity);
    if (answer.status != status && answer.status != PL_MEMORY) {
        wrong("the status does not fit a limit at or below the length", &answer);
    }
    check_begins(whole, &answer);
    if (answer.status == whole->status && answer.written != whole->written) {
        wrong("a limit of the length changes the length", &answer);
    }
    release_answer(&answer);
}

/* The answer came without a limit that mattered, and `out` has all its bytes: so does a limit of that length, and no
 * less. */
static void check_limits(Random *random, const Request *request, const Answer *whole)
{
    size_t length = whole->written;
    if (length >= 1) {
        check_limit(request, length, whole, whole->status);
    }
    if (length >= 2) {
        check_limit(request, length - 1, whole, PL_PAST_LIMIT);
        check_limit(request, 1 + below(random, length - 1), whole, PL_PAST_LIMIT);
    }
}

/* The layout is longer than the limit: a call with a larger one writes more. */
static void check_past_limit(const Request *request, const Answer *part, bool may_be_long)
{
    size_t limit = may_be_long ? request->limit * 2 : 0;
    Answer more = call_with_limit(request, limit, request->limit + 1);
    bool is_possible = more.status <= PL_FAILS || (more.status == PL_PAST_LIMIT && limit != 0);
    if (!is_possible) {
        wrong("a larger limit gives a status that does not fit", &more);
    }
    if (more.status != PL_MEMORY) {
        check_begins(&more, part);
        if (more.written <= request->limit) {
            wrong("what was longer than the limit is not", &more);
        }
    }
    release_answer(&more);
}

/* The same with as much room as the first call asked for. */
static Answer call_with_room(const Request *request, const Answer *first)
{
    Answer whole = call(request, first->written);
    if (whole.status == PL_MEMORY) {
        return whole;
    }
    if (whole.status != PL_OK || whole.written != first->written) {
        wrong("the room that was asked for is not the room that is needed", &whole);
    }
    check_begins(&whole, first);
    return whole;
}

/* A document that fails: with more room there are perhaps more bytes before the node that fails. */
static Answer call_with_more(const Request *request, const Answer *first)
{
    Answer more = call(request, first->capacity + 4096);
    if (more.status != PL_FAILS && more.status != PL_MEMORY) {
        wrong("with more room the document fails no more", &more);
    }
    if (more.status == PL_FAILS) {
        check_begins(&more, first);
    }
    return more;
}

/* With these requests refused, the call answers that, or as it did: it may do without, or ask for less. */
static void check_refusal(const Request *request, size_t from, size_t to, const Answer *first)
{
    refuse_requests(from, to);
    Answer answer = call(request, first->capacity);
    refuse_requests(0, 0);
    refused_calls++;
    if (answer.status == PL_MEMORY) {
        check_begins(first, &answer);
    } else {
        check_same(first, &answer);
    }
    release_answer(&answer);
}

/* Each request is refused in turn, alone and with all after it. */
static void check_refusals(const Request *request, const Answer *first, size_t requests)
{
    for (size_t number = 1; number <= requests && number <= MOST_REQUESTS; number++) {
        check_refusal(request, number, number, first);
        check_refusal(request, number, SIZE_MAX, first);
    }
}

static void check_further(Random *random, const Request *request, const Answer *first, bool may_be_long)
{
    Answer whole;
    switch (first->status) {
    case PL_OK:
        check_limits(random, request, first);
        return;
    case PL_TOO_SMALL:
        whole = call_with_room(request, first);
        break;
    case PL_FAILS:
        whole = call_with_more(request, first);
        break;
    case PL_PAST_LIMIT:
        check_past_limit(request, first, may_be_long);
        return;
    default:
        return;
    }
    bool is_all = whole.status == PL_OK || (whole.status == PL_FAILS && whole.written < whole.capacity);
    if (is_all) {
        check_limits(random, request, &whole);
    }
    release_answer(&whole);
}

uint32_t check_request(Random *random, const Request *request, size_t capacity, bool may_be_long)
{
    Answer first = call(request, capacity);
    size_t requests = requests_made();
    Answer second = call(request, capacity);
    check_same(&first, &second);
    /* Where there is too little memory as it is, each call takes all that there is first. */
    if (once_in(random, 20) && first.status != PL_MEMORY) {
        check_refusals(request, &first, requests);
    }
    check_further(random, request, &first, may_be_long);
    uint32_t status = first.status;
    release_answer(&first);
    release_answer(&second);
    return status;
}
