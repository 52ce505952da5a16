/* Hands random and damaged programs, JSON and TOML texts, and deep and long inputs to the library, and checks what each
   call promises: no crash, a status of the list, what is said of `out` and `written` at each, and that calls with other
   room and other limits fit. The same seed gives the same cases.

   usage: fuzz [SEED [PROGRAMS [DAMAGED [JSON [TOML]]]]]

   It ends in one line of counts, and status 0. At the first wrong outcome it prints the case to standard error and
   ends with status 1. A case that takes more than a minute is ended by SIGALRM. */
#include "checks.h"
#include "deep.h"
#include "json_texts.h"
#include "programs.h"
#include "toml_texts.h"
#include <pthread.h>
#include <signal.h>
#include <sys/resource.h>
#include <unistd.h>

#define STATUSES 22
#define SECONDS 60
#define MOST_MEMORY (1024u * 1024 * 1024)
#define MOST_LAYOUT 1000000

enum { PROGRAMS, DAMAGED, JSON_TEXTS, TOML_TEXTS };

/* Programs that are made in one way. */
typedef struct {
    const char *name;
    uint64_t stream;
    bool are_whole;
    void (*write)(Random *, Program *);
} Programs;

static const Programs whole_programs = {"a program", PROGRAMS, true, write_program};
static const Programs damaged_programs = {"a damaged program", DAMAGED, false, write_damaged};

/* Texts of one language. */
typedef struct {
    const char *name;
    uint64_t stream;
    Kind kind;
    /* One text in so many is left whole. */
    size_t whole_in;
    void (*write)(Random *, Bytes *);
    void (*damage)(Random *, Bytes *);
} Texts;

static const Texts json_texts = {"a JSON text", JSON_TEXTS, JSON, 8, write_json, damage_json};
static const Texts toml_texts = {"a TOML text", TOML_TEXTS, TOML, 2, write_toml, damage_toml};

static size_t counts[STATUSES];

static void count(uint32_t status)
{
    counts[status]++;
}

/* Mostly some 100 columns, at times as many as there are. */
static size_t any_width(Random *random)
{
    static const size_t huge[] = {SIZE_MAX, SIZE_MAX - 1, (size_t)1 << 63, (size_t)1 << 32, 1000000};
    return once_in(random, 16) ? huge[below(random, sizeof huge / sizeof huge[0])] : below(random, 101);
}

/* None, a small one, or a large one. */
static size_t any_limit(Random *random, bool may_be_long)
{
    size_t kind = below(random, 4);
    if (kind == 0) {
        return 1 + below(random, 64);
    }
    if (kind == 1 || may_be_long) {
        return 1 + below(random, MOST_LAYOUT);
    }
    return 0;
}

/* None, little, or mostly enough. */
static size_t any_capacity(Random *random)
{
    size_t kind = below(random, 4);
    if (kind == 0) {
        return 0;
    }
    return kind == 1 ? below(random, 64) : (size_t)1024 << below(random, 3);
}

static Request any_request(Random *random, const Bytes *given, bool may_be_long)
{
    Request request = {.given = given};
    request.width = any_width(random);
    request.limit = any_limit(random, may_be_long);
    request.crlf = once_in(random, 2);
    request.deferred = once_in(random, 2);
    return request;
}

static void check_programs(const Programs *programs, uint64_t seed, size_t number_of_programs)
{
    Program program = {.text_at = 0};
    for (size_t number = 0; number < number_of_programs; number++) {
        Random random = random_of(seed, programs->stream, number);
        programs->write(&random, &program);
        Request request = any_request(&random, &program.bytes, program.may_be_long);
        now_at(programs->name, seed, number, &request);
        alarm(SECONDS);
        uint32_t status = check_request(&random, &request, any_capacity(&random), program.may_be_long);
        if (programs->are_whole && status > PL_PAST_LIMIT) {
            wrong("the program is whole, but was not followed", NULL);
        }
        count(status);
    }
    release(&program.bytes);
}

/* A layout ends in LF, but for an empty one of TOML, and is laid out as itself. */
static void check_laid_again(const Request *request)
{
    Answer first = call(request, 1 << 16);
    if (first.status == PL_OK) {
        Bytes layout = {.at = first.out, .length = first.written};
        Request again = *request;
        again.given = &layout;
        Answer second = call(&again, 1 << 16);
        bool is_same = second.status == PL_OK && second.written == first.written;
        if (!is_same || memcmp(first.out, second.out, first.written) != 0) {
            wrong("the layout of a text is not laid out as itself", &second);
        }
        bool is_ended = first.written == 0 ? request->kind == TOML : first.out[first.written - 1] == '\n';
        if (!is_ended) {
            wrong("the layout of a text does not end in LF", &first);
        }
        release_answer(&second);
    }
    release_answer(&first);
}

static uint32_t check_text(Random *random, Request *request, bool is_whole)
{
    bool may_be_long = once_in(random, 1000);
    request->indent = (uint32_t)(may_be_long ? next_number(random) : below(random, 9));
    request->fill = once_in(random, 2);
    request->keep_blank_lines = once_in(random, 2);
    /* A layout of gigabytes is counted to its end where nothing limits it, and no area has room for it. */
    if (may_be_long) {
        request->limit = any_limit(random, true);
    }
    alarm(SECONDS);
    uint32_t status = check_request(random, request, any_capacity(random), true);
    if (is_whole && status == refusal_of(request->kind)) {
        wrong("the text is whole, but was refused", NULL);
    }
    check_laid_again(request);
    return status;
}

static void check_texts(const Texts *texts, uint64_t seed, size_t number_of_texts)
{
    Bytes text = {0};
    for (size_t number = 0; number < number_of_texts; number++) {
        Random random = random_of(seed, texts->stream, number);
        bool is_whole = once_in(&random, texts->whole_in);
        texts->write(&random, &text);
        if (!is_whole) {
            texts->damage(&random, &text);
        }
        Request request = any_request(&random, &text, false);
        request.kind = texts->kind;
        now_at(texts->name, seed, number, &request);
        count(check_text(&random, &request, is_whole));
    }
    release(&text);
}

/* Threads at once: each lays out the same programs, on a small stack, and finds the same. */
#define THREADS 4
#define PROGRAMS_OF_THREAD 5000
#define SMALL_STACK ((size_t)256 * 1024)

static uint64_t mixed(uint64_t sum, const void *bytes, size_t length)
{
    for (size_t i = 0; i < length; i++) {
        sum = (sum ^ ((const uint8_t *)bytes)[i]) * 0x100000001b3u;
    }
    return sum;
}

/* A sum over the statuses and the layouts of the first programs. The argument is the seed. */
static void *sum_of_layouts(void *argument)
{
    uint64_t *sum = argument, seed = *sum;
    uint8_t out[4096];
    Program program = {.text_at = 0};
    for (size_t number = 0; number < PROGRAMS_OF_THREAD; number++) {
        Random random = random_of(seed, PROGRAMS, number);
        size_t written = 0;
        write_program(&random, &program);
        uint32_t status = prettyless_layout(program.bytes.at, program.bytes.length, below(&random, 101), false, false,
                                            MOST_LAYOUT, out, sizeof out, &written);
        /* How much memory there is depends on the other threads. */
        if (status != PL_MEMORY) {
            *sum = mixed(mixed(*sum, &status, sizeof status), out, written < sizeof out ? written : sizeof out);
        }
    }
    release(&program.bytes);
    return NULL;
}

static void check_threads(uint64_t seed)
{
    pthread_t threads[THREADS];
    pthread_attr_t small;
    uint64_t sums[THREADS], sum = seed;
    now_at("threads", seed, 0, NULL);
    alarm(SECONDS);
    sum_of_layouts(&sum);
    if (pthread_attr_init(&small) != 0 || pthread_attr_setstacksize(&small, SMALL_STACK) != 0) {
        wrong("the stack of a thread cannot be bounded", NULL);
    }
    for (size_t i = 0; i < THREADS; i++) {
        sums[i] = seed;
        if (pthread_create(&threads[i], &small, sum_of_layouts, &sums[i]) != 0) {
            wrong("a thread cannot be started", NULL);
        }
    }
    for (size_t i = 0; i < THREADS; i++) {
        if (pthread_join(threads[i], NULL) != 0 || sums[i] != sum) {
            wrong("a thread lays out otherwise", NULL);
        }
    }
    pthread_attr_destroy(&small);
}

#ifdef SANITIZED
/* The sanitizer bounds memory and reports a crash, and wants these names. */
void __sanitizer_set_death_callback(void (*callback)(void));
const char *__asan_default_options(void);

const char *__asan_default_options(void)
{
    return "allocator_may_return_null=1:max_allocation_size_mb=256:abort_on_error=0:exitcode=1";
}

static void prepare(void)
{
    __sanitizer_set_death_callback(say_case);
}
#else
/* Nothing but the end of the process comes after this, so that calls which a handler may not make do no harm. */
static void crashed(int number)
{
    say_case();
    fprintf(stderr, "fuzz: wrong: ended by signal %d\n", number);
    _exit(1);
}

/* Bounds memory, so that it is refused before the machine has none, and says which case crashed. */
static void prepare(void)
{
    static const int signals[] = {SIGSEGV, SIGBUS, SIGILL, SIGFPE, SIGABRT, SIGALRM};
    struct rlimit memory = {MOST_MEMORY, MOST_MEMORY};
    if (setrlimit(RLIMIT_AS, &memory) != 0) {
        wrong("memory cannot be bounded", NULL);
    }
    for (size_t i = 0; i < sizeof signals / sizeof signals[0]; i++) {
        signal(signals[i], crashed);
    }
}
#endif

static void say_counts(size_t programs, size_t damaged, size_t json, size_t toml, size_t deep)
{
    printf("fuzz: %zu programs, %zu damaged programs, %zu JSON texts, %zu TOML texts, ", programs, damaged, json, toml);
    printf("%zu deep or long inputs, %zu calls with memory refused: none wrong; statuses", deep, calls_refused());
    for (size_t status = 0; status < STATUSES; status++) {
        if (counts[status] > 0) {
            printf(" %zu: %zu", status, counts[status]);
        }
    }
    puts("");
}

static size_t number_at(int count_of_words, char **words, int at, size_t otherwise)
{
    return at < count_of_words ? (size_t)strtoull(words[at], NULL, 10) : otherwise;
}

int main(int count_of_words, char **words)
{
    uint64_t seed = number_at(count_of_words, words, 1, 1);
    size_t programs = number_at(count_of_words, words, 2, 200000);
    size_t damaged = number_at(count_of_words, words, 3, 200000);
    size_t json = number_at(count_of_words, words, 4, 20000);
    size_t toml = number_at(count_of_words, words, 5, 20000);
    prepare();
    size_t deep = check_deep();
    check_threads(seed);
    check_programs(&whole_programs, seed, programs);
    check_programs(&damaged_programs, seed, damaged);
    check_texts(&json_texts, seed, json);
    check_texts(&toml_texts, seed, toml);
    say_counts(programs, damaged, json, toml, deep);
    return 0;
}
