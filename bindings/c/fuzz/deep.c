#include "deep.h"
#include "calls.h"
#include <stdio.h>
#include <sys/resource.h>
#include <sys/wait.h>
#include <unistd.h>

#define MILLION 1000000
#define SMALL_STACK (256 * 1024)
#define SECONDS 120

/* The statuses that are right for an input, as a set. */
#define ONLY(status) (1u << (status))
#define IS_LAID (ONLY(PL_OK) | ONLY(PL_TOO_SMALL))
#define IS_LAID_OR_REFUSED (IS_LAID | ONLY(PL_MEMORY))

/* An input: some bytes at the beginning, some many times, some at the end. */
typedef struct {
    const char *name;
    const char *first;
    size_t first_length;
    const char *again;
    size_t again_length, times;
    const char *last;
    size_t last_length, last_times;
    /* The statuses that are right. */
    unsigned right;
    Kind kind;
} Input;

#define TEXT(bytes) bytes, sizeof(bytes) - 1
#define NOTHING "", 0
#define A_TEXT "\x10\x01\0\0\0a"
#define EIGHT(byte) byte "\0\0\0\0\0\0\0"

static const Input inputs[] = {
    {"an empty program", NOTHING, NOTHING, 0, NOTHING, 0, ONLY(PL_OK), PROGRAM},
    {"an empty JSON text", NOTHING, NOTHING, 0, NOTHING, 0, ONLY(PL_NOT_JSON), JSON},
    {"a million groups in groups", TEXT(A_TEXT), TEXT("\x20"), MILLION, NOTHING, 0, IS_LAID, PROGRAM},
    {"a million flattens in flattens", TEXT(A_TEXT), TEXT("\x21"), MILLION, NOTHING, 0, IS_LAID, PROGRAM},
    {"a million aligns in aligns", TEXT(A_TEXT "\x03" A_TEXT "\x30\x30"), TEXT("\x22"), MILLION, NOTHING, 0, IS_LAID,
     PROGRAM},
    {"a million dedents in dedents", TEXT(A_TEXT), TEXT("\x23"), MILLION, NOTHING, 0, IS_LAID, PROGRAM},
    {"a million suffixes in suffixes", TEXT(A_TEXT), TEXT("\x24"), MILLION, NOTHING, 0, IS_LAID, PROGRAM},
    {"a million nests in nests", TEXT(A_TEXT "\x03" A_TEXT "\x30\x30"), TEXT("\x25" EIGHT("\1")), MILLION, NOTHING, 0,
     IS_LAID, PROGRAM},
    {"a million groups and flattens in turn", TEXT(A_TEXT), TEXT("\x20\x21"), MILLION / 2, NOTHING, 0, IS_LAID,
     PROGRAM},
    {"a million opened sequences", NOTHING, TEXT("\x40"), MILLION, TEXT("\x41"), MILLION, ONLY(PL_OK), PROGRAM},
    {"a million opened sequences that are not closed", NOTHING, TEXT("\x40"), MILLION, NOTHING, 0,
     ONLY(PL_NOT_CLOSED), PROGRAM},
    {"a million opened sequences, but one closed", NOTHING, TEXT("\x40"), MILLION, TEXT("\x41"), MILLION - 1,
     ONLY(PL_NOT_CLOSED), PROGRAM},
    {"a million opened sequences, and one closed more", NOTHING, TEXT("\x40"), MILLION, TEXT("\x41"), MILLION + 1,
     ONLY(PL_NOT_OPENED), PROGRAM},
    {"a million sequences of a text", NOTHING, TEXT("\x40" A_TEXT), MILLION, TEXT("\x41"), MILLION, IS_LAID, PROGRAM},
    {"a sequence of a million texts", TEXT("\x40"), TEXT(A_TEXT), MILLION, TEXT("\x41"), 1, IS_LAID, PROGRAM},
    {"a million appends to the left", TEXT(A_TEXT), TEXT(A_TEXT "\x30"), MILLION, NOTHING, 0, IS_LAID, PROGRAM},
    {"a million appends to the right", TEXT(A_TEXT), TEXT(A_TEXT), MILLION, TEXT("\x30"), MILLION, IS_LAID, PROGRAM},
    {"a million appends, and one too many", TEXT(A_TEXT), TEXT(A_TEXT), MILLION, TEXT("\x30"), MILLION + 1,
     ONLY(PL_TOO_FEW), PROGRAM},
    {"a million broken-or-flats to the left", TEXT(A_TEXT), TEXT(A_TEXT "\x31"), MILLION, NOTHING, 0, IS_LAID,
     PROGRAM},
    {"a million broken-or-flats to the right", TEXT(A_TEXT), TEXT(A_TEXT), MILLION, TEXT("\x31"), MILLION, IS_LAID,
     PROGRAM},
    {"a million unions to the left", TEXT(A_TEXT), TEXT(A_TEXT "\x32"), MILLION, NOTHING, 0, IS_LAID, PROGRAM},
    {"a million unions to the right", TEXT(A_TEXT), TEXT(A_TEXT), MILLION, TEXT("\x32"), MILLION, IS_LAID, PROGRAM},
    {"a million unions whose first branches fail", TEXT("\x01"), TEXT(A_TEXT "\x32"), MILLION, NOTHING, 0, IS_LAID,
     PROGRAM},
    {"a million partial unions to the left", TEXT(A_TEXT), TEXT(A_TEXT "\x33"), MILLION, NOTHING, 0, IS_LAID, PROGRAM},
    {"a million partial unions to the right", TEXT(A_TEXT), TEXT(A_TEXT), MILLION, TEXT("\x33"), MILLION, IS_LAID,
     PROGRAM},
    {"a million choices to the left", TEXT(A_TEXT), TEXT(A_TEXT "\x34" EIGHT("\1")), MILLION, NOTHING, 0, IS_LAID,
     PROGRAM},
    {"a million choices to the right", TEXT(A_TEXT), TEXT(A_TEXT), MILLION, TEXT("\x38" EIGHT("\1")), MILLION,
     IS_LAID, PROGRAM},
    {"a million groups, each at the end of the next", TEXT(A_TEXT), TEXT("\x06" A_TEXT), MILLION,
     TEXT("\x30\x30\x20"), MILLION, IS_LAID, PROGRAM},
    {"5,000 groups, each at the beginning of the next", TEXT(A_TEXT), TEXT("\x06" A_TEXT "\x30\x30\x20"), 5000,
     NOTHING, 0, IS_LAID, PROGRAM},
    {"a million nests of a line each", TEXT(A_TEXT), TEXT("\x03\x30\x25" EIGHT("\0")), MILLION, NOTHING, 0, IS_LAID,
     PROGRAM},
    {"a length of 4 GiB at the end of ten bytes", TEXT("\x03\x03\x03\x03\x03\x10\xff\xff\xff\xff"), NOTHING, 0,
     NOTHING, 0, ONLY(PL_CUT_OFF), PROGRAM},
    {"a number that is cut off", TEXT("\x03\x25\0\0\0\0\0\0\0"), NOTHING, 0, NOTHING, 0, ONLY(PL_CUT_OFF), PROGRAM},
    {"ten million of byte 0", NOTHING, TEXT("\x00"), 10 * MILLION, NOTHING, 0, IS_LAID_OR_REFUSED, PROGRAM},
    {"ten million of byte 1", NOTHING, TEXT("\x01"), 10 * MILLION, NOTHING, 0, ONLY(PL_FAILS) | ONLY(PL_MEMORY),
     PROGRAM},
    {"ten million of byte 2", NOTHING, TEXT("\x02"), 10 * MILLION, NOTHING, 0, IS_LAID_OR_REFUSED, PROGRAM},
    {"ten million of byte 3", NOTHING, TEXT("\x03"), 10 * MILLION, NOTHING, 0, IS_LAID_OR_REFUSED, PROGRAM},
    {"ten million of byte 16", NOTHING, TEXT("\x10"), 10 * MILLION, NOTHING, 0, ONLY(PL_CUT_OFF), PROGRAM},
    {"ten million of byte 32", NOTHING, TEXT("\x20"), 10 * MILLION, NOTHING, 0, ONLY(PL_TOO_FEW), PROGRAM},
    {"ten million of byte 64", NOTHING, TEXT("\x40"), 10 * MILLION, NOTHING, 0, ONLY(PL_NOT_CLOSED) | ONLY(PL_MEMORY),
     PROGRAM},
    {"ten million of byte 65", NOTHING, TEXT("\x41"), 10 * MILLION, NOTHING, 0, ONLY(PL_NOT_OPENED), PROGRAM},
    {"ten million of byte 255", NOTHING, TEXT("\xff"), 10 * MILLION, NOTHING, 0, ONLY(PL_NO_INSTRUCTION), PROGRAM},
    {"a text of ten million bytes", TEXT("\x10\x80\x96\x98\0"), TEXT("a"), 10 * MILLION, NOTHING, 0, IS_LAID, PROGRAM},
    {"a text of ten million bytes that are not UTF-8", TEXT("\x10\x80\x96\x98\0"), TEXT("\x80"), 10 * MILLION,
     NOTHING, 0, ONLY(PL_NOT_UTF8), PROGRAM},
    {"100,000 arrays in arrays", NOTHING, TEXT("["), 100000, TEXT("]"), 100000, IS_LAID, JSON},
    {"100,001 arrays in arrays", NOTHING, TEXT("["), 100001, TEXT("]"), 100001, ONLY(PL_NOT_JSON), JSON},
    {"a million arrays in arrays", NOTHING, TEXT("["), MILLION, TEXT("]"), MILLION, ONLY(PL_NOT_JSON), JSON},
    {"a million objects in objects", NOTHING, TEXT("{\"\":"), MILLION, NOTHING, 0, ONLY(PL_NOT_JSON), JSON},
    {"an array of a million numbers", TEXT("[0"), TEXT(",0"), MILLION, TEXT("]"), 1, IS_LAID_OR_REFUSED, JSON},
    {"ten million spaces", NOTHING, TEXT(" "), 10 * MILLION, NOTHING, 0, ONLY(PL_NOT_JSON), JSON},
    {"a number of ten million digits", NOTHING, TEXT("1"), 10 * MILLION, NOTHING, 0, IS_LAID_OR_REFUSED, JSON},
    {"a string of ten million bytes", TEXT("\""), TEXT("a"), 10 * MILLION, TEXT("\""), 1, IS_LAID_OR_REFUSED, JSON},
    {"an empty TOML text", NOTHING, NOTHING, 0, NOTHING, 0, ONLY(PL_OK), TOML},
    {"128 TOML arrays in arrays", TEXT("a="), TEXT("["), 128, TEXT("]"), 128, IS_LAID, TOML},
    {"129 TOML arrays in arrays", TEXT("a="), TEXT("["), 129, TEXT("]"), 129, ONLY(PL_NOT_TOML), TOML},
    {"a million TOML arrays in arrays", TEXT("a="), TEXT("["), MILLION, TEXT("]"), MILLION, ONLY(PL_NOT_TOML), TOML},
    {"a million inline tables in tables", TEXT("a="), TEXT("{a="), MILLION, NOTHING, 0, ONLY(PL_NOT_TOML), TOML},
    {"a TOML array of a million numbers", TEXT("a=[0"), TEXT(",0"), MILLION, TEXT("]"), 1, IS_LAID_OR_REFUSED, TOML},
    {"a million keys and values", NOTHING, TEXT("a=1\n"), MILLION, NOTHING, 0, IS_LAID_OR_REFUSED, TOML},
    {"a key of a million parts", TEXT("a"), TEXT(".a"), MILLION, TEXT("=1"), 1, IS_LAID_OR_REFUSED, TOML},
    {"ten million line ends", NOTHING, TEXT("\n"), 10 * MILLION, NOTHING, 0, IS_LAID_OR_REFUSED, TOML},
    {"a TOML string of ten million bytes", TEXT("a=\""), TEXT("a"), 10 * MILLION, TEXT("\""), 1, IS_LAID_OR_REFUSED,
     TOML},
    {"a comment of ten million bytes", TEXT("#"), TEXT("a"), 10 * MILLION, NOTHING, 0, IS_LAID_OR_REFUSED, TOML},
};

/* Its layout is longer than the limit at each indent but 0. */
static const Input indented_input = {
    "100,000 arrays in arrays, each further in", NOTHING, TEXT("["), 100000, TEXT("]"), 100000, ONLY(PL_PAST_LIMIT), JSON};

static Bytes bytes_of(const Input *input)
{
    Bytes bytes = {0};
    reserve(&bytes, 1);
    put_times(&bytes, input->first, input->first_length, 1);
    put_times(&bytes, input->again, input->again_length, input->times);
    put_times(&bytes, input->last, input->last_length, input->last_times);
    return bytes;
}

static void check_input(const Input *input, uint32_t indent)
{
    struct rlimit stack = {SMALL_STACK, SMALL_STACK};
    Bytes bytes = bytes_of(input);
    Request request = {.given = &bytes,
                       .kind = input->kind,
                       .width = 40,
                       .limit = 100u * MILLION,
                       .indent = indent};
    if (setrlimit(RLIMIT_STACK, &stack) != 0) {
        wrong("the stack cannot be bounded", NULL);
    }
    alarm(SECONDS);
    Answer answer = call(&request, 1000);
    if ((input->right & ONLY(answer.status)) == 0) {
        wrong(input->name, &answer);
    }
    release_answer(&answer);
    release(&bytes);
}

/* Each of 256 bytes, many times. */
static void check_each_byte(void)
{
    Bytes bytes = {0};
    Request request = {.given = &bytes, .width = 40, .limit = MILLION};
    reserve(&bytes, MILLION / 10);
    bytes.length = MILLION / 10;
    for (int byte = 0; byte < 256; byte++) {
        memset(bytes.at, byte, bytes.length);
        Answer answer = call(&request, 1000);
        release_answer(&answer);
    }
    release(&bytes);
}

/* Ends this process where the other did not end well. */
static void check_end(pid_t child, const char *name)
{
    int status = 0;
    if (child < 0 || waitpid(child, &status, 0) != child) {
        wrong("no process can be started", NULL);
    }
    if (WIFSIGNALED(status)) {
        fprintf(stderr, "fuzz: %s: ended by signal %d\n", name, WTERMSIG(status));
        exit(1);
    }
    if (WEXITSTATUS(status) != 0) {
        exit(1);
    }
}

/* Gives an input to the library in a process of its own. */
static void check_apart(const Input *input, uint32_t indent)
{
    fflush(NULL);
    pid_t child = fork();
    if (child == 0) {
        check_input(input, indent);
        _exit(0);
    }
    check_end(child, input->name);
}

size_t check_deep(void)
{
    size_t count = sizeof inputs / sizeof inputs[0];
    now_at("a deep or long input", 0, 0, NULL);
    for (size_t i = 0; i < count; i++) {
        check_apart(&inputs[i], 0);
    }
    check_apart(&indented_input, 2);
    check_apart(&indented_input, UINT32_MAX);
    check_each_byte();
    return count + 2 + 256;
}
