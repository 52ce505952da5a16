/* Times the binding: bench [ATOMS]..

   For each number of atoms (1000, 100000 and 1000000 if none is given) it emits the workload `tree` of
   crates/bench: lists of ten, in lists of ten, and so on, with the greatest power of ten up to that number of
   atoms. It lays this out at 80 columns. Emitting into a document without memory and laying out by pl_layout are timed
   apart; the least time of ten rounds counts. Then come the nanoseconds of a document of three nodes, emitted, laid out
   and freed, and of the same into areas that are kept. `bench` of crates/bench writes the length and the checksum for
   1000. */
#define _POSIX_C_SOURCE 199309L
#include "prettyless.h"
#include <stdio.h>
#include <time.h>

#define ROUNDS 10
#define SMALL_ROUNDS 20
#define SMALL_CALLS 20000

static double microseconds(void)
{
    struct timespec now;
    clock_gettime(CLOCK_MONOTONIC, &now);
    return (double)now.tv_sec * 1e6 + (double)now.tv_nsec / 1e3;
}

static double least(double a, double b)
{
    return a < b ? a : b;
}

static void stop(uint32_t status)
{
    if (status == PL_OK) return;
    fprintf(stderr, "bench: %s\n", pl_message(status));
    exit(1);
}

/* The checksum of `bench`: the bytes as digits to base 257, modulo a prime. */
static uint64_t checksum(const char *bytes, size_t length)
{
    uint64_t sum = 0;
    size_t i;
    for (i = 0; i < length; i++) sum = (sum * 257 + (unsigned char)bytes[i]) % 4294967291u;
    return sum;
}

/* An atom, or a list of ten trees of one level less. */
static void tree(pl_doc *doc, int height)
{
    int i;
    if (height == 0) {
        pl_text(doc, "atom");
        return;
    }
    pl_text(doc, "(");
    pl_open(doc);
    for (i = 0; i < 10; i++) {
        if (i > 0) pl_line(doc);
        tree(doc, height - 1);
    }
    pl_close_nest(doc, 1);
    pl_group(doc);
    pl_text(doc, ")");
}

static void time_tree(unsigned long most)
{
    double emitting = 1e18, laying = 1e18;
    size_t program = 0, bytes = 0;
    uint64_t sum = 0;
    unsigned long atoms = 1;
    int height = 0, round;
    for (; most >= 10; most /= 10, atoms *= 10) height++;
    for (round = 0; round < ROUNDS; round++) {
        pl_doc doc = PL_DOC_INIT;
        const double start = microseconds();
        double emitted;
        pl_result layout;
        tree(&doc, height);
        emitted = microseconds();
        layout = pl_layout(&doc, 80, NULL);
        laying = least(laying, microseconds() - emitted);
        emitting = least(emitting, emitted - start);
        stop(layout.status);
        program = doc.length;
        bytes = layout.length;
        sum = checksum(layout.text, layout.length);
        free(layout.text);
        pl_free(&doc);
    }
    printf("tree %lu: %zu bytes of program, %zu bytes, checksum %08llx, emitted in %.0f us, laid out in %.0f us\n",
           atoms, program, bytes, (unsigned long long)sum, emitting, laying);
}

static void three_nodes(pl_doc *doc)
{
    pl_text(doc, "hello");
    pl_line(doc);
    pl_text(doc, "world");
}

static double time_string(void)
{
    const double start = microseconds();
    int i;
    for (i = 0; i < SMALL_CALLS; i++) {
        pl_doc doc = PL_DOC_INIT;
        pl_result layout;
        three_nodes(&doc);
        layout = pl_layout(&doc, 80, NULL);
        stop(layout.status);
        free(layout.text);
        pl_free(&doc);
    }
    return (microseconds() - start) * 1e3 / SMALL_CALLS;
}

static double time_areas(void)
{
    pl_doc doc = PL_DOC_INIT;
    uint8_t out[64];
    size_t written;
    const double start = microseconds();
    int i;
    for (i = 0; i < SMALL_CALLS; i++) {
        pl_clear(&doc);
        three_nodes(&doc);
        stop(prettyless_layout(doc.bytes, doc.length, 80, false, false, 0, out, sizeof out, &written));
    }
    pl_free(&doc);
    return (microseconds() - start) * 1e3 / SMALL_CALLS;
}

static void time_small(void)
{
    double string = 1e18, areas = 1e18;
    int round;
    for (round = 0; round < SMALL_ROUNDS; round++) {
        string = least(string, time_string());
        areas = least(areas, time_areas());
    }
    printf("three nodes: %.0f ns by pl_layout, %.0f ns into areas that are kept\n", string, areas);
}

int main(int argc, char **argv)
{
    int i;
    for (i = 1; i < argc; i++) time_tree(strtoul(argv[i], NULL, 10));
    if (argc == 1) {
        time_tree(1000);
        time_tree(100000);
        time_tree(1000000);
    }
    time_small();
    return 0;
}
