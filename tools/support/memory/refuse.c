/* Refuses one request for memory of the program that it is loaded in front of: the one whose number, counted from 1, is in
 * REFUSE. Then it makes the file that REFUSED names, so that its caller knows that the program came so far. */
#define _GNU_SOURCE
#include <dlfcn.h>
#include <fcntl.h>
#include <stdlib.h>
#include <unistd.h>

static unsigned long seen, refused;
static void *(*next_malloc)(size_t);
static void *(*next_realloc)(void *, size_t);

__attribute__((constructor)) static void begin(void)
{
    const char *number = getenv("REFUSE");
    next_malloc = dlsym(RTLD_NEXT, "malloc");
    next_realloc = dlsym(RTLD_NEXT, "realloc");
    refused = number ? strtoul(number, NULL, 10) : 0;
    seen = 0;
}

static int is_refused(void)
{
    const char *mark = getenv("REFUSED");
    if (++seen != refused)
        return 0;
    if (mark)
        close(open(mark, O_WRONLY | O_CREAT, 0600));
    return 1;
}

void *malloc(size_t size)
{
    if (!next_malloc)
        next_malloc = dlsym(RTLD_NEXT, "malloc");
    return is_refused() ? NULL : next_malloc(size);
}

void *realloc(void *block, size_t size)
{
    if (!next_realloc)
        next_realloc = dlsym(RTLD_NEXT, "realloc");
    return is_refused() ? NULL : next_realloc(block, size);
}
