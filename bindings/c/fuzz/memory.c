#include "memory.h"
#include <stdbool.h>

void *__real_malloc(size_t size);
void *__real_realloc(void *area, size_t size);
void __real_free(void *area);
void *__wrap_malloc(size_t size);
void *__wrap_realloc(void *area, size_t size);
void __wrap_free(void *area);

static struct {
    bool is_on;
    size_t from, to, made, refused;
    long kept;
} watch;

void refuse_requests(size_t from, size_t to)
{
    watch.from = from;
    watch.to = to;
}

void begin_watch(void)
{
    watch.made = watch.refused = 0;
    watch.kept = 0;
    watch.is_on = true;
}

void end_watch(void)
{
    watch.is_on = false;
}

size_t requests_made(void)
{
    return watch.made;
}

size_t requests_refused(void)
{
    return watch.refused;
}

long areas_kept(void)
{
    return watch.kept;
}

/* Counts a request, and says whether it is to be granted. */
static bool is_granted(void)
{
    watch.made++;
    return watch.made < watch.from || watch.made > watch.to;
}

void *__wrap_malloc(size_t size)
{
    if (!watch.is_on) {
        return __real_malloc(size);
    }
    void *area = is_granted() ? __real_malloc(size) : NULL;
    watch.kept += area != NULL;
    watch.refused += area == NULL;
    return area;
}

void *__wrap_realloc(void *area, size_t size)
{
    if (!watch.is_on) {
        return __real_realloc(area, size);
    }
    void *other = is_granted() ? __real_realloc(area, size) : NULL;
    watch.kept += area == NULL && other != NULL;
    watch.refused += other == NULL;
    return other;
}

void __wrap_free(void *area)
{
    if (watch.is_on) {
        watch.kept -= area != NULL;
    }
    __real_free(area);
}
