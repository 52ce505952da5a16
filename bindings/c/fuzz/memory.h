/* Watches the memory that the library takes in one call, and refuses requests. The linker has malloc, realloc and
   free call this (--wrap). */
#ifndef MEMORY_H
#define MEMORY_H

#include <stddef.h>

/* Of the calls to come, the requests from this number on are refused, up to the other; the first is 1. None where
 * both are 0. */
void refuse_requests(size_t from, size_t to);

/* Between these two, requests are counted. Only one thread may be there. */
void begin_watch(void);
void end_watch(void);

/* Of the call that was watched last: how many requests it made, how many of them were refused, by this or for want of
   memory, and how many areas it took and did not give back. */
size_t requests_made(void);
size_t requests_refused(void);
long areas_kept(void);

#endif
