/* Checks over several calls of one request. */
#ifndef CHECKS_H
#define CHECKS_H

#include "calls.h"
#include "random.h"

/* Calls the library with this room, then again, with enough room and with other limits, and checks that all answers
   fit. Answers the status of the first call. `may_be_long` says that the layout has no bound, so that a limit is
   always given. */
uint32_t check_request(Random *random, const Request *request, size_t capacity, bool may_be_long);

/* How many calls were made with some of their requests for memory refused. */
size_t calls_refused(void);

#endif
