/* Deep and long inputs, each in a process with a small stack. */
#ifndef DEEP_H
#define DEEP_H

#include <stddef.h>

/* Gives each input to the library, and checks the status. Answers how many there are. Ends the process with status 1
   where one is wrong, or where its process crashed. */
size_t check_deep(void);

#endif
