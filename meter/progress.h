/* How far it is, on standard error where that is a terminal, from a second on. */
#ifndef PROGRESS_H
#define PROGRESS_H

#include <stdint.h>

/* What is worked on, by its name. */
void progress_begin(const char *name);

void progress_tell(uint64_t done, uint64_t all);

/* The line goes, so that what is said next stands on one of its own. */
void progress_end(void);

#endif
