/* What the reader of WAVE files reads. */
#ifndef WAVE_CHECK_H
#define WAVE_CHECK_H

#include "film.h"

/* Prints the line of a file: 0 it was read; 1 it is refused, or could not be read, which standard error says. */
int wave_check(const char *name);

/* The words of a refusal. */
const char *wave_refusal(uint32_t number, char text[FILM_WORDS]);

/* Says on standard error what is the matter with a file; gives the status. */
int wave_fail(int status, const char *name, const char *why);

#endif
