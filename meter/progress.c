/* How far it is, in percent. */
#include "progress.h"

#include <stdio.h>
#include <time.h>
#include <unistd.h>

#include "names.h"

static const char *of;
static struct timespec begun;
static int told; /* the last percentage; -1 where none was told */

void progress_begin(const char *name) {
    of = isatty(STDERR_FILENO) ? name : NULL;
    told = -1;
    clock_gettime(CLOCK_MONOTONIC, &begun);
}

static double seconds_since(const struct timespec *then) {
    struct timespec now;

    clock_gettime(CLOCK_MONOTONIC, &now);
    return (double)(now.tv_sec - then->tv_sec) + (double)(now.tv_nsec - then->tv_nsec) / 1e9;
}

void progress_tell(uint64_t done, uint64_t all) {
    int percent = all > 0 ? (int)((double)done / (double)all * 100) : 0;

    if (of == NULL || percent == told || seconds_since(&begun) < 1)
        return;
    told = percent;
    fprintf(stderr, "\r%3d %% of ", percent);
    name_plain(stderr, of);
    fflush(stderr);
}

void progress_end(void) {
    if (of == NULL || told < 0)
        return;
    fputs("\r\033[K", stderr);
    fflush(stderr);
}
