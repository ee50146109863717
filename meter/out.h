/* A file that comes whole or not at all: it is written beside its name, under another one, and gets its own
 * once it is on the disk. Where that fails, or SIGINT, SIGTERM or SIGHUP ends the program, what was there is
 * still there and nothing else is. (SIGKILL leaves the other file, `.part-XXXXXX`.) One file at a time. */
#ifndef OUT_H
#define OUT_H

#include <stdbool.h>
#include <stdio.h>

struct out {
    FILE *file; /* to write to */
    const char *name;
    char *part; /* the other name */
    bool force;
};

/* Whether what stands under the name is this other file, which is still to be read. */
bool out_is(const char *name, const char *other);

/* Begins the file, or says why not. One that is there is replaced with `force` alone, and only where it is a
 * file: no folder, no device, and no link. */
const char *out_begin(struct out *out, const char *name, bool force);

/* Ends a file that was begun, at once after its last write: NULL, or why it is not there. */
const char *out_end(struct out *out);

/* Gives up a file that was begun. */
void out_drop(struct out *out);

#endif
