/* Two films that are compared, and what differs, as the parts of the program hand it to each other. */
#ifndef FILMS_H
#define FILMS_H

#include <stdbool.h>
#include <stddef.h>
#include <stdint.h>

#include "caf.h"

/* Films of more are not compared: there is a count for each channel, and a block of at least one frame. */
enum { MOST_CHANNELS = 1 << 20 };

/* Bytes of a sample. */
enum { SAMPLE = 3 };

struct side {
    const char *name;
    int fd;
    uint64_t len;
    uint32_t number; /* of the strict reading; what follows where it is CAF_DONE */
    uint64_t info[CAF_STRICT_PLACES];
    uint64_t chan[CAF_CHAN_PLACES];
    uint64_t frames, rest; /* whole frames, and the bytes after the last one */
    /* the film without its whole frames: a short film of this one's format, layout and last bytes; none of a film that
     * the strict reading refuses */
    uint8_t *head;
    size_t head_len;
    /* what caf_read_chan says of the layout, where there is one */
    uint64_t said[CAF_SAID_PLACES];
    uint32_t *descriptions;
};

struct found {
    struct side sides[2];
    uint32_t number;                  /* of a refusal, else CAF_DONE */
    uint64_t out[CAF_COMPARE_PLACES]; /* what caf_compare gives for the two films */
    uint64_t channels, common;        /* of both, and the frames that both have */
    uint64_t counts[MOST_CHANNELS];   /* for each channel, how many samples differ in the common frames */
};

/* Opens a film and reads what stands around its frames; or says why not (side.c). side_close is due after either. */
const char *side_open(struct side *side, const char *name);
void side_close(struct side *side);

/* So many bytes of it from a place on; or why not. */
const char *side_load(const struct side *side, uint8_t *bytes, size_t n, uint64_t at);

/* Whether it is still as long as it was; or why not. */
const char *side_still_whole(const struct side *side);

/* What the layout of a film says, for its names; or why not. */
const char *side_read_layout(struct side *side);

/* The samples of the common frames, block by block (samples.c); or why not, and of which film. */
const char *count_samples(struct found *found, int *of);

/* Whether nothing differs. */
bool is_same(const struct found *found);

/* What it prints: of all (print.c), or of a refusal too (json.c). */
void print_plain(const struct found *found);
void print_json(const struct found *found);

/* The milliseconds of some frames by the rate of a film, where it says them (print.c). */
bool side_milliseconds(const struct side *side, uint64_t frames, uint64_t *milliseconds);

#endif
