/* The strict reading of a film's file, fed in blocks: flat memory, and no mapping that a shortened file would
 * make deadly.
 *
 * Bodies and audio are not read: the library says how many bytes of them are to come, and passes over them. */
#include "parts.h"

#include <string.h>

enum { BLOCK = 1 << 14 };

/* The overlay's bytes over those of a block that begins at `at`. */
static void lay_over(uint8_t *block, size_t n, uint64_t at, const struct film_overlay *instead) {
    uint64_t i;

    for (i = instead->at; i < instead->at + FILM_FIELD; i++)
        if (at <= i && i < at + n)
            block[i - at] = instead->bytes[i - instead->at];
}

/* Reads and feeds the block at `at`; *number is the feeding's. */
static enum film_error feed_block(struct film *film, const struct film_overlay *instead, uint64_t *feeder,
                                  uint64_t at, size_t n, uint32_t *number) {
    uint8_t block[BLOCK];

    if (film_load(film, at, block, n) != FILM_DONE)
        return film->fault.error;
    if (instead != NULL)
        lay_over(block, n, at, instead);
    *number = caf_feed(feeder, CAF_FEEDER, block, n);
    return FILM_DONE;
}

/* Feeds the whole film, or as much of it as it takes to refuse it. */
static enum film_error feed_film(struct film *film, const struct film_overlay *instead, uint64_t *feeder) {
    uint32_t number = caf_feed_begin(feeder, CAF_FEEDER);
    uint64_t at, n;

    for (at = 0; at < film->length && number == CAF_DONE; at += n) {
        n = film_least(caf_feed_passable(feeder, CAF_FEEDER), film->length - at);
        if (n > 0) {
            number = caf_feed_pass(feeder, CAF_FEEDER, n);
            continue;
        }
        n = film_least(BLOCK, film->length - at);
        if (feed_block(film, instead, feeder, at, n, &number) != FILM_DONE)
            return film->fault.error;
    }
    return FILM_DONE;
}

enum film_error film_strict(struct film *film, const struct film_overlay *instead, uint32_t *number,
                            uint64_t out[CAF_STRICT_PLACES]) {
    uint64_t feeder[CAF_FEEDER];
    enum film_error error = feed_film(film, instead, feeder);

    memset(out, 0, CAF_STRICT_PLACES * sizeof *out);
    if (error == FILM_DONE)
        *number = caf_feed_end(feeder, CAF_FEEDER, out, CAF_STRICT_PLACES);
    return error;
}
