/* The pairs of an overview, one group after the other: out of the film by the proved reader, or worked out. */
#include <errno.h>
#include <inttypes.h>
#include <stdlib.h>
#include <string.h>

#include "caf.h"
#include "overview.h"
#include "parts.h"
#include "progress.h"

/* Bytes of a body before its pairs, and of a pair. */
enum { HEAD = 8, PAIR = 4 };

/* Bytes of pairs that are read at a time: at least one group. */
enum { BLOCK = 1 << 16 };

static bool fail(const struct film_fault *fault, char why[WHY]) {
    film_words(fault, why, WHY);
    return false;
}

/* Each block of whole groups is a body for the reader, with the head of them all before it. */
static bool stream_stored(const struct overview *overview, film_take_pairs *take, void *self, char why[WHY]) {
    uint8_t body[HEAD + BLOCK];
    int16_t pairs[BLOCK / 2];
    uint64_t said[CAF_PICTURE_PLACES], group = (uint64_t)PAIR * overview->channels, left = overview->groups * group;
    uint64_t at = overview->start + HEAD;
    struct film_fault fault = {FILM_DONE, 0, 0};
    size_t n;

    memset(body, 0, HEAD);
    for (; left > 0; left -= n, at += n) {
        n = (size_t)(left < BLOCK ? left : BLOCK - BLOCK % group);
        if (film_disk_load(overview->fd, body + HEAD, n, at) < n) {
            fault.error = errno == 0 ? FILM_CHANGED : FILM_SYSTEM;
            fault.system = errno;
            return fail(&fault, why);
        }
        fault.number = caf_read_overview(body, HEAD + n, overview->channels, pairs, BLOCK / 2, said, CAF_PICTURE_PLACES);
        if (fault.number != CAF_DONE) {
            fault.error = FILM_REFUSED;
            return fail(&fault, why);
        }
        if (!take(self, pairs, n / 2))
            return false;
    }
    return true;
}

bool overview_stream(const struct overview *overview, film_take_pairs *take, void *self, char why[WHY]) {
    why[0] = 0;
    if (overview->is_stored)
        return stream_stored(overview, take, self, why);
    return take(self, overview->pairs, (size_t)overview->groups * overview->channels * 2);
}

/* The pairs that came of one that is being worked out. */
struct kept {
    const struct overview *overview;
    size_t count, all;
};

static bool keep(void *self, const int16_t *pairs, size_t count) {
    struct kept *kept = self;

    if (count > kept->all - kept->count)
        return false; /* more than the film has: there would be no room */
    memcpy(kept->overview->pairs + kept->count, pairs, count * sizeof *pairs);
    kept->count += count;
    progress_tell(kept->count, kept->all);
    return true;
}

static bool work_out(struct overview *overview, char why[WHY]) {
    struct kept kept = {overview, 0, (size_t)overview->groups * overview->channels * 2};
    struct film_fault fault;
    enum film_error error;

    /* one more: malloc(0) may give NULL */
    overview->pairs = malloc(kept.all * sizeof *overview->pairs + 1);
    if (overview->pairs == NULL) {
        snprintf(why, WHY, "%s", strerror(ENOMEM));
        return false;
    }
    progress_begin(overview->name);
    error = film_pairs(overview->fd, &overview->track, overview->frames_per_sample, keep, &kept, &fault);
    progress_end();
    return error == FILM_DONE || fail(&fault, why);
}

static bool too_many(uint64_t count, const char *of_what, uint64_t most, char why[WHY]) {
    snprintf(why, WHY, "it has %" PRIu64 " %s, and at most %" PRIu64 " can be shown", count, of_what, most);
    return false;
}

bool overview_ready(struct overview *overview, char why[WHY]) {
    if (overview->channels > MOST_CHANNELS)
        return too_many(overview->channels, "channels", MOST_CHANNELS, why);
    if (overview->groups > MOST_GROUPS)
        return too_many(overview->groups, "overview samples", MOST_GROUPS, why);
    return overview->is_stored || work_out(overview, why);
}
