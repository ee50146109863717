/* The pairs of a film's overview, of a film longer than memory. */
#ifndef FILM_PAIRS_H
#define FILM_PAIRS_H

#include "film.h"

#ifdef __cplusplus
extern "C" {
#endif

/* Where the samples of a closed film stand in its file: 24-bit integers, three bytes each. */
struct film_track {
    uint64_t start, payload;
    uint32_t channels;
    bool little_endian;
};

/* Takes `count` numbers, those of one or more whole groups: for each group and channel the least and the greatest
 * sample, as caf_read_overview gives them. False: no more are wanted. */
typedef bool film_take_pairs(void *self, const int16_t *pairs, size_t count);

/* Works out the pairs of the overview of `group` frames per sample, group by group in their order, and hands them
 * on as it goes. It reads the file in blocks: memory stays flat, some 1 MiB, and 4 bytes for each channel.
 *
 * Gives FILM_DONE; FILM_REFUSED, before any pair, with the number of caf_append_overview (CAF_NO_GROUP, then
 * CAF_WRONG_WIDTH for no channels or a payload that is not whole frames); FILM_CHANGED where the file ends before its
 * samples do; FILM_SYSTEM; FILM_STOPPED where `take` wanted no more. *fault says the same. */
enum film_error film_pairs(int fd, const struct film_track *track, uint32_t group, film_take_pairs *take, void *self,
                           struct film_fault *fault);

/* The overview that film_add_overview would append to a closed film, of which `strict` is the reading: where its
 * samples stand, and how many frames per sample it would choose. Gives FILM_REFUSED with the number that it would
 * have, chunks after the data aside. It only reads. */
enum film_error film_usual_overview(int fd, const uint64_t strict[CAF_STRICT_PLACES], struct film_track *track,
                                    uint32_t *group, struct film_fault *fault);

#ifdef __cplusplus
}
#endif

#endif
