/* The samples of two films, block by block: counts of whole frames add up, and the first difference is that of the first
 * block that has one (proved: BlocksJoin in crates/difference). */
#include <string.h>

#include "films.h"
#include "progress.h"

/* Bytes that are loaded of each film at a time, so that they are still in the cache when they are compared; at least one
 * frame. */
enum { BLOCK = 1 << 18, LARGEST_FRAME = SAMPLE * MOST_CHANNELS };

static bool is_little(const struct side *side) {
    return side->info[CAF_STRICT_FLAGS] & 2;
}

/* So many frames from frame `from` on. */
static const char *count_block(struct found *found, uint64_t from, uint64_t frames, int *of) {
    static uint8_t blocks[2][LARGEST_FRAME];
    static uint64_t some[MOST_CHANNELS];
    const struct side *sides = found->sides;
    uint64_t frame = SAMPLE * found->channels, size = frames * frame, first[CAF_SAMPLES_PLACES], c;
    const char *fault;

    for (*of = 0; *of < 2; ++*of)
        if ((fault = side_load(&sides[*of], blocks[*of], size, sides[*of].info[CAF_STRICT_DATA_START] + from * frame)))
            return fault;
    caf_compare_samples(blocks[0], size, is_little(&sides[0]), blocks[1], size, is_little(&sides[1]), some,
                        found->channels, first, CAF_SAMPLES_PLACES);
    if (!first[CAF_SAMPLES_HAS_FRAME])
        return NULL;
    for (c = 0; c < found->channels; c++)
        found->counts[c] += some[c];
    if (!found->out[CAF_COMPARE_HAS_FRAME]) {
        found->out[CAF_COMPARE_HAS_FRAME] = 1;
        found->out[CAF_COMPARE_FRAME] = from + first[CAF_SAMPLES_FRAME];
    }
    return NULL;
}

const char *count_samples(struct found *found, int *of) {
    uint64_t frame = SAMPLE * found->channels, most = frame < BLOCK ? BLOCK / frame : 1, done, frames;
    const char *fault = NULL;

    progress_begin(found->sides[0].name);
    for (done = 0; done < found->common && !fault; done += frames) {
        frames = found->common - done < most ? found->common - done : most;
        fault = count_block(found, done, frames, of);
        progress_tell(done, found->common);
    }
    progress_end();
    return fault;
}
