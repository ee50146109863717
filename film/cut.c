/* An overview whose writer died: it is found at the end of a closed film, and nothing else is taken for one. */
#include "parts.h"

#include <string.h>

/* Whether the first bytes of a number of `width` bytes, of which `have` are there, are those of one from `low` to
 * `high`. */
static bool may_be(const uint8_t *bytes, size_t have, size_t width, uint64_t low, uint64_t high) {
    uint64_t number = 0;
    size_t i, missing;

    if (have == 0)
        return true;
    for (i = 0; i < have && i < width; i++)
        number = number << 8 | bytes[i];
    missing = 8 * (width - i);
    return low >> missing <= number && number <= high >> missing;
}

/* Of which frames per sample so many groups come, no more than there are frames; there need not be any. */
static bool group_range(uint64_t frames, uint64_t groups, uint64_t *low, uint64_t *high) {
    *low = groups > 0 ? (frames + groups - 1) / groups : 1;
    *high = groups > 1 ? film_least((frames - 1) / (groups - 1), UINT32_MAX) : UINT32_MAX;
    return *low <= *high;
}

static size_t after(size_t n, size_t at) {
    return n > at ? n - at : 0;
}

/* Whether these are the first n bytes of an overview that would be appended to such a film. Its pairs are not
 * looked at. */
static bool begins_overview(const uint8_t *bytes, size_t n, const struct film_track *track, uint64_t edits) {
    const uint64_t frames = track->payload / (FILM_SAMPLE * (uint64_t)track->channels);
    const uint64_t none = film_overview_size(track->channels, 0), one = film_overview_size(track->channels, 1);
    const uint64_t all = film_overview_size(track->channels, frames);
    uint64_t size, low, high;

    if (memcmp(bytes, "ovvw", film_least(n, 4)) != 0 ||
        !may_be(bytes + 4, after(n, 4), FILM_FIELD, frames > 0 ? one : none, all))
        return false;
    if (n < FILM_CHUNK_HEADER)
        return true;
    size = film_big(bytes + 4) - none;
    return size % (one - none) == 0 && group_range(frames, size / (one - none), &low, &high) &&
           may_be(bytes + 12, after(n, 12), 4, edits, edits) && may_be(bytes + 16, after(n, 16), 4, low, high);
}

enum film_error film_begins_overview(struct film *film, const uint64_t strict[CAF_STRICT_PLACES], uint64_t at,
                                     bool *does) {
    const size_t n = film_least(film->length - at, FILM_OVERVIEW_HEAD);
    uint8_t bytes[FILM_OVERVIEW_HEAD], edits[FILM_FIELD] = {0};
    struct film_track track;
    enum film_error error = film_adopt(film, strict);

    *does = false;
    /* a film that takes no overview has none that was cut */
    if (error == FILM_REFUSED || (error == FILM_DONE && film_overview_number(film, 1) != CAF_DONE)) {
        memset(&film->fault, 0, sizeof film->fault);
        return FILM_DONE;
    }
    track = film_track_of(film);
    if (error != FILM_DONE || film_load(film, at, bytes, n) != FILM_DONE ||
        film_load(film, track.start - 4, edits + 4, 4) != FILM_DONE)
        return film->fault.error;
    *does = begins_overview(bytes, n, &track, film_big(edits));
    return FILM_DONE;
}

/* The strict reading of the film up to `end`. */
static enum film_error strict_up_to(struct film *film, uint64_t end, uint32_t *number,
                                    uint64_t strict[CAF_STRICT_PLACES]) {
    const uint64_t length = film->length;
    enum film_error error;

    film->length = end;
    error = film_strict(film, NULL, number, strict);
    film->length = length;
    return error;
}

/* Of a film without payload what follows may be audio that another house's writer did not count. So nothing but a
 * name that is whole is taken for an overview, and only where it follows at once. */
static bool may_follow(const struct film *film, const uint64_t strict[CAF_STRICT_PLACES], uint64_t whole) {
    return strict[CAF_STRICT_PAYLOAD] > 0 ||
           (whole == strict[CAF_STRICT_DATA_START] && film->length - whole >= 4);
}

enum film_error film_find_cut(struct film *film, struct film_cut *cut) {
    uint64_t strict[CAF_STRICT_PLACES];
    struct film_chunks chunks;
    uint32_t number;

    cut->found = false;
    if (film_walk(film, &chunks) != FILM_DONE)
        return film->fault.error;
    if (chunks.has_overview || chunks.whole >= film->length)
        return FILM_DONE;
    if (strict_up_to(film, chunks.whole, &number, strict) != FILM_DONE)
        return film->fault.error;
    /* it is closed: open data go to the end of the file, and are not among the whole chunks */
    if (number != CAF_DONE || !may_follow(film, strict, chunks.whole))
        return FILM_DONE;
    cut->end = chunks.whole;
    cut->payload = strict[CAF_STRICT_PAYLOAD];
    cut->frames = strict[CAF_STRICT_FRAMES];
    return film_begins_overview(film, strict, chunks.whole, &cut->found);
}
