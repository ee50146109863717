/* One of the films: its readings, on the mapped file, and what is loaded of it. */
#include <errno.h>
#include <stdlib.h>
#include <string.h>
#include <sys/stat.h>
#include <unistd.h>

#include "films.h"
#include "mapped.h"
#include "parts.h"

/* Bytes of the parts of a film, and where the body of its `chan` stands in a head that has one. */
enum { FILE_HEADER = 8, CHUNK_HEADER = 12, DESC = 32, EDIT_COUNT = 4 };
enum { LAYOUT_AT = FILE_HEADER + CHUNK_HEADER + DESC + CHUNK_HEADER };

static void look(const uint8_t *file, size_t len, void *into) {
    struct side *side = into;

    side->number = caf_read_strict(file, len, side->info, CAF_STRICT_PLACES);
    if (side->number == CAF_DONE)
        caf_find_chan(file, len, side->chan, CAF_CHAN_PLACES);
}

static const char *became_shorter(void) {
    return "it became shorter while it was read";
}

const char *side_load(const struct side *side, uint8_t *bytes, size_t n, uint64_t at) {
    if (film_disk_load(side->fd, bytes, n, at) == n)
        return NULL;
    return errno == 0 ? became_shorter() : strerror(errno);
}

const char *side_still_whole(const struct side *side) {
    struct stat after;

    if (fstat(side->fd, &after) < 0)
        return strerror(errno);
    return (uint64_t)after.st_size < side->len ? became_shorter() : NULL;
}

/* By the channels alone: whether the samples have 24 bits is caf_compare's to say. */
static void measure(struct side *side) {
    uint64_t channels = side->info[CAF_STRICT_CHANNELS], payload = side->info[CAF_STRICT_PAYLOAD];

    if (channels == 0 || channels > MOST_CHANNELS)
        return;
    side->frames = payload / (SAMPLE * channels);
    side->rest = payload % (SAMPLE * channels);
}

static uint8_t *put(uint8_t *at, uint64_t number, int bytes) {
    while (bytes-- > 0)
        *at++ = (uint8_t)(number >> 8 * bytes);
    return at;
}

static uint8_t *put_chunk(uint8_t *at, const char *type, uint64_t size) {
    memcpy(at, type, 4);
    return put(at + 4, size, 8);
}

static uint8_t *put_format(uint8_t *at, const uint64_t *info) {
    int place;

    at = put_chunk(at, "desc", DESC);
    at = put(at, info[CAF_STRICT_RATE], 8);
    for (place = CAF_STRICT_FORMAT_ID; place <= CAF_STRICT_BITS; place++)
        at = put(at, info[place], 4);
    return at;
}

/* Makes the head. */
static const char *load_head(struct side *side) {
    uint64_t size = side->chan[CAF_CHAN_SIZE], end = side->info[CAF_STRICT_DATA_START] + side->info[CAF_STRICT_PAYLOAD];
    const char *fault = NULL;
    uint8_t *at;

    at = side->head = malloc(LAYOUT_AT + size + CHUNK_HEADER + EDIT_COUNT + side->rest);
    if (at == NULL)
        return strerror(ENOMEM);
    memcpy(at, "caff", 4);
    at = put(at + 4, 1 << 16, 4);
    at = put_format(at, side->info);
    if (side->chan[CAF_CHAN_FOUND]) {
        at = put_chunk(at, "chan", size);
        fault = side_load(side, at, size, side->chan[CAF_CHAN_START]);
        at += size;
    }
    at = put_chunk(at, "data", EDIT_COUNT + side->rest);
    at = put(at, 0, EDIT_COUNT);
    if (!fault)
        fault = side_load(side, at, side->rest, end - side->rest);
    side->head_len = (size_t)(at - side->head) + side->rest;
    return fault;
}

const char *side_open(struct side *side, const char *name) {
    const char *fault;

    side->name = name;
    if ((fault = open_file(name, &side->fd, &side->len)) || (fault = use_mapped(side->fd, side->len, look, side)))
        return fault;
    if (side->number != CAF_DONE)
        return NULL;
    measure(side);
    return load_head(side);
}

const char *side_read_layout(struct side *side) {
    size_t size = side->chan[CAF_CHAN_SIZE], places = size / 20 * CAF_DESCRIPTION;
    uint32_t channels = (uint32_t)side->info[CAF_STRICT_CHANNELS];

    if (!side->chan[CAF_CHAN_FOUND])
        return NULL;
    /* one more: calloc of nothing may give NULL */
    side->descriptions = calloc(places + 1, sizeof *side->descriptions);
    if (side->descriptions == NULL)
        return strerror(ENOMEM);
    /* it was not refused by the comparison, and there is room */
    caf_read_chan(side->head + LAYOUT_AT, size, channels, side->descriptions, places, side->said, CAF_SAID_PLACES);
    return NULL;
}

void side_close(struct side *side) {
    free(side->head);
    free(side->descriptions);
    if (side->fd >= 0)
        close(side->fd);
}
