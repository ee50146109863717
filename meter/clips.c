/* The clips of a tray, each as a file of its own, by one call for all of them.
 *
 * The call gives four numbers for a clip; a bill also needs its format, and where and how its data begin. In
 * a clip that was accepted these have known places: the body of `desc` begins at byte 20, and from byte 52 on
 * the sizes of chunks lead to `data`. So they are taken from there: no clip is read again, and none is judged
 * here. Someone else may write to the tray meanwhile, so that no place is looked at which is not in it. */
#include <endian.h>
#include <string.h>

#include "entry.h"

enum { DESC = 20, FORMAT_ID = DESC + 8, FIRST_CHUNK = 52, CHUNK_HEADER = 12, EDIT_COUNT = 4 };

static uint64_t big_64(const uint8_t *at) {
    uint64_t n;

    memcpy(&n, at, sizeof n);
    return be64toh(n);
}

static uint32_t big_32(const uint8_t *at) {
    uint32_t n;

    memcpy(&n, at, sizeof n);
    return be32toh(n);
}

/* Where the data chunk stands; 0 where the sizes lead out of the clip. */
static size_t data_chunk(const uint8_t *clip, size_t len) {
    size_t at = FIRST_CHUNK;
    uint64_t size;

    while (len >= CHUNK_HEADER + EDIT_COUNT && at <= len - CHUNK_HEADER - EDIT_COUNT) {
        if (memcmp(clip + at, "data", 4) == 0)
            return at;
        size = big_64(clip + at + 4);
        if (size > len - at - CHUNK_HEADER)
            return 0;
        at += CHUNK_HEADER + size;
    }
    return 0;
}

/* What caf_read_strict says of a clip that it accepts, beside chunks, payload and frames. */
static bool tell_accepted(const uint8_t *clip, size_t len, uint64_t *out) {
    size_t data = data_chunk(clip, len), i;

    if (data == 0)
        return false;
    out[CAF_STRICT_RATE] = big_64(clip + DESC);
    /* six numbers, in the order of the places */
    for (i = 0; CAF_STRICT_FORMAT_ID + i <= CAF_STRICT_BITS; i++)
        out[CAF_STRICT_FORMAT_ID + i] = big_32(clip + FORMAT_ID + 4 * i);
    out[CAF_STRICT_SIZE_POSITION] = data + 4;
    out[CAF_STRICT_DATA_START] = data + CHUNK_HEADER + EDIT_COUNT;
    out[CAF_STRICT_OPEN] = big_64(clip + data + 4) == UINT64_MAX;
    return true;
}

static bool tell_clip(const uint8_t *clip, size_t len, const uint64_t *told, struct reading *reading) {
    memset(reading, 0, sizeof *reading);
    reading->file_len = len;
    reading->number = (uint32_t)told[CAF_CLIP_NUMBER];
    reading->out[CAF_STRICT_CHUNKS] = told[CAF_CLIP_CHUNKS];
    reading->out[CAF_STRICT_PAYLOAD] = told[CAF_CLIP_PAYLOAD];
    reading->out[CAF_STRICT_FRAMES] = told[CAF_CLIP_FRAMES];
    return reading->number != CAF_DONE || tell_accepted(clip, len, reading->out);
}

static bool tell_row(const uint8_t *tray, size_t len, size_t i, const uint64_t *told, struct reading *reading) {
    const uint8_t *row = tray + CAF_TRAY_COUNT + CAF_TRAY_ROW * i;
    uint64_t start = big_64(row), size = big_64(row + 8);

    return start <= len && size <= len - start && tell_clip(tray + start, size, told + CAF_CLIP * i, reading);
}

void read_tray(const uint8_t *tray, size_t len, struct tray_reading *reading) {
    static uint64_t told[CAF_CLIP * CAF_TRAY_MOST];
    size_t i;

    reading->changed = false;
    reading->count = 0;
    reading->number = caf_read_tray(tray, len, told, CAF_CLIP * CAF_TRAY_MOST);
    if (reading->number != CAF_DONE)
        return;
    reading->count = big_32(tray);
    reading->changed = reading->count > CAF_TRAY_MOST || len < CAF_TRAY_COUNT + CAF_TRAY_ROW * reading->count;
    for (i = 0; i < reading->count && !reading->changed; i++)
        reading->changed = !tell_row(tray, len, i, told, &reading->clips[i]);
}
