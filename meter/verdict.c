/* What may be billed for a file that was read, and why not if not. A file is billed whole (payload,
 * frames and seconds) or not at all, so that every total is one of the same files. */
#include <inttypes.h>
#include <stdarg.h>
#include <stdio.h>

#include "caf_names.h"
#include "entry.h"
#include "seconds.h"

enum { LPCM = 0x6c70636d };

#if defined __GNUC__
__attribute__((format(printf, 2, 3)))
#endif
static void unbilled(struct entry *entry, const char *why, ...) {
    va_list values;

    entry->state = UNBILLED;
    va_start(values, why);
    vsnprintf(entry->why, sizeof entry->why, why, values);
    va_end(values);
}

/* The id of a format as the four letters that it mostly is, in `letters`. */
static const char *letters_of(uint32_t id, char letters[5]) {
    uint32_t byte;
    int i;

    for (i = 0; i < 4; i++) {
        byte = id >> (24 - 8 * i) & 0xff;
        letters[i] = (char)(byte < 0x20 || byte > 0x7e ? '?' : byte);
    }
    letters[4] = 0;
    return letters;
}

/* Whether a packet of the format is a frame of samples; if not, why. Anything but linear samples in
 * packets of one frame has a count of packets, and how many frames they hold is not in its numbers. */
static bool packets_are_frames(const uint64_t *out, struct entry *entry) {
    uint32_t id = (uint32_t)out[CAF_STRICT_FORMAT_ID];
    char letters[5];

    if (id != LPCM) {
        unbilled(entry, "its format is '%s' (0x%08" PRIx32 ") and not 'lpcm': it has packets, and no count of frames",
                 letters_of(id, letters), id);
    } else if (out[CAF_STRICT_FRAMES_PER_PACKET] != 1) {
        unbilled(entry, "it has %" PRIu64 " frames per packet and not 1: it has packets, and no count of frames",
                 out[CAF_STRICT_FRAMES_PER_PACKET]);
    } else if (out[CAF_STRICT_BYTES_PER_PACKET] == 0) {
        unbilled(entry, "it has 0 bytes per packet: its frames cannot be counted");
    } else if (out[CAF_STRICT_CHANNELS] == 0) {
        unbilled(entry, "it has 0 channels: its packets hold no frames");
    }
    return entry->state == BILLED;
}

static void judge_seconds(struct entry *entry) {
    switch (milliseconds_of(entry->count, entry->rate, &entry->milliseconds)) {
    case SECONDS_KNOWN:
        break;
    case SECONDS_RATE_NOT_ABOVE_0:
        unbilled(entry, "its rate is not above 0: its seconds cannot be said");
        break;
    case SECONDS_RATE_INFINITE:
        unbilled(entry, "its rate is infinite: its seconds cannot be said");
        break;
    case SECONDS_TOO_MANY:
        unbilled(entry, "its rate is so small that its milliseconds do not fit 64 bits");
        break;
    }
}

void judge(const struct reading *reading, struct entry *entry) {
    const uint64_t *out = reading->out;

    entry->number = reading->number;
    entry->chunks = out[CAF_STRICT_CHUNKS];
    if (reading->number != CAF_DONE) {
        entry->state = REFUSED;
        snprintf(entry->why, sizeof entry->why, "%s", caf_number_words(reading->number));
        return;
    }
    entry->state = BILLED;
    entry->payload = out[CAF_STRICT_PAYLOAD];
    entry->rate = out[CAF_STRICT_RATE];
    entry->is_open = out[CAF_STRICT_OPEN];
    /* the reading's frames are payload / bytes per packet */
    entry->count = out[CAF_STRICT_FRAMES];
    entry->counted = FRAMES;
    if (packets_are_frames(out, entry))
        judge_seconds(entry);
    else
        entry->counted = out[CAF_STRICT_BYTES_PER_PACKET] > 0 ? PACKETS : PACKETS_UNKNOWN;
    /* what a killed writer leaves: a size field which says that no samples came, and its samples (nothing
     * follows open data: they go to the end of the file) */
    if (entry->payload == 0 && out[CAF_STRICT_DATA_START] < reading->file_len)
        unbilled(entry, "no payload by its size field, but %" PRIu64 " bytes follow the data",
                 reading->file_len - out[CAF_STRICT_DATA_START]);
}
