/* What overview a film has, and the names of its channels: by the proved readings of its chunk headers. */
#include <inttypes.h>
#include <stdlib.h>
#include <string.h>
#include <unistd.h>

#include "channel_names.h"
#include "film.h"
#include "mapped.h"
#include "overview.h"

/* What the readings say of a film's bytes. */
struct found {
    uint32_t number; /* of the strict reading; what follows where it is CAF_DONE */
    uint64_t strict[CAF_STRICT_PLACES];
    uint32_t data_edits;
    uint64_t place[CAF_OVERVIEW_PLACES];
    uint32_t shows; /* of the reader of the overview, where there is one; then what it says of its head */
    uint64_t picture[CAF_PICTURE_PLACES];
    uint32_t names; /* of the reader of the `chan`; CAF_NO_DATA where there is none */
    uint64_t said[CAF_SAID_PLACES];
    uint32_t descriptions[CAF_DESCRIPTION * MOST_CHANNELS];
};

enum { BODY_HEAD = 8, EDIT_COUNT = 4 };

/* The reader on the whole body, with no room: it gives CAF_CUT_SHORT for one that is no overview, and CAF_NO_ROOM for
 * one with pairs, which are read later, in blocks. The head alone is a body too, and tells the rest. */
static void look_at_overview(const uint8_t *file, uint32_t channels, struct found *found) {
    const uint8_t *body = file + found->place[CAF_OVERVIEW_START];
    const size_t size = found->place[CAF_OVERVIEW_SIZE];

    found->shows = caf_read_overview(body, size, channels, NULL, 0, found->picture, CAF_PICTURE_PLACES);
    if (found->shows == CAF_NO_ROOM)
        found->shows = caf_read_overview(body, BODY_HEAD, channels, NULL, 0, found->picture, CAF_PICTURE_PLACES);
}

static void look(const uint8_t *file, size_t len, void *into) {
    struct found *found = into;
    uint64_t chan[CAF_CHAN_PLACES];
    uint32_t channels;
    uint64_t at;

    found->number = caf_read_strict(file, len, found->strict, CAF_STRICT_PLACES);
    if (found->number != CAF_DONE)
        return;
    channels = (uint32_t)found->strict[CAF_STRICT_CHANNELS];
    found->data_edits = 0;
    for (at = found->strict[CAF_STRICT_DATA_START] - EDIT_COUNT; at < found->strict[CAF_STRICT_DATA_START]; at++)
        found->data_edits = found->data_edits << 8 | file[at];
    caf_find_overview(file, len, found->place, CAF_OVERVIEW_PLACES);
    if (found->place[CAF_OVERVIEW_FOUND])
        look_at_overview(file, channels, found);
    found->names = CAF_NO_DATA;
    caf_find_chan(file, len, chan, CAF_CHAN_PLACES);
    if (chan[CAF_CHAN_FOUND])
        found->names = caf_read_chan(file + chan[CAF_CHAN_START], chan[CAF_CHAN_SIZE], channels, found->descriptions,
                                     CAF_DESCRIPTION * MOST_CHANNELS, found->said, CAF_SAID_PLACES);
}

/* A layout that is refused names no channel; that is no reason not to show it. */
static void name_channels(struct overview *overview, const struct found *found) {
    uint32_t i;

    for (i = 0; i < overview->channels && i < MOST_CHANNELS && found->names == CAF_DONE; i++)
        overview->names[i] = channel_name_in(found->said, found->descriptions, i);
}

const char *channel_name(const struct overview *overview, uint32_t channel, char name[CHANNEL_NAME]) {
    if (overview->names[channel] != NULL)
        return overview->names[channel];
    snprintf(name, CHANNEL_NAME, "Channel %" PRIu32, channel + 1);
    return name;
}

static bool refused(uint32_t number, char why[WHY]) {
    const struct film_fault fault = {FILM_REFUSED, number, 0};

    film_words(&fault, why, WHY);
    return false;
}

static bool take_stored(struct overview *overview, const struct found *found, char why[WHY]) {
    if (found->shows != CAF_DONE)
        return refused(found->shows, why);
    overview->is_stored = true;
    overview->edits = (uint32_t)found->picture[CAF_PICTURE_EDITS];
    overview->frames_per_sample = (uint32_t)found->picture[CAF_PICTURE_FRAMES];
    overview->start = found->place[CAF_OVERVIEW_START];
    overview->groups = (found->place[CAF_OVERVIEW_SIZE] - BODY_HEAD) / 4 / overview->channels;
    return true;
}

static bool take_samples(struct overview *overview, const struct found *found, char why[WHY]) {
    const uint64_t frames = found->strict[CAF_STRICT_FRAMES];
    uint32_t *per_sample = &overview->frames_per_sample;
    struct film_fault fault;

    if (film_usual_overview(overview->fd, found->strict, &overview->track, per_sample, &fault) != FILM_DONE) {
        film_words(&fault, why, WHY);
        return false;
    }
    overview->edits = overview->data_edits;
    overview->groups = frames / *per_sample + (frames % *per_sample > 0);
    return true;
}

bool overview_find(struct overview *overview, const char *name, char why[WHY]) {
    static struct found found;
    uint64_t len;
    const char *fault;

    memset(overview, 0, sizeof *overview);
    overview->name = name;
    fault = open_file(name, &overview->fd, &len);
    if (!fault)
        fault = use_mapped(overview->fd, len, look, &found);
    if (fault) {
        snprintf(why, WHY, "%s", fault);
        return false;
    }
    if (found.number != CAF_DONE)
        return refused(found.number, why);
    overview->rate = found.strict[CAF_STRICT_RATE];
    overview->channels = (uint32_t)found.strict[CAF_STRICT_CHANNELS];
    overview->data_edits = found.data_edits;
    name_channels(overview, &found);
    return (found.place[CAF_OVERVIEW_FOUND] ? take_stored : take_samples)(overview, &found, why);
}

void overview_close(struct overview *overview) {
    free(overview->pairs);
    if (overview->fd >= 0)
        close(overview->fd);
}
