/* An overview appended to a closed film.
 *
 * Whether it may be is the library's to say, by the film's record, and so are its pairs (pairs.c). The chunk's
 * head, with the size that all of them will have, goes before them. What is not yet on the disk is held, up to a
 * piece: the overview of a usual film, which takes less, is one write after all of the film was read. */
#include "parts.h"

#include <errno.h>
#include <fcntl.h>
#include <stdlib.h>
#include <string.h>
#include <unistd.h>

/* An overview that is being appended: bytes of it that are not on the disk, and how many of the frames they show. */
struct appended {
    struct film *film;
    uint32_t channels, group;
    uint64_t frames, shown;
    uint8_t *bytes;
    size_t held;
    film_progress *progress;
    void *self;
};

struct film_track film_track_of(const struct film *film) {
    struct film_track track;

    track.start = film->record[CAF_RECORD_DATA_START];
    track.payload = film->record[CAF_RECORD_FILE_LEN] - track.start;
    track.channels = (uint32_t)film->record[CAF_RECORD_CHANNELS];
    track.little_endian = film->record[CAF_RECORD_ENDIANNESS] != 0;
    return track;
}

/* The library is asked with no room for the chunk, which is what it tests for last. So it looks at no byte. */
uint32_t film_overview_number(struct film *film, uint32_t group) {
    uint64_t record[CAF_RECORD];
    uint32_t number;

    memcpy(record, film->record, sizeof record);
    record[CAF_RECORD_GROUP] = group;
    number = caf_append_overview(record, CAF_RECORD, film->window.base, record[CAF_RECORD_FILE_LEN]);
    return number == CAF_NO_ROOM ? CAF_DONE : number;
}

enum film_error film_adopt(struct film *film, const uint64_t strict[CAF_STRICT_PLACES]) {
    const uint64_t length = film->length;
    enum film_error error;
    uint32_t number;

    film->length = strict[CAF_STRICT_DATA_START] + strict[CAF_STRICT_PAYLOAD];
    error = film_examine(film);
    film->length = length;
    if (error != FILM_DONE)
        return error;
    number = caf_finish(film->record, CAF_RECORD, film->window.base, film->window.room);
    return number == CAF_DONE ? FILM_DONE : film_refused(film, number);
}

uint64_t film_overview_size(uint32_t channels, uint64_t groups) {
    return 8 + 4 * (channels * groups);
}

/* ---- the bytes */

/* The held bytes go to the end of the file. */
static enum film_error carry(struct appended *to) {
    const size_t n = to->held;

    to->held = 0;
    if (film_unchanged(to->film) != FILM_DONE)
        return to->film->fault.error;
    return film_store(to->film, to->film->length, to->bytes, n);
}

static bool hold_pairs(void *self, const int16_t *pairs, size_t count) {
    struct appended *to = self;
    const uint64_t frame = FILM_SAMPLE * (uint64_t)to->channels;
    size_t i;

    for (i = 0; i < count; i++) {
        if (to->held + sizeof *pairs > FILM_PIECE && carry(to) != FILM_DONE)
            return false;
        film_put_big(to->bytes + to->held, (uint16_t)pairs[i], sizeof *pairs);
        to->held += sizeof *pairs;
    }
    to->shown = film_least(to->shown + count / 2 / to->channels * to->group, to->frames);
    if (to->progress != NULL)
        to->progress(to->self, to->shown * frame, to->frames * frame);
    return true;
}

/* The chunk's name and size, the edit count of the data, which stands before them, and the frames per sample. */
static enum film_error hold_head(struct appended *to, const struct film_track *track) {
    const uint64_t groups = (to->frames + to->group - 1) / to->group;
    uint8_t edits[4];

    if (film_load(to->film, track->start - sizeof edits, edits, sizeof edits) != FILM_DONE)
        return to->film->fault.error;
    memcpy(to->bytes, "ovvw", 4);
    film_put_big(to->bytes + 4, film_overview_size(to->channels, groups), 8);
    memcpy(to->bytes + 12, edits, sizeof edits);
    film_put_big(to->bytes + 16, to->group, 4);
    to->held = FILM_OVERVIEW_HEAD;
    return FILM_DONE;
}

static enum film_error put(struct appended *to, const struct film_track *track) {
    struct film_fault fault;

    if (hold_head(to, track) != FILM_DONE)
        return to->film->fault.error;
    if (film_pairs(to->film->fd, track, to->group, hold_pairs, to, &fault) == FILM_DONE)
        return carry(to);
    /* where the pairs were stopped the film was, and says why */
    return fault.error == FILM_STOPPED ? to->film->fault.error : film_stop(to->film, fault.error, fault.system);
}

enum film_error film_take_off(struct film *film, uint64_t end) {
    int done;

    if (film_unchanged(film) != FILM_DONE)
        return film->fault.error;
    do
        done = ftruncate(film->fd, (off_t)end);
    while (done < 0 && errno == EINTR);
    if (done < 0)
        return film_stop(film, FILM_SYSTEM, errno);
    film->length = end;
    return FILM_DONE;
}

/* An overview that cannot be completed is not left there. What stopped it is the fault, whether it can be taken off
 * or not. */
static enum film_error give_up(struct film *film, uint64_t end) {
    const struct film_fault fault = film->fault;

    if (film->length > end)
        film_take_off(film, end);
    film->fault = fault;
    return fault.error;
}

static enum film_error append(struct film *film, uint32_t group, film_progress *progress, void *self) {
    const struct film_track track = film_track_of(film);
    const uint64_t frames = track.payload / (FILM_SAMPLE * (uint64_t)track.channels), end = film->length;
    struct appended to = {film, track.channels, group, frames, 0, malloc(FILM_PIECE), 0, progress, self};
    enum film_error error;

    if (to.bytes == NULL)
        return film_stop(film, FILM_SYSTEM, ENOMEM);
    error = put(&to, &track);
    free(to.bytes);
    if (error != FILM_DONE)
        return give_up(film, end);
    film->record[CAF_RECORD_OVERVIEW] = 1;
    return film_sync(film);
}

/* ---- the calls */

enum film_error film_append_overview(struct film *film, uint32_t frames_per_sample) {
    uint32_t number;

    /* it says whether calls can be made, and what is closed goes to the disk before anything that follows it */
    if (film_sync(film) != FILM_DONE)
        return film->fault.error;
    number = film_overview_number(film, frames_per_sample);
    return number == CAF_DONE ? append(film, frames_per_sample, NULL, NULL) : film_refused(film, number);
}

/* 2,000 to 4,000 groups, or one for each frame of a film that has fewer. */
static uint32_t usual_group(uint64_t frames) {
    uint32_t group = 1;

    while ((frames + group - 1) / group > 4000 && group < UINT32_C(1) << 31)
        group *= 2;
    return group;
}

/* The film's record, and its group where that is 0; or the number that refuses it. */
static enum film_error settle(struct film *film, const uint64_t strict[CAF_STRICT_PLACES], uint32_t *group) {
    uint32_t number;

    if (strict[CAF_STRICT_OPEN])
        return film_refused(film, CAF_NOT_CLOSED);
    if (film_adopt(film, strict) != FILM_DONE)
        return film->fault.error;
    if (*group == 0)
        *group = usual_group(strict[CAF_STRICT_FRAMES]);
    number = film_overview_number(film, *group);
    return number == CAF_DONE ? FILM_DONE : film_refused(film, number);
}

enum film_error film_usual_overview(int fd, const uint64_t strict[CAF_STRICT_PLACES], struct film_track *track,
                                    uint32_t *group, struct film_fault *fault) {
    struct film film;
    enum film_error error;

    film_begin(&film);
    film.fd = fd;
    *group = 0;
    error = film_disk_length(fd, &film.length) < 0 ? film_stop(&film, FILM_SYSTEM, errno) : settle(&film, strict, group);
    *track = film_track_of(&film);
    *fault = film.fault;
    film_window_close(&film.window);
    return error;
}

/* What refuses an overview beside the library: chunks after the data, which its record knows nothing of. Open data
 * have none. */
static enum film_error look_for_others(struct film *film, const uint64_t strict[CAF_STRICT_PLACES]) {
    struct film_chunks chunks;

    if (film_walk(film, &chunks) != FILM_DONE)
        return film->fault.error;
    if (chunks.has_overview || (strict[CAF_STRICT_PAYLOAD] == 0 && film->length > strict[CAF_STRICT_DATA_START]))
        return film_refused(film, CAF_TAIL_AFTER_DATA);
    /* and those who may still write the film, where the system does not tell */
    return film_left_alone(film);
}

static enum film_error add(struct film *film, const char *path, uint32_t group, film_progress *progress, void *self) {
    uint64_t strict[CAF_STRICT_PLACES];
    uint32_t number;

    film_begin(film);
    if (film_disk_open(film, path, O_RDWR) != FILM_DONE)
        return film->fault.error;
    if (film_disk_length(film->fd, &film->length) < 0)
        return film_stop(film, FILM_SYSTEM, errno);
    if (film_strict(film, NULL, &number, strict) != FILM_DONE)
        return film->fault.error;
    if (number != CAF_DONE)
        return film_refused(film, number);
    if (look_for_others(film, strict) != FILM_DONE || settle(film, strict, &group) != FILM_DONE)
        return film->fault.error;
    return film_sync(film) == FILM_DONE ? append(film, group, progress, self) : film->fault.error;
}

enum film_error film_add_overview(const char *path, uint32_t frames_per_sample, film_progress *progress, void *self,
                                  struct film_fault *fault) {
    struct film film;
    enum film_error error = add(&film, path, frames_per_sample, progress, self);

    *fault = film.fault;
    if (film_close(&film) != FILM_DONE && error == FILM_DONE) {
        *fault = film.fault;
        error = fault->error;
    }
    return error;
}
