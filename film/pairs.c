/* The pairs of an overview, block by block.
 *
 * The library makes the overview of a file that stands in memory. So a block of samples is made one: a head comes
 * before it, that of an open film of as many channels in the same byte order, and the library's calls resume the
 * file, close it, append its overview and read that. Blocks may be taken by themselves: whole groups stay what they
 * are, whatever follows them, and numbers that are divided by 256 are compared like the samples (WholeStay and
 * DividedLeast in crates/overview/specs/Claims.antt). Of a group longer than a block the least is the least of its
 * parts, and the greatest likewise. */
#include "parts.h"

#include <errno.h>
#include <stdlib.h>
#include <string.h>

/* So many bytes of samples are read at a time, at least one sample. A test has other ones. */
#ifndef FILM_BLOCK
#define FILM_BLOCK (1 << 18)
#endif

enum { HEAD = 68, PAIR = 4 };

/* `file` has a head, a block of at most `most` samples, and room for an overview that has a pair for each of them;
 * `pairs` are the block's; `group` those of a group that is longer than a block, as far as it was read. */
struct work {
    int fd;
    const struct film_track *track;
    size_t most, room;
    uint8_t *file;
    int16_t *pairs, *group;
    uint32_t number; /* of a refusal */
};

/* Samples of one or more frames: `channels` of each, which are all unless a frame is longer than a block. */
struct part {
    uint64_t at, frames;
    uint32_t channels;
};

/* An open film without samples. Its rate is 1, since no pair depends on it. */
static void put_head(uint8_t *head, uint32_t channels, bool little_endian) {
    static const uint8_t film[HEAD + 1] = "caff\0\1\0\0desc\0\0\0\0\0\0\0\040\077\360\0\0\0\0\0\0lpcm"
                                          "\0\0\0\0....\0\0\0\1....\0\0\0\030"
                                          "data\377\377\377\377\377\377\377\377\0\0\0";

    memcpy(head, film, HEAD);
    film_put_big(head + 32, little_endian ? 2 : 0, 4);
    film_put_big(head + 36, FILM_SAMPLE * channels, 4);
    film_put_big(head + 44, channels, 4);
}

/* The pairs of the samples in the file's block; gives the number of the call that refused, which none does. */
static uint32_t overview(struct work *work, const struct part *part, uint32_t group) {
    uint64_t record[CAF_RECORD], chunks, said[CAF_PICTURE_PLACES];
    const size_t end = HEAD + FILM_SAMPLE * part->channels * part->frames, body = end + FILM_CHUNK_HEADER;
    uint32_t number;

    put_head(work->file, part->channels, work->track->little_endian);
    if ((number = caf_resume(work->file, work->room, end, record, CAF_RECORD, &chunks, 1)) != CAF_DONE ||
        (number = caf_set_overview_group(record, CAF_RECORD, group)) != CAF_DONE ||
        (number = caf_finish(record, CAF_RECORD, work->file, work->room)) != CAF_DONE ||
        (number = caf_append_overview(record, CAF_RECORD, work->file, work->room)) != CAF_DONE)
        return number;
    return caf_read_overview(work->file + body, record[CAF_RECORD_FILE_LEN] - body, part->channels, work->pairs,
                             2 * work->most, said, CAF_PICTURE_PLACES);
}

/* Reads a part, and works out its pairs. */
static enum film_error work_out(struct work *work, const struct part *part, uint32_t group) {
    const size_t n = FILM_SAMPLE * part->channels * part->frames;

    if (film_disk_load(work->fd, work->file + HEAD, n, part->at) < n)
        return errno == 0 ? FILM_CHANGED : FILM_SYSTEM;
    work->number = overview(work, part, group);
    return work->number == CAF_DONE ? FILM_DONE : FILM_REFUSED;
}

/* Works out a part of one group, and takes its pairs into those of the group's channels from `first` on. */
static enum film_error merge(struct work *work, const struct part *part, uint32_t first) {
    int16_t *group = work->group + 2 * (size_t)first;
    enum film_error error = work_out(work, part, (uint32_t)part->frames);
    size_t i;

    for (i = 0; error == FILM_DONE && i < 2 * (size_t)part->channels; i += 2) {
        if (work->pairs[i] < group[i])
            group[i] = work->pairs[i];
        if (work->pairs[i + 1] > group[i + 1])
            group[i + 1] = work->pairs[i + 1];
    }
    return error;
}

/* One frame that is longer than a block. */
static enum film_error merge_frame(struct work *work, uint64_t at) {
    struct part part = {at, 1, 0};
    enum film_error error = FILM_DONE;
    uint32_t first;

    for (first = 0; error == FILM_DONE && first < work->track->channels; first += part.channels) {
        part.channels = (uint32_t)film_least(work->most, work->track->channels - first);
        error = merge(work, &part, first);
        part.at += FILM_SAMPLE * (uint64_t)part.channels;
    }
    return error;
}

/* The pairs of a group of `frames` frames, which may be longer than a block. */
static enum film_error merge_group(struct work *work, uint64_t at, uint64_t frames) {
    const size_t channels = work->track->channels, most = work->most / channels;
    struct part part = {at, 0, work->track->channels};
    enum film_error error = FILM_DONE;
    size_t i;

    for (i = 0; i < 2 * channels; i += 2) {
        work->group[i] = INT16_MAX;
        work->group[i + 1] = INT16_MIN;
    }
    while (error == FILM_DONE && frames > 0) {
        part.frames = most > 0 ? film_least(most, frames) : 1;
        error = most > 0 ? merge(work, &part, 0) : merge_frame(work, part.at);
        part.at += FILM_SAMPLE * channels * part.frames;
        frames -= part.frames;
    }
    return error;
}

static enum film_error all_groups(struct work *work, uint32_t group, film_take_pairs *take, void *self) {
    const size_t channels = work->track->channels, whole = work->most / channels / group * group;
    uint64_t left = work->track->payload / (FILM_SAMPLE * channels), groups;
    struct part part = {work->track->start, 0, work->track->channels};
    enum film_error error;

    for (; left > 0; left -= part.frames) {
        part.frames = film_least(whole > 0 ? whole : group, left);
        groups = (part.frames + group - 1) / group;
        error = whole > 0 ? work_out(work, &part, group) : merge_group(work, part.at, part.frames);
        if (error != FILM_DONE)
            return error;
        if (!take(self, whole > 0 ? work->pairs : work->group, 2 * groups * channels))
            return FILM_STOPPED;
        part.at += FILM_SAMPLE * channels * part.frames;
    }
    return FILM_DONE;
}

/* What must be so before any block is looked at: the library says it of each block. */
static uint32_t refusal(const struct film_track *track, uint32_t group) {
    if (group == 0)
        return CAF_NO_GROUP;
    return track->channels == 0 || track->payload % (FILM_SAMPLE * (uint64_t)track->channels) != 0 ? CAF_WRONG_WIDTH
                                                                                              : CAF_DONE;
}

static enum film_error with_memory(struct work *work, uint32_t group, film_take_pairs *take, void *self) {
    work->most = FILM_BLOCK / FILM_SAMPLE;
    work->room = HEAD + FILM_OVERVIEW_HEAD + (FILM_SAMPLE + PAIR) * work->most;
    work->file = malloc(work->room);
    work->pairs = malloc(PAIR * work->most);
    work->group = malloc(PAIR * (size_t)work->track->channels);
    if (work->file != NULL && work->pairs != NULL && work->group != NULL)
        return all_groups(work, group, take, self);
    errno = ENOMEM;
    return FILM_SYSTEM;
}

enum film_error film_pairs(int fd, const struct film_track *track, uint32_t group, film_take_pairs *take, void *self,
                           struct film_fault *fault) {
    struct work work = {fd, track, 0, 0, NULL, NULL, NULL, refusal(track, group)};

    fault->error = work.number == CAF_DONE ? with_memory(&work, group, take, self) : FILM_REFUSED;
    fault->system = fault->error == FILM_SYSTEM ? errno : 0;
    fault->number = work.number;
    free(work.file);
    free(work.pairs);
    free(work.group);
    return fault->error;
}
