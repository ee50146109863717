/* A film that is opened again.
 *
 * The file is not mapped: one that someone shortens would end the process by SIGBUS. What the library's resume
 * looks at is read and put into the window, it stores its eight bytes there, and only these go to the disk.
 *
 * Before its data a film may have any number of chunks, each on a page of its own. They are not all put there,
 * but a head that the plain reading takes for the same: the last description and the chunk at which the
 * reading ends, as they are and where they are, and before each of them one chunk in the place of all that the
 * reading passes over. Such a chunk changes nothing but where the next one stands, and of the descriptions the
 * last counts. So number and record are those of the whole file, in a few pages; tests/film_heads.c compares
 * them. */
#include "parts.h"

#include <errno.h>
#include <fcntl.h>
#include <string.h>
#include <time.h>

enum { EDIT_COUNT = 4, DESCRIPTION = FILM_LOOKED_AT - FILM_CHUNK_HEADER };

/* A film that someone else has is tried so often again, every hundredth of a second. */
enum { TRIES = 100 };

/* The walk over the chunks, and what it keeps of the file: each byte is read once, so that all that is lent
 * fits together even where someone changes the file meanwhile. */
struct walk {
    struct film_chunk chunk;             /* the one that is looked at */
    uint64_t description_at;             /* 0 where there was none */
    uint8_t description[FILM_LOOKED_AT]; /* the last one */
    uint8_t start[FILM_FILE_HEADER];
};

/* Whether the library reads on after this description, in a film of nothing else. */
static bool is_taken(const uint8_t *description) {
    uint8_t film[FILM_FILE_HEADER + FILM_LOOKED_AT + FILM_CHUNK_HEADER + EDIT_COUNT] = "caff";
    uint64_t out[CAF_PLAIN_PLACES];

    memcpy(film + FILM_FILE_HEADER, description, FILM_LOOKED_AT);
    memcpy(film + FILM_FILE_HEADER + FILM_LOOKED_AT, "data", 4);
    return caf_parse(film, sizeof film, out, CAF_PLAIN_PLACES) == CAF_DONE;
}

/* Goes on to the next chunk. False where the reading ends at this one, whatever the library will say of it. */
static bool pass_over(const struct film *film, struct walk *walk) {
    const uint8_t *chunk = film_chunk_bytes(&walk->chunk);
    uint64_t left = film_there(film, walk->chunk.at, UINT64_MAX), body = DESCRIPTION;

    if (left < FILM_CHUNK_HEADER || memcmp(chunk, "data", 4) == 0)
        return false;
    if (memcmp(chunk, "desc", 4) == 0) {
        if (left < FILM_LOOKED_AT || !is_taken(chunk))
            return false;
        walk->description_at = walk->chunk.at;
        memcpy(walk->description, chunk, FILM_LOOKED_AT);
    } else {
        body = film_big(chunk + 4);
        if (left - FILM_CHUNK_HEADER < body)
            return false;
    }
    walk->chunk.at += FILM_CHUNK_HEADER + body;
    return true;
}

/* To the chunk at which the reading ends. */
static enum film_error walk_over(struct film *film, struct walk *walk) {
    memset(walk, 0, sizeof *walk);
    if (film_load(film, 0, walk->start, film_there(film, 0, FILM_FILE_HEADER)) != FILM_DONE)
        return film->fault.error;
    walk->chunk.at = FILM_FILE_HEADER;
    do {
        if (film_fetch(film, &walk->chunk) != FILM_DONE)
            return film->fault.error;
    } while (memcmp(walk->start, "caff", 4) == 0 && pass_over(film, walk));
    return FILM_DONE;
}

/* Puts bytes into the window, where they stand in the film. */
static enum film_error put(struct film *film, uint64_t at, const uint8_t *bytes, size_t n) {
    if (n == 0)
        return FILM_DONE;
    if (film_window_add(&film->window, at, n) < 0)
        return film_stop(film, FILM_SYSTEM, errno);
    memcpy(film->window.base + at, bytes, n);
    return FILM_DONE;
}

/* One chunk in the place of all from one place to another, if there are any. */
static enum film_error put_bridge(struct film *film, uint64_t from, uint64_t to) {
    uint8_t header[FILM_CHUNK_HEADER] = "free";

    film_put_big(header + 4, to - from - FILM_CHUNK_HEADER, FILM_FIELD);
    return put(film, from, header, from < to ? FILM_CHUNK_HEADER : 0);
}

static enum film_error put_head(struct film *film, const struct walk *walk) {
    uint64_t after = FILM_FILE_HEADER;

    if (put(film, 0, walk->start, film_there(film, 0, FILM_FILE_HEADER)) != FILM_DONE)
        return film->fault.error;
    if (walk->description_at > 0) {
        if (put_bridge(film, after, walk->description_at) != FILM_DONE ||
            put(film, walk->description_at, walk->description, FILM_LOOKED_AT) != FILM_DONE)
            return film->fault.error;
        after = walk->description_at + FILM_LOOKED_AT;
    }
    if (put_bridge(film, after, walk->chunk.at) != FILM_DONE)
        return film->fault.error;
    return put(film, walk->chunk.at, film_chunk_bytes(&walk->chunk), film_there(film, walk->chunk.at, FILM_LOOKED_AT));
}

enum film_error film_examine(struct film *film) {
    struct walk walk;
    uint64_t chunks;
    uint32_t number;

    if (film_window_reach(&film->window, film->length) < 0)
        return film_stop(film, FILM_SYSTEM, errno);
    if (walk_over(film, &walk) != FILM_DONE || put_head(film, &walk) != FILM_DONE)
        return film->fault.error;
    /* the chunks of the head are not those of the file: their count is not used */
    number =
        caf_resume(film->window.base, film->window.room, film->length, film->record, CAF_RECORD, &chunks, 1);
    return number == CAF_DONE ? FILM_DONE : film_refused(film, number);
}

/* Puts -1 on the disk, before anything can be appended. */
static enum film_error put_back(struct film *film) {
    uint64_t at = film->record[CAF_RECORD_SIZE_POSITION];

    if (film_unchanged(film) != FILM_DONE ||
        film_store(film, at, film->window.base + at, FILM_FIELD) != FILM_DONE ||
        film_sync(film) != FILM_DONE)
        return film->fault.error;
    return film_window_clear(&film->window) < 0 ? film_stop(film, FILM_SYSTEM, errno) : FILM_DONE;
}

/* Whoever recovers a film, or looks whether it is written, has it for a moment: so a writer waits a while. */
static enum film_error open_patiently(struct film *film, const char *path) {
    const struct timespec pause = {0, 10 * 1000 * 1000};
    int tries = 0;

    for (;;) {
        film_begin(film);
        if (film_disk_open(film, path, O_RDWR) != FILM_BUSY || tries++ == TRIES)
            return film->fault.error;
        nanosleep(&pause, NULL);
    }
}

enum film_error film_open(struct film *film, const char *path) {
    if (open_patiently(film, path) != FILM_DONE)
        return film->fault.error;
    if (film_disk_length(film->fd, &film->length) < 0)
        return film_stop(film, FILM_SYSTEM, errno);
    if (film_examine(film) != FILM_DONE) {
        /* there is no record to go on with */
        film->stopped = true;
        return film->fault.error;
    }
    return put_back(film);
}
