/* A film that is written: each call lets the library store into the window, and carries the stores to the
 * disk. */
#include "parts.h"

#include <errno.h>
#include <fcntl.h>
#include <stdio.h>
#include <string.h>
#include <unistd.h>

#include "caf_names.h"

static enum film_error fail(struct film *film, enum film_error error, uint32_t number, int system) {
    film->fault.error = error;
    film->fault.number = number;
    film->fault.system = system;
    return error;
}

enum film_error film_refused(struct film *film, uint32_t number) {
    return fail(film, FILM_REFUSED, number, 0);
}

/* The record may be ahead of what arrived from here on, so it is not used again. */
enum film_error film_stop(struct film *film, enum film_error error, int system) {
    film->stopped = true;
    return fail(film, error, 0, error == FILM_SYSTEM ? system : 0);
}

static enum film_error answer(struct film *film, uint32_t number) {
    return number == CAF_DONE ? FILM_DONE : film_refused(film, number);
}

static enum film_error ready(struct film *film) {
    return film->fd == 0 || film->stopped ? fail(film, FILM_STOPPED, 0, 0) : FILM_DONE;
}

void film_begin(struct film *film) {
    memset(film, 0, sizeof *film);
    caf_new(film->record, CAF_RECORD);
}

enum film_error film_create(struct film *film, const char *path) {
    film_begin(film);
    return film_disk_open(film, path, O_RDWR | O_CREAT | O_EXCL);
}

enum film_error film_set_format(struct film *film, double rate, uint32_t channels, uint32_t bits,
                                bool is_float, bool little_endian) {
    if (ready(film) != FILM_DONE)
        return film->fault.error;
    return answer(film,
                  caf_set_format(film->record, CAF_RECORD, rate, channels, bits, is_float, little_endian));
}

enum film_error film_set_layout_tag(struct film *film, uint32_t tag) {
    if (ready(film) != FILM_DONE)
        return film->fault.error;
    return answer(film, caf_set_layout_tag(film->record, CAF_RECORD, tag));
}

enum film_error film_set_layout_labels(struct film *film, const uint32_t *labels, size_t count,
                                       uint32_t channels) {
    if (ready(film) != FILM_DONE)
        return film->fault.error;
    return answer(film, caf_set_layout_for_labels(film->record, CAF_RECORD, labels, count, channels));
}

static enum film_error lend(struct film *film, uint64_t at, size_t n) {
    return film_window_lend(&film->window, at, n) < 0 ? film_stop(film, FILM_SYSTEM, errno) : FILM_DONE;
}

enum film_error film_store(struct film *film, uint64_t at, const uint8_t *bytes, size_t n) {
    size_t done = film_disk_store(film->fd, bytes, n, at);

    if (film->length < at + done)
        film->length = at + done;
    return done < n ? film_stop(film, FILM_SYSTEM, errno) : FILM_DONE;
}

enum film_error film_load(struct film *film, uint64_t at, uint8_t *bytes, size_t n) {
    if (film_disk_load(film->fd, bytes, n, at) == n)
        return FILM_DONE;
    return errno == 0 ? film_stop(film, FILM_CHANGED, 0) : film_stop(film, FILM_SYSTEM, errno);
}

/* Carries n bytes that a call stored at `at` to the disk. */
static enum film_error carry(struct film *film, uint64_t at, size_t n) {
    return film_store(film, at, film->window.base + at, n);
}

enum film_error film_sync(struct film *film) {
    if (ready(film) != FILM_DONE)
        return film->fault.error;
    /* after a failed sync nobody knows what is on the disk */
    return film_disk_sync(film->fd) < 0 ? film_stop(film, FILM_SYSTEM, errno) : FILM_DONE;
}

enum film_error film_unchanged(struct film *film) {
    uint64_t length;

    if (film_disk_length(film->fd, &length) < 0)
        return film_stop(film, FILM_SYSTEM, errno);
    return length == film->length ? FILM_DONE : film_stop(film, FILM_CHANGED, 0);
}

enum film_error film_quiet(struct film *film, uint32_t seconds) {
    bool quiet;

    if (film_is_quiet(film->fd, seconds, &quiet) < 0)
        return film_stop(film, FILM_SYSTEM, errno);
    film->stopped = film->stopped || !quiet;
    return quiet ? FILM_DONE : fail(film, FILM_RECENT, seconds, 0);
}

enum film_error film_write_header(struct film *film) {
    uint32_t number;

    if (ready(film) != FILM_DONE || lend(film, 0, FILM_PIECE) != FILM_DONE)
        return film->fault.error;
    number = caf_write_header(film->record, CAF_RECORD, film->window.base, film->window.room);
    if (number != CAF_DONE)
        return film_refused(film, number);
    if (film_unchanged(film) != FILM_DONE || carry(film, 0, film->record[CAF_RECORD_FILE_LEN]) != FILM_DONE)
        return film->fault.error;
    return film_sync(film);
}

static enum film_error ready_with_header(struct film *film) {
    if (ready(film) != FILM_DONE)
        return film->fault.error;
    return film->record[CAF_RECORD_HAS_HEADER] ? FILM_DONE : film_write_header(film);
}

/* A call of the library that appends `count` elements. */
typedef uint32_t appending(uint64_t *record, uint8_t *base, size_t room, const void *from, size_t count);

static uint32_t append_bytes(uint64_t *record, uint8_t *base, size_t room, const void *from, size_t count) {
    return caf_write_data(record, CAF_RECORD, base, room, from, count);
}

static uint32_t append_samples(uint64_t *record, uint8_t *base, size_t room, const void *from, size_t count) {
    return caf_write_samples(record, CAF_RECORD, base, room, from, count);
}

/* `count` elements that take `bytes` bytes of the film. */
static enum film_error append_piece(struct film *film, appending *call, const void *from, size_t count,
                                    size_t bytes) {
    uint64_t at = film->record[CAF_RECORD_FILE_LEN];
    uint32_t number;

    if (lend(film, at, bytes) != FILM_DONE)
        return film->fault.error;
    number = call(film->record, film->window.base, film->window.room, from, count);
    if (number != CAF_DONE)
        return film_refused(film, number);
    return film_unchanged(film) == FILM_DONE ? carry(film, at, bytes) : film->fault.error;
}

/* Elements of `size` bytes that take `width` bytes of the film each. What the library may refuse does not
 * depend on the count, as there is always room: a refusal comes with the first piece, when nothing has been
 * stored. */
static enum film_error append(struct film *film, appending *call, const void *from, size_t count, size_t size,
                              size_t width) {
    const uint8_t *next = from;
    const size_t most = FILM_PIECE / width;

    if (ready_with_header(film) != FILM_DONE)
        return film->fault.error;
    while (count > most) {
        if (append_piece(film, call, next, most, most * width) != FILM_DONE)
            return film->fault.error;
        next += most * size;
        count -= most;
    }
    return append_piece(film, call, next, count, count * width);
}

enum film_error film_append(struct film *film, const void *bytes, size_t count) {
    return append(film, append_bytes, bytes, count, 1, 1);
}

enum film_error film_append_samples(struct film *film, const int32_t *samples, size_t count) {
    return append(film, append_samples, samples, count, sizeof *samples, 3);
}

enum film_error film_finish(struct film *film) {
    uint64_t at;
    uint32_t number;

    if (ready_with_header(film) != FILM_DONE)
        return film->fault.error;
    /* the library stores nothing where a film is finished, so there is nothing to carry */
    if (film->record[CAF_RECORD_FINISHED])
        return FILM_DONE;
    at = film->record[CAF_RECORD_SIZE_POSITION];
    /* a sync may take long, so the look at the length comes after it */
    if (film_sync(film) != FILM_DONE || film_unchanged(film) != FILM_DONE ||
        lend(film, at, FILM_FIELD) != FILM_DONE)
        return film->fault.error;
    number = caf_finish(film->record, CAF_RECORD, film->window.base, film->window.room);
    if (number != CAF_DONE)
        return film_refused(film, number);
    if (carry(film, at, FILM_FIELD) != FILM_DONE)
        return film->fault.error;
    return film_sync(film);
}

enum film_error film_close(struct film *film) {
    int fd = film->fd;

    film_window_close(&film->window);
    film->fd = 0;
    /* a child that was forked with the film open closes its own copy: the lock is not the child's to give back */
    if (fd > 0 && film->process == getpid())
        film_unlock(fd);
    /* a close that a signal interrupts has closed */
    if (fd > 0 && close(fd) < 0 && errno != EINTR)
        return fail(film, FILM_SYSTEM, 0, errno);
    return FILM_DONE;
}

uint64_t film_arrived(const struct film *film) {
    uint64_t start = film->record[CAF_RECORD_DATA_START];
    /* what follows the data of a finished film is its overview */
    uint64_t end = film->record[CAF_RECORD_FINISHED] ? film->record[CAF_RECORD_FILE_LEN] : film->length;

    return film->record[CAF_RECORD_HAS_HEADER] && end > start ? end - start : 0;
}

/* Of errors that no number or errno explains. */
static const char *plain_words(enum film_error error) {
    switch (error) {
    case FILM_BUSY:
        return "someone is writing or recovering this film";
    case FILM_NOT_A_FILE:
        return "not a regular file";
    case FILM_CHANGED:
        return "another program made the file longer or shorter";
    case FILM_STOPPED:
        return "an earlier call failed, or the film is not open";
    default:
        return "no fault";
    }
}

const char *film_words(const struct film_fault *fault, char *text, size_t room) {
    if (fault->error == FILM_REFUSED)
        snprintf(text, room, "refused, number %u %s: %s", (unsigned)fault->number,
                 caf_number_name(fault->number), caf_number_words(fault->number));
    else if (fault->error == FILM_RECENT)
        snprintf(text, room, "modified within the last %u seconds: someone may still be writing it",
                 (unsigned)fault->number);
    else
        snprintf(text, room, "%s",
                 fault->error == FILM_SYSTEM ? strerror(fault->system) : plain_words(fault->error));
    return text;
}
