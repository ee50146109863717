/* Recovery: a film closed in place by resume and finish, with a word on what it was. */
#include "parts.h"

#include <errno.h>
#include <fcntl.h>
#include <string.h>
#include <unistd.h>

/* The eight bytes of the size field: as they were, and as resume and finish store them. */
struct fields {
    uint8_t before[FILM_FIELD], opened[FILM_FIELD];
    struct film_overlay closed;
};

/* Where the run of bytes that are those of `like`, or FF where that is NULL, ends. */
static int run_end(const uint8_t *field, int from, const uint8_t *like) {
    while (from < FILM_FIELD && field[from] == (like == NULL ? 0xFF : like[from]))
        from++;
    return from;
}

/* What a size field says of its film, whose true size is in `size`. Stores go from the most significant byte,
 * a finish's over -1 and a reopening's over the true size or over what a cut finish left of it. So a cut
 * finish leaves bytes of the size and then FF, and a cut reopening FF, bytes of the size, FF. */
static enum film_state state_of(const uint8_t *field, const uint8_t *size) {
    int opened = run_end(field, 0, NULL);

    if (opened == FILM_FIELD)
        return FILM_OPEN;
    if (run_end(field, 0, size) == FILM_FIELD)
        return FILM_CLOSED;
    if (run_end(field, run_end(field, opened, size), NULL) == FILM_FIELD)
        return opened > 0 ? FILM_CUT_IN_REOPEN : FILM_CUT_IN_FINISH;
    return field[0] & 0x80 ? FILM_NEGATIVE : FILM_SHORTENED;
}

static enum film_error open_to_recover(struct film *film, const char *path, bool dry_run) {
    film_begin(film);
    if (film_disk_open(film, path, dry_run ? O_RDONLY : O_RDWR) != FILM_DONE)
        return film->fault.error;
    return film_disk_length(film->fd, &film->length) < 0 ? film_stop(film, FILM_SYSTEM, errno) : FILM_DONE;
}

/* Whether all that follows the data of a film without payload is the overview of nothing. */
static enum film_error is_overview(struct film *film, const struct film_report *report,
                                   const uint64_t out[CAF_STRICT_PLACES], bool *is) {
    *is = false;
    if (report->tail != FILM_OVERVIEW_HEAD)
        return FILM_DONE;
    return film_begins_overview(film, out, out[CAF_STRICT_DATA_START], is);
}

/* The strict reading as it is. *closed says whether there is nothing to do. */
static enum film_error read_before(struct film *film, struct film_report *report, bool *closed) {
    uint64_t out[CAF_STRICT_PLACES];

    if (film_strict(film, NULL, &report->number, out) != FILM_DONE)
        return film->fault.error;
    report->payload = out[CAF_STRICT_PAYLOAD];
    report->frames = out[CAF_STRICT_FRAMES];
    *closed = report->number == CAF_DONE && !out[CAF_STRICT_OPEN];
    if (*closed)
        report->tail = film->length - out[CAF_STRICT_DATA_START] - out[CAF_STRICT_PAYLOAD];
    /* a killed writer of another house leaves this, and its audio reads as chunks: resume refuses it */
    if (*closed && report->payload == 0 && report->tail > 0)
        return is_overview(film, report, out, closed);
    return FILM_DONE;
}

/* Resume and finish in memory: what they store, what the film was, and how it would read. */
static enum film_error plan(struct film *film, struct film_report *report, struct fields *fields) {
    uint64_t out[CAF_STRICT_PLACES], at;
    uint32_t number;

    if (film_examine(film) != FILM_DONE)
        return film->fault.error;
    at = film->record[CAF_RECORD_SIZE_POSITION];
    memcpy(fields->opened, film->window.base + at, FILM_FIELD);
    if (film_load(film, at, fields->before, FILM_FIELD) != FILM_DONE)
        return film->fault.error;
    number = caf_finish(film->record, CAF_RECORD, film->window.base, film->window.room);
    if (number != CAF_DONE)
        return film_refused(film, number);
    fields->closed.at = at;
    memcpy(fields->closed.bytes, film->window.base + at, FILM_FIELD);
    if (film_strict(film, &fields->closed, &number, out) != FILM_DONE)
        return film->fault.error;
    if (number != CAF_DONE)
        return film_refused(film, number);
    report->size_field = film_big(fields->before);
    report->state = state_of(fields->before, fields->closed.bytes);
    report->payload_now = out[CAF_STRICT_PAYLOAD];
    report->frames_now = out[CAF_STRICT_FRAMES];
    return FILM_DONE;
}

/* The stores of the plan. A sync puts what is there on the disk before the size that counts it. */
static enum film_error carry_out(struct film *film, const struct fields *fields) {
    const struct film_overlay *closed = &fields->closed;

    if (film_unchanged(film) != FILM_DONE ||
        film_store(film, closed->at, fields->opened, FILM_FIELD) != FILM_DONE ||
        film_sync(film) != FILM_DONE || film_unchanged(film) != FILM_DONE ||
        film_store(film, closed->at, closed->bytes, FILM_FIELD) != FILM_DONE)
        return film->fault.error;
    return film_sync(film);
}

/* Who is to be believed that nobody writes the film: the system, or the time since it was modified. */
static const int64_t as_told = -1;

enum film_error film_left_alone(struct film *film) {
    return film_quiet(film, film->untold ? FILM_QUIET : 0);
}

static enum film_error left_alone(struct film *film, int64_t older_than) {
    return older_than == as_told ? film_left_alone(film) : film_quiet(film, (uint32_t)older_than);
}

/* What is to be done: an overview that was cut is taken off, or else the film is closed. */
static enum film_error look(struct film *film, struct film_report *report, struct film_cut *cut,
                            struct fields *fields) {
    cut->found = false;
    if (report->number == CAF_CUT_SHORT && film_find_cut(film, cut) != FILM_DONE)
        return film->fault.error;
    if (!cut->found)
        return plan(film, report, fields);
    report->state = FILM_CUT_OVERVIEW;
    report->payload_now = cut->payload;
    report->frames_now = cut->frames;
    report->cut = film->length - cut->end;
    return FILM_DONE;
}

static enum film_error recover(struct film *film, const char *path, bool dry_run, int64_t older_than,
                               struct film_report *report) {
    struct film_cut cut;
    struct fields fields;
    bool closed = false;

    if (open_to_recover(film, path, dry_run) != FILM_DONE ||
        read_before(film, report, &closed) != FILM_DONE)
        return film->fault.error;
    if (closed) {
        report->state = FILM_CLOSED;
        report->payload_now = report->payload;
        report->frames_now = report->frames;
        return FILM_DONE;
    }
    if (look(film, report, &cut, &fields) != FILM_DONE || left_alone(film, older_than) != FILM_DONE)
        return film->fault.error;
    if (dry_run && faccessat(AT_FDCWD, path, W_OK, AT_EACCESS) < 0)
        return film_stop(film, FILM_SYSTEM, errno);
    if (dry_run)
        return FILM_DONE;
    if (!cut.found)
        return carry_out(film, &fields);
    return film_take_off(film, cut.end) == FILM_DONE ? film_sync(film) : film->fault.error;
}

static enum film_error recover_once(const char *path, bool dry_run, int64_t older_than,
                                    struct film_report *report) {
    struct film film;
    enum film_error error;

    memset(report, 0, sizeof *report);
    error = recover(&film, path, dry_run, older_than, report);
    report->fault = film.fault;
    if (error != FILM_DONE)
        report->state = FILM_UNKNOWN;
    if (film_close(&film) != FILM_DONE && error == FILM_DONE) {
        report->fault = film.fault;
        error = film.fault.error;
    }
    return error;
}

/* A film is locked and opened for writing only where there is something to write: one that is closed, or
 * refused, is kept from nobody while it is read. */
static enum film_error look_and_recover(const char *path, bool dry_run, int64_t older_than,
                                        struct film_report *report) {
    enum film_error error = recover_once(path, true, older_than, report);

    if (dry_run || error != FILM_DONE || report->state == FILM_CLOSED)
        return error;
    return recover_once(path, false, older_than, report);
}

enum film_error film_recover(const char *path, bool dry_run, struct film_report *report) {
    return look_and_recover(path, dry_run, as_told, report);
}

enum film_error film_recover_older(const char *path, bool dry_run, uint32_t seconds,
                                   struct film_report *report) {
    return look_and_recover(path, dry_run, seconds, report);
}
