/* The parts of the film layer, for each other. */
#ifndef FILM_PARTS_H
#define FILM_PARTS_H

/* flock, pread, MAP_NORESERVE and leases beside C11: before any header of the system */
#ifndef _GNU_SOURCE
#define _GNU_SOURCE
#endif

#include "film.h"
#include "pairs.h"

/* Data go to the disk in pieces of at most so many bytes. */
enum { FILM_PIECE = 1 << 20 };

/* The size field of a data chunk. */
enum { FILM_FIELD = 8 };

/* A sample of 24 bits; and of an overview the bytes before its pairs: name, size, edit count, frames per sample. */
enum { FILM_SAMPLE = 3, FILM_OVERVIEW_HEAD = 20 };

/* The number in a size field. */
static inline uint64_t film_big(const uint8_t *field) {
    uint64_t number = 0;
    int i;

    for (i = 0; i < FILM_FIELD; i++)
        number = number << 8 | field[i];
    return number;
}

/* Puts a number as `width` bytes, from the most significant one. */
static inline void film_put_big(uint8_t *at, uint64_t number, int width) {
    for (; width > 0; number >>= 8)
        at[--width] = (uint8_t)number;
}

static inline uint64_t film_least(uint64_t a, uint64_t b) {
    return a < b ? a : b;
}

/* ---- window.c: address space for a film. All but film_window_close give 0, or -1 and an errno. */

/* Address space for a film of so many bytes. What was lent before is given back if it has to be found
 * elsewhere. */
int film_window_reach(struct film_window *window, uint64_t end);
/* The only pages that can be used are those of n bytes from `at`, and some after them. Where these were lent
 * already they keep their contents; else they are zero. */
int film_window_lend(struct film_window *window, uint64_t at, size_t n);
/* The pages of n bytes from `at`, beside those that were lent. */
int film_window_add(struct film_window *window, uint64_t at, uint64_t n);
/* Gives back every page. */
int film_window_clear(struct film_window *window);
void film_window_close(struct film_window *window);

/* ---- disk.c: the file. */

/* Opens a regular file that nobody writes, as far as can be told, and locks it for a film that is not open;
 * its fd is above 2. Never waits. */
enum film_error film_disk_open(struct film *film, const char *path, int flags);
/* How many of the n bytes were written at `at`, or read from there: fewer where that fails, with its errno,
 * and where a read comes to the end of the file, with errno 0. */
size_t film_disk_store(int fd, const uint8_t *bytes, size_t n, uint64_t at);
size_t film_disk_load(int fd, uint8_t *bytes, size_t n, uint64_t at);
/* 0, or -1 and an errno. A file that was removed, and has no name any more, has no length: ENOENT. */
int film_disk_length(int fd, uint64_t *length);
int film_disk_sync(int fd);

/* ---- others.c: others who have the file. */

/* What the system tells of programs that have a file open for writing. */
enum film_use { FILM_UNUSED, FILM_USED, FILM_UNTOLD };

enum film_use film_use_of(int fd);
/* Locks the file for a writer, or sees whether one has locked it: 0, or -1 and an errno, EWOULDBLOCK where one
 * has. Never waits. */
int film_lock(int fd, bool to_write);
/* Gives the lock back, for children of this process too. */
void film_unlock(int fd);
/* Whether the file was last modified so many seconds ago, or longer. 0, or -1 and an errno. */
int film_is_quiet(int fd, uint32_t seconds, bool *quiet);

/* ---- film.c */

/* A film that is not open. */
void film_begin(struct film *film);
/* Each sets the film's fault and gives its error. */
enum film_error film_refused(struct film *film, uint32_t number);
enum film_error film_stop(struct film *film, enum film_error error, int system);
/* All n bytes are written to the file at `at`, or read from there; else the film is stopped. */
enum film_error film_store(struct film *film, uint64_t at, const uint8_t *bytes, size_t n);
enum film_error film_load(struct film *film, uint64_t at, uint8_t *bytes, size_t n);
/* Whether the file is as long as what was written. Only then is the size true that a finish puts into it;
 * else the film is stopped. */
enum film_error film_unchanged(struct film *film);
/* Whether the file was left alone for so many seconds; else the film is stopped. */
enum film_error film_quiet(struct film *film, uint32_t seconds);

/* ---- chunks.c */

/* Bytes of a file, of a chunk's header, and those that are looked at of a chunk: a description is the longest. */
enum { FILM_FILE_HEADER = 8, FILM_CHUNK_HEADER = 12, FILM_LOOKED_AT = FILM_CHUNK_HEADER + 32 };

/* The chunk at `at`. Chunks that stand close together are read together: which bytes of the file are in the block. */
struct film_chunk {
    uint64_t at;
    uint64_t from, to;
    uint8_t block[2048];
};

/* How many of n bytes at `at` the file has. */
uint64_t film_there(const struct film *film, uint64_t at, uint64_t n);
/* Sees to it that what is looked at of the chunk is in the block, as far as the file goes. */
enum film_error film_fetch(struct film *film, struct film_chunk *chunk);
/* The chunk in the block. */
const uint8_t *film_chunk_bytes(const struct film_chunk *chunk);

/* Whether an overview stands after the data, and where the last chunk ends that the file has whole. */
struct film_chunks {
    bool has_overview;
    uint64_t whole;
};

enum film_error film_walk(struct film *film, struct film_chunks *chunks);

/* ---- reopen.c */

/* Resumes the film whose file is open, in memory: makes its record, and leaves the stores of the resume in
 * the window. Writes nothing to the disk. */
enum film_error film_examine(struct film *film);

/* ---- strict.c */

/* Bytes to be read as if they stood at `at`. */
struct film_overlay {
    uint64_t at;
    uint8_t bytes[FILM_FIELD];
};

/* caf_read_strict of the film's file, with `instead` where that is not NULL. *number is its answer. */
enum film_error film_strict(struct film *film, const struct film_overlay *instead, uint32_t *number,
                            uint64_t out[CAF_STRICT_PLACES]);

/* ---- recovery.c */

/* Whether nobody writes the film, as the system tells or, where it does not, by its age; else it is stopped. */
enum film_error film_left_alone(struct film *film);

/* ---- overview.c */

/* Makes the record of a film whose strict reading found it closed, as a finish leaves it. In memory alone. */
enum film_error film_adopt(struct film *film, const uint64_t strict[CAF_STRICT_PLACES]);
/* Where the samples of a finished film stand, by its record. */
struct film_track film_track_of(const struct film *film);
/* The number that caf_append_overview has for the film, if there is room: CAF_DONE or its refusal. */
uint32_t film_overview_number(struct film *film, uint32_t group);
/* The size of the chunk, which is that of its body. */
uint64_t film_overview_size(uint32_t channels, uint64_t groups);

/* Takes off what stands in the file from `end` on, unless another program made it longer or shorter. */
enum film_error film_take_off(struct film *film, uint64_t end);

/* ---- cut.c */

/* Whether the bytes from `at` on are the first of an overview that film_append_overview or film_add_overview
 * would write there. `strict` is the reading of the film before it, a closed one. */
enum film_error film_begins_overview(struct film *film, const uint64_t strict[CAF_STRICT_PLACES], uint64_t at,
                                     bool *does);

/* A closed film that ends within its overview: up to `end` it is what it was before. */
struct film_cut {
    bool found;
    uint64_t end, payload, frames;
};

/* Looks whether the film, which the strict reading refuses with CAF_CUT_SHORT, is such a one. */
enum film_error film_find_cut(struct film *film, struct film_cut *cut);

#endif
