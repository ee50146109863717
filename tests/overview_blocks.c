/* Overviews made in blocks, for every size of a block: the chunk that film/ appends is the library's own, byte for
 * byte. Run in an empty folder. */
#include <stddef.h>

/* the layer's, with blocks of any size */
static size_t block_size = 1 << 18;
#define FILM_BLOCK block_size
#include "pairs.c"

#include <fcntl.h>
#include <unistd.h>

#include "big.h"
#include "holds.h"
#include "random.h"

enum { ROOM = 1 << 22, START = 88 };

/* A film in memory, with its overview by the library, and in the file `film`. */
struct made {
    uint32_t channels, group;
    uint64_t frames;
    bool little_endian;
    size_t closed, whole; /* bytes without the overview, and with it */
    uint8_t bytes[ROOM];
};

/* Many samples are extreme, or alike in their upper bytes. */
static void put_samples(uint8_t *at, size_t n) {
    static const uint8_t often[] = {0, 0x7F, 0x80, 0xFF};

    for (; n > 0; n--)
        *at++ = next() % 3 ? often[next() % sizeof often] : (uint8_t)next();
}

/* A closed film: its description, a chunk before the data, and data of edit 7. */
static void make_film(struct made *made) {
    const uint64_t payload = 3 * made->channels * made->frames;
    uint8_t *to = made->bytes;

    memcpy(to, "caff\0\1\0\0desc\0\0\0\0\0\0\0\040@\347p\0\0\0\0\0lpcm", 32);
    put_big(to + 32, 4, made->little_endian ? 2 : 0);
    put_big(to + 36, 4, 3 * made->channels);
    put_big(to + 40, 4, 1);
    put_big(to + 44, 4, made->channels);
    put_big(to + 48, 4, 24);
    memcpy(to + 52, "free\0\0\0\0\0\0\0\010abcdefghdata", 24);
    put_big(to + 76, 8, payload + 4);
    put_big(to + 84, 4, 7);
    put_samples(to + START, payload);
    made->closed = START + payload;
}

static void library_overview(struct made *made) {
    uint64_t record[CAF_RECORD], chunks;

    HOLDS(caf_resume(made->bytes, ROOM, made->closed, record, CAF_RECORD, &chunks, 1) == CAF_DONE);
    HOLDS(caf_set_overview_group(record, CAF_RECORD, made->group) == CAF_DONE);
    HOLDS(caf_finish(record, CAF_RECORD, made->bytes, ROOM) == CAF_DONE);
    HOLDS(caf_append_overview(record, CAF_RECORD, made->bytes, ROOM) == CAF_DONE);
    made->whole = record[CAF_RECORD_FILE_LEN];
}

static void put_file(const uint8_t *bytes, size_t n) {
    FILE *file = fopen("film", "wb");

    HOLDS(file != NULL && fwrite(bytes, 1, n, file) == n && fclose(file) == 0);
}

static void is_file(const uint8_t *bytes, size_t n) {
    static uint8_t there[ROOM + 1];
    FILE *file = fopen("film", "rb");

    HOLDS(file != NULL && fread(there, 1, sizeof there, file) == n && memcmp(there, bytes, n) == 0);
    fclose(file);
}

static void make(struct made *made, uint32_t channels, uint64_t frames, uint32_t group, bool little_endian) {
    made->channels = channels;
    made->frames = frames;
    made->group = group;
    made->little_endian = little_endian;
    make_film(made);
    put_file(made->bytes, made->closed);
    library_overview(made);
}

/* ---- the pairs */

/* Pairs that are compared with those of the library's chunk as they come. */
struct comparing {
    const uint8_t *want;
    uint64_t per_group;
    size_t calls, most;
};

static bool compare(void *self, const int16_t *pairs, size_t count) {
    struct comparing *with = self;
    size_t i;

    HOLDS(count > 0 && count % with->per_group == 0);
    for (i = 0; i < count; i++, with->want += 2)
        HOLDS((uint16_t)pairs[i] == big(with->want, 2));
    return ++with->calls < with->most;
}

static enum film_error pairs_of(const struct made *made, struct comparing *with, struct film_fault *fault) {
    const struct film_track track = {START, made->closed - START, made->channels, made->little_endian};
    int fd = open("film", O_RDONLY);
    enum film_error error;

    HOLDS(fd >= 0);
    with->want = made->bytes + made->closed + FILM_OVERVIEW_HEAD;
    with->per_group = 2 * made->channels;
    with->calls = 0;
    error = film_pairs(fd, &track, made->group, compare, with, fault);
    HOLDS(close(fd) == 0 && error == fault->error);
    return error;
}

/* The payload in blocks of every size that makes a difference. */
static void every_block(const struct made *made) {
    struct comparing with = {NULL, 0, 0, SIZE_MAX};
    struct film_fault fault;

    for (block_size = 3; block_size <= made->closed - START + 3; block_size++) {
        HOLDS(pairs_of(made, &with, &fault) == FILM_DONE && fault.number == 0 && fault.system == 0);
        HOLDS(with.want == made->bytes + made->whole);
    }
}

static void every_film(void) {
    static const uint32_t groups[] = {1, 2, 3, 5, 8, 9, 10, 100, UINT32_MAX};
    static struct made made;
    uint32_t channels;
    uint64_t frames;
    size_t i;
    int little_endian;

    for (little_endian = 0; little_endian < 2; little_endian++)
        for (channels = 1; channels <= 4; channels++)
            for (frames = 0; frames <= 10; frames += 1 + frames / 5)
                for (i = 0; i < sizeof groups / sizeof *groups; i++) {
                    make(&made, channels, frames, groups[i], little_endian);
                    every_block(&made);
                }
}

/* A group of 200 frames in blocks of 7, a frame of 900 channels in blocks of 100, and blocks of many groups. */
static void longer_films(void) {
    static const struct {
        uint32_t channels, group;
        uint64_t frames;
        size_t block;
    } rows[] = {{1, 200, 3001, 7}, {900, 2, 5, 100}, {900, 1, 7, 2699}, {2, 3, 4000, 1000}, {6, 64, 1000, 1 << 18}};
    static struct made made;
    struct comparing with = {NULL, 0, 0, SIZE_MAX};
    struct film_fault fault;
    size_t i;

    for (i = 0; i < 2 * sizeof rows / sizeof *rows; i++) {
        make(&made, rows[i / 2].channels, rows[i / 2].frames, rows[i / 2].group, i % 2);
        block_size = rows[i / 2].block;
        HOLDS(pairs_of(&made, &with, &fault) == FILM_DONE && with.want == made.bytes + made.whole);
    }
}

/* Pairs that are not wanted, of no group, of broken frames, of a file that ends early, and of none. */
static void no_pairs(void) {
    static struct made made;
    struct comparing with = {NULL, 0, 0, 2};
    struct film_fault fault;

    make(&made, 2, 10, 3, false);
    block_size = 18;
    HOLDS(pairs_of(&made, &with, &fault) == FILM_STOPPED && with.calls == 2);
    with.most = SIZE_MAX;
    HOLDS(truncate("film", (off_t)made.closed - 1) == 0);
    HOLDS(pairs_of(&made, &with, &fault) == FILM_CHANGED && with.calls == 3);
    made.group = 0;
    HOLDS(pairs_of(&made, &with, &fault) == FILM_REFUSED && fault.number == CAF_NO_GROUP && with.calls == 0);
    made.group = 3;
    made.closed--;
    HOLDS(pairs_of(&made, &with, &fault) == FILM_REFUSED && fault.number == CAF_WRONG_WIDTH && with.calls == 0);
    made.channels = 0;
    HOLDS(pairs_of(&made, &with, &fault) == FILM_REFUSED && fault.number == CAF_WRONG_WIDTH && with.calls == 0);
    HOLDS(film_pairs(-1, &(struct film_track){0, 6, 2, false}, 1, compare, &with, &fault) == FILM_SYSTEM &&
          fault.system == EBADF);
}

/* ---- the chunk */

static void appended(const struct made *made) {
    struct film film;

    HOLDS(film_open(&film, "film") == FILM_DONE && film_finish(&film) == FILM_DONE);
    HOLDS(film_append_overview(&film, made->group) == FILM_DONE);
    is_file(made->bytes, made->whole);
    HOLDS(film_arrived(&film) == made->closed - START);
    HOLDS(film_append_overview(&film, made->group) == FILM_REFUSED && film.fault.number == CAF_TAIL_AFTER_DATA);
    HOLDS(film_append(&film, "a", 1) == FILM_REFUSED && film.fault.number == CAF_FINISHED);
    HOLDS(film_finish(&film) == FILM_DONE && film_close(&film) == FILM_DONE);
    is_file(made->bytes, made->whole);
    HOLDS(film_open(&film, "film") == FILM_REFUSED && film.fault.number == CAF_TAIL_AFTER_DATA);
    film_close(&film);
}

static void added(const struct made *made) {
    struct film_fault fault;

    put_file(made->bytes, made->closed);
    HOLDS(film_add_overview("film", made->group, NULL, NULL, &fault) == FILM_DONE && fault.error == FILM_DONE);
    is_file(made->bytes, made->whole);
    HOLDS(film_add_overview("film", made->group, NULL, NULL, &fault) == FILM_REFUSED &&
          fault.number == CAF_TAIL_AFTER_DATA);
    is_file(made->bytes, made->whole);
}

static void whole_chunks(void) {
    static const uint64_t frames[] = {0, 1, 7, 8, 9, 1500};
    static struct made made;
    size_t i;

    for (i = 0; i < 2 * sizeof frames / sizeof *frames; i++) {
        block_size = i % 3 ? 30 : 1 << 18;
        make(&made, 1 + i % 3, frames[i / 2], 8, i % 2);
        appended(&made);
        added(&made);
    }
}

/* ---- a film that changes, or ends, meanwhile */

struct watched {
    uint64_t done, payload;
    off_t shorten;    /* to so many bytes at once, unless it is 0 */
    uint64_t lengthen; /* by a byte when so much is done, unless it is 0 */
};

static void watch(void *self, uint64_t done, uint64_t payload) {
    struct watched *watched = self;

    HOLDS(watched->done < done && done <= payload);
    watched->done = done;
    watched->payload = payload;
    if (watched->shorten > 0)
        HOLDS(truncate("film", watched->shorten) == 0);
    if (watched->lengthen > 0 && done >= watched->lengthen) {
        FILE *file = fopen("film", "ab");

        HOLDS(file != NULL && fputc('o', file) == 'o' && fclose(file) == 0);
        watched->lengthen = 0;
    }
}

static void told(void) {
    static struct made made;
    struct watched watched = {0, 0, 0, 0};
    struct film_fault fault;

    make(&made, 2, 100, 8, false);
    block_size = 100;
    HOLDS(film_add_overview("film", 8, watch, &watched, &fault) == FILM_DONE);
    HOLDS(watched.done == 600 && watched.payload == 600);
    is_file(made.bytes, made.whole);
}

/* Shortened, to where it was read already and to where it was not: it is never filled up with zeros. */
static void shortened(void) {
    static const off_t to[] = {START + 599, START + 50, 60};
    static struct made made;
    struct film_fault fault;
    size_t i;

    for (i = 0; i < sizeof to / sizeof *to; i++) {
        struct watched watched = {0, 0, to[i], 0};

        make(&made, 2, 100, 8, false);
        HOLDS(film_add_overview("film", 8, watch, &watched, &fault) == FILM_CHANGED && fault.error == FILM_CHANGED);
        is_file(made.bytes, (size_t)to[i]);
    }
}

/* An overview in several pieces; and the same when another program goes on after the first of them, whose byte is
 * not taken off again. */
static void lengthened(void) {
    static struct made made;
    struct watched watched = {0, 0, 0, 900000};
    struct film_fault fault;
    size_t left;

    block_size = 1 << 18;
    make(&made, 1, 400000, 1, false);
    added(&made);
    put_file(made.bytes, made.closed);
    HOLDS(film_add_overview("film", 1, watch, &watched, &fault) == FILM_CHANGED && watched.lengthen == 0);
    left = made.closed + FILM_PIECE;
    made.bytes[left] = 'o';
    is_file(made.bytes, left + 1);
}

int main(void) {
    every_film();
    longer_films();
    no_pairs();
    whole_chunks();
    told();
    shortened();
    lengthened();
    printf("overview_blocks: %lu facts hold\n", checks);
    return 0;
}
