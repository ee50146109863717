/* Every exported call with slices of no elements, with room one short, and with records of random numbers, the writer's and the feeder's. What is held: the number
 * is one of the table's and, where it is given here, the right one; a refused call leaves every place that it was lent as it was;
 * places after a result keep their contents. Under valgrind it also shows that no other byte is touched. */
#include <math.h>

#include "caf.h"
#include "holds.h"
#include "random.h"

enum { ROOM = 256 };

struct lent {
    uint64_t record[CAF_RECORD];
    uint8_t buf[ROOM];
    uint64_t out[4];
};

typedef uint32_t (*writing)(uint64_t *record, size_t record_len, uint8_t *buf, size_t buf_len);

static const uint8_t bytes[5] = {1, 2, 3, 4, 5};
static const int32_t samples[2] = {1, -1};
static const uint32_t stereo[2] = {1, 2};

static uint32_t data(uint64_t *r, size_t rn, uint8_t *b, size_t bn) { return caf_write_data(r, rn, b, bn, bytes, 5); }
static uint32_t packed(uint64_t *r, size_t rn, uint8_t *b, size_t bn) { return caf_write_samples(r, rn, b, bn, samples, 2); }
static uint32_t format(uint64_t *r, size_t rn, uint8_t *b, size_t bn) { (void)b; (void)bn; return caf_set_format(r, rn, 48000.0, 2, 24, false, false); }
static uint32_t tag(uint64_t *r, size_t rn, uint8_t *b, size_t bn) { (void)b; (void)bn; return caf_set_layout_tag(r, rn, 6619138); }
static uint32_t labels(uint64_t *r, size_t rn, uint8_t *b, size_t bn) { (void)b; (void)bn; return caf_set_layout_for_labels(r, rn, stereo, 2, 2); }
static uint32_t configure(uint64_t *r, size_t rn, uint8_t *b, size_t bn) { (void)b; (void)bn; return caf_configure_format(r, rn, 48000.0, 2, 24, stereo, 2); }

static const writing calls[] = {caf_write_header, data, packed, caf_finish, format, tag, labels, configure};

/* One call on a record and a buffer of these lengths: a refusal changes nothing. */
static uint32_t call_on(writing call, struct lent *at, size_t record_len, size_t room) {
    uint64_t *record = copy_of(at->record, record_len * sizeof *record);
    uint8_t *buf = copy_of(at->buf, room);
    uint32_t number = call(record, record_len, buf, room);

    HOLDS(number <= CAF_ODD_LENGTH);
    if (number != CAF_DONE) {
        HOLDS(memcmp(record, at->record, record_len * sizeof *record) == 0);
        HOLDS(memcmp(buf, at->buf, room) == 0);
    } else {
        memcpy(at->record, record, record_len * sizeof *record);
        memcpy(at->buf, buf, room);
    }
    free(record);
    free(buf);
    return number;
}

static void counted_on(const struct lent *at, size_t record_len, size_t room, uint64_t n, size_t places) {
    uint64_t *record = copy_of(at->record, record_len * sizeof *record), *out = copy_of(at->out, places * sizeof *out);
    uint8_t *buf = copy_of(at->buf, room);
    uint32_t number;
    int which;

    for (which = 0; which < 4; which++) {
        memcpy(buf, at->buf, room);
        number = which == 0   ? caf_write_header_counted(record, record_len, buf, room, n, out, places)
                 : which == 1 ? caf_write_data_counted(record, record_len, buf, room, bytes, 5, n, out, places)
                 : which == 2 ? caf_write_samples_counted(record, record_len, buf, room, samples, 2, n, out, places)
                              : caf_finish_counted(record, record_len, buf, room, n, out, places);
        HOLDS(number <= CAF_ODD_LENGTH);
        if (number != CAF_DONE)
            HOLDS(memcmp(buf, at->buf, room) == 0);
        if (places < CAF_COUNTED_PLACES)
            HOLDS(number == CAF_NO_ROOM);
        else if (number == CAF_DONE)
            HOLDS(out[CAF_COUNTED_STORES] <= n);
        else
            HOLDS(out[CAF_COUNTED_STORES] == 0);
    }
    free(record);
    free(buf);
    free(out);
}

static void fresh(struct lent *at) {
    memset(at, 0xEE, sizeof *at);
    HOLDS(caf_new(at->record, CAF_RECORD) == CAF_DONE);
}

/* The example, with room one short at each call, then with room. */
static void example(void) {
    struct lent at;
    uint64_t out[CAF_STRICT_PLACES];

    fresh(&at);
    HOLDS(call_on(caf_write_header, &at, CAF_RECORD, ROOM) == CAF_NO_FORMAT);
    HOLDS(call_on(data, &at, CAF_RECORD, ROOM) == CAF_NO_HEADER);
    HOLDS(call_on(configure, &at, CAF_RECORD, 0) == CAF_DONE);
    HOLDS(call_on(caf_write_header, &at, CAF_RECORD, 91) == CAF_NO_ROOM);
    HOLDS(call_on(caf_write_header, &at, CAF_RECORD, 92) == CAF_DONE);
    HOLDS(call_on(caf_write_header, &at, CAF_RECORD, 92) == CAF_HEADER_ALREADY);
    HOLDS(call_on(packed, &at, CAF_RECORD, 97) == CAF_NO_ROOM);
    HOLDS(call_on(packed, &at, CAF_RECORD, 98) == CAF_DONE);
    HOLDS(call_on(caf_finish, &at, CAF_RECORD, 97) == CAF_BAD_WRITER);
    HOLDS(call_on(caf_finish, &at, CAF_RECORD, 98) == CAF_DONE);
    HOLDS(call_on(caf_finish, &at, CAF_RECORD, 98) == CAF_DONE);
    HOLDS(call_on(data, &at, CAF_RECORD, ROOM) == CAF_FINISHED);
    HOLDS(at.buf[97] == 0xFF && at.buf[98] == 0xEE);
    HOLDS(caf_read_strict(at.buf, 98, out, CAF_STRICT_PLACES) == CAF_DONE);
    HOLDS(out[CAF_STRICT_PAYLOAD] == 6 && out[CAF_STRICT_FRAMES] == 1 && out[CAF_STRICT_OPEN] == 0);
    HOLDS(call_on(tag, &at, CAF_RECORD - 1, 0) == CAF_BAD_WRITER);
}

/* Bytes per packet: bits that fill no byte take one more, and the product has to fit 32 bits. */
static void packets(void) {
    static const struct { uint32_t bits, channels, number, bytes; } rows[] = {
        {20, 2, CAF_DONE, 6}, {24, 2, CAF_DONE, 6}, {0, 2, CAF_DONE, 0}, {1, 1, CAF_DONE, 1},
        {31, 1073741823, CAF_DONE, 4294967292}, {31, 1073741824, CAF_PACKET_TOO_BIG, 0},
        {20, 1431655765, CAF_DONE, 4294967295}, {20, 1431655766, CAF_PACKET_TOO_BIG, 0},
        {4294967295, 7, CAF_DONE, 3758096384}, {4294967295, 8, CAF_PACKET_TOO_BIG, 0},
        {4294967295, 4294967295, CAF_PACKET_TOO_BIG, 0},
    };
    struct lent at;
    size_t i;

    for (i = 0; i < sizeof rows / sizeof *rows; i++) {
        fresh(&at);
        HOLDS(caf_set_format(at.record, CAF_RECORD, 48000.0, rows[i].channels, rows[i].bits, false, false) == rows[i].number);
        HOLDS(at.record[CAF_RECORD_BYTES_PER_PACKET] == rows[i].bytes);
        fresh(&at);
        HOLDS(caf_configure_format(at.record, CAF_RECORD, 48000.0, rows[i].channels, rows[i].bits, NULL, 0) == rows[i].number);
        HOLDS(at.record[CAF_RECORD_BYTES_PER_PACKET] == rows[i].bytes);
    }
}

enum { FILM = 98, SIZE_FIELD = 80 };

/* A resume of the first len bytes of a buffer. Where it is refused nothing is stored, and the record is a fresh one. */
static uint32_t resume_on(struct lent *at, uint64_t len, size_t record_len, size_t places) {
    uint64_t *record = copy_of(at->record, record_len * sizeof *record), *chunks = copy_of(at->out, places * sizeof *chunks);
    uint8_t *buf = copy_of(at->buf, ROOM);
    uint32_t number = caf_resume(buf, ROOM, len, record, record_len, chunks, places);
    struct lent untouched;

    fresh(&untouched);
    if (record_len != CAF_RECORD || places == 0) {
        HOLDS(memcmp(record, at->record, record_len * sizeof *record) == 0);
        HOLDS(memcmp(chunks, at->out, places * sizeof *chunks) == 0);
    } else if (number != CAF_DONE) {
        HOLDS(memcmp(record, untouched.record, sizeof untouched.record) == 0);
    }
    if (number != CAF_DONE)
        HOLDS(memcmp(buf, at->buf, ROOM) == 0);
    else
        memcpy(at->record, record, sizeof at->record);
    memcpy(at->buf, buf, ROOM);
    memcpy(at->out, chunks, places * sizeof *chunks);
    free(record);
    free(chunks);
    free(buf);
    return number;
}

/* The first n stores of the same. What they have to make of the buffer is given. */
static uint32_t resume_counted_on(const struct lent *at, uint64_t len, uint64_t n, const uint8_t *want, uint64_t *out, size_t places) {
    uint8_t *buf = copy_of(at->buf, ROOM);
    uint64_t *told = copy_of(out, places * sizeof *told);
    uint32_t number = caf_resume_counted(buf, ROOM, len, n, told, places);

    HOLDS(memcmp(buf, want, ROOM) == 0);
    memcpy(out, told, places * sizeof *told);
    free(buf);
    free(told);
    return number;
}

/* The counted form of a film that can be resumed, cut after every number of stores. Read strictly, what is left is the film as it was, then
 * a size that is none, then an open film. */
static void cut_resumes(const struct lent *film, uint32_t before, uint32_t within) {
    uint64_t out[CAF_RESUME_COUNTED_PLACES], found[CAF_STRICT_PLACES];
    uint8_t want[ROOM];
    uint64_t n;

    memcpy(want, film->buf, ROOM);
    for (n = 0; n <= 9; n++) {
        HOLDS(resume_counted_on(film, FILM, n, want, out, CAF_RESUME_COUNTED_PLACES) == CAF_DONE);
        HOLDS(out[CAF_RESUME_COUNTED_STORES] == (n < 8 ? n : 8));
        HOLDS(out[CAF_RESUME_COUNTED_FILE_LEN] == FILM && out[CAF_RESUME_COUNTED_CHUNKS] == 3);
        HOLDS(caf_read_strict(want, FILM, found, CAF_STRICT_PLACES) == (n == 0 ? before : n < 8 ? within : CAF_DONE));
        if (n < 8)
            want[SIZE_FIELD + n] = 0xFF;
    }
    HOLDS(found[CAF_STRICT_OPEN] == 1 && found[CAF_STRICT_PAYLOAD] == 6);
}

/* The example's film resumed, with every number of stores; refused; without room. Then it grows by five bytes and is finished. */
static void resumes(void) {
    struct lent film, at;
    uint64_t out[CAF_RESUME_COUNTED_PLACES] = {77, 77, 77}, found[CAF_STRICT_PLACES];

    fresh(&film);
    HOLDS(call_on(configure, &film, CAF_RECORD, ROOM) == CAF_DONE && call_on(caf_write_header, &film, CAF_RECORD, ROOM) == CAF_DONE);
    HOLDS(call_on(packed, &film, CAF_RECORD, ROOM) == CAF_DONE && call_on(caf_finish, &film, CAF_RECORD, ROOM) == CAF_DONE);
    cut_resumes(&film, CAF_DONE, CAF_BAD_SIZE);

    HOLDS(resume_counted_on(&film, FILM, 8, film.buf, out, CAF_RESUME_COUNTED_PLACES - 1) == CAF_NO_ROOM);
    HOLDS(out[0] == 77 && out[1] == 77);
    HOLDS(resume_counted_on(&film, 50, 8, film.buf, out, CAF_RESUME_COUNTED_PLACES) == CAF_CUT_SHORT);
    HOLDS(out[CAF_RESUME_COUNTED_STORES] == 0 && out[CAF_RESUME_COUNTED_FILE_LEN] == 50 && out[CAF_RESUME_COUNTED_CHUNKS] == 1);
    HOLDS(resume_counted_on(&film, ROOM + 1, 8, film.buf, out, CAF_RESUME_COUNTED_PLACES) == CAF_BAD_WRITER);
    HOLDS(out[CAF_RESUME_COUNTED_STORES] == 0 && out[CAF_RESUME_COUNTED_FILE_LEN] == ROOM + 1 && out[CAF_RESUME_COUNTED_CHUNKS] == 0);

    at = film;
    HOLDS(resume_on(&at, FILM, CAF_RECORD - 1, 1) == CAF_BAD_WRITER);
    HOLDS(resume_on(&at, FILM, CAF_RECORD, 0) == CAF_NO_ROOM);
    HOLDS(resume_on(&at, 50, CAF_RECORD, 1) == CAF_CUT_SHORT && at.out[0] == 1);
    HOLDS(resume_on(&at, FILM, CAF_RECORD, 1) == CAF_DONE && at.out[0] == 3);
    memset(film.buf + SIZE_FIELD, 0xFF, 8);
    HOLDS(memcmp(at.buf, film.buf, ROOM) == 0);
    /* the field holds -1 already: the same eight stores */
    cut_resumes(&film, CAF_DONE, CAF_DONE);
    HOLDS(resume_on(&at, FILM, CAF_RECORD, 1) == CAF_DONE && memcmp(at.buf, film.buf, ROOM) == 0);

    HOLDS(call_on(data, &at, CAF_RECORD, ROOM) == CAF_DONE);
    HOLDS(caf_read_strict(at.buf, FILM + 5, found, CAF_STRICT_PLACES) == CAF_DONE);
    HOLDS(found[CAF_STRICT_OPEN] == 1 && found[CAF_STRICT_PAYLOAD] == 11);
    HOLDS(call_on(caf_finish, &at, CAF_RECORD, ROOM) == CAF_DONE);
    HOLDS(caf_read_strict(at.buf, FILM + 5, found, CAF_STRICT_PLACES) == CAF_DONE);
    HOLDS(found[CAF_STRICT_OPEN] == 0 && found[CAF_STRICT_PAYLOAD] == 11);
}

/* 01's limits from both sides: each clause of its sentence on soundness, as a setting reports it. With a header a sound record gives
 * CAF_HEADER_ALREADY. The last two rows are about the greatest file length. */
static void limits(void) {
    static const uint64_t longest = INT64_MAX;
    const struct { uint64_t header, position, start, len, count, finished; uint32_t number; } rows[] = {
        {1, 12, 24, 24, 0, 0, CAF_HEADER_ALREADY}, {1, 11, 23, 24, 0, 0, CAF_BAD_WRITER}, {1, 12, 25, 30, 0, 0, CAF_BAD_WRITER},
        {1, 56, 68, 68, 0, 0, CAF_HEADER_ALREADY}, {1, 56, 68, 67, 0, 0, CAF_BAD_WRITER},
        {1, 56, 68, 70, 2, 1, CAF_HEADER_ALREADY}, {1, 56, 68, 70, 3, 1, CAF_BAD_WRITER},
        {0, 56, 68, 0, 0, 0, CAF_DONE}, {0, 0, 0, 1, 0, 0, CAF_BAD_WRITER}, {0, 0, 0, 0, 1, 0, CAF_BAD_WRITER}, {0, 0, 0, 0, 0, 1, CAF_BAD_WRITER},
        {1, 56, 68, longest, 0, 0, CAF_HEADER_ALREADY}, {1, 56, 68, longest + 1, 0, 0, CAF_BAD_WRITER},
    };
    struct lent at;
    size_t i;

    for (i = 0; i < sizeof rows / sizeof *rows; i++) {
        fresh(&at);
        at.record[CAF_RECORD_HAS_HEADER] = rows[i].header;
        at.record[CAF_RECORD_SIZE_POSITION] = rows[i].position;
        at.record[CAF_RECORD_DATA_START] = rows[i].start;
        at.record[CAF_RECORD_FILE_LEN] = rows[i].len;
        at.record[CAF_RECORD_DATA_COUNT] = rows[i].count;
        at.record[CAF_RECORD_FINISHED] = rows[i].finished;
        HOLDS(call_on(tag, &at, CAF_RECORD, 0) == rows[i].number);
    }
}

static void no_elements(void) {
    uint64_t out[CAF_STRICT_PLACES], chunks = 77, record[CAF_RECORD];
    size_t i;

    memset(out, 0xEE, sizeof out);
    HOLDS(caf_parse(NULL, 0, out, CAF_STRICT_PLACES) == CAF_CUT_SHORT && out[0] == 0 && out[1] == 0xEEEEEEEEEEEEEEEEu);
    HOLDS(caf_read_strict(NULL, 0, out, CAF_STRICT_PLACES) == CAF_CUT_SHORT && out[0] == 0 && out[1] == 0xEEEEEEEEEEEEEEEEu);
    HOLDS(caf_parse(NULL, 0, NULL, 0) == CAF_NO_ROOM);
    HOLDS(caf_read_strict(NULL, 0, NULL, 0) == CAF_NO_ROOM);
    HOLDS(caf_read_strict((const uint8_t *)"caff", 4, out, CAF_STRICT_PLACES - 1) == CAF_NO_ROOM);
    HOLDS(caf_new(NULL, 0) == CAF_BAD_WRITER);
    HOLDS(caf_stats(NULL, 0, out, CAF_STATS_PLACES) == CAF_BAD_WRITER);
    HOLDS(caf_resume(NULL, 0, 0, record, CAF_RECORD, &chunks, 1) == CAF_CUT_SHORT && chunks == 0);
    HOLDS(caf_resume(NULL, 0, 1, record, CAF_RECORD, &chunks, 1) == CAF_BAD_WRITER && chunks == 0);
    HOLDS(caf_resume(NULL, 0, 0, NULL, 0, NULL, 0) == CAF_BAD_WRITER);
    HOLDS(caf_resume(NULL, 0, 0, record, CAF_RECORD, NULL, 0) == CAF_NO_ROOM);
    HOLDS(caf_resume_counted(NULL, 0, 0, 8, out, CAF_RESUME_COUNTED_PLACES) == CAF_CUT_SHORT && out[0] == 0 && out[1] == 0 && out[2] == 0);
    HOLDS(caf_resume_counted(NULL, 0, 1, 8, out, CAF_RESUME_COUNTED_PLACES) == CAF_BAD_WRITER && out[0] == 0 && out[1] == 1 && out[2] == 0);
    HOLDS(caf_resume_counted(NULL, 0, 0, 8, NULL, 0) == CAF_NO_ROOM);
    HOLDS(caf_layout_for_labels(NULL, 0, out, 2) == CAF_DONE && out[CAF_LAYOUT_KIND] == 2 && out[CAF_LAYOUT_TAG] == 0);
    HOLDS(caf_layout_for_labels(stereo, 2, out, 2) == CAF_DONE && out[CAF_LAYOUT_KIND] == 1 && out[CAF_LAYOUT_TAG] == 6619138);
    HOLDS(caf_layout_for_labels(stereo, 2, out, 1) == CAF_NO_ROOM);
    HOLDS(caf_pack_24(NULL, 0, false, NULL, 0) == CAF_DONE);
    HOLDS(caf_unpack_24(NULL, 0, false, NULL, 0) == CAF_DONE);
    HOLDS(caf_pack_24(samples, 2, true, (uint8_t *)out, 5) == CAF_NO_ROOM);
    HOLDS(caf_unpack_24(bytes, 5, false, NULL, 0) == CAF_ODD_LENGTH);
    HOLDS(caf_unpack_24(bytes, 3, false, NULL, 0) == CAF_NO_ROOM);
    for (i = 0; i < sizeof calls / sizeof *calls; i++)
        HOLDS(calls[i](NULL, 0, NULL, 0) == CAF_BAD_WRITER);
}

static uint32_t no_rate(uint64_t *r, size_t rn, uint8_t *b, size_t bn) { (void)b; (void)bn; return caf_set_format(r, rn, NAN, 2, 24, false, false); }
static uint32_t none_packed(uint64_t *r, size_t rn, uint8_t *b, size_t bn) { return caf_write_samples(r, rn, b, bn, NULL, 0); }

static const writing settings[] = {format, tag, labels, configure, no_rate};

static void none_is_set(struct lent *at) {
    size_t i;

    for (i = 0; i < sizeof settings / sizeof *settings; i++)
        HOLDS(call_on(settings[i], at, CAF_RECORD, 0) == CAF_HEADER_ALREADY);
}

/* The header settles the format: a setting after it is refused, whatever it sets, before and after the finish and in a resumed film. A
 * resumed file that has no format takes bytes, but no call of samples, also where it brings none. */
static void settled(void) {
    static const uint8_t bare[24] = {'c', 'a', 'f', 'f', 0, 1, 0, 0, 'd', 'a', 't', 'a', 255, 255, 255, 255, 255, 255, 255, 255};
    struct lent at;

    fresh(&at);
    HOLDS(call_on(no_rate, &at, CAF_RECORD, 0) == CAF_BAD_RATE);
    HOLDS(call_on(configure, &at, CAF_RECORD, 0) == CAF_DONE && call_on(format, &at, CAF_RECORD, 0) == CAF_DONE);
    HOLDS(call_on(caf_write_header, &at, CAF_RECORD, ROOM) == CAF_DONE);
    none_is_set(&at);
    HOLDS(call_on(packed, &at, CAF_RECORD, ROOM) == CAF_DONE && call_on(caf_finish, &at, CAF_RECORD, ROOM) == CAF_DONE);
    none_is_set(&at);
    HOLDS(resume_on(&at, FILM, CAF_RECORD, 1) == CAF_DONE);
    none_is_set(&at);
    HOLDS(call_on(packed, &at, CAF_RECORD, ROOM) == CAF_DONE);

    fresh(&at);
    memcpy(at.buf, bare, sizeof bare);
    HOLDS(resume_on(&at, sizeof bare, CAF_RECORD, 1) == CAF_DONE);
    none_is_set(&at);
    HOLDS(call_on(packed, &at, CAF_RECORD, ROOM) == CAF_NO_FORMAT);
    HOLDS(call_on(packed, &at, CAF_RECORD, sizeof bare) == CAF_NO_FORMAT);
    HOLDS(call_on(none_packed, &at, CAF_RECORD, ROOM) == CAF_NO_FORMAT);
    HOLDS(call_on(data, &at, CAF_RECORD, sizeof bare + 4) == CAF_NO_ROOM);
    HOLDS(call_on(data, &at, CAF_RECORD, sizeof bare + 5) == CAF_DONE && memcmp(at.buf + sizeof bare, bytes, 5) == 0);
    HOLDS(call_on(caf_finish, &at, CAF_RECORD, ROOM) == CAF_DONE);
    HOLDS(call_on(packed, &at, CAF_RECORD, ROOM) == CAF_FINISHED);
}

/* Records of random numbers, small and large, and records that calls made with one number changed. */
static void random_records(void) {
    struct lent at;
    size_t i, k;
    int round;

    for (round = 0; round < 400; round++) {
        fresh(&at);
        if (round % 2) {
            for (k = 0; k < CAF_RECORD; k++)
                at.record[k] = next() >> (next() % 64);
        } else {
            for (k = next() % 5; k > 0; k--)
                call_on(calls[next() % (sizeof calls / sizeof *calls)], &at, CAF_RECORD, ROOM);
            at.record[next() % CAF_RECORD] = next() >> (next() % 64);
        }
        for (i = 0; i < sizeof calls / sizeof *calls; i++) {
            struct lent once = at;
            call_on(calls[i], &once, next() % 4 ? CAF_RECORD : next() % (CAF_RECORD + 1), next() % (ROOM + 1));
        }
        counted_on(&at, next() % 4 ? CAF_RECORD : next() % (CAF_RECORD + 1), next() % (ROOM + 1), next() >> (next() % 64), next() % 4);
    }
}

/* The example's film with some bytes more and every size near those that decide: too small for the edit count, ending before the file
 * does, or going to its end and past it. */
static void tails(void) {
    static const uint64_t negative[3] = {UINT64_MAX, UINT64_MAX - 11, (uint64_t)1 << 63};
    struct lent film;
    uint64_t len, size, near, out[CAF_RESUME_COUNTED_PLACES];

    fresh(&film);
    HOLDS(call_on(configure, &film, CAF_RECORD, ROOM) == CAF_DONE && call_on(caf_write_header, &film, CAF_RECORD, ROOM) == CAF_DONE);
    HOLDS(call_on(packed, &film, CAF_RECORD, ROOM) == CAF_DONE);
    for (len = FILM; len < FILM + 20; len++) {
        uint64_t r = len - SIZE_FIELD - 8;
        for (near = 0; near < r + 6; near++) {
            struct lent at = film;
            uint32_t want;
            size = near < r + 3 ? near : negative[near - r - 3];
            want = size < 4 ? CAF_BAD_SIZE : size < r ? CAF_TAIL_AFTER_DATA : CAF_DONE;
            for (int i = 0; i < 8; i++)
                at.buf[SIZE_FIELD + i] = (uint8_t)(size >> (56 - 8 * i));
            HOLDS(resume_counted_on(&at, len, 0, at.buf, out, CAF_RESUME_COUNTED_PLACES) == want);
            HOLDS(out[CAF_RESUME_COUNTED_FILE_LEN] == len && out[CAF_RESUME_COUNTED_CHUNKS] == 3);
            if (want != CAF_DONE)
                HOLDS(resume_counted_on(&at, len, 8, at.buf, out, CAF_RESUME_COUNTED_PLACES) == want && out[CAF_RESUME_COUNTED_STORES] == 0);
            HOLDS(resume_on(&at, len, CAF_RECORD, 1) == want && at.out[0] == 3);
        }
    }
}

/* Passing over any number of bytes with a record of any numbers: it moves on by as many as may be passed over, an unsound one by none. */
static void passing(uint64_t *feeder, size_t len, bool unsound) {
    uint64_t *before = copy_of(feeder, len * sizeof *feeder), n = next() >> (next() % 64), most = caf_feed_passable(feeder, len);
    uint32_t number = caf_feed_pass(feeder, len, n);

    HOLDS((number == CAF_BAD_WRITER) == unsound && (!unsound || most == 0));
    if (unsound)
        HOLDS(memcmp(feeder, before, len * sizeof *feeder) == 0);
    else
        HOLDS(feeder[CAF_FEEDER_TOTAL] == before[CAF_FEEDER_TOTAL] + (n < most ? n : most));
    free(before);
}

/* The example fed, and the feeding record with no elements, with a place too few or too many, and made up. */
static void feeders(void) {
    static const uint8_t front[20] = {'c', 'a', 'f', 'f', 0, 1, 0, 0, 'd', 'e', 's', 'c', 0, 0, 0, 0, 0, 0, 0, 32};
    static const uint8_t open_film[68] = {
        'c', 'a', 'f', 'f', 0, 1, 0, 0, 'd', 'e', 's', 'c', 0, 0, 0, 0, 0, 0, 0, 32, 0x40, 0xe7, 0x70, 0, 0, 0, 0, 0, 'l', 'p', 'c', 'm',
        0, 0, 0, 0, 0, 0, 0, 6, 0, 0, 0, 1, 0, 0, 0, 2, 0, 0, 0, 24, 'd', 'a', 't', 'a', 255, 255, 255, 255, 255, 255, 255, 255, 0, 0, 0, 0};
    uint64_t feeder[CAF_FEEDER], out[CAF_STRICT_PLACES];
    size_t k, len;
    int round;

    memset(out, 0xEE, sizeof out);
    HOLDS(caf_feed_begin(NULL, 0) == CAF_BAD_WRITER);
    HOLDS(caf_feed_begin(feeder, CAF_FEEDER - 1) == CAF_BAD_WRITER);
    HOLDS(caf_feed(NULL, 0, bytes, 5) == CAF_BAD_WRITER);
    HOLDS(caf_feed_passable(NULL, 0) == 0 && caf_feed_pass(NULL, 0, 5) == CAF_BAD_WRITER);
    HOLDS(caf_feed_end(NULL, 0, out, CAF_STRICT_PLACES) == CAF_BAD_WRITER && out[0] == 0 && out[1] == 0xEEEEEEEEEEEEEEEEu);
    HOLDS(caf_feed_end(NULL, 0, NULL, 0) == CAF_NO_ROOM);
    HOLDS(caf_feed_begin(feeder, CAF_FEEDER) == CAF_DONE);
    HOLDS(caf_feed(feeder, CAF_FEEDER, NULL, 0) == CAF_DONE);
    HOLDS(caf_feed_end(feeder, CAF_FEEDER, out, CAF_STRICT_PLACES) == CAF_CUT_SHORT);
    HOLDS(caf_feed_end(feeder, CAF_FEEDER, out, CAF_STRICT_PLACES - 1) == CAF_NO_ROOM);
    HOLDS(caf_feed(feeder, CAF_FEEDER, front, 20) == CAF_DONE && feeder[CAF_FEEDER_CHUNKS] == 1 && feeder[CAF_FEEDER_TOTAL] == 20);
    HOLDS(caf_feed_end(feeder, CAF_FEEDER, out, CAF_STRICT_PLACES) == CAF_CUT_SHORT && out[0] == 1);
    feeder[CAF_FEEDER_CHUNKS] = 2;
    HOLDS(caf_feed(feeder, CAF_FEEDER, front, 20) == CAF_BAD_WRITER && feeder[CAF_FEEDER_TOTAL] == 20);
    HOLDS(caf_feed_passable(feeder, CAF_FEEDER) == 0 && caf_feed_pass(feeder, CAF_FEEDER, 5) == CAF_BAD_WRITER && feeder[CAF_FEEDER_TOTAL] == 20);

    /* an open film up to the last byte that a file may have, and one more */
    HOLDS(caf_feed_begin(feeder, CAF_FEEDER) == CAF_DONE);
    HOLDS(caf_feed(feeder, CAF_FEEDER, open_film, sizeof open_film) == CAF_DONE && feeder[CAF_FEEDER_TOTAL] == sizeof open_film);
    HOLDS(caf_feed_passable(feeder, CAF_FEEDER) == INT64_MAX - sizeof open_film);
    feeder[CAF_FEEDER_TOTAL] = INT64_MAX - 2;
    HOLDS(caf_feed_pass(feeder, CAF_FEEDER, 1) == CAF_DONE && feeder[CAF_FEEDER_TOTAL] == INT64_MAX - 1);
    HOLDS(caf_feed(feeder, CAF_FEEDER, bytes, 1) == CAF_DONE && feeder[CAF_FEEDER_TOTAL] == INT64_MAX);
    HOLDS(caf_feed_end(feeder, CAF_FEEDER, out, CAF_STRICT_PLACES) == CAF_DONE && out[CAF_STRICT_PAYLOAD] == INT64_MAX - sizeof open_film);
    HOLDS(caf_feed_passable(feeder, CAF_FEEDER) == 0 && caf_feed_pass(feeder, CAF_FEEDER, UINT64_MAX) == CAF_DONE && feeder[CAF_FEEDER_TOTAL] == INT64_MAX);
    HOLDS(caf_feed(feeder, CAF_FEEDER, bytes, 1) == CAF_TOO_LONG);
    HOLDS(caf_feed_passable(feeder, CAF_FEEDER) == 0 && caf_feed_pass(feeder, CAF_FEEDER, 1) == CAF_TOO_LONG);
    HOLDS(caf_feed_end(feeder, CAF_FEEDER, out, CAF_STRICT_PLACES) == CAF_TOO_LONG);

    for (round = 0; round < 2000; round++) {
        uint64_t *made, *kept;
        uint32_t number;

        HOLDS(caf_feed_begin(feeder, CAF_FEEDER) == CAF_DONE);
        for (k = next() % 20; k > 0; k--)
            caf_feed(feeder, CAF_FEEDER, front + 20 - k, 1);
        if (round % 2)
            for (k = 0; k < CAF_FEEDER; k++)
                feeder[k] = next() >> (next() % 64);
        feeder[CAF_FEEDER_PHASE] = next() % 12;
        feeder[next() % CAF_FEEDER] = next() >> (next() % 64);
        len = next() % 4 ? CAF_FEEDER : next() % (CAF_FEEDER + 1);
        made = copy_of(feeder, len * sizeof *made);
        kept = copy_of(feeder, len * sizeof *kept);
        number = caf_feed(made, len, front, next() % 21);
        HOLDS(number <= CAF_SECOND_DATA);
        if (len != CAF_FEEDER)
            HOLDS(number == CAF_BAD_WRITER);
        if (number == CAF_BAD_WRITER)
            HOLDS(memcmp(made, kept, len * sizeof *made) == 0);
        HOLDS((caf_feed_end(kept, len, out, CAF_STRICT_PLACES) == CAF_BAD_WRITER) == (number == CAF_BAD_WRITER));
        passing(kept, len, number == CAF_BAD_WRITER);
        free(made);
        free(kept);
    }
}

int main(void) {
    no_elements();
    example();
    packets();
    limits();
    resumes();
    tails();
    settled();
    random_records();
    feeders();
    printf("bad_input: %lu checks hold\n", checks);
    return 0;
}
