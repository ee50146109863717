/* Our code behind a pipe: reads requests from standard input, calls libcaf.a and writes the answers to standard output.
 *
 * src/ours.rs is its only caller. Numbers are big-endian; README.md gives the bytes of each call.
 */
#include "caf.h"

/* The C library's, by hand. */
long read(int fd, void *bytes, size_t count);
long write(int fd, const void *bytes, size_t count);
_Noreturn void _exit(int status);

enum {
    PIPE = 1 << 16,
    MOST_BYTES = 1 << 20,  /* in one request */
    MOST_NUMBERS = 1 << 18 /* in one request */
};

/* ---- the pipe */

static uint8_t given[PIPE];
static size_t given_count, given_at;
static uint8_t answer[PIPE];
static size_t answer_count;

static void send(void) {
    size_t done = 0;
    while (done < answer_count) {
        long n = write(1, answer + done, answer_count - done);
        if (n <= 0) _exit(1);
        done += (size_t)n;
    }
    answer_count = 0;
}

static uint8_t one(void) {
    if (given_at == given_count) {
        send();
        long n = read(0, given, PIPE);
        if (n <= 0) _exit(n != 0);
        given_count = (size_t)n;
        given_at = 0;
    }
    return given[given_at++];
}

static uint64_t number(int width) {
    uint64_t value = 0;
    for (int i = 0; i < width; i++) value = value << 8 | one();
    return value;
}

static void put(uint64_t value, int width) {
    for (int i = width; i-- > 0;) {
        if (answer_count == PIPE) send();
        answer[answer_count++] = (uint8_t)(value >> 8 * i);
    }
}

static void put_bytes(const uint8_t *bytes, size_t count) {
    put(count, 4);
    for (size_t i = 0; i < count; i++) put(bytes[i], 1);
}

/* What a request lends: a length or a count, and so many bytes or numbers. */
static uint8_t bytes[MOST_BYTES];
static size_t byte_count;
static uint32_t numbers[MOST_NUMBERS];
static size_t number_count;

static void take_bytes(void) {
    byte_count = number(4);
    if (byte_count > MOST_BYTES) _exit(2);
    for (size_t i = 0; i < byte_count; i++) bytes[i] = one();
}

static void take_numbers(void) {
    number_count = number(4);
    if (number_count > MOST_NUMBERS) _exit(2);
    for (size_t i = 0; i < number_count; i++) numbers[i] = (uint32_t)number(4);
}

/* ---- calls without a record */

/* What lent places hold before a call, so that one that was written can be told. */
#define UNTOUCHED UINT64_C(0xa5a5a5a5a5a5a5a5)

static void reading(uint32_t (*read_file)(const uint8_t *, size_t, uint64_t *, size_t), size_t places) {
    uint64_t found[CAF_STRICT_PLACES];
    take_bytes();
    for (size_t i = 0; i < places; i++) found[i] = UNTOUCHED;
    put(read_file(bytes, byte_count, found, places), 4);
    for (size_t i = 0; i < places; i++) put(found[i], 8);
}

static int32_t samples[MOST_NUMBERS];

static void take_samples(void) {
    take_numbers();
    for (size_t i = 0; i < number_count; i++) samples[i] = (int32_t)numbers[i];
}

/* Packed and unpacked again: the samples that come back are sent too. */
static void packing(void) {
    bool little = one();
    take_samples();
    size_t length = 3 * number_count;
    put(caf_pack_24(samples, number_count, little, bytes, length), 4);
    put_bytes(bytes, length);
    put(caf_unpack_24(bytes, length, little, samples, number_count), 4);
    for (size_t i = 0; i < number_count; i++) put((uint32_t)samples[i], 4);
}

/* ---- a writer */

static uint64_t record[CAF_RECORD];
static uint8_t room[MOST_BYTES];
static size_t room_length;
/* the file, as the last call left it */
static size_t length;
/* the longest file so far: no byte after it may have been written */
static size_t longest;

#define RECORD record, CAF_RECORD
#define ROOM room, room_length

static void layout(void) {
    take_numbers();
    caf_new(RECORD);
    put(caf_set_layout_for_labels(RECORD, numbers, number_count, (uint32_t)number_count), 4);
    put(record[CAF_RECORD_LAYOUT_TAG], 4);
    put(record[CAF_RECORD_LAYOUT_KIND] == 2 ? record[CAF_RECORD_LABEL_COUNT] : 0, 4);
}

static void begin(void) {
    room_length = number(4);
    if (room_length > MOST_BYTES) _exit(2);
    for (size_t i = 0; i < room_length; i++) room[i] = (uint8_t)UNTOUCHED;
    length = longest = 0;
    if (caf_new(RECORD) != CAF_DONE) _exit(3);
}

static double take_rate(void) {
    union {
        uint64_t bits;
        double rate;
    } both = {number(8)};
    return both.rate;
}

static uint32_t set_format(void) {
    double rate = take_rate();
    uint32_t channels = (uint32_t)number(4), bits = (uint32_t)number(4);
    bool is_float = one(), little = one();
    return caf_set_format(RECORD, rate, channels, bits, is_float, little);
}

static uint32_t set_labels(void) {
    uint32_t channels = (uint32_t)number(4);
    take_numbers();
    return caf_set_layout_for_labels(RECORD, numbers, number_count, channels);
}

static uint32_t configure(void) {
    double rate = take_rate();
    uint32_t channels = (uint32_t)number(4), bits = (uint32_t)number(4);
    take_numbers();
    return caf_configure_format(RECORD, rate, channels, bits, numbers, number_count);
}

static uint32_t resume(uint64_t *chunks) {
    return caf_resume(ROOM, length, RECORD, chunks, 1);
}

/* The bytes of the request are the file from here on. */
static uint32_t resume_from(uint64_t *chunks) {
    take_bytes();
    if (byte_count > room_length) _exit(2);
    for (size_t i = 0; i < room_length; i++) room[i] = i < byte_count ? bytes[i] : (uint8_t)UNTOUCHED;
    length = longest = byte_count;
    return resume(chunks);
}

/* The first stores of a call. A cut leaves its file and no writer: a fresh one stands in its place. */
static uint32_t cut(uint64_t *stores) {
    uint64_t n = number(4), counted[CAF_COUNTED_PLACES];
    uint32_t answered = 0;
#define COUNTED n, counted, CAF_COUNTED_PLACES
    switch (one()) {
    case 5: answered = caf_write_header_counted(RECORD, ROOM, COUNTED); break;
    case 6: take_bytes(); answered = caf_write_data_counted(RECORD, ROOM, bytes, byte_count, COUNTED); break;
    case 7: take_samples(); answered = caf_write_samples_counted(RECORD, ROOM, samples, number_count, COUNTED); break;
    case 8: answered = caf_finish_counted(RECORD, ROOM, COUNTED); break;
    default: _exit(2);
    }
    *stores = counted[CAF_COUNTED_STORES];
    if (answered == CAF_DONE) caf_new(RECORD);
    length = counted[CAF_COUNTED_FILE_LEN];
    return answered;
}

static void call(uint8_t kind) {
    uint64_t count = 0, stats[CAF_STATS_PLACES];
    uint32_t answered = 0;
    switch (kind) {
    case 1: answered = set_format(); break;
    case 2: answered = caf_set_layout_tag(RECORD, (uint32_t)number(4)); break;
    case 3: answered = set_labels(); break;
    case 4: answered = configure(); break;
    case 5: answered = caf_write_header(RECORD, ROOM); break;
    case 6: take_bytes(); answered = caf_write_data(RECORD, ROOM, bytes, byte_count); break;
    case 7: take_samples(); answered = caf_write_samples(RECORD, ROOM, samples, number_count); break;
    case 8: answered = caf_finish(RECORD, ROOM); break;
    case 9: answered = resume(&count); break;
    case 10: answered = resume_from(&count); break;
    case 11: answered = cut(&count); break;
    default: _exit(2);
    }
    if (kind != 11) length = record[CAF_RECORD_FILE_LEN];
    if (longest < length) longest = length;
    for (size_t i = longest; i < room_length; i++)
        if (room[i] != (uint8_t)UNTOUCHED) _exit(4);
    if (caf_stats(RECORD, stats, CAF_STATS_PLACES) != CAF_DONE) _exit(5);
    put(answered, 4);
    put(count, 8);
    put(stats[CAF_STATS_DATA_COUNT], 8);
    put(stats[CAF_STATS_FINISHED], 1);
    put_bytes(room, length);
}

int main(void) {
    for (;;) {
        uint8_t kind = one();
        switch (kind) {
        case 'R': reading(caf_parse, CAF_PLAIN_PLACES); break;
        case 'T': reading(caf_read_strict, CAF_STRICT_PLACES); break;
        case 'L': layout(); break;
        case 'S': packing(); break;
        case 'N': begin(); break;
        default: call(kind);
        }
    }
}
