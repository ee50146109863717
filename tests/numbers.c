/* The numbers that each call gives, in the order in which it tests for them. Prints a line for each call of include/caf.h: its name, and its
 * numbers in the order that was seen here. tests/c compares the lines with those that caf.h lists.
 *
 * A call has faults, each of which makes it give one number. It is made with every set of its faults that can come together, and has
 * to give the number of the first. Faults that lie in a file are taken one by one: each file has the next fault too, where one file can have
 * both. */
#include <math.h>

#include "caf_names.h"
#include "faulty_files.h"
#include "holds.h"

/* Room for every file here, and one label more than a record has places for. */
enum { ROOM = 256, CHANNELS = 65 };

/* What can be wrong: with the lent places, with the record, with what is set, and with what is read. */
enum fault {
    NONE = 0,
    LENGTH = 1 << 0, /* a record's array of another length */
    PLACES = 1 << 1, /* too few places for the answer */
    UNSOUND = 1 << 2,
    FINISHED = 1 << 3,
    HEADER = 1 << 4,
    NO_HEADER = 1 << 5,
    NO_FORMAT = 1 << 6,
    NOT_A_RATE = 1 << 7,
    PACKET = 1 << 8,
    BEGUN = 1 << 20, /* data have come */
    OPEN = 1 << 21,
    TAILED = 1 << 22,
    GROUP = 1 << 23, /* of no frames */
    WIDTH = 1 << 24, /* of a sample */
    NO_WAVE = 1 << 25, /* can say it */
    BAD_WAVE = 1 << 26,
    TAG = 1 << 9,
    MANY = 1 << 10, /* labels */
    LABEL = 1 << 11,
    ODD = 1 << 12,
    SHORT = 1 << 13,
    LAYOUT = 1 << 14,
    SMALL = 1 << 15, /* no room for the result */
    BEYOND = 1 << 16, /* a file that is longer than its buffer */
    TRAY = 1 << 17,
    LITTLE = 1 << 18 /* a little-endian format */
};

static uint32_t number_of(enum fault fault) {
    switch (fault) {
    case NONE: return CAF_DONE;
    case LENGTH: case UNSOUND: case BEYOND: return CAF_BAD_WRITER;
    case PLACES: case SMALL: return CAF_NO_ROOM;
    case FINISHED: return CAF_FINISHED;
    case HEADER: return CAF_HEADER_ALREADY;
    case NO_HEADER: return CAF_NO_HEADER;
    case NO_FORMAT: return CAF_NO_FORMAT;
    case NOT_A_RATE: return CAF_BAD_RATE;
    case PACKET: return CAF_PACKET_TOO_BIG;
    case BEGUN: return CAF_DATA_BEGUN;
    case OPEN: return CAF_NOT_CLOSED;
    case TAILED: return CAF_TAIL_AFTER_DATA;
    case GROUP: return CAF_NO_GROUP;
    case WIDTH: return CAF_WRONG_WIDTH;
    case NO_WAVE: return CAF_NOT_FOR_WAVE;
    case BAD_WAVE: return CAF_BAD_WAVE;
    case TAG: return CAF_BAD_TAG;
    case MANY: return CAF_TOO_MANY_LABELS;
    case LABEL: return CAF_BAD_LABEL;
    case ODD: return CAF_ODD_LENGTH;
    case SHORT: return CAF_CUT_SHORT;
    case LAYOUT: return CAF_BAD_LAYOUT;
    case TRAY: return CAF_BAD_TRAY;
    case LITTLE: return CAF_LITTLE_RETIRED;
    }
    return UINT32_MAX;
}

static uint64_t record[CAF_RECORD], feeder[CAF_FEEDER], out[CAF_STRICT_PLACES];
static uint8_t buf[ROOM];
static size_t room;
static const uint8_t bytes[7];
static const int32_t samples[2];

/* ---- a record with these faults */

static void bare_film(void) {
    static const char film[] = "caff\0\1\0\0" "data\xff\xff\xff\xff\xff\xff\xff\xff\0\0\0";

    memcpy(buf, film, sizeof film);
    HOLDS(caf_resume(buf, ROOM, sizeof film, record, CAF_RECORD, out, 1) == CAF_DONE);
}

/* Only a resumed file has a header and no format. */
static void make_record(unsigned faults, bool has_header) {
    HOLDS(caf_new(record, CAF_RECORD) == CAF_DONE);
    if (has_header && faults & NO_FORMAT) {
        bare_film();
    } else if (!(faults & NO_FORMAT)) {
        HOLDS(caf_configure_format(record, CAF_RECORD, 48000.0, 2, 24, NULL, 0) == CAF_DONE);
        if (has_header)
            HOLDS(caf_write_header(record, CAF_RECORD, buf, ROOM) == CAF_DONE);
    }
    if (faults & FINISHED)
        HOLDS(caf_finish(record, CAF_RECORD, buf, ROOM) == CAF_DONE);
    room = faults & SMALL ? record[CAF_RECORD_FILE_LEN] : ROOM;
    if (faults & UNSOUND)
        record[CAF_RECORD_HAS_HEADER] = 2;
}

static void before_header(unsigned faults) { make_record(faults, faults & (HEADER | FINISHED)); }
static void after_header(unsigned faults) { make_record(faults, !(faults & NO_HEADER)); }

static size_t record_places(unsigned faults) { return faults & LENGTH ? CAF_RECORD - 1 : CAF_RECORD; }
static size_t places(unsigned faults, size_t due) { return faults & PLACES ? due - 1 : due; }

/* ---- settings */

static double rate(unsigned faults) { return faults & NOT_A_RATE ? NAN : 48000.0; }
static uint32_t bits(unsigned faults) { return faults & PACKET ? UINT32_MAX : 24; }

static const uint32_t *labels(unsigned faults) {
    static uint32_t made[CHANNELS];
    int i;

    for (i = 0; i < CHANNELS; i++)
        made[i] = CAF_LABEL_MONO;
    if (faults & LABEL)
        made[0] = 99;
    return made;
}

/* 64 labels are not too many, and 65 for another count of channels neither */
static uint32_t channels(unsigned faults) { return faults & MANY ? CHANNELS : CHANNELS - 1; }

static uint32_t set_format(unsigned faults) {
    before_header(faults);
    return caf_set_format(record, CAF_RECORD, rate(faults), 8, bits(faults), false, faults & LITTLE);
}

static uint32_t set_layout_tag(unsigned faults) {
    before_header(faults);
    return caf_set_layout_tag(record, CAF_RECORD, faults & TAG ? 1 : CAF_TAG_STEREO);
}

static uint32_t set_layout_for_labels(unsigned faults) {
    before_header(faults);
    return caf_set_layout_for_labels(record, CAF_RECORD, labels(faults), CHANNELS, channels(faults));
}

static uint32_t configure_format(unsigned faults) {
    before_header(faults);
    return caf_configure_format(record, CAF_RECORD, rate(faults), channels(faults), bits(faults), labels(faults), CHANNELS);
}

/* ---- writing */

static uint32_t write_header(unsigned faults) {
    before_header(faults);
    return caf_write_header(record, CAF_RECORD, buf, room);
}

static uint32_t write_data(unsigned faults) {
    after_header(faults);
    return caf_write_data(record, CAF_RECORD, buf, room, bytes, 5);
}

static uint32_t write_samples(unsigned faults) {
    after_header(faults);
    return caf_write_samples(record, CAF_RECORD, buf, room, samples, 2);
}

static uint32_t finish(unsigned faults) {
    after_header(faults);
    return caf_finish(record, CAF_RECORD, buf, room);
}

static uint32_t header_counted(unsigned faults) {
    before_header(faults);
    return caf_write_header_counted(record, CAF_RECORD, buf, room, 1, out, places(faults, CAF_COUNTED_PLACES));
}

static uint32_t data_counted(unsigned faults) {
    after_header(faults);
    return caf_write_data_counted(record, CAF_RECORD, buf, room, bytes, 5, 1, out, places(faults, CAF_COUNTED_PLACES));
}

static uint32_t samples_counted(unsigned faults) {
    after_header(faults);
    return caf_write_samples_counted(record, CAF_RECORD, buf, room, samples, 2, 1, out, places(faults, CAF_COUNTED_PLACES));
}

static uint32_t finish_counted(unsigned faults) {
    after_header(faults);
    return caf_finish_counted(record, CAF_RECORD, buf, room, 1, out, places(faults, CAF_COUNTED_PLACES));
}

static uint32_t stats(unsigned faults) {
    after_header(faults);
    return caf_stats(record, CAF_RECORD, out, places(faults, CAF_STATS_PLACES));
}

/* ---- the overview */

static uint32_t set_overview_group(unsigned faults) {
    make_record(NONE, true);
    if (faults & BEGUN)
        HOLDS(caf_write_data(record, CAF_RECORD, buf, ROOM, bytes, 6) == CAF_DONE);
    if (faults & UNSOUND)
        record[CAF_RECORD_HAS_HEADER] = 2;
    return caf_set_overview_group(record, CAF_RECORD, 1);
}

static uint32_t append_overview(unsigned faults) {
    HOLDS(caf_new(record, CAF_RECORD) == CAF_DONE);
    HOLDS(caf_configure_format(record, CAF_RECORD, 48000.0, 2, faults & WIDTH ? 16 : 24, NULL, 0) == CAF_DONE);
    HOLDS(caf_set_overview_group(record, CAF_RECORD, faults & GROUP ? 0 : 1) == CAF_DONE);
    if (!(faults & NO_HEADER))
        HOLDS(caf_write_header(record, CAF_RECORD, buf, ROOM) == CAF_DONE);
    if (!(faults & (NO_HEADER | OPEN)))
        HOLDS(caf_finish(record, CAF_RECORD, buf, ROOM) == CAF_DONE);
    if (faults & TAILED)
        record[CAF_RECORD_OVERVIEW] = 1;
    if (faults & UNSOUND)
        record[CAF_RECORD_HAS_HEADER] = 2;
    return caf_append_overview(record, CAF_RECORD, buf, faults & SMALL ? record[CAF_RECORD_FILE_LEN] : ROOM);
}

static uint32_t find_overview(unsigned faults) { return caf_find_overview(NULL, 0, out, places(faults, CAF_OVERVIEW_PLACES)); }

/* a body of one group of one channel */
static uint32_t read_overview(unsigned faults) {
    static const uint8_t body[8 + 4];
    int16_t pair[2];

    return caf_read_overview(body, faults & SHORT ? 7 : sizeof body, 1, pair, faults & SMALL ? 1 : 2, out, places(faults, CAF_PICTURE_PLACES));
}

/* ---- calls without a record, and those that make one */

static uint32_t new(unsigned faults) { return caf_new(record, record_places(faults)); }

static uint32_t feed_begin(unsigned faults) { return caf_feed_begin(feeder, faults & LENGTH ? CAF_FEEDER - 1 : CAF_FEEDER); }

static uint32_t layout_for_labels(unsigned faults) {
    return caf_layout_for_labels(labels(LABEL), CHANNELS, out, places(faults, CAF_LAYOUT_PLACES));
}

static uint32_t find_chan(unsigned faults) { return caf_find_chan(NULL, 0, out, places(faults, CAF_CHAN_PLACES)); }

/* a body of two descriptions */
static uint32_t read_chan(unsigned faults) {
    static const uint8_t body[12 + 2 * 20] = {0, 0, 0, 0, 0, 0, 0, 0, 0, 0, 0, 2};
    uint32_t described[2 * CAF_DESCRIPTION];

    return caf_read_chan(body, faults & SHORT ? 11 : sizeof body, faults & LAYOUT ? 3 : 2, described,
                         faults & SMALL ? 2 * CAF_DESCRIPTION - 1 : 2 * CAF_DESCRIPTION, out, places(faults, CAF_SAID_PLACES));
}

/* one empty clip; the table of a second is cut */
static uint32_t read_tray(unsigned faults) {
    uint8_t tray[20] = {0, 0, 0, faults & TRAY ? 2 : 1, 0, 0, 0, 0, 0, 0, 0, 20};

    return caf_read_tray(tray, sizeof tray, out, faults & SMALL ? CAF_CLIP - 1 : CAF_CLIP);
}

/* a clip of 7 bytes, of which one may be missing */
static uint32_t write_tray(unsigned faults) {
    static const uint64_t lengths[1] = {sizeof bytes};

    return caf_write_tray(bytes, faults & TRAY ? 6 : 7, lengths, 1, buf, faults & SMALL ? 0 : 27);
}

static uint32_t pack(unsigned faults) { return caf_pack_24(samples, 2, false, buf, faults & SMALL ? 5 : 6); }

static uint32_t unpack(unsigned faults) {
    int32_t two[2];

    return caf_unpack_24(bytes, faults & ODD ? 7 : 6, false, two, faults & SMALL ? 1 : 2);
}

/* ---- readings */

static const uint8_t *contents(const struct file *file) { return (const uint8_t *)file->text; }

static uint32_t parse(const struct file *file, unsigned faults) {
    return caf_parse(contents(file), file->len, out, places(faults, CAF_PLAIN_PLACES));
}

static uint32_t strict(const struct file *file, unsigned faults) {
    return caf_read_strict(contents(file), file->len, out, places(faults, CAF_STRICT_PLACES));
}

static uint32_t feed(const struct file *file, unsigned faults) {
    HOLDS(caf_feed_begin(feeder, CAF_FEEDER) == CAF_DONE);
    return caf_feed(feeder, faults & LENGTH ? CAF_FEEDER - 1 : CAF_FEEDER, contents(file), file->len);
}

static uint32_t feed_pass(const struct file *file, unsigned faults) {
    feed(file, NONE);
    return caf_feed_pass(feeder, faults & LENGTH ? CAF_FEEDER - 1 : CAF_FEEDER, 1);
}

static uint32_t feed_end(const struct file *file, unsigned faults) {
    feed(file, NONE);
    return caf_feed_end(feeder, faults & LENGTH ? CAF_FEEDER - 1 : CAF_FEEDER, out, places(faults, CAF_STRICT_PLACES));
}

static uint32_t resume(const struct file *file, unsigned faults) {
    memcpy(buf, file->text, file->len);
    return caf_resume(buf, ROOM, faults & BEYOND ? ROOM + 1 : file->len, record, record_places(faults), out, places(faults, 1));
}

static uint32_t resume_counted(const struct file *file, unsigned faults) {
    memcpy(buf, file->text, file->len);
    return caf_resume_counted(buf, ROOM, faults & BEYOND ? ROOM + 1 : file->len, 8, out, places(faults, CAF_RESUME_COUNTED_PLACES));
}

/* ---- two files compared */

static uint32_t compare(const struct file *file, unsigned faults) {
    uint64_t counts[2], told[CAF_COMPARE_PLACES];

    return caf_compare(contents(file), file->len, contents(good), good->len, counts, faults & SMALL ? 1 : 2, told, places(faults, CAF_COMPARE_PLACES));
}

static uint32_t compare_samples(unsigned faults) {
    uint64_t counts[2];

    return caf_compare_samples(bytes, 6, false, bytes, 6, true, counts, 2, out, places(faults, CAF_SAMPLES_PLACES));
}

/* ---- WAVE: a film of no frames, whose WAVE file is its header */

enum { RIFF_HEAD = 68 };

static size_t head_room(unsigned faults) { return faults & SMALL ? RIFF_HEAD - 1 : CAF_WAVE_HEAD; }

static uint32_t wave_plan(const struct file *file, unsigned faults) {
    return caf_wave_plan(contents(file), file->len, buf, head_room(faults), out, places(faults, CAF_PLAN_PLACES));
}

static uint32_t to_wave(const struct file *file, unsigned faults) {
    return caf_to_wave(contents(file), file->len, buf, head_room(faults), out, places(faults, 1));
}

static uint32_t wave_header(unsigned faults) {
    static const uint32_t both[2] = {CAF_LABEL_LEFT, CAF_LABEL_RIGHT};
    uint64_t info[CAF_STRICT_PLACES];

    HOLDS(caf_read_strict(contents(stereo), stereo->len, info, CAF_STRICT_PLACES) == CAF_DONE);
    info[CAF_STRICT_BITS] = faults & WIDTH ? 16 : 24;
    return caf_wave_header(info, CAF_STRICT_PLACES, both, faults & NO_WAVE ? 1 : 2, 0, buf, head_room(faults), out, places(faults, 1));
}

static uint32_t wave_samples(unsigned faults) { return caf_wave_samples(buf, faults & ODD ? 7 : 6, false); }

static uint32_t wave_read(unsigned faults) {
    HOLDS(to_wave(stereo, NONE) == CAF_DONE && out[0] == RIFF_HEAD);
    return caf_wave_read(buf, faults & BAD_WAVE ? RIFF_HEAD - 1 : RIFF_HEAD, out, places(faults, CAF_WAVE_PLACES));
}

/* ---- what is held */

/* A call with its faults, in the order in which it tests for them. */
enum { MOST = 8 };
typedef enum fault order[MOST];
struct row {
    const char *name;
    uint32_t (*call)(unsigned);
    order order;
};

static bool can_come_together(unsigned faults) { return !(faults & NO_HEADER && faults & FINISHED); }

/* The number of the first of these faults; Done without one. */
static uint32_t first_of(const enum fault *order, unsigned faults) {
    while (*order != NONE && !(faults & *order))
        order++;
    return number_of(*order);
}

/* The k-th set of the faults in this order, k in binary. */
static unsigned set_of(const enum fault *order, unsigned k) {
    unsigned faults = NONE;

    for (; *order != NONE; order++, k /= 2)
        if (k % 2)
            faults |= *order;
    return faults;
}

static unsigned sets_of(const enum fault *order) { return *order == NONE ? 1 : 2 * sets_of(order + 1); }

static void print_order(const char *name, const enum fault *order) {
    printf("%s", name);
    for (; *order != NONE; order++)
        printf(" %u", number_of(*order));
}

static void show(const struct row *rows, size_t count) {
    unsigned k, faults;

    for (; count > 0; rows++, count--) {
        for (k = 0; k < sets_of(rows->order); k++) {
            faults = set_of(rows->order, k);
            if (can_come_together(faults))
                HOLDS(rows->call(faults) == first_of(rows->order, faults));
        }
        print_order(rows->name, rows->order);
        printf("\n");
    }
}

typedef uint32_t (*reading)(const struct file *, unsigned);

/* Each file gives its number; and the number of a fault in the lent places comes before it. */
static void show_files(reading call, const order before, const struct file *files, size_t count) {
    size_t i;
    unsigned k;

    for (i = 0; i < count; i++) {
        for (k = 1; k < sets_of(before); k++)
            HOLDS(call(&files[i], set_of(before, k)) == first_of(before, set_of(before, k)));
        HOLDS(call(&files[i], NONE) == files[i].number);
        if (files != good)
            printf(" %u", files[i].number);
    }
}

static void begin_reading(const char *name, reading call, const order before) {
    print_order(name, before);
    show_files(call, before, good, COUNT(good));
}

/* One byte more than a file may have. */
static void too_long(void) {
    HOLDS(feed(&(struct file)FILE_OF(CAF_DONE, CAFF DESC "data\xff\xff\xff\xff\xff\xff\xff\xff\0\0\0\0"), NONE) == CAF_DONE);
    feeder[CAF_FEEDER_TOTAL] = INT64_MAX;
    HOLDS(caf_feed(feeder, CAF_FEEDER, bytes, 1) == CAF_TOO_LONG);
    HOLDS(caf_feed_pass(feeder, CAF_FEEDER, 1) == CAF_TOO_LONG);
    HOLDS(caf_feed_end(feeder, CAF_FEEDER, out, CAF_STRICT_PLACES) == CAF_TOO_LONG);
    printf(" %u", CAF_TOO_LONG);
}

static void readings(void) {
    static const order room_first = {PLACES}, record_first = {LENGTH}, end_first = {PLACES, LENGTH};

    begin_reading("caf_parse", parse, room_first);
    show_files(parse, room_first, plain_files, COUNT(plain_files));
    begin_reading("\ncaf_read_strict", strict, room_first);
    show_files(strict, room_first, strict_files, COUNT(strict_files));
    printf("\n");
    show(&(const struct row){"caf_feed_begin", feed_begin, {LENGTH}}, 1);
    begin_reading("caf_feed", feed, record_first);
    show_files(feed, record_first, block_files, COUNT(block_files));
    too_long();
    begin_reading("\ncaf_feed_pass", feed_pass, record_first);
    show_files(feed_pass, record_first, block_files, COUNT(block_files));
    too_long();
    begin_reading("\ncaf_feed_end", feed_end, end_first);
    show_files(feed_end, end_first, block_files, COUNT(block_files));
    too_long();
    show_files(feed_end, end_first, end_files, COUNT(end_files));
    printf("\n");
}

static void delivery(const char *name, reading call) {
    static const order room_first = {PLACES};

    print_order(name, room_first);
    HOLDS(call(stereo, NONE) == CAF_DONE);
    show_files(call, room_first, strict_files, COUNT(strict_files));
    show_files(call, room_first, layout_files, COUNT(layout_files));
    show_files(call, room_first, wave_files, COUNT(wave_files));
    HOLDS(call(stereo, SMALL) == CAF_NO_ROOM);
    printf(" %u\n", CAF_NO_ROOM);
}

static void deliveries(void) {
    show(&(const struct row){"caf_wave_header", wave_header, {PLACES, WIDTH, NO_WAVE, SMALL}}, 1);
    delivery("caf_wave_plan", wave_plan);
    show(&(const struct row){"caf_wave_samples", wave_samples, {ODD}}, 1);
    delivery("caf_to_wave", to_wave);
    show(&(const struct row){"caf_wave_read", wave_read, {PLACES, BAD_WAVE}}, 1);
}

static void comparisons(void) {
    static const order room_first = {PLACES};

    begin_reading("caf_compare", compare, room_first);
    show_files(compare, room_first, strict_files, COUNT(strict_files));
    show_files(compare, room_first, layout_files, COUNT(layout_files));
    show_files(compare, room_first, compare_files, COUNT(compare_files));
    HOLDS(compare(good, SMALL) == CAF_NO_ROOM);
    printf(" %u\n", CAF_NO_ROOM);
    show(&(const struct row){"caf_compare_samples", compare_samples, {PLACES}}, 1);
}

static void resumes(void) {
    static const order whole = {LENGTH, PLACES, BEYOND}, counted = {PLACES, BEYOND};

    begin_reading("caf_resume", resume, whole);
    show_files(resume, whole, plain_files, COUNT(plain_files));
    show_files(resume, whole, resume_files, COUNT(resume_files));
    begin_reading("\ncaf_resume_counted", resume_counted, counted);
    show_files(resume_counted, counted, plain_files, COUNT(plain_files));
    show_files(resume_counted, counted, resume_files, COUNT(resume_files));
    printf("\n");
}

static const struct row trays[] = {
    {"caf_read_tray", read_tray, {TRAY, SMALL}},
    {"caf_write_tray", write_tray, {TRAY, SMALL}},
};
static const struct row layouts[] = {
    {"caf_layout_for_labels", layout_for_labels, {PLACES}},
    {"caf_find_chan", find_chan, {PLACES}},
    {"caf_read_chan", read_chan, {PLACES, SHORT, LAYOUT, SMALL}},
    {"caf_find_overview", find_overview, {PLACES}},
    {"caf_read_overview", read_overview, {PLACES, SHORT, SMALL}},
};
static const struct row writing[] = {
    {"caf_set_format", set_format, {UNSOUND, HEADER, LITTLE, NOT_A_RATE, PACKET}},
    {"caf_set_layout_tag", set_layout_tag, {UNSOUND, HEADER, TAG}},
    {"caf_set_layout_for_labels", set_layout_for_labels, {UNSOUND, HEADER, MANY, LABEL}},
    {"caf_configure_format", configure_format, {UNSOUND, HEADER, NOT_A_RATE, PACKET, MANY, LABEL}},
    {"caf_set_overview_group", set_overview_group, {UNSOUND, BEGUN}},
    {"caf_write_header", write_header, {UNSOUND, FINISHED, HEADER, NO_FORMAT, SMALL}},
    {"caf_write_data", write_data, {UNSOUND, FINISHED, NO_HEADER, SMALL}},
    {"caf_write_samples", write_samples, {UNSOUND, FINISHED, NO_HEADER, NO_FORMAT, SMALL}},
    {"caf_finish", finish, {UNSOUND, NO_HEADER}},
    {"caf_append_overview", append_overview, {UNSOUND, NO_HEADER, OPEN, TAILED, GROUP, WIDTH, SMALL}},
    {"caf_stats", stats, {PLACES, UNSOUND}},
    {"caf_write_header_counted", header_counted, {PLACES, UNSOUND, FINISHED, HEADER, NO_FORMAT, SMALL}},
    {"caf_write_data_counted", data_counted, {PLACES, UNSOUND, FINISHED, NO_HEADER, SMALL}},
    {"caf_write_samples_counted", samples_counted, {PLACES, UNSOUND, FINISHED, NO_HEADER, NO_FORMAT, SMALL}},
    {"caf_finish_counted", finish_counted, {PLACES, UNSOUND, NO_HEADER}},
    {"caf_pack_24", pack, {SMALL}},
    {"caf_unpack_24", unpack, {ODD, SMALL}},
};

int main(void) {
    readings();
    show(trays, COUNT(trays));
    show(layouts, COUNT(layouts));
    comparisons();
    show(&(const struct row){"caf_new", new, {LENGTH}}, 1);
    resumes();
    show(writing, COUNT(writing));
    deliveries();
    return 0;
}
