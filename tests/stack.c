/* How much stack each exported call takes: it runs on a thread whose stack is SMALL bytes above a guard, all that lies below the
 * caller's frame is painted before the call, and the deepest place that lost its paint gives the depth. A call that does nothing is
 * the zero of the measure. Prints one line for each call, and fails above the bounds below.
 *
 * Every call stands in the table `rows` with the inputs that take it through all that it calls; tests/stack holds the names of the
 * table against include/caf.h. */
#include "caf.h"

/* The C library's, by hand. The kinds and constants are those of Linux on x86-64. */
int printf(const char *form, ...);
int strcmp(const char *a, const char *b);
_Noreturn void exit(int status);
void *mmap(void *at, size_t size, int rights, int kind, int fd, long from);
int mprotect(void *at, size_t size, int rights);
union attributes {
    uint64_t numbers[16]; /* 56 or 64 bytes are used */
};
int pthread_attr_init(union attributes *attributes);
int pthread_attr_setstack(union attributes *attributes, void *low, size_t size);
int pthread_create(unsigned long *thread, const union attributes *attributes, void *(*run)(void *), void *given);
int pthread_join(unsigned long thread, void **answer);
enum { NO_RIGHTS = 0, READ_WRITE = 3, PRIVATE_NO_FILE = 0x22 };

enum {
    LEAST = 128 << 10, /* some C libraries take no smaller stack for a thread */
    SMALL = 16 << 10   /* of it is there: the rest is the guard */
};

/* The bounds of the calls that look labels up, alone and in a setting; of all others CAF_STACK is the bound. Measured were 152 and 1688
 * bytes, of what the older kit built. */
enum {
    LOOKUP = 160,
    SETTING = 2640
};

/* ---- what the calls are lent */

/* LONG: one byte more than the short one of the arrays that a copy goes through (byte_order) */
enum { LONG = (64 << 10) + 1, ROOM = 512 + LONG };

static uint64_t record[CAF_RECORD], feeder[CAF_FEEDER], place[CAF_CHAN_PLACES], out[CAF_STRICT_PLACES];
static uint32_t descriptions[8 * CAF_DESCRIPTION];
static int16_t pairs[2 * 8];
static uint8_t buf[ROOM], bytes[12], tray[CAF_TRAY_COUNT + CAF_TRAY_ROW + ROOM];
static uint64_t length;
static int32_t samples[4] = {1, -1, 8388607, -8388608};
static const uint8_t silence[LONG];
static const uint8_t data[12] = {1, 2, 3, 4, 5, 6, 7, 8, 9, 10, 11, 12};

/* labels of the first row that is searched, of the last, and of none; the count of the latter is the most that a row has */
static const uint32_t first[1] = {3}, last[8] = {3, 1, 2, 5, 6, 33, 34, 9}, none[8] = {8, 7, 6, 5, 4, 3, 2, 1};

/* a row of the table, and none */
static const uint32_t stereo[2] = {1, 2}, apart[2] = {1, 3};
static uint8_t wave[ROOM];
static uint64_t counts[8], compared[CAF_COMPARE_PLACES];
static uint64_t told[CAF_STRICT_PLACES], wave_len;

#define LENGTH ((size_t)record[CAF_RECORD_FILE_LEN])

static void holds(bool fact, const char *what) {
    if (fact) return;
    printf("stack: %s\n", what);
    exit(1);
}

/* a record without a format; with one and descriptions, or a tag: the test whether the record is sound goes deepest for a tag */
static void fresh(void) { holds(caf_new(record, CAF_RECORD) == CAF_DONE, "caf_new"); }

static void described(void) {
    fresh();
    holds(caf_configure_format(record, CAF_RECORD, 48000.0, 8, 24, none, 8) == CAF_DONE, "caf_configure_format");
    holds(record[CAF_RECORD_LAYOUT_KIND] == 2, "no row: descriptions");
}

static void tagged(void) {
    fresh();
    holds(caf_configure_format(record, CAF_RECORD, 48000.0, 8, 24, last, 8) == CAF_DONE, "caf_configure_format");
    holds(record[CAF_RECORD_LAYOUT_KIND] == 1, "the last row: a tag");
}

/* with a header, where its `chan` is found, with data, finished */
static void begin(void) {
    holds(caf_write_header(record, CAF_RECORD, buf, ROOM) == CAF_DONE, "caf_write_header");
    holds(caf_find_chan(buf, LENGTH, place, CAF_CHAN_PLACES) == CAF_DONE && place[CAF_CHAN_FOUND], "caf_find_chan");
}

static void begun_described(void) {
    described();
    begin();
}

static void begun(void) {
    tagged();
    begin();
}

static void filled(void) {
    begun();
    holds(caf_write_data(record, CAF_RECORD, buf, ROOM, data, 12) == CAF_DONE, "caf_write_data");
}

static void closed(void) {
    filled();
    holds(caf_finish(record, CAF_RECORD, buf, ROOM) == CAF_DONE, "caf_finish");
}

/* of one whole frame, with an overview to come, and with it */
static void chosen(void) {
    filled();
    holds(caf_write_data(record, CAF_RECORD, buf, ROOM, data, 12) == CAF_DONE, "caf_write_data");
    holds(caf_finish(record, CAF_RECORD, buf, ROOM) == CAF_DONE, "caf_finish");
    record[CAF_RECORD_GROUP] = 1;
}

static void shown(void) {
    chosen();
    holds(caf_append_overview(record, CAF_RECORD, buf, ROOM) == CAF_DONE, "caf_append_overview");
    holds(caf_find_overview(buf, LENGTH, place, CAF_OVERVIEW_PLACES) == CAF_DONE && place[CAF_OVERVIEW_FOUND], "caf_find_overview");
}

/* of two channels, that a WAVE file can say: by a tag, by descriptions; and the WAVE file */
static void with_labels(const uint32_t *labels) {
    fresh();
    holds(caf_configure_format(record, CAF_RECORD, 48000.0, 2, 24, labels, 2) == CAF_DONE, "caf_configure_format");
    begin();
    holds(caf_write_data(record, CAF_RECORD, buf, ROOM, data, 12) == CAF_DONE, "caf_write_data");
    holds(caf_finish(record, CAF_RECORD, buf, ROOM) == CAF_DONE, "caf_finish");
    holds(caf_read_strict(buf, LENGTH, told, CAF_STRICT_PLACES) == CAF_DONE, "caf_read_strict");
}

static void deliverable(void) { with_labels(stereo); }
static void deliverable_described(void) { with_labels(apart); }

static void delivered(void) {
    deliverable();
    holds(caf_to_wave(buf, LENGTH, wave, sizeof wave, &wave_len, 1) == CAF_DONE, "caf_to_wave");
}

static void feeding(size_t count) {
    closed();
    holds(caf_feed_begin(feeder, CAF_FEEDER) == CAF_DONE, "caf_feed_begin");
    holds(caf_feed(feeder, CAF_FEEDER, buf, count) == CAF_DONE, "caf_feed");
}

/* at the start, inside the head, inside the `desc` body, where the data start, at their end */
static void fed_0(void) { feeding(0); }
static void fed_3(void) { feeding(3); }
static void fed_30(void) { feeding(30); }
static void fed_header(void) { feeding((closed(), LENGTH - sizeof data)); }
static void fed_all(void) { feeding((closed(), LENGTH)); }

/* a tray of the file */
static void in_a_tray(void) {
    closed();
    length = LENGTH;
    holds(caf_write_tray(buf, LENGTH, &length, 1, tray, sizeof tray) == CAF_DONE, "caf_write_tray");
}

/* ---- the calls */

static uint32_t nothing(void) { return 0; }
static uint32_t parse(void) { return caf_parse(buf, LENGTH, out, CAF_STRICT_PLACES); }
static uint32_t strict(void) { return caf_read_strict(buf, LENGTH, out, CAF_STRICT_PLACES); }
static uint32_t feed_begin(void) { return caf_feed_begin(feeder, CAF_FEEDER); }
static uint32_t feed(void) { return caf_feed(feeder, CAF_FEEDER, buf + feeder[CAF_FEEDER_TOTAL], LENGTH - feeder[CAF_FEEDER_TOTAL]); }
static uint32_t passable(void) { return caf_feed_passable(feeder, CAF_FEEDER) == 12 ? CAF_DONE : CAF_CUT_SHORT; }
static uint32_t pass(void) { return caf_feed_pass(feeder, CAF_FEEDER, 12); }
static uint32_t feed_end(void) { return caf_feed_end(feeder, CAF_FEEDER, out, CAF_STRICT_PLACES); }
static uint32_t read_tray(void) { return caf_read_tray(tray, CAF_TRAY_COUNT + CAF_TRAY_ROW + LENGTH, out, CAF_CLIP); }
static uint32_t write_tray(void) { return caf_write_tray(buf, LENGTH, &length, 1, tray, sizeof tray); }
static uint32_t long_tray(void) { return caf_write_tray(silence, length = LONG, &length, 1, tray, sizeof tray); }
static uint32_t layout_first(void) { return caf_layout_for_labels(first, 1, out, CAF_LAYOUT_PLACES); }
static uint32_t layout_last(void) { return caf_layout_for_labels(last, 8, out, CAF_LAYOUT_PLACES); }
static uint32_t layout_none(void) { return caf_layout_for_labels(none, 8, out, CAF_LAYOUT_PLACES); }
static uint32_t find_chan(void) { return caf_find_chan(buf, LENGTH, out, CAF_CHAN_PLACES); }
static uint32_t read_chan(void) { return caf_read_chan(buf + place[CAF_CHAN_START], place[CAF_CHAN_SIZE], 8, descriptions, 8 * CAF_DESCRIPTION, out, CAF_SAID_PLACES); }
static uint32_t find_overview(void) { return caf_find_overview(buf, LENGTH, out, CAF_OVERVIEW_PLACES); }
static uint32_t read_overview(void) { return caf_read_overview(buf + place[CAF_OVERVIEW_START], place[CAF_OVERVIEW_SIZE], 8, pairs, 2 * 8, out, CAF_PICTURE_PLACES); }
static uint32_t compare(void) { return caf_compare(buf, LENGTH, buf, LENGTH, counts, 8, compared, CAF_COMPARE_PLACES); }
static uint32_t compare_samples(void) { return caf_compare_samples(data, 12, false, buf, 12, true, counts, 2, out, CAF_SAMPLES_PLACES); }
static uint32_t new(void) { return caf_new(record, CAF_RECORD); }
static uint32_t resume(void) { return caf_resume(buf, ROOM, LENGTH, record, CAF_RECORD, out, 1); }
static uint32_t resume_counted(void) { return caf_resume_counted(buf, ROOM, LENGTH, 8, out, CAF_RESUME_COUNTED_PLACES); }
static uint32_t set_format(void) { return caf_set_format(record, CAF_RECORD, 48000.0, 8, 24, true, false); }
static uint32_t set_tag(void) { return caf_set_layout_tag(record, CAF_RECORD, 6619138); }
static uint32_t labels_first(void) { return caf_set_layout_for_labels(record, CAF_RECORD, first, 1, 1); }
static uint32_t labels_last(void) { return caf_set_layout_for_labels(record, CAF_RECORD, last, 8, 8); }
static uint32_t labels_none(void) { return caf_set_layout_for_labels(record, CAF_RECORD, none, 8, 8); }
static uint32_t configure_first(void) { return caf_configure_format(record, CAF_RECORD, 48000.0, 1, 24, first, 1); }
static uint32_t configure_last(void) { return caf_configure_format(record, CAF_RECORD, 48000.0, 8, 24, last, 8); }
static uint32_t configure_none(void) { return caf_configure_format(record, CAF_RECORD, 48000.0, 8, 24, none, 8); }
static uint32_t choose(void) { return caf_set_overview_group(record, CAF_RECORD, 1); }
static uint32_t append_overview(void) { return caf_append_overview(record, CAF_RECORD, buf, ROOM); }
static uint32_t header(void) { return caf_write_header(record, CAF_RECORD, buf, ROOM); }
static uint32_t write_data(void) { return caf_write_data(record, CAF_RECORD, buf, ROOM, data, 12); }
static uint32_t long_data(void) { return caf_write_data(record, CAF_RECORD, buf, ROOM, silence, LONG); }
static uint32_t write_samples(void) { return caf_write_samples(record, CAF_RECORD, buf, ROOM, samples, 4); }
static uint32_t finish(void) { return caf_finish(record, CAF_RECORD, buf, ROOM); }
static uint32_t stats(void) { return caf_stats(record, CAF_RECORD, out, CAF_STATS_PLACES); }
static uint32_t header_counted(void) { return caf_write_header_counted(record, CAF_RECORD, buf, ROOM, ROOM, out, CAF_COUNTED_PLACES); }
static uint32_t data_counted(void) { return caf_write_data_counted(record, CAF_RECORD, buf, ROOM, data, 12, 12, out, CAF_COUNTED_PLACES); }
static uint32_t long_counted(void) { return caf_write_data_counted(record, CAF_RECORD, buf, ROOM, silence, LONG, LONG, out, CAF_COUNTED_PLACES); }
static uint32_t samples_counted(void) { return caf_write_samples_counted(record, CAF_RECORD, buf, ROOM, samples, 4, 12, out, CAF_COUNTED_PLACES); }
static uint32_t finish_counted(void) { return caf_finish_counted(record, CAF_RECORD, buf, ROOM, 8, out, CAF_COUNTED_PLACES); }
static uint32_t pack(void) { return caf_pack_24(samples, 4, false, bytes, 12); }
static uint32_t unpack(void) { return caf_unpack_24(bytes, 12, true, samples, 4); }
static uint32_t wave_header(void) { return caf_wave_header(told, CAF_STRICT_PLACES, stereo, 2, 12, wave, CAF_WAVE_HEAD, &wave_len, 1); }
static uint32_t wave_plan(void) { return caf_wave_plan(buf, LENGTH, wave, CAF_WAVE_HEAD, out, CAF_PLAN_PLACES); }
static uint32_t wave_samples(void) { return caf_wave_samples(bytes, 12, false); }
static uint32_t to_wave(void) { return caf_to_wave(buf, LENGTH, wave, sizeof wave, &wave_len, 1); }
static uint32_t wave_read(void) { return caf_wave_read(wave, wave_len, out, CAF_WAVE_PLACES); }

/* In the order of include/caf.h, the rows of one call together. */
static const struct row {
    const char *name;
    void (*before)(void);
    uint32_t (*call)(void);
} rows[] = {
    {"caf_parse", closed, parse},
    {"caf_read_strict", closed, strict},
    {"caf_feed_begin", closed, feed_begin},
    {"caf_feed", fed_0, feed},
    {"caf_feed", fed_3, feed},
    {"caf_feed", fed_30, feed},
    {"caf_feed", fed_all, feed},
    {"caf_feed_passable", fed_header, passable},
    {"caf_feed_pass", fed_header, pass},
    {"caf_feed_end", fed_all, feed_end},
    {"caf_read_tray", in_a_tray, read_tray},
    {"caf_write_tray", in_a_tray, write_tray},
    {"caf_write_tray", fresh, long_tray},
    {"caf_layout_for_labels", fresh, layout_first},
    {"caf_layout_for_labels", fresh, layout_last},
    {"caf_layout_for_labels", fresh, layout_none},
    {"caf_find_chan", closed, find_chan},
    {"caf_read_chan", begun, read_chan},
    {"caf_read_chan", begun_described, read_chan},
    {"caf_find_overview", shown, find_overview},
    {"caf_read_overview", shown, read_overview},
    {"caf_compare", closed, compare},
    {"caf_compare", begun_described, compare},
    {"caf_compare_samples", closed, compare_samples},
    {"caf_new", fresh, new},
    {"caf_resume", filled, resume},
    {"caf_resume_counted", filled, resume_counted},
    {"caf_set_format", tagged, set_format},
    {"caf_set_layout_tag", tagged, set_tag},
    {"caf_set_layout_for_labels", tagged, labels_first},
    {"caf_set_layout_for_labels", tagged, labels_last},
    {"caf_set_layout_for_labels", tagged, labels_none},
    {"caf_configure_format", tagged, configure_first},
    {"caf_configure_format", tagged, configure_last},
    {"caf_configure_format", tagged, configure_none},
    {"caf_set_overview_group", begun, choose},
    {"caf_write_header", tagged, header},
    {"caf_write_header", described, header},
    {"caf_write_data", begun, write_data},
    {"caf_write_data", begun, long_data},
    {"caf_write_samples", begun, write_samples},
    {"caf_finish", filled, finish},
    {"caf_append_overview", chosen, append_overview},
    {"caf_stats", filled, stats},
    {"caf_write_header_counted", tagged, header_counted},
    {"caf_write_header_counted", described, header_counted},
    {"caf_write_data_counted", begun, data_counted},
    {"caf_write_data_counted", begun, long_counted},
    {"caf_write_samples_counted", begun, samples_counted},
    {"caf_finish_counted", filled, finish_counted},
    {"caf_pack_24", fresh, pack},
    {"caf_unpack_24", fresh, unpack},
    {"caf_wave_header", deliverable, wave_header},
    {"caf_wave_plan", deliverable, wave_plan},
    {"caf_wave_plan", deliverable_described, wave_plan},
    {"caf_wave_samples", fresh, wave_samples},
    {"caf_to_wave", deliverable, to_wave},
    {"caf_to_wave", deliverable_described, to_wave},
    {"caf_wave_read", delivered, wave_read},
};
enum { ROWS = sizeof rows / sizeof rows[0] };

/* ---- the measure */

static volatile uint64_t *low; /* the lowest number on the small stack */
static size_t depth_of_nothing, depths[ROWS];

/* The bytes below this function's frame that the call touches: each number there is painted with the complement of its own address,
 * which no call stores there. */
__attribute__((noinline)) static size_t depth(uint32_t (*call)(void)) {
    volatile uint64_t *sp, *at;

    __asm__ volatile("mov %%rsp, %0" : "=r"(sp));
    for (at = low; at < sp; at++) *at = ~(uint64_t)at;
    holds(call() == CAF_DONE, "a call was refused");
    for (at = low; at < sp && *at == ~(uint64_t)at; at++)
        ;
    return (size_t)(sp - at) * sizeof *at;
}

/* The second time: in the first one the loader looks up what the call needs. */
static size_t second_depth(void (*before)(void), uint32_t (*call)(void)) {
    before();
    depth(call);
    before();
    return depth(call);
}

static void *measure(void *given) {
    int i;

    depth_of_nothing = second_depth(fresh, nothing);
    for (i = 0; i < ROWS; i++) depths[i] = second_depth(rows[i].before, rows[i].call) - depth_of_nothing;
    return given;
}

static size_t bound_of(const char *name) {
    if (strcmp(name, "caf_layout_for_labels") == 0) return LOOKUP;
    if (strcmp(name, "caf_set_layout_for_labels") == 0 || strcmp(name, "caf_configure_format") == 0) return SETTING;
    return CAF_STACK;
}

int main(void) {
    uint8_t *area = mmap(0, LEAST, READ_WRITE, PRIVATE_NO_FILE, -1, 0);
    union attributes attributes;
    unsigned long thread;
    int i, failed = 0;

    low = (uint64_t *)(area + LEAST - SMALL);
    holds((uintptr_t)area != UINTPTR_MAX && mprotect(area, LEAST - SMALL, NO_RIGHTS) == 0, "no memory for a stack");
    holds(pthread_attr_init(&attributes) == 0 && pthread_attr_setstack(&attributes, area, LEAST) == 0, "no such stack");
    holds(pthread_create(&thread, &attributes, measure, 0) == 0 && pthread_join(thread, 0) == 0, "no thread");

    for (i = 0; i < ROWS;) {
        const char *name = rows[i].name;
        size_t most = 0, bound = bound_of(name);

        for (; i < ROWS && strcmp(rows[i].name, name) == 0; i++)
            if (depths[i] > most) most = depths[i];
        printf("%s %lu%s\n", name, (unsigned long)most, most > bound ? " is too deep" : "");
        failed |= most > bound;
    }
    return failed;
}
