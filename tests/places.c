/* Every place that caf.h names, by a film whose numbers all differ: in the writer's record, in both readings, in the feeding record and in a
 * resumed record. The film is written big-endian and made into a little-endian one, which no call begins, before it is read. */
#include "caf_names.h"
#include "holds.h"

/* 44100 Hz, five channels of 20 bits, floating point: three bytes a sample, 15 a packet */
#define RATE 44100.0
enum { CHANNELS = 5, BITS = 20, PACKET = 15, LPCM = 0x6C70636D };
/* bit 0 says floating point, bit 1 little-endian; the last byte of the flags in the file */
enum { FLOAT = 1, LITTLE = 2, FLAGS_AT = 35 };
/* five described channels, and 31 bytes of audio: two frames and a byte */
enum { START = 92 + 20 * CHANNELS, SIZE = START - 12, PAYLOAD = 31, LENGTH = START + PAYLOAD, FRAMES = 2, CHUNKS = 3, SAMPLE = 3 };

static const uint32_t labels[CHANNELS] = {CAF_LABEL_MONO, CAF_LABEL_LEFT_WIDE, CAF_LABEL_XYX, CAF_LABEL_UNKNOWN, CAF_LABEL_NARRATION};
static uint64_t record[CAF_RECORD], out[CAF_STRICT_PLACES];
static uint8_t film[LENGTH + SAMPLE];
static uint64_t flags = FLOAT;

/* The seven numbers of the format stand together, in one order, wherever they stand. */
#define TOGETHER(places)                                                                                                     \
    _Static_assert(places##_FORMAT_ID == places##_RATE + 1 && places##_FLAGS == places##_RATE + 2 &&                         \
                       places##_BYTES_PER_PACKET == places##_RATE + 3 && places##_FRAMES_PER_PACKET == places##_RATE + 4 &&  \
                       places##_CHANNELS == places##_RATE + 5 && places##_BITS == places##_RATE + 6,                         \
                   "the numbers of a format are not together")
TOGETHER(CAF_PLAIN);
TOGETHER(CAF_STRICT);
TOGETHER(CAF_RECORD);

static void format_at(const uint64_t *place) {
    const double rate = RATE;
    uint64_t rate_bits;

    memcpy(&rate_bits, &rate, sizeof rate_bits);
    HOLDS(place[0] == rate_bits && place[1] == LPCM && place[2] == flags && place[3] == PACKET);
    HOLDS(place[4] == 1 && place[5] == CHANNELS && place[6] == BITS);
}

static void header_places(uint64_t data_count) {
    HOLDS(record[CAF_RECORD_HAS_FORMAT] == 1 && record[CAF_RECORD_ENDIANNESS] == flags / LITTLE && record[CAF_RECORD_HAS_HEADER] == 1);
    format_at(record + CAF_RECORD_RATE);
    HOLDS(record[CAF_RECORD_SIZE_POSITION] == SIZE && record[CAF_RECORD_DATA_START] == START);
    HOLDS(record[CAF_RECORD_DATA_COUNT] == data_count && record[CAF_RECORD_FILE_LEN] == LENGTH);
}

static void written(void) {
    static const uint8_t bytes[PAYLOAD];
    int i;

    HOLDS(caf_new(record, CAF_RECORD) == CAF_DONE && record[CAF_RECORD_LAYOUT_KIND] == 0);
    HOLDS(caf_set_layout_tag(record, CAF_RECORD, CAF_TAG_CUBE) == CAF_DONE);
    HOLDS(record[CAF_RECORD_LAYOUT_KIND] == 1 && record[CAF_RECORD_LAYOUT_TAG] == CAF_TAG_CUBE);
    HOLDS(caf_set_format(record, CAF_RECORD, RATE, CHANNELS, BITS, true, false) == CAF_DONE);
    HOLDS(caf_set_layout_for_labels(record, CAF_RECORD, labels, CHANNELS, CHANNELS) == CAF_DONE);
    HOLDS(record[CAF_RECORD_LAYOUT_KIND] == 2 && record[CAF_RECORD_LABEL_COUNT] == CHANNELS);
    for (i = 0; i < CHANNELS; i++)
        HOLDS(record[CAF_RECORD_LABELS + i] == labels[i]);
    HOLDS(record[CAF_RECORD_HAS_HEADER] == 0 && caf_write_header(record, CAF_RECORD, film, LENGTH) == CAF_DONE);
    HOLDS(caf_write_data(record, CAF_RECORD, film, LENGTH, bytes, PAYLOAD) == CAF_DONE && record[CAF_RECORD_FINISHED] == 0);
    HOLDS(caf_finish(record, CAF_RECORD, film, LENGTH) == CAF_DONE && record[CAF_RECORD_FINISHED] == 1);
    header_places(PAYLOAD);
    HOLDS(caf_stats(record, CAF_RECORD, out, CAF_STATS_PLACES) == CAF_DONE);
    HOLDS(out[CAF_STATS_DATA_COUNT] == PAYLOAD && out[CAF_STATS_FINISHED] == 1);
}

/* as an old film has it */
static void made_little(void) {
    HOLDS(film[FLAGS_AT] == flags);
    flags |= LITTLE;
    film[FLAGS_AT] = (uint8_t)flags;
}

static void read_plainly(void) {
    HOLDS(caf_parse(film, LENGTH, out, CAF_PLAIN_PLACES) == CAF_DONE);
    HOLDS(out[CAF_PLAIN_CHUNKS] == CHUNKS && out[CAF_PLAIN_HAS_FORMAT] == 1 && out[CAF_PLAIN_ENDIANNESS] == 1);
    format_at(out + CAF_PLAIN_RATE);
    HOLDS(out[CAF_PLAIN_SIZE_POSITION] == SIZE && out[CAF_PLAIN_DATA_START] == START);
}

static void strict_places(void) {
    HOLDS(out[CAF_STRICT_CHUNKS] == CHUNKS && out[CAF_STRICT_OPEN] == 0);
    format_at(out + CAF_STRICT_RATE);
    HOLDS(out[CAF_STRICT_SIZE_POSITION] == SIZE && out[CAF_STRICT_DATA_START] == START);
    HOLDS(out[CAF_STRICT_PAYLOAD] == PAYLOAD && out[CAF_STRICT_FRAMES] == FRAMES);
}

/* Up to nine bytes into the header of the data chunk, then into the data, then past five bytes, then all. */
static void fed(void) {
    enum { HELD = 9, CUT = SIZE - 4 + HELD, LEFT = 20 };
    uint64_t feeder[CAF_FEEDER];

    HOLDS(caf_feed_begin(feeder, CAF_FEEDER) == CAF_DONE && caf_feed(feeder, CAF_FEEDER, film, CUT) == CAF_DONE);
    HOLDS(feeder[CAF_FEEDER_COUNT] == HELD && feeder[CAF_FEEDER_TOTAL] == CUT && feeder[CAF_FEEDER_CHUNKS] == CHUNKS - 1);
    format_at(feeder + CAF_FEEDER_RATE);
    /* `data` and the first half of its size, which is 0 */
    HOLDS(feeder[CAF_FEEDER_HELD] == (uint64_t)0x64617461 << 32);
    HOLDS(caf_feed(feeder, CAF_FEEDER, film + CUT, LENGTH - CUT - LEFT) == CAF_DONE);
    HOLDS(feeder[CAF_FEEDER_NUMBER] == LEFT && feeder[CAF_FEEDER_SIZE] == PAYLOAD + 4 && feeder[CAF_FEEDER_START] == START);
    HOLDS(caf_feed_passable(feeder, CAF_FEEDER) == LEFT && caf_feed_pass(feeder, CAF_FEEDER, 5) == CAF_DONE);
    HOLDS(feeder[CAF_FEEDER_NUMBER] == LEFT - 5 && feeder[CAF_FEEDER_TOTAL] == LENGTH - LEFT + 5);
    HOLDS(caf_feed(feeder, CAF_FEEDER, film + LENGTH - LEFT + 5, LEFT - 5) == CAF_DONE && caf_feed_passable(feeder, CAF_FEEDER) == 0);
    HOLDS(caf_feed_end(feeder, CAF_FEEDER, out, CAF_STRICT_PLACES) == CAF_DONE);
    strict_places();
    HOLDS(caf_feed(feeder, CAF_FEEDER, film + 8, 44) == CAF_BAD_DESC && feeder[CAF_FEEDER_PHASE] == 7 && feeder[CAF_FEEDER_NUMBER] == CAF_BAD_DESC);
}

static void resumed(void) {
    HOLDS(caf_resume(film, LENGTH, LENGTH, record, CAF_RECORD, out, 1) == CAF_DONE && out[0] == CHUNKS);
    header_places(0);
    HOLDS(record[CAF_RECORD_LAYOUT_KIND] == 0 && record[CAF_RECORD_LABEL_COUNT] == 0 && record[CAF_RECORD_FINISHED] == 0);
    HOLDS(caf_resume_counted(film, LENGTH, LENGTH, 5, out, CAF_RESUME_COUNTED_PLACES) == CAF_DONE);
    HOLDS(out[CAF_RESUME_COUNTED_STORES] == 5 && out[CAF_RESUME_COUNTED_FILE_LEN] == LENGTH && out[CAF_RESUME_COUNTED_CHUNKS] == CHUNKS);
}

/* Samples follow in the order of the file. */
static void appended(void) {
    static const int32_t one = 1;

    HOLDS(caf_write_samples(record, CAF_RECORD, film, LENGTH + SAMPLE, &one, 1) == CAF_DONE && record[CAF_RECORD_FILE_LEN] == LENGTH + SAMPLE);
    HOLDS(film[LENGTH] == 1 && film[LENGTH + 1] == 0 && film[LENGTH + 2] == 0);
}

/* ---- a film of its own: stereo, 24 bits, two frames, edit count 7, and an overview with a pair for each of them */

enum { FRAMES_AT = 92, FRAMES_END = FRAMES_AT + 12, OVERVIEW = 20 + 2 * 2 * 4 };

static uint8_t shown[FRAMES_END + OVERVIEW];

static void overviewed(void) {
    static const int32_t frames[4] = {256, -256, 512, -513};
    static const uint32_t stereo[2] = {CAF_LABEL_LEFT, CAF_LABEL_RIGHT};
    uint64_t place[CAF_OVERVIEW_PLACES], said[CAF_PICTURE_PLACES];
    int16_t pairs[8];

    HOLDS(caf_new(record, CAF_RECORD) == CAF_DONE && record[CAF_RECORD_GROUP] == 0 && record[CAF_RECORD_OVERVIEW] == 0);
    HOLDS(caf_configure_format(record, CAF_RECORD, 48000.0, 2, 24, stereo, 2) == CAF_DONE);
    HOLDS(caf_set_overview_group(record, CAF_RECORD, 1) == CAF_DONE && record[CAF_RECORD_GROUP] == 1);
    HOLDS(caf_write_header(record, CAF_RECORD, shown, sizeof shown) == CAF_DONE && record[CAF_RECORD_DATA_START] == FRAMES_AT);
    HOLDS(caf_write_samples(record, CAF_RECORD, shown, sizeof shown, frames, 4) == CAF_DONE);
    HOLDS(caf_finish(record, CAF_RECORD, shown, sizeof shown) == CAF_DONE);
    shown[FRAMES_AT - 1] = 7;
    HOLDS(caf_append_overview(record, CAF_RECORD, shown, sizeof shown) == CAF_DONE);
    HOLDS(record[CAF_RECORD_OVERVIEW] == 1 && record[CAF_RECORD_FILE_LEN] == sizeof shown);
    HOLDS(caf_find_overview(shown, sizeof shown, place, CAF_OVERVIEW_PLACES) == CAF_DONE);
    HOLDS(place[CAF_OVERVIEW_FOUND] == 1 && place[CAF_OVERVIEW_START] == FRAMES_END + 12 && place[CAF_OVERVIEW_SIZE] == OVERVIEW - 12);
    HOLDS(caf_read_overview(shown + FRAMES_END + 12, OVERVIEW - 12, 2, pairs, 8, said, CAF_PICTURE_PLACES) == CAF_DONE);
    HOLDS(said[CAF_PICTURE_EDITS] == 7 && said[CAF_PICTURE_FRAMES] == 1 && said[CAF_PICTURE_GROUPS] == 2);
    HOLDS(pairs[0] == 1 && pairs[1] == 1 && pairs[2] == -1 && pairs[3] == -1);
    HOLDS(pairs[4] == 2 && pairs[5] == 2 && pairs[6] == -3 && pairs[7] == -3);
}

/* the same film, delivered */
static void delivered(void) {
    uint64_t plan[CAF_PLAN_PLACES], length, said[CAF_WAVE_PLACES];
    uint8_t head[CAF_WAVE_HEAD], wave[CAF_WAVE_HEAD];

    HOLDS(caf_wave_plan(shown, sizeof shown, head, sizeof head, plan, CAF_PLAN_PLACES) == CAF_DONE);
    HOLDS(plan[CAF_PLAN_HEAD_SIZE] == 68 && plan[CAF_PLAN_START] == FRAMES_AT && plan[CAF_PLAN_PAYLOAD] == 12 && plan[CAF_PLAN_LITTLE] == 0);
    HOLDS(caf_to_wave(shown, sizeof shown, wave, sizeof wave, &length, 1) == CAF_DONE && length == 80 && memcmp(wave, head, 68) == 0);
    HOLDS(caf_wave_read(wave, length, said, CAF_WAVE_PLACES) == CAF_DONE);
    HOLDS(said[CAF_WAVE_RATE] == 48000 && said[CAF_WAVE_CHANNELS] == 2 && said[CAF_WAVE_MASK] == 3);
    HOLDS(said[CAF_WAVE_START] == 68 && said[CAF_WAVE_PAYLOAD] == 12);
}

/* and beside another one, of another rate and layout, open, with one frame, whose right sample is another, and a byte */
static void compared(void) {
    uint64_t told[CAF_COMPARE_PLACES], counts[2], first[CAF_SAMPLES_PLACES];
    uint8_t other[FRAMES_AT + 7];

    memcpy(other, shown, sizeof other);
    other[26] ^= 1;
    other[65] = CAF_TAG_MATRIX_STEREO >> 16;
    memset(other + FRAMES_AT - 12, 0xff, 8);
    other[FRAMES_AT + 5] ^= 1;
    HOLDS(caf_compare(shown, sizeof shown, other, sizeof other, counts, 2, told, CAF_COMPARE_PLACES) == CAF_DONE);
    HOLDS(told[CAF_COMPARE_FILE] == 0 && told[CAF_COMPARE_RATE] == 1 && told[CAF_COMPARE_FORMAT_ID] == 0 && told[CAF_COMPARE_FLAGS] == 0);
    HOLDS(told[CAF_COMPARE_BYTES_PER_PACKET] == 0 && told[CAF_COMPARE_FRAMES_PER_PACKET] == 0);
    HOLDS(told[CAF_COMPARE_CHANNELS] == 0 && told[CAF_COMPARE_BITS] == 0 && told[CAF_COMPARE_LAYOUTS] == 1);
    HOLDS(told[CAF_COMPARE_HAS_FRAME] == 1 && told[CAF_COMPARE_FRAME] == 0 && counts[0] == 0 && counts[1] == 1);
    HOLDS(told[CAF_COMPARE_SURPLUS_ONE] == 1 && told[CAF_COMPARE_SURPLUS_TWO] == 0 && told[CAF_COMPARE_REST] == 1);
    HOLDS(caf_compare(shown, sizeof shown, other, 7, counts, 2, told, CAF_COMPARE_PLACES) == CAF_CUT_SHORT && told[CAF_COMPARE_FILE] == 2);
    HOLDS(caf_compare_samples(shown + FRAMES_AT, 12, false, film, 12, true, counts, 1, first, CAF_SAMPLES_PLACES) == CAF_DONE);
    HOLDS(first[CAF_SAMPLES_HAS_FRAME] == 1 && first[CAF_SAMPLES_FRAME] == 0 && counts[0] == 4);
}

int main(void) {
    overviewed();
    compared();
    delivered();
    written();
    made_little();
    read_plainly();
    HOLDS(caf_read_strict(film, LENGTH, out, CAF_STRICT_PLACES) == CAF_DONE);
    strict_places();
    fed();
    resumed();
    appended();
    printf("places: %lu checks hold\n", checks);
    return 0;
}
