/* The overview of two stereo frames, however their twelve bytes are divided into data calls, and in whatever sessions: each time the same chunk,
 * written out here. After a resume the frames are chosen anew, and the overview is worked out afresh. */
#include <stdbool.h>

#include "caf.h"
#include "holds.h"

enum { HEADER = 68, DATA = 12, CHUNK = 28, ROOM = HEADER + DATA + CHUNK };

/* 1 and -257, then 8388607 and -8388608 */
static const uint8_t data[DATA] = {0, 0, 1, 0xff, 0xfe, 0xff, 0x7f, 0xff, 0xff, 0x80, 0, 0};
/* `ovvw`, its size, edit count 0, two frames a sample; 0 and 32767, then -32768 and -2 */
static const uint8_t chunk[CHUNK] = {'o', 'v', 'v', 'w', 0, 0, 0, 0, 0,    0,    0,    16, 0, 0,
                                     0,   0,   0,   0,   0, 2, 0, 0, 0x7f, 0xff, 0x80, 0,  0xff, 0xfe};

static uint64_t record[CAF_RECORD];
static uint8_t buf[ROOM];

static void begin(void) {
    HOLDS(caf_new(record, CAF_RECORD) == CAF_DONE);
    HOLDS(caf_set_format(record, CAF_RECORD, 48000.0, 2, 24, false, false) == CAF_DONE);
    HOLDS(caf_set_overview_group(record, CAF_RECORD, 2) == CAF_DONE);
    HOLDS(caf_write_header(record, CAF_RECORD, buf, ROOM) == CAF_DONE);
}

/* The data from one place to another; bit i of the division says that a call ends after byte i. */
static void write_divided(unsigned division, size_t from, size_t to) {
    size_t i;

    for (i = from; i < to; i++)
        if (division >> i & 1 || i + 1 == to) {
            HOLDS(caf_write_data(record, CAF_RECORD, buf, ROOM, data + from, i + 1 - from) == CAF_DONE);
            from = i + 1;
        }
}

static void end(void) {
    HOLDS(caf_finish(record, CAF_RECORD, buf, ROOM) == CAF_DONE);
    HOLDS(caf_append_overview(record, CAF_RECORD, buf, ROOM) == CAF_DONE);
    HOLDS(memcmp(buf + HEADER, data, DATA) == 0 && memcmp(buf + HEADER + DATA, chunk, CHUNK) == 0);
}

static void resumed_after(size_t place) {
    uint64_t chunks;

    begin();
    write_divided(0, 0, place);
    HOLDS(caf_resume(buf, ROOM, HEADER + place, record, CAF_RECORD, &chunks, 1) == CAF_DONE);
    HOLDS(record[CAF_RECORD_GROUP] == 0);
    HOLDS(caf_set_overview_group(record, CAF_RECORD, 2) == CAF_DONE);
    write_divided(0, place, DATA);
    end();
}

int main(void) {
    unsigned division;
    size_t place;

    for (division = 0; division < 1u << (DATA - 1); division++) {
        begin();
        write_divided(division, 0, DATA);
        end();
    }
    for (place = 0; place <= DATA; place++)
        resumed_after(place);
    printf("divided: %lu checks hold\n", checks);
    return 0;
}
