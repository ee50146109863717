/* meter/clips.c: what it tells of each clip is what caf_read_strict says of it, at every place. Someone else may change the tray while it is
 * read: then no byte is looked at that is not in it, which valgrind sees. */
#define _DEFAULT_SOURCE
#include "../meter/entry.h"

static uint32_t read_and_changed(const uint8_t *tray, size_t len, uint64_t *out, size_t out_len);

#define caf_read_tray read_and_changed
#include "../meter/clips.c"
#undef caf_read_tray

#include "big.h"
#include "faulty_files.h"
#include "holds.h"
#include "random.h"

enum { MOST = 8, BODIES = MOST * 256 };

static uint8_t made[CAF_TRAY_COUNT + CAF_TRAY_ROW * MOST + BODIES];
static size_t length;
static struct tray_reading reading;
static unsigned long changes;

/* The change that comes once the library has read the tray: some bytes of it, mostly of the sizes in table and clips. */
static uint8_t *to_change;
static size_t change_len;

static uint32_t read_and_changed(const uint8_t *tray, size_t len, uint64_t *out, size_t out_len) {
    uint32_t number = caf_read_tray(tray, len, out, out_len);
    size_t i;

    for (i = 0; i < change_len; i++)
        to_change[next() % len] = (uint8_t)(next() % 3 ? next() % 2 * 255 : next());
    return number;
}

/* Some of the films and faulty files, one of them with a changed byte. */
static void make_tray(void) {
    static uint8_t bodies[BODIES];
    uint64_t lengths[MOST];
    size_t k, at = 0, count = next() % (MOST + 1);

    for (k = 0; k < count; k++) {
        const struct file *clip = next() % 4 ? &films[next() % COUNT(films)].file : &strict_files[next() % COUNT(strict_files)];

        memcpy(bodies + at, clip->text, clip->len);
        lengths[k] = clip->len;
        at += clip->len;
    }
    if (at > 0)
        bodies[next() % at] ^= (uint8_t)(1 << next() % 8);
    length = CAF_TRAY_COUNT + CAF_TRAY_ROW * count + at;
    HOLDS(caf_write_tray(bodies, at, lengths, count, made, sizeof made) == CAF_DONE);
}

static void as_alone(const struct reading *told, const uint8_t *row) {
    uint64_t out[CAF_STRICT_PLACES] = {0};
    size_t start = big(row, 8), size = big(row + 8, 8);

    HOLDS(told->file_len == size && told->number == caf_read_strict(made + start, size, out, CAF_STRICT_PLACES));
    HOLDS(memcmp(told->out, out, sizeof out) == 0);
}

static void left_alone(void) {
    uint8_t *tray = copy_of(made, length);
    size_t i;

    change_len = 0;
    read_tray(tray, length, &reading);
    HOLDS(reading.number == CAF_DONE && !reading.changed && reading.count == big(made, CAF_TRAY_COUNT));
    for (i = 0; i < reading.count; i++)
        as_alone(&reading.clips[i], made + CAF_TRAY_COUNT + CAF_TRAY_ROW * i);
    free(tray);
}

static void changed(void) {
    to_change = copy_of(made, length);
    change_len = 1 + next() % 8;
    read_tray(to_change, length, &reading);
    changes += reading.changed;
    free(to_change);
}

int main(void) {
    int round;

    for (round = 0; round < 20000; round++) {
        make_tray();
        left_alone();
        changed();
    }
    HOLDS(changes > 1000);
    /* no tray */
    change_len = 0;
    read_tray(made, 3, &reading);
    HOLDS(reading.number == CAF_BAD_TRAY && reading.count == 0);
    printf("clips: %lu checks hold; of 20000 trays that were changed while they were read, %lu are seen to be\n", checks, changes);
    return 0;
}
