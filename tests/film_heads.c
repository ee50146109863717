/* A film that is opened again: film_examine lends the library a short head, and what it says is held here to
 * caf_resume of the whole file. The files have chunks of all kinds before their data, in any order and number,
 * with sizes that are right, wrong, huge and negative, a size field as a writer, a cut or nobody leaves it, and
 * any length. */
#include "parts.h"

#include <sys/mman.h>
#include <unistd.h>

#include "holds.h"
#include "random.h"

enum { ROUNDS = 30000, MOST = 60000 };

static uint8_t file[MOST];
static size_t length;

static void add(const void *bytes, size_t n) {
    if (n > MOST - length)
        n = MOST - length;
    memcpy(file + length, bytes, n);
    length += n;
}

static void add_header(const char *type, uint64_t size) {
    uint8_t field[8];

    film_put_big(field, size, 8);
    add(type, 4);
    add(field, 8);
}

/* Bytes that hold whatever may be taken for something. */
static void add_body(size_t n) {
    static const char *const words[] = {"data", "desc", "free", "\0\0\0\0", "\377\377\377\377"};

    for (; n >= 4; n -= 4)
        add(words[next() % 5], 4);
    add("desc", n);
}

static void add_description(void) {
    static const uint8_t rates[][8] = {
        {0x40, 0xE7, 0x70}, {0x7F, 0xF8}, {0x7F, 0xF0}, {0x40, 0xE7, 0x70}, {0xC0}, {0x40, 0xE5, 0x88, 0x80}};
    uint8_t numbers[24];
    size_t i;

    for (i = 0; i < sizeof numbers; i++)
        numbers[i] = (uint8_t)(next() % 4);
    add_header("desc", next() % 4 ? 32 : next() % 50);
    /* one in nine is no number */
    add(rates[next() % 9 == 0 ? 1 : 2 + next() % 4], 8);
    add(numbers, sizeof numbers);
}

/* Those that are passed over; rarely one that cannot be. */
static void add_other(void) {
    static const uint64_t odd[] = {UINT64_MAX, UINT64_C(1) << 63, INT64_MAX, INT64_MAX - 11, 5000000};
    size_t n = next() % 3 == 0 ? 0 : next() % (next() % 20 == 0 ? 9000 : 60);
    const char *type = next() % 4 ? "free" : next() % 2 ? "\0\0\0\0" : "chan";

    add_header(type, next() % 60 == 0 ? odd[next() % 5] : n);
    add_body(n);
}

static void add_data(void) {
    size_t n = next() % 40;
    uint64_t left = n + 4;
    const uint64_t sizes[] = {UINT64_MAX, left, left + 1, left - 1, next() % 5, UINT64_C(255) << 56 | left, left + 1000000};

    add_header("data", sizes[next() % 7]);
    add("\0\0\0\0", 4);
    add_body(n);
}

static void make(void) {
    uint64_t chunks = next() % (next() % 10 == 0 ? 400 : 6);

    length = 0;
    add(next() % 40 ? "caff\0\1\0\0" : "cafg\0\1\0\0", 8);
    while (chunks-- > 0) {
        if (next() % 3 == 0)
            add_description();
        else
            add_other();
    }
    if (next() % 8)
        add_data();
    if (next() % 3 == 0)
        length = next() % (length + 1);
    else if (length > 40 && next() % 3 == 0)
        length -= next() % 40;
}

static unsigned long resumed, found[64];

static void compare(int fd) {
    uint8_t *whole = copy_of(file, length);
    uint64_t record[CAF_RECORD], chunks, at;
    uint32_t number = caf_resume(whole, length, length, record, CAF_RECORD, &chunks, 1);
    struct film film;

    HOLDS(ftruncate(fd, 0) == 0 && pwrite(fd, file, length, 0) == (ssize_t)length);
    film_begin(&film);
    film.fd = fd;
    film.length = length;
    HOLDS(film_examine(&film) == (number == CAF_DONE ? FILM_DONE : FILM_REFUSED));
    HOLDS(film.fault.number == number);
    HOLDS(memcmp(film.record, record, sizeof record) == 0);
    found[number]++;
    if (number == CAF_DONE) {
        at = record[CAF_RECORD_SIZE_POSITION];
        HOLDS(memcmp(film.window.base + at, whole + at, FILM_FIELD) == 0);
        resumed += record[CAF_RECORD_HAS_FORMAT];
    }
    film_window_close(&film.window);
    free(whole);
}

int main(void) {
    static const uint32_t numbers[] = {CAF_DONE,     CAF_CUT_SHORT, CAF_NOT_CAF, CAF_NO_DATA,
                                       CAF_BAD_SIZE, CAF_BAD_RATE,  CAF_TAIL_AFTER_DATA};
    int fd = memfd_create("film", 0);
    size_t i;

    HOLDS(fd > 2);
    for (i = 0; i < ROUNDS; i++) {
        make();
        compare(fd);
    }
    /* each of the answers was met, and often */
    for (i = 0; i < sizeof numbers / sizeof *numbers; i++)
        HOLDS(found[numbers[i]] > ROUNDS / 200);
    HOLDS(resumed > ROUNDS / 20);
    printf("film_heads: %d files resumed as they are whole, %lu of them accepted\n", ROUNDS, found[CAF_DONE]);
    return 0;
}
