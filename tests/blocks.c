/* Feeds each file named to caf_feed in blocks of 1 byte, 7 bytes, 4 KiB and random lengths, some of them without bytes, and compares
 * caf_feed_end with caf_read_strict of the file mapped into memory: the number, every place of the array, and the length fed. A block
 * that may be passed over is, too (caf_feed_pass), and has to leave the record that feeding it leaves. Then the same film with parts of random
 * lengths passed over and the others fed. */
#include <fcntl.h>
#include <stdio.h>
#include <stdlib.h>
#include <string.h>
#include <sys/mman.h>
#include <sys/stat.h>
#include <unistd.h>

#include "caf.h"
#include "random.h"

enum { BEHIND = 2, RANDOM_RUNS = 8 };

static const uint64_t UNTOUCHED = 0xA5A5A5A5A5A5A5A5;

static unsigned long runs;

/* Mostly short, sometimes none, sometimes long. */
static size_t random_length(void) {
    switch (next() % 4) {
    case 0:
        return 0;
    case 1:
        return next() % 16;
    case 2:
        return next() % 300;
    default:
        return next() % 100000;
    }
}

struct answer {
    uint32_t number;
    uint64_t out[CAF_STRICT_PLACES + BEHIND];
};

static void untouched(struct answer *a) {
    for (int i = 0; i < CAF_STRICT_PLACES + BEHIND; i++)
        a->out[i] = UNTOUCHED;
}

static void fail(const char *path, size_t block, const char *what) {
    printf("blocks: %s: blocks of %zu: %s\n", path, block, what);
    exit(1);
}

/* Feeds a block, and passes over it where it may be: that comes to the same. */
static uint32_t feed_one(const char *path, size_t block, uint64_t *feeder, const uint8_t *bytes, size_t n) {
    bool may = n <= caf_feed_passable(feeder, CAF_FEEDER);
    uint64_t passed[CAF_FEEDER];

    memcpy(passed, feeder, sizeof passed);
    uint32_t number = caf_feed(feeder, CAF_FEEDER, bytes, n);
    if (may && (caf_feed_pass(passed, CAF_FEEDER, n) != number || memcmp(passed, feeder, sizeof passed) != 0))
        fail(path, block, "bytes that are passed over are not as good as fed");
    return number;
}

/* The end, twice, after a last call that gave this number. */
static void end_in(const char *path, size_t len, size_t block, const uint64_t *feeder, uint32_t number, const struct answer *mapped) {
    uint64_t before[CAF_FEEDER];
    struct answer fed;

    for (int twice = 0; twice < 2; twice++) {
        untouched(&fed);
        memcpy(before, feeder, sizeof before);
        fed.number = caf_feed_end(feeder, CAF_FEEDER, fed.out, CAF_STRICT_PLACES);
        if (memcmp(before, feeder, sizeof before) != 0)
            fail(path, block, "the end changed the record");
        if (fed.number != mapped->number || memcmp(fed.out, mapped->out, sizeof fed.out) != 0)
            fail(path, block, "another answer than the mapped reading");
    }
    if (number != CAF_DONE && number != mapped->number)
        fail(path, block, "a refusal that the mapped reading does not give");
    if (number == CAF_DONE && feeder[CAF_FEEDER_TOTAL] != len)
        fail(path, block, "another length than the file's");
    runs++;
}

/* Blocks of this length; of random lengths where it is 0. */
static void feed_in(const char *path, const uint8_t *file, size_t len, size_t block, const struct answer *mapped) {
    uint64_t feeder[CAF_FEEDER], before[CAF_FEEDER];
    uint32_t number = caf_feed_begin(feeder, CAF_FEEDER);
    size_t at = 0;

    if (number != CAF_DONE)
        fail(path, block, "no fresh record");
    while (at < len) {
        size_t n = block ? block : random_length();
        if (n > len - at)
            n = len - at;
        memcpy(before, feeder, sizeof feeder);
        uint32_t again = feed_one(path, block, feeder, file + at, n);
        if (number != CAF_DONE && (again != number || memcmp(before, feeder, sizeof feeder) != 0))
            fail(path, block, "a block after a refusal changed something");
        if (n == 0 && memcmp(before, feeder, sizeof feeder) != 0)
            fail(path, block, "a block without bytes changed the record");
        number = again;
        at += n;
    }
    end_in(path, len, block, feeder, number, mapped);
}

/* Random lengths: passed over as far as they may be, and else fed, until a refusal. */
static void pass_in(const char *path, const uint8_t *file, size_t len, const struct answer *mapped) {
    uint64_t feeder[CAF_FEEDER];
    uint32_t number = caf_feed_begin(feeder, CAF_FEEDER);

    for (size_t at = 0, n; at < len && number == CAF_DONE; at += n) {
        uint64_t most = caf_feed_passable(feeder, CAF_FEEDER);
        n = random_length();
        if (n > len - at)
            n = len - at;
        if (most > 0) {
            number = caf_feed_pass(feeder, CAF_FEEDER, n);
            n = n < most ? n : most;
        } else {
            number = caf_feed(feeder, CAF_FEEDER, file + at, n);
        }
    }
    end_in(path, len, 0, feeder, number, mapped);
}

static void compare(const char *path) {
    struct stat about;
    int fd = open(path, O_RDONLY);
    if (fd < 0 || fstat(fd, &about) != 0) {
        perror(path);
        exit(2);
    }
    size_t len = (size_t)about.st_size;
    uint8_t *file = len ? mmap(NULL, len, PROT_READ, MAP_PRIVATE, fd, 0) : (uint8_t *)"";
    if (file == MAP_FAILED) {
        perror(path);
        exit(2);
    }

    struct answer mapped;
    untouched(&mapped);
    mapped.number = caf_read_strict(file, len, mapped.out, CAF_STRICT_PLACES);
    feed_in(path, file, len, 1, &mapped);
    feed_in(path, file, len, 7, &mapped);
    feed_in(path, file, len, 4096, &mapped);
    for (int i = 0; i < RANDOM_RUNS; i++) {
        feed_in(path, file, len, 0, &mapped);
        pass_in(path, file, len, &mapped);
    }
    if (len)
        munmap(file, len);
    close(fd);
}

int main(int count, char **paths) {
    for (int i = 1; i < count; i++)
        compare(paths[i]);
    printf("blocks: %d files, %lu times in blocks, each as the mapped reading\n", count - 1, runs);
    return count > 1 ? 0 : 2;
}
