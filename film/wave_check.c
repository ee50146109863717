/* What the reader of WAVE files reads: it looks at the header and at the pad byte, so that a file of any length is
 * mapped and costs no more. */
#include <inttypes.h>
#include <stdio.h>
#include <unistd.h>

#include "caf_names.h"
#include "mapped.h"
#include "names.h"
#include "wave_check.h"

/* Labels that a mask can have: that of bit 0 is 1. */
enum { LABELS = 18 };

/* The bytes of a sample. */
enum { SAMPLE = 3 };

struct found {
    uint32_t number;
    uint64_t out[CAF_WAVE_PLACES];
};

int wave_fail(int status, const char *name, const char *why) {
    fputs("wave: ", stderr);
    name_plain(stderr, name);
    fprintf(stderr, ": %s\n", why);
    return status;
}

const char *wave_refusal(uint32_t number, char text[FILM_WORDS]) {
    const struct film_fault fault = {.error = FILM_REFUSED, .number = number};

    return film_words(&fault, text, FILM_WORDS);
}

static void read_bytes(const uint8_t *file, size_t len, void *into) {
    struct found *found = into;

    found->number = caf_wave_read(file, len, found->out, CAF_WAVE_PLACES);
}

/* Reads a file, or says why not. */
static const char *read_named(const char *name, struct found *found) {
    uint64_t len;
    int fd;
    const char *fault = open_file(name, &fd, &len);

    if (!fault)
        fault = use_mapped(fd, len, read_bytes, found);
    if (fd >= 0)
        close(fd);
    return fault;
}

static void print_mask(uint64_t mask) {
    const char *before = " ";
    uint32_t label;

    printf(" mask 0x%" PRIX64 " labels", mask);
    for (label = 1; label <= LABELS; label++)
        if (mask >> (label - 1) & 1) {
            printf("%s%s", before, caf_label_name(label));
            before = ",";
        }
}

static void print_read(const uint64_t *out) {
    uint64_t rate = out[CAF_WAVE_RATE], frames = out[CAF_WAVE_PAYLOAD] / (SAMPLE * out[CAF_WAVE_CHANNELS]);

    printf("%s rate %" PRIu64 " channels %" PRIu64, out[CAF_WAVE_START] == CAF_WAVE_HEAD ? "RF64" : "RIFF",
           rate, out[CAF_WAVE_CHANNELS]);
    print_mask(out[CAF_WAVE_MASK]);
    /* the rate is a whole number below 2^32, so that the last product fits */
    printf(" payload %" PRIu64 " frames %" PRIu64 " seconds %" PRIu64 ".%03" PRIu64 " ", out[CAF_WAVE_PAYLOAD], frames,
           frames / rate, frames % rate * 1000 / rate);
}

int wave_check(const char *name) {
    struct found found;
    char text[FILM_WORDS];
    const char *fault = read_named(name, &found);

    if (fault)
        return wave_fail(1, name, fault);
    if (found.number == CAF_DONE)
        print_read(found.out);
    else
        printf("%s: ", wave_refusal(found.number, text));
    name_plain(stdout, name);
    putchar('\n');
    return found.number == CAF_DONE ? 0 : 1;
}
