/* The numbers, for programs: an array for the leasts and one for the greatests of each channel. The pairs stand group
 * by group, so that each array is one reading of them all: memory stays flat. */
#include <inttypes.h>
#include <stdio.h>

#include "names.h"
#include "overview.h"
#include "rate.h"

/* One array: every so many numbers one is printed. */
struct array {
    size_t step, at;
    bool is_first;
};

static bool take(void *self, const int16_t *pairs, size_t count) {
    struct array *array = self;
    size_t i;

    for (i = array->at; i < count; i += array->step) {
        printf(array->is_first ? "%d" : ",%d", pairs[i]);
        array->is_first = false;
    }
    return !ferror(stdout);
}

static bool print_array(const struct overview *overview, const char *key, size_t at, char why[WHY]) {
    struct array array = {2 * (size_t)overview->channels, at, true};

    printf("\"%s\":[", key);
    if (!overview_stream(overview, take, &array, why))
        return false;
    putchar(']');
    return true;
}

static void print_rate(uint64_t rate) {
    char digits[32];
    bool is_number = rate_digits(rate, digits, sizeof digits);

    printf(is_number ? "\"rate\":%s," : "\"rate\":\"%s\",", digits);
}

bool print_json(const struct overview *overview, char why[WHY]) {
    char name[CHANNEL_NAME];
    uint32_t i;

    fputs("{\"name\":", stdout);
    text_json(stdout, overview->name);
    printf(",\"is_stored\":%s,\"edits\":%" PRIu32 ",\"data_edits\":%" PRIu32 ",", overview->is_stored ? "true" : "false",
           overview->edits, overview->data_edits);
    print_rate(overview->rate);
    printf("\"frames_per_sample\":%" PRIu32 ",\"groups\":%" PRIu64 ",\"channels\":%" PRIu32 ",\"bands\":[",
           overview->frames_per_sample, overview->groups, overview->channels);
    for (i = 0; i < overview->channels; i++) {
        fputs(i > 0 ? ",\n{\"name\":" : "\n{\"name\":", stdout);
        text_json(stdout, channel_name(overview, i, name));
        putchar(',');
        if (!print_array(overview, "least", 2 * (size_t)i, why))
            return false;
        putchar(',');
        if (!print_array(overview, "greatest", 2 * (size_t)i + 1, why))
            return false;
        putchar('}');
    }
    fputs("\n]}\n", stdout);
    return true;
}
