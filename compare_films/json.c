/* What differs, as one object of JSON. */
#include <inttypes.h>
#include <stdio.h>

#include "channel_names.h"
#include "films.h"
#include "names.h"
#include "rate.h"

/* The fields of the format and all else that can differ, in the order of caf_compare's places; NULL for a place that says
 * more of another. */
static const char *const keys[CAF_COMPARE_PLACES] = {
    [CAF_COMPARE_RATE] = "rate",
    [CAF_COMPARE_FORMAT_ID] = "format_id",
    [CAF_COMPARE_FLAGS] = "flags",
    [CAF_COMPARE_BYTES_PER_PACKET] = "bytes_per_packet",
    [CAF_COMPARE_FRAMES_PER_PACKET] = "frames_per_packet",
    [CAF_COMPARE_CHANNELS] = "channels",
    [CAF_COMPARE_BITS] = "bits",
    [CAF_COMPARE_LAYOUTS] = "layout",
    [CAF_COMPARE_HAS_FRAME] = "samples",
    [CAF_COMPARE_SURPLUS_ONE] = "frames",
    [CAF_COMPARE_SURPLUS_TWO] = "frames",
    [CAF_COMPARE_REST] = "rest",
};

static void print_differs(const uint64_t *out) {
    const char *between = "";
    int i;

    fputs(",\"differs\":[", stdout);
    for (i = 0; i < CAF_COMPARE_PLACES; i++)
        if (keys[i] && out[i] != 0) {
            printf("%s\"%s\"", between, keys[i]);
            between = ",";
        }
    putchar(']');
}

static void print_pair(const char *key, uint64_t one, uint64_t two) {
    printf(",\"%s\":[%" PRIu64 ",%" PRIu64 "]", key, one, two);
}

static void print_rates(const struct side *sides) {
    char text[32];
    int i;

    fputs(",\"rate\":[", stdout);
    for (i = 0; i < 2; i++) {
        fputs(i > 0 ? "," : "", stdout);
        /* JSON has no number for infinity */
        printf(rate_digits(sides[i].info[CAF_STRICT_RATE], text, sizeof text) ? "%s" : "\"%s\"", text);
    }
    putchar(']');
}

/* The two rows of places name the seven fields in one order. */
static void print_fields(const struct side *sides) {
    int i;

    print_rates(sides);
    for (i = CAF_COMPARE_FORMAT_ID; i <= CAF_COMPARE_BITS; i++)
        print_pair(keys[i], sides[0].info[i], sides[1].info[i]);
}

static void print_layouts(const struct side *sides) {
    int i;

    fputs(",\"layout\":[", stdout);
    for (i = 0; i < 2; i++) {
        fputs(i > 0 ? "," : "", stdout);
        if (sides[i].chan[CAF_CHAN_FOUND])
            printf("%" PRIu64, sides[i].said[CAF_SAID_TAG]);
        else
            fputs("null", stdout);
    }
    putchar(']');
}

static void print_name(const struct side *side, uint64_t channel) {
    const char *name = side->chan[CAF_CHAN_FOUND] ? channel_name_in(side->said, side->descriptions, channel) : NULL;

    if (name)
        text_json(stdout, name);
    else
        fputs("null", stdout);
}

static void print_samples(const struct found *found) {
    uint64_t c;

    fputs(",\"samples\":[", stdout);
    for (c = 0; c < found->channels; c++)
        printf("%s%" PRIu64, c > 0 ? "," : "", found->counts[c]);
    fputs("],\"channel_names\":[", stdout);
    for (c = 0; c < found->channels; c++) {
        fputs(c > 0 ? ",[" : "[", stdout);
        print_name(&found->sides[0], c);
        putchar(',');
        print_name(&found->sides[1], c);
        putchar(']');
    }
    putchar(']');
}

/* Of so many frames of each film, by its own rate; null where that does not say it. */
static void print_seconds(const struct side *sides, const char *key, uint64_t one, uint64_t two) {
    const uint64_t frames[2] = {one, two};
    uint64_t ms;
    int i;

    printf(",\"%s\":[", key);
    for (i = 0; i < 2; i++) {
        fputs(i > 0 ? "," : "", stdout);
        if (side_milliseconds(&sides[i], frames[i], &ms))
            printf("%" PRIu64 ".%03" PRIu64, ms / 1000, ms % 1000);
        else
            fputs("null", stdout);
    }
    putchar(']');
}

static void print_found(const struct found *found) {
    const struct side *sides = found->sides;
    const uint64_t *out = found->out;

    fputs(is_same(found) ? "\"same\"" : "\"different\"", stdout);
    print_differs(out);
    print_fields(sides);
    print_layouts(sides);
    printf(",\"frames\":%" PRIu64, found->common);
    print_samples(found);
    if (out[CAF_COMPARE_HAS_FRAME]) {
        printf(",\"first\":%" PRIu64, out[CAF_COMPARE_FRAME]);
        print_seconds(sides, "first_seconds", out[CAF_COMPARE_FRAME], out[CAF_COMPARE_FRAME]);
    } else {
        fputs(",\"first\":null,\"first_seconds\":[null,null]", stdout);
    }
    print_pair("surplus", out[CAF_COMPARE_SURPLUS_ONE], out[CAF_COMPARE_SURPLUS_TWO]);
    print_seconds(sides, "surplus_seconds", out[CAF_COMPARE_SURPLUS_ONE], out[CAF_COMPARE_SURPLUS_TWO]);
    print_pair("rest", sides[0].rest, sides[1].rest);
}

void print_json(const struct found *found) {
    fputs("{\"names\":[", stdout);
    text_json(stdout, found->sides[0].name);
    putchar(',');
    text_json(stdout, found->sides[1].name);
    fputs("],\"state\":", stdout);
    if (found->number == CAF_DONE)
        print_found(found);
    else
        printf("\"refused\",\"number\":%" PRIu32 ",\"word\":\"%s\",\"file\":%" PRIu64, found->number,
               caf_number_name(found->number), found->out[CAF_COMPARE_FILE]);
    fputs("}\n", stdout);
}
