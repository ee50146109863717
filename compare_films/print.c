/* What differs, for people. */
#include <inttypes.h>
#include <stdio.h>
#include <string.h>

#include "channel_names.h"
#include "films.h"
#include "rate.h"
#include "seconds.h"

/* Room for a time, and for a rate. */
enum { TEXT = 32 };

/* The labels of a described layout are listed up to so many channels. */
enum { MOST_LISTED = 64 };

static const struct field {
    int differs, place;
    const char *name;
} fields[] = {
    {CAF_COMPARE_RATE, CAF_STRICT_RATE, "rate"},
    {CAF_COMPARE_FORMAT_ID, CAF_STRICT_FORMAT_ID, "format id"},
    {CAF_COMPARE_FLAGS, CAF_STRICT_FLAGS, "flags"},
    {CAF_COMPARE_BYTES_PER_PACKET, CAF_STRICT_BYTES_PER_PACKET, "bytes per packet"},
    {CAF_COMPARE_FRAMES_PER_PACKET, CAF_STRICT_FRAMES_PER_PACKET, "frames per packet"},
    {CAF_COMPARE_CHANNELS, CAF_STRICT_CHANNELS, "channels"},
    {CAF_COMPARE_BITS, CAF_STRICT_BITS, "bits"},
};

static const char *plural(uint64_t n) {
    return n == 1 ? "" : "s";
}

bool side_milliseconds(const struct side *side, uint64_t frames, uint64_t *milliseconds) {
    return milliseconds_of(frames, side->info[CAF_STRICT_RATE], milliseconds) == SECONDS_KNOWN;
}

/* `H:MM:SS.mmm`, or nothing where the rate does not say it. */
static void time_text(const struct side *side, uint64_t frames, char text[TEXT]) {
    uint64_t ms;

    text[0] = 0;
    if (side_milliseconds(side, frames, &ms))
        snprintf(text, TEXT, "%" PRIu64 ":%02d:%02d.%03d", ms / 3600000, (int)(ms / 60000 % 60),
                 (int)(ms / 1000 % 60), (int)(ms % 1000));
}

static void print_value(const struct side *side, int place) {
    uint64_t value = side->info[place];
    char rate[TEXT];

    if (place == CAF_STRICT_RATE) {
        rate_digits(value, rate, sizeof rate);
        printf("%s Hz", rate);
    } else if (place == CAF_STRICT_FLAGS) {
        printf("%" PRIu64 " (%s)", value, value & 2 ? "little-endian" : "big-endian");
    } else {
        printf("%" PRIu64, value);
    }
}

static void print_fields(const struct found *found) {
    size_t i;

    for (i = 0; i < sizeof fields / sizeof *fields; i++)
        if (found->out[fields[i].differs]) {
            printf("%s: ", fields[i].name);
            print_value(&found->sides[0], fields[i].place);
            fputs(" and ", stdout);
            print_value(&found->sides[1], fields[i].place);
            putchar('\n');
        }
}

static const char *channel_name(const struct side *side, uint64_t channel) {
    return side->chan[CAF_CHAN_FOUND] ? channel_name_in(side->said, side->descriptions, channel) : NULL;
}

static uint32_t label_at(const struct side *side, uint64_t channel) {
    return side->descriptions[CAF_DESCRIPTION * channel + CAF_DESCRIPTION_LABEL];
}

static void print_described(const struct side *side) {
    uint64_t c, count = side->said[CAF_SAID_COUNT];
    const char *name;

    fputs("described", stdout);
    for (c = 0; c < count && count <= MOST_LISTED; c++) {
        fputs(c == 0 ? " (" : ", ", stdout);
        name = channel_name(side, c);
        if (name)
            fputs(name, stdout);
        else
            printf("label %" PRIu32, label_at(side, c));
        if (c + 1 == count)
            putchar(')');
    }
}

static void print_layout(const struct side *side) {
    uint32_t tag = (uint32_t)side->said[CAF_SAID_TAG];

    if (!side->chan[CAF_CHAN_FOUND])
        fputs("none", stdout);
    else if (tag == CAF_TAG_USE_CHANNEL_DESCRIPTIONS)
        print_described(side);
    else if (tag == CAF_TAG_USE_CHANNEL_BITMAP)
        printf("bitmap 0x%" PRIx64, side->said[CAF_SAID_BITMAP]);
    else
        printf("%s (%" PRIu32 ")", caf_tag_name(tag), tag);
}

/* Whether print_layout says the same of both. */
static bool look_alike(const struct side *one, const struct side *two) {
    uint64_t c;

    if (!one->chan[CAF_CHAN_FOUND] || !two->chan[CAF_CHAN_FOUND] || one->said[CAF_SAID_TAG] != two->said[CAF_SAID_TAG])
        return false;
    if (one->said[CAF_SAID_TAG] == CAF_TAG_USE_CHANNEL_BITMAP)
        return one->said[CAF_SAID_BITMAP] == two->said[CAF_SAID_BITMAP];
    /* T-03: as many as there are channels */
    for (c = 0; one->said[CAF_SAID_TAG] == CAF_TAG_USE_CHANNEL_DESCRIPTIONS && c < one->said[CAF_SAID_COUNT]; c++)
        if (label_at(one, c) != label_at(two, c))
            return one->said[CAF_SAID_COUNT] > MOST_LISTED;
    return true;
}

static void print_layouts(const struct found *found) {
    fputs("layout: ", stdout);
    print_layout(&found->sides[0]);
    fputs(" and ", stdout);
    print_layout(&found->sides[1]);
    if (look_alike(&found->sides[0], &found->sides[1]))
        fputs(", which differ in their bitmaps or descriptions", stdout);
    putchar('\n');
}

/* ` (Left)`, ` (Left and Right)` where the layouts say both, or nothing. */
static void print_names(const struct found *found, uint64_t channel) {
    const char *one = channel_name(&found->sides[0], channel), *two = channel_name(&found->sides[1], channel);

    if (one && two && strcmp(one, two) != 0)
        printf(" (%s and %s)", one, two);
    else if (one || two)
        printf(" (%s)", one ? one : two);
}

static void print_first(const struct found *found) {
    uint64_t frame = found->out[CAF_COMPARE_FRAME];
    char one[TEXT], two[TEXT];

    printf("first difference: frame %" PRIu64, frame);
    time_text(&found->sides[0], frame, one);
    time_text(&found->sides[1], frame, two);
    if (one[0] && two[0] && strcmp(one, two) != 0)
        printf(", at %s and %s", one, two);
    else if (one[0] || two[0])
        printf(", at %s", one[0] ? one : two);
    putchar('\n');
}

/* Gives how many samples differ in all. */
static uint64_t print_samples(const struct found *found) {
    uint64_t c, sum = 0;

    for (c = 0; c < found->channels; c++)
        if (found->counts[c] != 0) {
            printf("channel %" PRIu64, c + 1);
            print_names(found, c);
            printf(": %" PRIu64 " of %" PRIu64 " sample%s differ%s\n", found->counts[c], found->common,
                   plural(found->common), found->counts[c] == 1 ? "s" : "");
            sum += found->counts[c];
        }
    if (found->out[CAF_COMPARE_HAS_FRAME])
        print_first(found);
    return sum;
}

/* `N frames, H:MM:SS.mmm`, by the rate of one film. */
static void print_frames(const struct side *side, uint64_t frames, const char *between) {
    char text[TEXT];

    time_text(side, frames, text);
    printf("%" PRIu64 " frame%s%s%s%s", frames, plural(frames), between, text[0] ? ", " : "", text);
}

static void print_lengths(const struct found *found) {
    uint64_t one = found->out[CAF_COMPARE_SURPLUS_ONE], two = found->out[CAF_COMPARE_SURPLUS_TWO];

    if (one != 0 || two != 0) {
        printf("longer: the %s, by ", one != 0 ? "first" : "second");
        print_frames(&found->sides[one == 0], one != 0 ? one : two, "");
        putchar('\n');
    }
    if (found->out[CAF_COMPARE_REST])
        printf("after the last whole frame: %" PRIu64 " and %" PRIu64 " bytes, which differ\n", found->sides[0].rest,
               found->sides[1].rest);
}

void print_plain(const struct found *found) {
    uint64_t differing;
    char of[TEXT];

    if (is_same(found)) {
        snprintf(of, sizeof of, " of %" PRIu64 " channel%s", found->channels, plural(found->channels));
        fputs("same: ", stdout);
        print_frames(&found->sides[0], found->common, of);
        putchar('\n');
        return;
    }
    print_fields(found);
    if (found->out[CAF_COMPARE_LAYOUTS])
        print_layouts(found);
    differing = print_samples(found);
    print_lengths(found);
    printf("different: %" PRIu64 " of %" PRIu64 " samples in %" PRIu64 " common frame%s\n", differing,
           found->common * found->channels, found->common, plural(found->common));
}
