/* What differs between two films: a customer sends one back and says that it changed.
 *
 *   compare_films [--json] [--] ONE TWO
 *
 * For people a line for each thing that differs, the first film's value before the second's, in this order:
 *
 *   rate: 48000 Hz and 44100 Hz
 *   flags: 0 (big-endian) and 2 (little-endian)        the byte order is one of the flags
 *   frames per packet: 1 and 2
 *   layout: Stereo (6619138) and none                  by tag; or `described (Left, Right)`, or `bitmap 0x3`
 *   channel 1 (Left): 7 of 48000 samples differ        for each channel with such samples; its name where a layout
 *                                                      has one, and both where they are two
 *   first difference: frame 24000, at 0:00:00.500      the first frame is 0; two times where the rates make them two
 *   longer: the first, by 480 frames, 0:00:00.010
 *   after the last whole frame: 0 and 2 bytes, which differ
 *
 * and a last line: `same: 48000 frames of 2 channels, 0:00:01.000`, or `different: 7 of 96000 samples in 48000 common
 * frames`. Byte order makes no difference to a sample. Other fields of the format cannot differ between films that are
 * compared; other chunks, edit counts and an open end are no differences. A time is rounded down, and left out where the
 * rate does not say it.
 *
 * --json is one object. `names` is the two names and `state` same, different or refused. Where it is not refused:
 * `differs`, a list with those of rate, format_id, flags, bytes_per_packet, frames_per_packet, channels, bits, layout,
 * samples, frames (one film is longer) and rest that apply; each of the seven fields as a pair; `layout`, a pair of tags,
 * null for none; `frames`, the common ones; `samples`, how many differ for each channel; `channel_names`, a pair for each
 * channel, null for none; `first`, a frame or null, and `first_seconds`, a pair; `surplus`, a pair of frames, and
 * `surplus_seconds`; `rest`, a pair of bytes. Where it is refused: `number`, `word` and `file` (1, 2, or 0 for both).
 *
 * What is refused has a line on standard error with the number and its words. Films are read in blocks: one that another
 * program makes shorter meanwhile is an error, and no answer.
 *
 * Exit status, as of cmp and diff: 0 the same; 1 they differ; 2 refused, or trouble. */
#include <errno.h>
#include <inttypes.h>
#include <stdio.h>
#include <string.h>

#include "caf_names.h"
#include "films.h"
#include "mapped.h"
#include "names.h"

enum { SAME = 0, DIFFERENT = 1, TROUBLE = 2 };

static const char usage[] = "usage: compare_films [--json] [--] ONE TWO\n";

static int complain(const char *name, const char *why) {
    fputs("compare: ", stderr);
    name_plain(stderr, name);
    fprintf(stderr, ": %s\n", why);
    return TROUBLE;
}

/* All but the samples, by the films without their frames: what caf_compare says of these it says of the films. The strict
 * reading's refusals are those of the films themselves; of a film with one there is nothing else to lend. */
static void judge(struct found *found) {
    const struct side *one = &found->sides[0], *two = &found->sides[1], *of;

    found->number = caf_compare(one->head, one->head_len, two->head, two->head_len, found->counts, MOST_CHANNELS,
                                found->out, CAF_COMPARE_PLACES);
    if (found->number == CAF_DONE || found->out[CAF_COMPARE_FILE] == 0)
        return;
    of = &found->sides[found->out[CAF_COMPARE_FILE] - 1];
    if (of->number != CAF_DONE)
        found->number = of->number;
}

/* `compare: ONE: refused 8 DataPastEnd, the data size ..`; of both with their counts of channels. */
static int refuse(const struct found *found) {
    const struct side *sides = found->sides;
    uint64_t file = found->out[CAF_COMPARE_FILE], channels = sides[0].info[CAF_STRICT_CHANNELS];
    uint32_t number = found->number;

    fputs("compare: ", stderr);
    name_plain(stderr, sides[file == 2].name);
    if (file == 0) {
        fputs(" and ", stderr);
        name_plain(stderr, sides[1].name);
    }
    fprintf(stderr, ": refused %" PRIu32 " %s, %s", number, caf_number_name(number), caf_number_words(number));
    if (number == CAF_CANNOT_COMPARE)
        fprintf(stderr, ": %" PRIu64 " and %" PRIu64, channels, sides[1].info[CAF_STRICT_CHANNELS]);
    if (number == CAF_NO_ROOM)
        fprintf(stderr, ": %" PRIu64 " channels, and %d can be compared", channels, (int)MOST_CHANNELS);
    putc('\n', stderr);
    return TROUBLE;
}

/* After the last block: the films as they were opened, and the names of their channels. */
static const char *look_again(struct found *found, int *of) {
    const char *fault = NULL;

    for (*of = 0; *of < 2; ++*of)
        if ((fault = side_still_whole(&found->sides[*of])) || (fault = side_read_layout(&found->sides[*of])))
            break;
    return fault;
}

/* The samples, and how much longer one is. False where that cannot be said. */
static bool find(struct found *found) {
    struct side *one = &found->sides[0], *two = &found->sides[1];
    const char *fault;
    int of;

    found->channels = one->info[CAF_STRICT_CHANNELS];
    found->common = one->frames < two->frames ? one->frames : two->frames;
    found->out[CAF_COMPARE_SURPLUS_ONE] = one->frames - found->common;
    found->out[CAF_COMPARE_SURPLUS_TWO] = two->frames - found->common;
    if ((fault = count_samples(found, &of)) || (fault = look_again(found, &of)))
        complain(found->sides[of].name, fault);
    return !fault;
}

bool is_same(const struct found *found) {
    int i;

    for (i = 0; i < CAF_COMPARE_PLACES; i++)
        if (found->out[i] != 0 && i != CAF_COMPARE_FRAME)
            return false;
    return true;
}

static int tell(struct found *found, bool json) {
    int status;

    judge(found);
    if (found->number == CAF_DONE && !find(found))
        return TROUBLE;
    status = found->number != CAF_DONE ? refuse(found) : is_same(found) ? SAME : DIFFERENT;
    if (json)
        print_json(found);
    else if (status != TROUBLE)
        print_plain(found);
    return status;
}

static int compare(char **names, bool json) {
    static struct found found;
    const char *fault;
    int i, status = SAME;

    for (i = 0; i < 2; i++)
        if ((fault = side_open(&found.sides[i], names[i])))
            status = complain(names[i], fault);
    if (status == SAME)
        status = tell(&found, json);
    for (i = 0; i < 2; i++)
        side_close(&found.sides[i]);
    return status;
}

static int wrong_usage(void) {
    fputs(usage, stderr);
    return TROUBLE;
}

int main(int argc, char **argv) {
    bool json = false;
    int i, status;

    if (argc == 2 && strcmp(argv[1], "--help") == 0)
        return fputs(usage, stdout) < 0 || fclose(stdout) != 0 ? TROUBLE : 0;
    for (i = 1; i < argc && argv[i][0] == '-' && argv[i][1]; i++) {
        if (strcmp(argv[i], "--") == 0) {
            i++;
            break;
        }
        if (strcmp(argv[i], "--json") != 0)
            return wrong_usage();
        json = true;
    }
    if (argc - i != 2)
        return wrong_usage();
    setvbuf(stderr, NULL, _IOLBF, BUFSIZ);
    guard_mappings();
    status = compare(argv + i, json);
    /* a disk may be found full as late as here */
    if (ferror(stdout) || fclose(stdout) != 0)
        return complain("standard output", strerror(errno));
    return status;
}
