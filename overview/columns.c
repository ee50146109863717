/* Groups into columns, as they come: the least of the leasts, and the greatest of the greatests. */
#include "columns.h"

#include <errno.h>
#include <stdlib.h>
#include <string.h>

/* Column c of w shows the groups of g from c * g / w on and before (c + 1) * g / w, rounded down, or the one at
 * c * g / w where that is none. So group i is shown from i * w / g, rounded up, to the last column before
 * (i + 1) * w / g; where the first is behind the last, in the last. Groups are below 2^32 and columns few: nothing
 * overflows. */
static size_t last_column(const struct columns *columns, uint64_t group) {
    return (size_t)(((group + 1) * columns->width - 1) / columns->groups);
}

static size_t first_column(const struct columns *columns, uint64_t group) {
    size_t first = (size_t)((group * columns->width + columns->groups - 1) / columns->groups);
    size_t last = last_column(columns, group);

    return first < last ? first : last;
}

/* The pairs of one group into a column. */
static void merge(int16_t *column, const int16_t *pairs, uint32_t channels) {
    uint32_t i;

    for (i = 0; i < channels; i++, column += 2, pairs += 2) {
        if (pairs[0] < column[0])
            column[0] = pairs[0];
        if (pairs[1] > column[1])
            column[1] = pairs[1];
    }
}

static bool take(void *self, const int16_t *pairs, size_t count) {
    struct columns *columns = self;
    size_t each = 2 * (size_t)columns->channels, column, last;

    for (; count >= each; count -= each, pairs += each, columns->at++) {
        last = last_column(columns, columns->at);
        for (column = first_column(columns, columns->at); column <= last; column++)
            merge(columns->pairs + each * column, pairs, columns->channels);
    }
    return true;
}

bool columns_fill(struct columns *columns, const struct overview *overview, size_t width, char why[WHY]) {
    size_t count = width * overview->channels, i;

    memset(columns, 0, sizeof *columns);
    columns->width = width;
    columns->channels = overview->channels;
    columns->groups = overview->groups;
    columns->pairs = malloc(2 * count * sizeof *columns->pairs);
    if (columns->pairs == NULL) {
        snprintf(why, WHY, "%s", strerror(ENOMEM));
        return false;
    }
    /* nothing came yet: a least above a greatest */
    for (i = 0; i < count; i++) {
        columns->pairs[2 * i] = INT16_MAX;
        columns->pairs[2 * i + 1] = INT16_MIN;
    }
    return overview_stream(overview, take, columns, why);
}

void columns_free(struct columns *columns) {
    free(columns->pairs);
}
