/* A picture's columns: for each of them and each channel the least and the greatest sample that it shows. */
#ifndef COLUMNS_H
#define COLUMNS_H

#include "overview.h"

struct columns {
    size_t width;
    uint32_t channels;
    uint64_t groups, at; /* how many there are, and how many came */
    int16_t *pairs;      /* column by column, in it channel by channel */
};

/* Where there are more groups than columns several share one; where there are fewer, each takes several. False as
 * overview_stream says; columns_free is due after either. */
bool columns_fill(struct columns *columns, const struct overview *overview, size_t width, char why[WHY]);
void columns_free(struct columns *columns);

static inline int16_t column_least(const struct columns *columns, size_t column, uint32_t channel) {
    return columns->pairs[2 * (column * columns->channels + channel)];
}

static inline int16_t column_greatest(const struct columns *columns, size_t column, uint32_t channel) {
    return columns->pairs[2 * (column * columns->channels + channel) + 1];
}

#endif
