/* How a rate is written. */
#ifndef RATE_H
#define RATE_H

#include <math.h>
#include <stdbool.h>
#include <stdint.h>
#include <stdio.h>
#include <stdlib.h>
#include <string.h>

/* The rate with these 64 bits, an IEEE 754 double, in the fewest digits, from 15 on, that read back as the same. Says
 * whether it is a number of JSON, which has none for infinity. */
static inline bool rate_digits(uint64_t bits, char *text, size_t room) {
    double rate;
    int digits;

    memcpy(&rate, &bits, sizeof rate);
    for (digits = 15; digits <= 17; digits++) {
        snprintf(text, room, "%.*g", digits, rate);
        if (strtod(text, NULL) == rate)
            break;
    }
    return isfinite(rate);
}

#endif
