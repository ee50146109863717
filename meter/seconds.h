/* How long some frames last at a rate, exactly: in integers, since a division of doubles would round. */
#ifndef SECONDS_H
#define SECONDS_H

#include <stdint.h>

enum seconds { SECONDS_KNOWN, SECONDS_RATE_NOT_ABOVE_0, SECONDS_RATE_INFINITE, SECONDS_TOO_MANY };

/* The milliseconds of the frames, frames * 1000 / rate rounded down, for the rate with these 64 bits (an
 * IEEE 754 double). They are known where the rate is a number above 0 and they fit 64 bits. */
static inline enum seconds milliseconds_of(uint64_t frames, uint64_t rate, uint64_t *milliseconds) {
    const uint64_t hidden = UINT64_C(1) << 52;
    int exponent = (int)(rate >> 52 & 0x7ff);
    uint64_t m = rate & (hidden - 1), quotient, rest;

    if (rate >> 63 || rate == 0)
        return SECONDS_RATE_NOT_ABOVE_0;
    if (exponent == 0x7ff)
        return SECONDS_RATE_INFINITE;
    if (exponent == 0)
        exponent = 1; /* the least numbers: without the hidden bit */
    else
        m |= hidden;
    exponent -= 1075;
    /* now the rate is m * 2^exponent, and m is below 2^53, so that rest * 1000 fits */
    quotient = frames / m;
    rest = frames % m * 1000;
    if (quotient > (UINT64_MAX - 999) / 1000)
        return SECONDS_TOO_MANY; /* m is without the hidden bit, and 1074 doublings are due */
    quotient = quotient * 1000 + rest / m;
    rest %= m;
    /* frames * 1000 = quotient * m + rest: what is left is to divide by 2^exponent */
    if (exponent >= 64)
        quotient = 0;
    else if (exponent > 0)
        quotient >>= exponent;
    for (; exponent < 0; exponent++) {
        if (quotient > UINT64_MAX / 2)
            return SECONDS_TOO_MANY;
        rest *= 2;
        quotient = quotient * 2 + (rest >= m);
        if (rest >= m)
            rest -= m;
    }
    *milliseconds = quotient;
    return SECONDS_KNOWN;
}

#endif
