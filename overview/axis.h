/* The axis of time under a picture. */
#ifndef AXIS_H
#define AXIS_H

#include <math.h>
#include <string.h>

#include "overview.h"

/* From 0 to `end`, with a mark each `step`. In seconds; where the rate or the frames per sample say none, in samples
 * of the overview. */
struct axis {
    double end, step;
    const char *unit;
};

enum { MARK = 40 };

/* The least of 1, 2, 5, 10, 20.. and of 0.5, 0.2, 0.1.. that makes at most so many steps. */
static inline double step_of(double end, int most) {
    double least = end / most, ten = 1;

    while (ten > least)
        ten /= 10;
    while (ten * 10 <= least)
        ten *= 10;
    return least <= ten ? ten : least <= 2 * ten ? 2 * ten : least <= 5 * ten ? 5 * ten : 10 * ten;
}

static inline struct axis axis_of(const struct overview *overview, int most) {
    struct axis axis = {0, 1, " s"};
    double rate;

    memcpy(&rate, &overview->rate, sizeof rate);
    axis.end = (double)overview->groups * overview->frames_per_sample / rate;
    if (!isfinite(axis.end) || axis.end <= 0) {
        axis.end = (double)overview->groups;
        axis.unit = "";
    }
    if (axis.end > 0)
        axis.step = step_of(axis.end, most > 0 ? most : 1);
    return axis;
}

/* How many marks there are. */
static inline int axis_marks(const struct axis *axis) {
    /* the end itself has one where it is a step's: what a division left over does not take it away */
    return 1 + (int)(axis->end / axis->step + 1e-9);
}

/* Where a mark stands, of `width`, and what it says. */
static inline double axis_mark(const struct axis *axis, int mark, double width, char text[MARK]) {
    snprintf(text, MARK, "%.10g%s", mark * axis->step, axis->unit);
    return axis->end > 0 ? mark * axis->step / axis->end * width : 0;
}

#endif
