/* The overview of a film, as the parts of the program hand it to each other. */
#ifndef OVERVIEW_H
#define OVERVIEW_H

#include <stdbool.h>
#include <stddef.h>
#include <stdint.h>
#include <stdio.h>

#include "pairs.h"

/* More are not shown. What is kept in memory is so many times a picture's width, or the samples that are worked out; and
 * a group's place times the width fits 64 bits. */
enum { MOST_CHANNELS = 1024 };
static const uint64_t MOST_GROUPS = UINT32_MAX;

/* Room for why a film cannot be shown. */
enum { WHY = 200 };

struct overview {
    const char *name;
    int fd;
    bool is_stored; /* in the film; else it is worked out */
    uint64_t rate;  /* the 64 bits of a double */
    uint32_t channels, frames_per_sample;
    uint64_t groups;            /* overview samples for each channel */
    uint32_t edits, data_edits; /* the edit count of the data that it was made of, and theirs now */
    uint64_t start;             /* where the body of a stored one stands */
    struct film_track track;    /* where the samples stand of which one is worked out, and */
    int16_t *pairs;             /* all pairs of it */
    const char *names[MOST_CHANNELS]; /* of channels, by their labels; NULL where there is none */
};

/* Finds the overview of a film, or where it could be worked out from; or says why not (find.c). overview_close is due
 * after either. */
bool overview_find(struct overview *overview, const char *name, char why[WHY]);
void overview_close(struct overview *overview);

/* Makes it ready to be shown: works it out where it is not stored; or says why not (stream.c). */
bool overview_ready(struct overview *overview, char why[WHY]);

/* The name of a channel by its label, or by its place from 1 on (find.c). */
enum { CHANNEL_NAME = 40 };
const char *channel_name(const struct overview *overview, uint32_t channel, char name[CHANNEL_NAME]);

/* Hands on all pairs of one that is ready, in their order: each time those of one or more whole groups (stream.c).
 * False: `why` says what went wrong, or is empty where `take` wanted no more. */
bool overview_stream(const struct overview *overview, film_take_pairs *take, void *self, char why[WHY]);

/* What it is, in a few words: "overview samples 3000, frames per sample 16, channels 6, rate 48000" (text.c). */
void describe(FILE *out, const struct overview *overview);

/* The three shapes. False where the film could not be read to the end: `why` says it. */
bool print_text(const struct overview *overview, char why[WHY]);
bool print_json(const struct overview *overview, char why[WHY]);
bool print_svg(FILE *out, const struct overview *overview, char why[WHY]);

#endif
