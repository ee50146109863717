/* A decoder that writes a film of 5.1 channels. From the top of the project, after film/build:
 *
 *     cc -std=c11 -Wall -Wextra -Iinclude -Ifilm -o target/decode examples/decode.c target/film/libfilm.a "$(tools/archive)/libcaf.a" -pthread
 *     target/decode film.caf */
#include <stdio.h>

#include "caf_names.h"
#include "film.h"

enum { CHANNELS = 6, RATE = 48000, FRAMES = 1024 };

/* Up to 0x8000 and down again, so many times a second. */
static int32_t tooth(size_t frame, size_t times) {
    int32_t place = (int32_t)(frame * times * 0x10000 / RATE % 0x10000);

    return place < 0x8000 ? place : 0x10000 - place;
}

/* Stands for a decoder: one second of a tone that swells once in the first channel, twice in the second..
 * Gives the frames it made, 0 at the end. */
static size_t decode(int32_t *samples, size_t *at) {
    size_t i, count = RATE - *at < FRAMES ? RATE - *at : FRAMES;

    for (i = 0; i < count * CHANNELS; i++)
        samples[i] = (tooth(*at + i / CHANNELS, 880) - 0x4000) * tooth(*at + i / CHANNELS, i % CHANNELS + 1) / 65;
    *at += count;
    return count;
}

static enum film_error write_film(struct film *film, const char *path) {
    static const uint32_t labels[CHANNELS] = {CAF_LABEL_LEFT,          CAF_LABEL_RIGHT,
                                              CAF_LABEL_CENTER,        CAF_LABEL_LFE_SCREEN,
                                              CAF_LABEL_LEFT_SURROUND, CAF_LABEL_RIGHT_SURROUND};
    int32_t samples[FRAMES * CHANNELS];
    size_t at = 0, count;

    if (film_create(film, path) || film_set_format(film, RATE, CHANNELS, 24, false, false) ||
        film_set_layout_labels(film, labels, CHANNELS, CHANNELS))
        return film->fault.error;
    while ((count = decode(samples, &at)) > 0)
        if (film_append_samples(film, samples, count * CHANNELS))
            return film->fault.error;
    return film_finish(film);
}

int main(int argc, char **argv) {
    struct film film;
    char words[FILM_WORDS];
    enum film_error failed;

    if (argc != 2)
        return 2;
    failed = write_film(&film, argv[1]);
    if (failed) /* what arrived is in the file: `caf recover` closes it, film_open goes on with it */
        fprintf(stderr, "%s: %s; %llu bytes arrived\n", argv[1], film_words(&film.fault, words, sizeof words),
                (unsigned long long)film_arrived(&film));
    return film_close(&film) || failed;
}
