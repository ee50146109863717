/* Writes the example film to the file that is named, in two sessions, from C by the film layer. */
#include <caf_names.h>
#include <film.h>
#include <stdio.h>

static const int32_t samples[2] = {1, -1};
static const uint32_t labels[2] = {CAF_LABEL_LEFT, CAF_LABEL_RIGHT};

static bool failed(struct film *film) {
    char words[FILM_WORDS];

    fprintf(stderr, "%s\n", film_words(&film->fault, words, sizeof words));
    film_close(film);
    return true;
}

int main(int argc, char **argv) {
    struct film film;

    if (argc != 2)
        return 2;
    if (film_create(&film, argv[1]) || film_set_format(&film, 48000, 2, 24, false, false) ||
        film_set_layout_labels(&film, labels, 2, 2) || film_append_samples(&film, samples, 1))
        return failed(&film);
    film_close(&film);
    if (film_open(&film, argv[1]) || film_append_samples(&film, samples + 1, 1) || film_finish(&film))
        return failed(&film);
    return film_close(&film) != FILM_DONE;
}
