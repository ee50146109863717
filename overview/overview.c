/* The overview of a film: the picture that editors wait for.
 *
 *   overview [--] FILE                       a picture in characters, as wide as the terminal (or 80, or COLUMNS)
 *   overview --svg OUT [--force] [--] FILE   a picture in a file, OUT, which must not exist without --force
 *   overview --json [--] FILE                the numbers
 *   overview --add [--frames N] [--] FILE..  appends an overview to closed films that have none, in place
 *
 * Where the film has an overview, CAF's `ovvw` after its data, it is shown; where it has none, it is worked out and
 * shown, and nothing is written. Worked out, and added without --frames, it has 2,000 to 4,000 samples, or one for each
 * frame of a shorter film.
 *
 * A picture has a band for each channel, with the name of its label, from the least a sample can be, at the bottom, to the
 * greatest; and an axis of seconds, or of overview samples where the film does not say how many seconds they are. Blocks
 * are drawn where LC_ALL, LC_CTYPE or LANG say UTF-8, else letters. Where the data were edited since a stored overview was
 * made (their edit counts differ) the line over the picture says so.
 *
 * --json is an object: name, is_stored, edits and data_edits (the edit counts of the overview and of the data), rate,
 * frames_per_sample, groups, channels, and `bands`, for each channel an object with its name and the arrays least and
 * greatest, of one number from -32768 to 32767 for each group.
 *
 * --add leaves every byte before the overview as it was, and prints a line for each film. A film that is refused, or is in
 * use, is not changed.
 *
 * What cannot be shown or added to has a line on standard error, with the number and its words where it is refused: 1 to 8,
 * 21 and 23 of the strict reading; 1 for an overview that is cut; 25 for an open film; 24 for a film that has an overview
 * already; 27 for one without overview that is not whole frames of 24-bit integers.
 *
 * Exit status: 0 shown, or all films have one now; 1 some film was refused or could not be read or written; 2 usage, or the
 * picture or the lines could not be written. */
#include <errno.h>
#include <inttypes.h>
#include <stdlib.h>
#include <string.h>

#include "mapped.h"
#include "names.h"
#include "out.h"
#include "overview.h"
#include "progress.h"

static const char usage[] = "usage: overview [--] FILE\n"
                            "       overview --svg OUT [--force] [--] FILE\n"
                            "       overview --json [--] FILE\n"
                            "       overview --add [--frames N] [--] FILE..\n";

struct options {
    bool add, json, force;
    const char *svg;
    uint32_t frames; /* 0: they are chosen */
};

static int complain(int status, const char *name, const char *why) {
    fputs("overview: ", stderr);
    name_plain(stderr, name);
    fprintf(stderr, ": %s\n", why);
    return status;
}

/* Whether a file begins as a film does. */
static bool is_film(const char *name) {
    char type[4] = "";
    FILE *file = fopen(name, "rb");
    bool is = file != NULL && fread(type, 1, sizeof type, file) == sizeof type && memcmp(type, "caff", sizeof type) == 0;

    if (file != NULL)
        fclose(file);
    return is;
}

/* Begins the file of a picture, or says why not. No film is ever overwritten, the one that is shown least of all. */
static const char *begin_picture(struct out *out, const struct options *options) {
    const char *fault = out_begin(out, options->svg, options->force);

    if (fault || !is_film(options->svg))
        return fault;
    out_drop(out);
    return "it is a film";
}

static int draw(const struct options *options, struct overview *overview, const char *name) {
    struct out out;
    const char *fault = begin_picture(&out, options);
    char why[WHY];

    if (fault)
        return complain(2, options->svg, fault);
    if (!overview_find(overview, name, why) || !overview_ready(overview, why) || !print_svg(out.file, overview, why)) {
        out_drop(&out);
        return complain(1, name, why);
    }
    fault = out_end(&out);
    return fault ? complain(2, options->svg, fault) : 0;
}

static int print(const struct options *options, struct overview *overview, const char *name) {
    char why[WHY];

    if (overview_find(overview, name, why) && overview_ready(overview, why) &&
        (options->json ? print_json : print_text)(overview, why))
        return 0;
    /* where the output could not be written there is no more to say here */
    return why[0] ? complain(1, name, why) : 2;
}

static int show(const struct options *options, const char *name) {
    static struct overview overview = {.fd = -1};
    int status = (options->svg ? draw : print)(options, &overview, name);

    overview_close(&overview);
    return status;
}

static void tell(void *self, uint64_t done, uint64_t payload) {
    (void)self;
    progress_tell(done, payload);
}

/* What was added, as the reader finds it. */
static int print_added(const char *name) {
    static struct overview overview;
    char why[WHY];
    int status = 0;

    if (overview_find(&overview, name, why)) {
        fputs("added, ", stdout);
        describe(stdout, &overview);
        fputs(": ", stdout);
        name_plain(stdout, name);
        putchar('\n');
    } else {
        status = complain(1, name, why);
    }
    overview_close(&overview);
    return status;
}

static int add(const struct options *options, const char *name) {
    char words[FILM_WORDS];
    struct film_fault fault;
    enum film_error error;

    progress_begin(name);
    error = film_add_overview(name, options->frames, tell, NULL, &fault);
    progress_end();
    return error == FILM_DONE ? print_added(name) : complain(1, name, film_words(&fault, words, sizeof words));
}

/* A number of 32 bits from 1 on, or 0. */
static uint32_t number_of(const char *text) {
    char *end;
    unsigned long long number;

    if (strspn(text, "0123456789") != strlen(text))
        return 0;
    errno = 0;
    number = strtoull(text, &end, 10);
    return errno == 0 && number <= UINT32_MAX ? (uint32_t)number : 0;
}

/* One option, and its value where it has one: gives how many words they are, or 0 where they are wrong. */
static int option(struct options *options, char **words, int left) {
    if (strcmp(words[0], "--add") == 0)
        options->add = true;
    else if (strcmp(words[0], "--json") == 0)
        options->json = true;
    else if (strcmp(words[0], "--force") == 0)
        options->force = true;
    else if (strcmp(words[0], "--svg") == 0 && left > 1 && words[1][0])
        return (options->svg = words[1]), 2;
    else if (strcmp(words[0], "--frames") == 0 && left > 1)
        return (options->frames = number_of(words[1])) > 0 ? 2 : 0;
    else
        return 0;
    return 1;
}

/* Whether they go together, with so many names. */
static bool belong(const struct options *options, int names) {
    if (options->add + options->json + (options->svg != NULL) > 1 || (options->frames > 0 && !options->add) ||
        (options->force && !options->svg))
        return false;
    return options->add ? names > 0 : names == 1;
}

/* Gives the place of the first name, or 0 where the words are wrong. */
static int read_options(int argc, char **argv, struct options *options) {
    int i = 1, words;

    while (i < argc && argv[i][0] == '-' && argv[i][1]) {
        if (strcmp(argv[i], "--") == 0) {
            i++;
            break;
        }
        words = option(options, argv + i, argc - i);
        if (words == 0)
            return 0;
        i += words;
    }
    return belong(options, argc - i) ? i : 0;
}

int main(int argc, char **argv) {
    struct options options = {.frames = 0};
    int i = read_options(argc, argv, &options), status = 0;

    if (argc == 2 && strcmp(argv[1], "--help") == 0)
        return fputs(usage, stdout) < 0 || fclose(stdout) != 0 ? 2 : 0;
    if (i == 0) {
        fputs(usage, stderr);
        return 2;
    }
    setvbuf(stderr, NULL, _IOLBF, BUFSIZ);
    /* a line tells what was done to a film: none is to be lost if this process is killed */
    if (options.add)
        setvbuf(stdout, NULL, _IOLBF, BUFSIZ);
    guard_mappings();
    for (; i < argc; i++)
        status |= (options.add ? add : show)(&options, argv[i]);
    /* a disk may be found full as late as here */
    if (ferror(stdout) || fclose(stdout) != 0)
        return complain(2, "standard output", strerror(errno));
    return status;
}
