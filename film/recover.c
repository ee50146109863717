/* Closes films that a writer left open or cut, in place.
 *
 *   recover [--dry-run] [--older-than SECONDS] [--] FILE..
 *
 * A line for each file: what it was, with its payload and frames, and what it is now. A closed file is not
 * written to. A refused one is not changed, and its line says why. With --dry-run nothing is changed, and the
 * lines say what would be. A file that can't be read or written, or that someone writes, is reported on standard
 * error, and the others are still done. Of a film that ends within its overview that chunk is taken off.
 *
 * Whether a program has a file open for writing is asked of the system. Where that can't be told (film.h says
 * where) a film that is to be closed is left alone if it was modified within the last 60 seconds. With
 * --older-than that holds for every film, with so many seconds; 0 asks for no age.
 *
 * A name with control characters, quotation marks or backslashes is printed in quotation marks, with \n, \t,
 * \", \\ and \xHH.
 *
 * Exit status: 0 all are closed now, or would be; 1 some were refused, or could not be read or written; 2 no
 * file was named, or the lines could not be written. */
#include <inttypes.h>
#include <stdio.h>
#include <string.h>

#include "caf_names.h"
#include "film.h"
#include "names.h"

struct options {
    bool dry_run, aged;
    uint32_t older_than; /* seconds, where `aged` */
};

static void print_was(const struct film_report *report) {
    switch (report->state) {
    case FILM_CLOSED:
        fputs("closed already", stdout);
        break;
    case FILM_OPEN:
        fputs("open", stdout);
        break;
    case FILM_CUT_IN_FINISH:
        printf("cut in its finish (or closed with payload %" PRIu64 " and shortened since)",
               report->size_field - 4);
        break;
    case FILM_CUT_IN_REOPEN:
        fputs("cut in its reopening", stdout);
        break;
    case FILM_CUT_OVERVIEW:
        printf("cut in its overview, of which %" PRIu64 " bytes are there", report->cut);
        break;
    case FILM_SHORTENED:
        printf("shorter than its size field says, which is payload %" PRIu64, report->size_field - 4);
        break;
    default:
        printf("with size field %016" PRIX64 ", which no cut leaves", report->size_field);
    }
    if (report->number == CAF_DONE)
        printf(", payload %" PRIu64 " frames %" PRIu64, report->payload, report->frames);
    else
        printf(", number %" PRIu32 " %s", report->number, caf_number_name(report->number));
}

static void print_now(const struct film_report *report, bool dry_run) {
    if (report->state == FILM_CLOSED) {
        fputs("; left as it is", stdout);
        if (report->tail > 0)
            printf(", with %" PRIu64 " bytes of other chunks after its data", report->tail);
        return;
    }
    printf("; %s closed%s, payload %" PRIu64 " frames %" PRIu64, dry_run ? "would be" : "now",
           report->state == FILM_CUT_OVERVIEW ? " without it" : "", report->payload_now, report->frames_now);
}

/* The name stands last, as in the meter's lines: whatever it says, the line begins with what was found. */
static void end_line(const char *name) {
    fputs(": ", stdout);
    name_plain(stdout, name);
    putchar('\n');
}

/* 0 the film is closed now, or would be; 1 it is not. */
static int recover(const char *name, const struct options *options) {
    struct film_report report;
    char words[FILM_WORDS];

    switch (options->aged ? film_recover_older(name, options->dry_run, options->older_than, &report)
                          : film_recover(name, options->dry_run, &report)) {
    case FILM_DONE:
        print_was(&report);
        print_now(&report, options->dry_run);
        end_line(name);
        return 0;
    case FILM_REFUSED:
        printf("%s; left as it is", film_words(&report.fault, words, sizeof words));
        end_line(name);
        return 1;
    default:
        fputs("recover: ", stderr);
        name_plain(stderr, name);
        fprintf(stderr, ": %s\n", film_words(&report.fault, words, sizeof words));
        return 1;
    }
}

static const char usage[] = "usage: recover [--dry-run] [--older-than SECONDS] [--] FILE..\n";

/* Decimal digits, below 2^32. */
static bool is_number(const char *text, uint32_t *number) {
    uint64_t sum = 0;
    const char *digit;

    for (digit = text; *digit >= '0' && *digit <= '9' && sum <= UINT32_MAX; digit++)
        sum = 10 * sum + (uint64_t)(*digit - '0');
    *number = (uint32_t)sum;
    return digit > text && *digit == '\0' && sum <= UINT32_MAX;
}

/* Gives the place of the first name, or argc where the options are wrong. */
static int read_options(int argc, char **argv, struct options *options) {
    int i;

    for (i = 1; i < argc && argv[i][0] == '-' && argv[i][1] != '\0'; i++) {
        if (strcmp(argv[i], "--") == 0)
            return i + 1;
        if (strcmp(argv[i], "--dry-run") == 0)
            options->dry_run = true;
        else if (strcmp(argv[i], "--older-than") == 0 && i + 1 < argc &&
                 is_number(argv[i + 1], &options->older_than))
            options->aged = true, i++;
        else
            return argc;
    }
    return i;
}

int main(int argc, char **argv) {
    struct options options = {false, false, 0};
    int i = read_options(argc, argv, &options), status = 0;

    if (argc == 2 && strcmp(argv[1], "--help") == 0)
        return fputs(usage, stdout) < 0 || fclose(stdout) != 0 ? 2 : 0;
    if (i >= argc) {
        fputs(usage, stderr);
        return 2;
    }
    /* a line tells what was done to a file: none is to be lost if this process is killed */
    setvbuf(stdout, NULL, _IOLBF, 0);
    for (; i < argc; i++)
        status |= recover(argv[i], &options);
    if (fflush(stdout) != 0 || ferror(stdout)) {
        fputs("recover: the lines could not be written\n", stderr);
        return 2;
    }
    return status;
}
