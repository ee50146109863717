/* The picture in characters: a band for each channel, as wide as the terminal, and an axis of time. Each row of a band
 * shows two levels, the upper and the lower half of its characters. */
#include <inttypes.h>
#include <stdio.h>
#include <stdlib.h>
#include <strings.h>
#include <sys/ioctl.h>
#include <unistd.h>

#include "axis.h"
#include "columns.h"
#include "names.h"
#include "overview.h"
#include "rate.h"

enum { LEAST_WIDTH = 20, MOST_WIDTH = 1000, LEAST_ROWS = 4, MOST_ROWS = 8 };

/* A mark of the axis and the next are at least so many columns apart. */
enum { MARK_WIDTH = 10 };

/* The characters: of a level in neither half, the upper, the lower and both; and those of lines. */
struct characters {
    const char *halves[4];
    const char *rule, *mark;
};

static const struct characters blocks = {{" ", "\u2580", "\u2584", "\u2588"}, "\u2500", "\u253c"};
static const struct characters ascii = {{" ", "'", ".", "#"}, "-", "+"};

/* A number of the environment, or the terminal's own, or `otherwise`. */
static int size_of(const char *variable, int terminal, int otherwise) {
    const char *text = getenv(variable);
    int number = text ? atoi(text) : 0;

    return number > 0 ? number : terminal > 0 ? terminal : otherwise;
}

static int within(int number, int least, int most) {
    return number < least ? least : number > most ? most : number;
}

/* As the locale is chosen: the first of these that is set and not empty. */
static bool is_utf8(void) {
    static const char *const variables[] = {"LC_ALL", "LC_CTYPE", "LANG"};
    const char *text = NULL, *dot;
    size_t i;

    for (i = 0; i < 3 && !(text && *text); i++)
        text = getenv(variables[i]);
    /* language, dot, characters; some set the last alone */
    dot = text ? strchr(text, '.') : NULL;
    text = dot ? dot + 1 : text;
    return text && (strncasecmp(text, "utf-8", 5) == 0 || strncasecmp(text, "utf8", 4) == 0);
}

void describe(FILE *out, const struct overview *overview) {
    char rate[32];

    rate_digits(overview->rate, rate, sizeof rate);
    fprintf(out, "overview samples %" PRIu64 ", frames per sample %" PRIu32 ", channels %" PRIu32 ", rate %s",
            overview->groups, overview->frames_per_sample, overview->channels, rate);
    if (overview->edits != overview->data_edits)
        fprintf(out, ", made at edit %" PRIu32 " of the data, which are at %" PRIu32 " now", overview->edits,
                overview->data_edits);
}

static void print_many(const char *character, int count) {
    while (count-- > 0)
        fputs(character, stdout);
}

/* Levels go from 0, the top, to 2 * rows - 1. */
static int level_of(int16_t sample, int rows) {
    return (int)((int32_t)(INT16_MAX - sample) * 2 * rows / 65536);
}

static void print_row(const struct columns *columns, uint32_t channel, int row, int rows, const struct characters *with) {
    const int upper = 2 * row, lower = 2 * row + 1;
    size_t column;
    int top, bottom;

    for (column = 0; column < columns->width; column++) {
        top = level_of(column_greatest(columns, column, channel), rows);
        bottom = level_of(column_least(columns, column, channel), rows);
        fputs(with->halves[(top <= upper && upper <= bottom) + 2 * (top <= lower && lower <= bottom)], stdout);
    }
    putchar('\n');
}

/* A line with the channel's name, and the rows. */
static void print_band(const struct overview *overview, const struct columns *columns, uint32_t channel, int rows,
                       const struct characters *with) {
    char room[CHANNEL_NAME];
    const char *name = channel_name(overview, channel, room);
    int row;

    fputs(with->rule, stdout);
    printf(" %s ", name);
    print_many(with->rule, (int)columns->width - 3 - (int)strlen(name));
    putchar('\n');
    for (row = 0; row < rows; row++)
        print_row(columns, channel, row, rows, with);
}

/* A line with the marks, and one with what they say, as far as there is a blank between. */
static void print_axis(const struct axis *axis, int width, const struct characters *with) {
    char text[MARK];
    int marks = axis_marks(axis), i, at, gone = 0;

    for (i = 0; i < marks; i++) {
        at = within((int)axis_mark(axis, i, width, text), gone, width - 1);
        print_many(with->rule, at - gone);
        fputs(with->mark, stdout);
        gone = at + 1;
    }
    print_many(with->rule, width - gone);
    putchar('\n');
    for (i = gone = 0; i < marks; i++) {
        at = (int)axis_mark(axis, i, width, text);
        at = within(at, 0, width - (int)strlen(text));
        if (i == 0 || at > gone)
            gone += printf("%*s%s", at - gone, "", text);
    }
    putchar('\n');
}

bool print_text(const struct overview *overview, char why[WHY]) {
    const struct characters *with = is_utf8() ? &blocks : &ascii;
    struct winsize terminal = {0, 0, 0, 0};
    struct columns columns;
    struct axis axis;
    uint32_t i;
    int width, rows;
    bool whole;

    ioctl(STDOUT_FILENO, TIOCGWINSZ, &terminal);
    width = within(size_of("COLUMNS", terminal.ws_col, 80), LEAST_WIDTH, MOST_WIDTH);
    rows = size_of("LINES", terminal.ws_row, 24) / (int)(overview->channels + 1) - 1;
    whole = columns_fill(&columns, overview, (size_t)width, why);
    if (whole) {
        fputs(overview->is_stored ? "in the film, " : "worked out, ", stdout);
        describe(stdout, overview);
        fputs(": ", stdout);
        name_plain(stdout, overview->name);
        putchar('\n');
        for (i = 0; i < overview->channels; i++)
            print_band(overview, &columns, i, within(rows, LEAST_ROWS, MOST_ROWS), with);
        axis = axis_of(overview, width / MARK_WIDTH);
        print_axis(&axis, width, with);
    }
    columns_free(&columns);
    return whole;
}
