/* The picture as plain SVG: a band for each channel with its name, the least and the greatest as a filled shape, and an
 * axis of time under them all. */
#include <inttypes.h>
#include <stdio.h>
#include <string.h>

#include "axis.h"
#include "columns.h"
#include "names.h"
#include "overview.h"

/* In pixels. Columns are one wide. */
enum {
    COLUMNS = 720,
    BAND = 60,
    GAP = 8,
    TOP = 56,
    BOTTOM = 30,
    EDGE = 16,
    RIGHT = 28,
    LETTER = 7, /* about the width of a letter of a name */
    MARK_WIDTH = 80
};

struct sheet {
    const struct overview *overview;
    struct columns columns;
    int left, bands; /* where the columns begin, and how high all bands are */
};

/* Rounded to the next. */
static int y_of(int16_t sample) {
    return (int)((((int32_t)INT16_MAX - sample) * BAND + INT16_MAX) / UINT16_MAX);
}

/* One edge of the shape, as steps that go on while the height stays: from the left along the greatest, or from the
 * right along the least. */
static void put_edge(FILE *out, const struct columns *columns, uint32_t channel, bool is_greatest) {
    size_t i, column, run = 0;
    int y, before = -1;

    for (i = 0; i < columns->width; i++, run++) {
        column = is_greatest ? i : columns->width - 1 - i;
        y = y_of(is_greatest ? column_greatest(columns, column, channel) : column_least(columns, column, channel));
        if (y == before)
            continue;
        if (run > 0)
            fprintf(out, "h%s%zu", is_greatest ? "" : "-", run);
        fprintf(out, i == 0 && is_greatest ? "M0 %d" : "V%d", y);
        before = y;
        run = 0;
    }
    fprintf(out, "h%s%zu", is_greatest ? "" : "-", run);
}

static void put_band(FILE *out, const struct sheet *sheet, uint32_t channel) {
    char room[CHANNEL_NAME];

    fprintf(out, "<g class=\"band\" transform=\"translate(%d %d)\">\n", sheet->left, TOP + (int)channel * (BAND + GAP));
    fprintf(out, "<rect width=\"%d\" height=\"%d\" fill=\"#eef2f6\"/>\n", COLUMNS, BAND);
    fprintf(out, "<text x=\"-10\" y=\"%d\" text-anchor=\"end\">", BAND / 2 + 4);
    text_xml(out, channel_name(sheet->overview, channel, room));
    fputs("</text>\n", out);
    if (sheet->overview->groups > 0) {
        fputs("<path fill=\"#2f6690\" stroke=\"#2f6690\" stroke-width=\".8\" d=\"", out);
        put_edge(out, &sheet->columns, channel, true);
        put_edge(out, &sheet->columns, channel, false);
        fputs("z\"/>\n", out);
    }
    fprintf(out, "<path stroke=\"#9fb3c3\" stroke-width=\".5\" d=\"M0 %dh%d\"/>\n</g>\n", BAND / 2, COLUMNS);
}

static void put_axis(FILE *out, const struct sheet *sheet) {
    struct axis axis = axis_of(sheet->overview, COLUMNS / MARK_WIDTH);
    int marks = axis_marks(&axis), i;
    char text[MARK];
    double x;

    fprintf(out, "<g class=\"axis\" transform=\"translate(%d %d)\" fill=\"#5b6b78\" stroke-width=\".5\">\n", sheet->left,
            TOP + sheet->bands);
    for (i = 0; i < marks; i++) {
        x = axis_mark(&axis, i, COLUMNS, text);
        fprintf(out, "<path stroke=\"#9fb3c3\" d=\"M%.1f %dv%d\"/>", x, -sheet->bands, sheet->bands + 6);
        fprintf(out, "<text x=\"%.1f\" y=\"20\" text-anchor=\"middle\">%s</text>\n", x, text);
    }
    fputs("</g>\n", out);
}

/* What stands over the bands. */
static void put_title(FILE *out, const struct overview *overview) {
    fputs("<title>", out);
    text_xml(out, overview->name);
    fputs("</title>\n<rect width=\"100%\" height=\"100%\" fill=\"#fff\"/>\n", out);
    fprintf(out, "<text x=\"%d\" y=\"24\" font-size=\"15\" font-weight=\"bold\">", EDGE);
    text_xml(out, overview->name);
    fprintf(out, "</text>\n<text x=\"%d\" y=\"41\" fill=\"#5b6b78\">", EDGE);
    describe(out, overview);
    fputs("</text>\n", out);
}

static size_t longest_name(const struct overview *overview) {
    char room[CHANNEL_NAME];
    size_t longest = 0, length;
    uint32_t i;

    for (i = 0; i < overview->channels; i++) {
        length = strlen(channel_name(overview, i, room));
        longest = length > longest ? length : longest;
    }
    return longest;
}

static void put_sheet(FILE *out, const struct sheet *sheet) {
    int width = sheet->left + COLUMNS + RIGHT, height = TOP + sheet->bands + BOTTOM;
    uint32_t i;

    fprintf(out, "<svg xmlns=\"http://www.w3.org/2000/svg\" width=\"%d\" height=\"%d\" ", width, height);
    fprintf(out, "viewBox=\"0 0 %d %d\" ", width, height);
    fputs("font-family=\"sans-serif\" font-size=\"12\" fill=\"#22303c\">\n", out);
    put_title(out, sheet->overview);
    for (i = 0; i < sheet->overview->channels; i++)
        put_band(out, sheet, i);
    put_axis(out, sheet);
    fputs("</svg>\n", out);
}

bool print_svg(FILE *out, const struct overview *overview, char why[WHY]) {
    struct sheet sheet = {.overview = overview};
    bool whole = columns_fill(&sheet.columns, overview, COLUMNS, why);

    sheet.left = EDGE + 10 + LETTER * (int)longest_name(overview);
    sheet.bands = (int)overview->channels * (BAND + GAP) - GAP;
    if (whole)
        put_sheet(out, &sheet);
    columns_free(&sheet.columns);
    return whole;
}
