/* What caf.h says of settings and of the header that they make: the longest header, the record's places of it, and what becomes of labels
 * that are not as many as the channels. */
#include "caf_names.h"
#include "holds.h"

/* labels that a record has places for */
enum { MOST = 64 };

static uint64_t record[CAF_RECORD];
static uint8_t buf[CAF_LONGEST_HEADER];

/* The longest header fits exactly the room that caf.h says. */
static void longest_header(void) {
    uint32_t labels[MOST];
    int i;

    for (i = 0; i < MOST; i++)
        labels[i] = CAF_LABEL_MONO;
    HOLDS(caf_new(record, CAF_RECORD) == CAF_DONE);
    HOLDS(caf_configure_format(record, CAF_RECORD, 48000.0, MOST, 24, labels, MOST) == CAF_DONE);
    HOLDS(caf_write_header(record, CAF_RECORD, buf, CAF_LONGEST_HEADER - 1) == CAF_NO_ROOM);
    HOLDS(caf_write_header(record, CAF_RECORD, buf, CAF_LONGEST_HEADER) == CAF_DONE);
    HOLDS(record[CAF_RECORD_FILE_LEN] == CAF_LONGEST_HEADER && record[CAF_RECORD_DATA_START] == CAF_LONGEST_HEADER);
    HOLDS(record[CAF_RECORD_SIZE_POSITION] == CAF_LONGEST_HEADER - 12);
}

/* As many labels as channels, or no layout; and what the layouts take in a header. */
static void label_counts(void) {
    static const uint32_t stereo[2] = {CAF_LABEL_LEFT, CAF_LABEL_RIGHT};

    HOLDS(caf_new(record, CAF_RECORD) == CAF_DONE);
    HOLDS(record[CAF_RECORD_FILE_LEN] == 0 && record[CAF_RECORD_SIZE_POSITION] == 0 && record[CAF_RECORD_DATA_START] == 0);
    HOLDS(caf_configure_format(record, CAF_RECORD, 48000.0, 2, 24, stereo, 2) == CAF_DONE);
    HOLDS(record[CAF_RECORD_LAYOUT_KIND] == 1 && record[CAF_RECORD_LAYOUT_TAG] == CAF_TAG_STEREO);
    HOLDS(caf_write_header(record, CAF_RECORD, buf, 91) == CAF_NO_ROOM);
    HOLDS(caf_configure_format(record, CAF_RECORD, 48000.0, 3, 24, stereo, 2) == CAF_DONE);
    HOLDS(record[CAF_RECORD_CHANNELS] == 3 && record[CAF_RECORD_LAYOUT_KIND] == 0);
    HOLDS(caf_set_layout_tag(record, CAF_RECORD, CAF_TAG_STEREO) == CAF_DONE);
    HOLDS(caf_set_layout_for_labels(record, CAF_RECORD, stereo, 1, 2) == CAF_DONE && record[CAF_RECORD_LAYOUT_KIND] == 0);
    HOLDS(caf_write_header(record, CAF_RECORD, buf, 68) == CAF_DONE && record[CAF_RECORD_DATA_START] == 68);
}

int main(void) {
    longest_header();
    label_counts();
    printf("header: %lu checks hold\n", checks);
    return 0;
}
