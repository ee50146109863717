/* Writes the example film to standard output, from C. */
#include <caf_names.h>
#include <stdio.h>

int main(void) {
    static const uint32_t labels[2] = {CAF_LABEL_LEFT, CAF_LABEL_RIGHT};
    static const int32_t samples[2] = {1, -1};
    static uint8_t file[CAF_LONGEST_HEADER + 6];
    uint64_t record[CAF_RECORD];
    uint32_t number = caf_new(record, CAF_RECORD);

    if (!number)
        number = caf_configure_format(record, CAF_RECORD, 48000, 2, 24, labels, 2);
    if (!number)
        number = caf_write_header(record, CAF_RECORD, file, sizeof file);
    if (!number)
        number = caf_write_samples(record, CAF_RECORD, file, sizeof file, samples, 2);
    if (!number)
        number = caf_finish(record, CAF_RECORD, file, sizeof file);
    if (number)
        fprintf(stderr, "%s: %s\n", caf_number_name(number), caf_number_words(number));
    else
        fwrite(file, 1, record[CAF_RECORD_FILE_LEN], stdout);
    return number != CAF_DONE;
}
