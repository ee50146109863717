/* Files for the tests in C: each has one fault and, where one file can have both, the fault that a reading tests for next. */
#ifndef FAULTY_FILES_H
#define FAULTY_FILES_H

#include "caf.h"

struct file {
    uint32_t number;
    const char *text;
    size_t len;
};

#define FILE_OF(number, text) {number, text, sizeof(text) - 1}
#define CAFF "caff\0\1\0\0"
#define ZEROS "\0\0\0\0\0\0\0" /* of a size field, its last byte is missing */
#define DESC_OF(rate) "desc" ZEROS "\x20" rate "lpcm\0\0\0\0\0\0\0\6\0\0\0\1\0\0\0\2\0\0\0\x18"
#define DESC DESC_OF("\x40\xe7\x70\0\0\0\0\0")
#define NOT_A_NUMBER "\x7f\xf8\0\0\0\0\0\0"
#define NEGATIVE "\xff\xff\xff\xff\xff\xff\xff\xf4"
#define DATA(size) "data" ZEROS size "\0\0\0\0"

static const struct file plain_files[] = {
    FILE_OF(CAF_CUT_SHORT, "RIFF\0\0\0"),
    FILE_OF(CAF_NOT_CAF, "RIFF\0\0\0\0fre"),
    FILE_OF(CAF_NO_DATA, CAFF "fre"),
    FILE_OF(CAF_CUT_SHORT, CAFF "desc" ZEROS),
    FILE_OF(CAF_BAD_RATE, CAFF DESC_OF(NOT_A_NUMBER) "free" NEGATIVE),
    FILE_OF(CAF_BAD_SIZE, CAFF "free" NEGATIVE),
    FILE_OF(CAF_NO_DATA, CAFF "free" ZEROS "\x09"),
};
static const struct file resume_files[] = {
    FILE_OF(CAF_BAD_SIZE, CAFF DESC DATA("\3")),
    FILE_OF(CAF_TAIL_AFTER_DATA, CAFF DESC DATA("\4") "free"),
};
static const struct file strict_files[] = {
    FILE_OF(CAF_CUT_SHORT, "RIFF\0\2\0"),
    FILE_OF(CAF_NOT_CAF, "RIFF\0\2\0\0"),
    FILE_OF(CAF_BAD_VERSION, "caff\0\2\0\0fre"),
    FILE_OF(CAF_NO_DATA, CAFF "dat"),
    FILE_OF(CAF_CUT_SHORT, CAFF "data" ZEROS),
    FILE_OF(CAF_BAD_DESC, CAFF DATA("\3")),
    FILE_OF(CAF_SECOND_DATA, CAFF DESC DATA("\4") DATA("\3")),
    FILE_OF(CAF_BAD_SIZE, CAFF DESC "data" ZEROS "\3\0\0"),
    FILE_OF(CAF_CUT_SHORT, CAFF "desc" ZEROS "\x20" NOT_A_NUMBER "lpcm"),
    FILE_OF(CAF_BAD_RATE, CAFF DESC_OF(NOT_A_NUMBER) "data" ZEROS "\3"),
    FILE_OF(CAF_DATA_PAST_END, CAFF DESC DATA("\xff")),
};
static const struct file block_files[] = {
    FILE_OF(CAF_NOT_CAF, "RIFF\0\2\0\0"),
    FILE_OF(CAF_BAD_VERSION, "caff\0\2\0\0" DATA("\3")),
    FILE_OF(CAF_BAD_DESC, CAFF DATA("\3")),
    FILE_OF(CAF_SECOND_DATA, CAFF DESC DATA("\4") DATA("\3")),
    FILE_OF(CAF_BAD_SIZE, CAFF DESC "data" ZEROS "\3\0\0"),
    FILE_OF(CAF_BAD_RATE, CAFF DESC_OF(NOT_A_NUMBER) "data" ZEROS "\3"),
};
static const struct file end_files[] = {
    FILE_OF(CAF_NO_DATA, CAFF DESC "dat"),
    FILE_OF(CAF_CUT_SHORT, CAFF DESC "data"),
    FILE_OF(CAF_DATA_PAST_END, CAFF DESC DATA("\xff")),
};
/* what is said of a delivery: by the strict reading's layout, open, of another width, without labels */
#define DESC_16 "desc" ZEROS "\x20" "\x40\xe7\x70\0\0\0\0\0" "lpcm\0\0\0\0\0\0\0\4\0\0\0\1\0\0\0\2\0\0\0\x10"
#define CHAN(tag, count) "chan" ZEROS "\x0c" tag "\0\0\0\0" "\0\0\0" count
#define OPEN_DATA "data\xff\xff\xff\xff\xff\xff\xff\xff\0\0\0\0"
static const struct file layout_files[] = {
    FILE_OF(CAF_CUT_SHORT, CAFF DESC "chan" ZEROS "\0" OPEN_DATA),
    FILE_OF(CAF_BAD_LAYOUT, CAFF DESC CHAN("\0\0\0\0", "\1") OPEN_DATA),
};
static const struct file wave_files[] = {
    FILE_OF(CAF_NOT_CLOSED, CAFF DESC_16 OPEN_DATA),
    FILE_OF(CAF_WRONG_WIDTH, CAFF DESC_16 DATA("\4")),
    FILE_OF(CAF_NOT_FOR_WAVE, CAFF DESC DATA("\4")),
};
/* of a comparison with the good one */
#define DESC_MONO "desc" ZEROS "\x20" "\x40\xe7\x70\0\0\0\0\0" "lpcm\0\0\0\0\0\0\0\3\0\0\0\1\0\0\0\1\0\0\0\x18"
static const struct file compare_files[] = {
    FILE_OF(CAF_WRONG_WIDTH, CAFF DESC_16 DATA("\4")),
    FILE_OF(CAF_CANNOT_COMPARE, CAFF DESC_MONO DATA("\4")),
};
static const struct file stereo[] = {FILE_OF(CAF_DONE, CAFF DESC CHAN("\0\x65\0\2", "\0") DATA("\4"))};
static const struct file good[] = {FILE_OF(CAF_DONE, CAFF DESC DATA("\4"))};

/* Films without a fault, and what is read of them. A packet has 6 bytes. */
struct film {
    struct file file;
    uint64_t chunks, payload, frames;
};

static const struct film films[] = {
    {FILE_OF(CAF_DONE, CAFF DESC DATA("\4")), 2, 0, 0},
    {FILE_OF(CAF_DONE, CAFF DESC DATA("\x11") "13 bytes here"), 2, 13, 2},
    {FILE_OF(CAF_DONE, CAFF DESC "data\xff\xff\xff\xff\xff\xff\xff\xff\0\0\0\0open"), 2, 4, 0},
    {FILE_OF(CAF_DONE, CAFF DESC "free" ZEROS "\4data" DATA("\x0a") "sample" "info" ZEROS "\x0c" "data\xff\xff\xff\xff\xff\xff\xff\xff"), 4, 6, 1},
};

#define COUNT(array) (sizeof(array) / sizeof *(array))

#endif
