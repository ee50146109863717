/* The CAF file layer, for C. Link with libcaf.a or libcaf.so. Of the C library it needs memcpy, memmove
 * and memset and nothing else; it takes no memory of its own, keeps nothing between two calls and makes no call of
 * the system. caf_names.h has names for labels, tags and numbers.
 *
 * A slice is a pointer and a count of elements. With a count of 0 the pointer may be anything, NULL
 * too. Slices that one call is lent must not overlap where the call writes to one of them, and
 * nothing else may change them while the call runs. Every call takes any contents and any count that an
 * array can have: elements times their size stay below 2^63 bytes.
 *
 * Every call but caf_feed_passable gives back a number: CAF_DONE, or the refusal that applies first.
 * "Numbers" below are all the refusals that a call gives, in the order in which it tests for them; docs/FORMAT.md says of each
 * when it applies. No call takes more than CAF_STACK bytes of stack. */
#ifndef CAF_H
#define CAF_H

#include <stdbool.h>
#include <stddef.h>
#include <stdint.h>

#ifdef __cplusplus
extern "C" {
#endif

enum caf_number {
    CAF_DONE = 0,
    CAF_CUT_SHORT = 1,
    CAF_NOT_CAF = 2,
    CAF_NO_DATA = 3,
    CAF_BAD_SIZE = 4,
    CAF_BAD_RATE = 5,
    CAF_BAD_VERSION = 6,
    CAF_BAD_DESC = 7,
    CAF_DATA_PAST_END = 8,
    CAF_DATA_ENDS_EARLY = 9, /* no longer given */
    CAF_FINISHED = 10,
    CAF_NO_HEADER = 11,
    CAF_HEADER_ALREADY = 12,
    CAF_NO_FORMAT = 13,
    CAF_NO_ROOM = 14,
    CAF_PACKET_TOO_BIG = 15,
    CAF_BAD_LABEL = 16,
    CAF_TOO_MANY_LABELS = 17,
    CAF_BAD_TAG = 18,
    CAF_BAD_WRITER = 19,
    CAF_ODD_LENGTH = 20,
    CAF_TOO_LONG = 21,
    CAF_BAD_LAYOUT = 22,
    CAF_SECOND_DATA = 23,
    CAF_TAIL_AFTER_DATA = 24,
    CAF_NOT_CLOSED = 25,
    CAF_NO_GROUP = 26,
    CAF_WRONG_WIDTH = 27,
    CAF_BAD_TRAY = 28,
    CAF_NOT_FOR_WAVE = 29,
    CAF_CANNOT_COMPARE = 30,
    CAF_LITTLE_RETIRED = 31,
    CAF_BAD_WAVE = 32,
    CAF_DATA_BEGUN = 33
};

/* Bytes of stack that a caller must have left, on x86-64. tests/stack prints what each call takes. */
enum { CAF_STACK = 4096 };

/* Bytes of the longest header, that of 64 described channels. A layout by tag makes 92, no layout 68. */
enum { CAF_LONGEST_HEADER = 1372 };

/* ---- the readings */

/* Places in the array that caf_parse fills. The seven numbers of the format are 0 where
 * CAF_PLAIN_HAS_FORMAT is 0. */
enum caf_plain_place {
    CAF_PLAIN_CHUNKS = 0,     /* whole chunk headers met */
    CAF_PLAIN_HAS_FORMAT = 1, /* 1, or 0 where the file has no `desc` */
    CAF_PLAIN_RATE = 2,       /* the 64 bits of the rate, an IEEE 754 double */
    CAF_PLAIN_FORMAT_ID = 3,
    CAF_PLAIN_FLAGS = 4,
    CAF_PLAIN_BYTES_PER_PACKET = 5,
    CAF_PLAIN_FRAMES_PER_PACKET = 6,
    CAF_PLAIN_CHANNELS = 7,
    CAF_PLAIN_BITS = 8,
    CAF_PLAIN_ENDIANNESS = 9, /* 0 big, 1 little */
    CAF_PLAIN_SIZE_POSITION = 10,
    CAF_PLAIN_DATA_START = 11,
    CAF_PLAIN_PLACES = 12
};

/* The plain reading of a file. Done: writes out[0..11]. Refused: writes out[CAF_PLAIN_CHUNKS] and
 * nothing else. With fewer than CAF_PLAIN_PLACES places: CAF_NO_ROOM, and writes nothing. It never
 * writes after out[11], and not to the file.
 *
 * Numbers: 14; 1, 2 for the file header; then chunk by chunk 3, 1, 5, 4, 3. */
uint32_t caf_parse(const uint8_t *file, size_t file_len, uint64_t *out, size_t out_len);

/* Places in the array that caf_read_strict fills. */
enum caf_strict_place {
    CAF_STRICT_CHUNKS = 0, /* whole chunk headers met, those after the data too */
    CAF_STRICT_RATE = 1,   /* the 64 bits of the rate, an IEEE 754 double */
    CAF_STRICT_FORMAT_ID = 2,
    CAF_STRICT_FLAGS = 3,
    CAF_STRICT_BYTES_PER_PACKET = 4,
    CAF_STRICT_FRAMES_PER_PACKET = 5,
    CAF_STRICT_CHANNELS = 6,
    CAF_STRICT_BITS = 7,
    CAF_STRICT_SIZE_POSITION = 8,
    CAF_STRICT_DATA_START = 9,
    CAF_STRICT_PAYLOAD = 10, /* bytes of audio */
    CAF_STRICT_OPEN = 11,    /* 1 open, 0 closed */
    CAF_STRICT_FRAMES = 12,
    CAF_STRICT_PLACES = 13
};

/* The strict reading of a file. It looks at the file header, at chunk headers and at the body of `desc`,
 * and at no other byte of the file. Done: writes out[0..12]. Refused: writes out[CAF_STRICT_CHUNKS] and nothing
 * else. With fewer than CAF_STRICT_PLACES places: CAF_NO_ROOM, and writes nothing. It never writes
 * after out[12], and not to the file.
 *
 * Chunks may follow closed data. A closed file has some where
 * out[CAF_STRICT_DATA_START] + out[CAF_STRICT_PAYLOAD] is below file_len; they are no payload. The
 * size field alone says where the data end: one of 4 gives a payload of 0, whatever follows it.
 *
 * Numbers: 14; 1, 2, 6 for the file header; then chunk by chunk 3, 1, 7, 23, 4, 1, 5, 8. */
uint32_t caf_read_strict(const uint8_t *file, size_t file_len, uint64_t *out, size_t out_len);

/* ---- the strict reading of a film that comes in blocks
 *
 * For films of any length, in blocks of any length: no block is kept, and a block costs its chunk
 * headers, not its bytes. However the film is cut, blocks without bytes included, caf_feed_end gives
 * what caf_read_strict gives for the blocks joined.
 *
 *     uint64_t feeder[CAF_FEEDER], out[CAF_STRICT_PLACES];
 *     caf_feed_begin(feeder, CAF_FEEDER);
 *     while ((n = read(fd, block, sizeof block)) > 0 &&
 *            caf_feed(feeder, CAF_FEEDER, block, (size_t)n) == CAF_DONE)
 *         ;
 *     number = caf_feed_end(feeder, CAF_FEEDER, out, CAF_STRICT_PLACES);
 *
 * (A read that fails is not the end of a film: look at n before caf_feed_end is believed.)
 *
 * Whoever can move on in a file of `length` bytes reads little more than its chunk headers:
 *
 *     for (at = 0; at < length; at += (uint64_t)n) {
 *         skip = caf_feed_passable(feeder, CAF_FEEDER);
 *         skip = skip < length - at ? skip : length - at;
 *         caf_feed_pass(feeder, CAF_FEEDER, skip);
 *         at = (uint64_t)lseek(fd, (off_t)skip, SEEK_CUR);
 *         if ((n = read(fd, block, sizeof block)) <= 0 ||
 *             caf_feed(feeder, CAF_FEEDER, block, (size_t)n) != CAF_DONE)
 *             break;
 *     }
 *
 * Bytes passed over count as fed, so that none may be after the end of the file.
 *
 * The caller keeps the feeding record, CAF_FEEDER numbers. They are the library's own: the places are
 * named for tests. An array of another length, or one whose numbers contradict each other
 * (docs/DECISIONS.md lists what is tested), is an unsound record: CAF_BAD_WRITER, and the array keeps
 * its contents. Numbers that pass these tests are taken at their word. */
enum caf_feeder_place {
    CAF_FEEDER_PHASE = 0,     /* 0 to 10: what is waited for; 7 after a refusal */
    CAF_FEEDER_RATE = 1,      /* the format, once it was read, in the order of caf_strict_place */
    CAF_FEEDER_FORMAT_ID = 2, /* this and the five after it: 32 bits */
    CAF_FEEDER_NUMBER = 8,    /* bytes of a body or of closed data to come, or the refusal */
    CAF_FEEDER_SIZE = 9,      /* the size field of a data chunk, unless it is open */
    CAF_FEEDER_START = 10,    /* where the data start */
    CAF_FEEDER_COUNT = 11,    /* bytes held of a header or description that a block cut in two */
    CAF_FEEDER_TOTAL = 12,    /* bytes fed */
    CAF_FEEDER_CHUNKS = 13,   /* whole chunk headers met */
    CAF_FEEDER_HELD = 14,     /* the bytes held, eight in a number */
    CAF_FEEDER = 18
};

/* A record that no byte was fed. Writes feeder[0..17]. An array of another length: CAF_BAD_WRITER,
 * and writes nothing.
 *
 * Numbers: 19. */
uint32_t caf_feed_begin(uint64_t *feeder, size_t feeder_len);

/* Feeds a block. Writes the next record, also where it gives a refusal: one that the bytes so far are
 * enough for, or CAF_TOO_LONG for more than 2^63 - 1 bytes in all. After a refusal further blocks change
 * nothing and give the same number.
 *
 * Numbers: 19; 2, 6 for the file header; then chunk by chunk 7, 23, 4, 5; 21. */
uint32_t caf_feed(uint64_t *feeder, size_t feeder_len, const uint8_t *block, size_t block_len);

/* How many of the next bytes nothing depends on: the rest of a chunk that is skipped or of the audio. 0
 * where the next byte is looked at, after a refusal, and for an unsound record. Only reads. */
uint64_t caf_feed_passable(const uint64_t *feeder, size_t feeder_len);

/* As if n bytes were fed that are not at hand. With n above caf_feed_passable only so many are passed
 * over. Writes the next record.
 *
 * Numbers: 19; what a block gave, 2, 6, 7, 23, 4, 5 or 21. */
uint32_t caf_feed_pass(uint64_t *feeder, size_t feeder_len, uint64_t n);

/* The answer for all that was fed; fills out as caf_read_strict does. The record is only read, so
 * that more may be fed afterwards, and a second end answers the same. An unsound record:
 * CAF_BAD_WRITER, and a count of 0. With fewer than CAF_STRICT_PLACES places: CAF_NO_ROOM, and writes
 * nothing.
 *
 * Numbers: 14, 19; what a block gave, 2, 6, 7, 23, 4, 5 or 21; then 3, 1, 8. */
uint32_t caf_feed_end(const uint64_t *feeder, size_t feeder_len, uint64_t *out, size_t out_len);

/* ---- a tray of clips
 *
 * A tray holds short files, its clips: the count of them in four bytes; a table with a row of sixteen for
 * each, where it begins, counted from the start of the tray, and how many bytes it has, in eight each; and
 * their bodies. All numbers are big-endian. Clips may overlap and may be empty, and bytes of the bodies
 * may lie in none.
 *
 *     number = caf_read_tray(tray, tray_len, out, CAF_CLIP * CAF_TRAY_MOST);
 *     count = number == CAF_DONE ? tray[2] << 8 | tray[3] : 0;
 *     for (i = 0; i < count; i++)
 *         if (out[CAF_CLIP * i + CAF_CLIP_NUMBER] == CAF_DONE)
 *             payload += out[CAF_CLIP * i + CAF_CLIP_PAYLOAD];
 *
 * The format of a clip that is accepted stands in the clip itself: the body of `desc` is its bytes 20 to 51. */
enum {
    CAF_TRAY_MOST = 4096, /* clips of a tray */
    CAF_TRAY_COUNT = 4,   /* bytes of the count */
    CAF_TRAY_ROW = 16     /* bytes of a row */
};

/* Places of one clip in the array that caf_read_tray fills, CAF_CLIP for each. */
enum caf_clip_place {
    CAF_CLIP_NUMBER = 0,  /* what caf_read_strict gives for the clip as a file of its own, where it has room */
    CAF_CLIP_CHUNKS = 1,  /* its CAF_STRICT_CHUNKS */
    CAF_CLIP_PAYLOAD = 2, /* its CAF_STRICT_PAYLOAD; 0 for a clip that is refused */
    CAF_CLIP_FRAMES = 3,  /* its CAF_STRICT_FRAMES; 0 for a clip that is refused */
    CAF_CLIP = 4
};

/* The strict reading of every clip. Done: writes CAF_CLIP numbers for each, in the order of the rows; the
 * places after them keep their contents. A clip that is refused has its number there, and refuses nothing
 * else. Refused: writes nothing. In this order:
 *   CAF_BAD_TRAY  the count or the table is cut; the count is above CAF_TRAY_MOST; a clip, also an empty
 *                 one, begins inside the table or ends after the tray;
 *   CAF_NO_ROOM   fewer than CAF_CLIP * count places.
 *
 * Numbers: 28, 14. */
uint32_t caf_read_tray(const uint8_t *tray, size_t tray_len, uint64_t *out, size_t out_len);

/* Makes a tray of clips that stand joined in `bodies`; `lengths` are theirs, in their order. What is in
 * them is not looked at. Done: writes CAF_TRAY_COUNT + CAF_TRAY_ROW * clip_count + bodies_len bytes to out;
 * those after them keep their contents. Refused: writes nothing. In this order:
 *   CAF_BAD_TRAY  more than CAF_TRAY_MOST clips; lengths that do not add up to bodies_len;
 *   CAF_NO_ROOM   fewer bytes in out.
 *
 * Numbers: 28, 14. */
uint32_t caf_write_tray(const uint8_t *bodies, size_t bodies_len, const uint64_t *lengths, size_t clip_count,
                        uint8_t *out, size_t out_len);

/* ---- layouts */

/* Places in the array that caf_layout_for_labels fills. */
enum caf_layout_place {
    CAF_LAYOUT_KIND = 0, /* 1 a tag, 2 descriptions */
    CAF_LAYOUT_TAG = 1,  /* the tag of the first row with exactly these labels; 0 for descriptions */
    CAF_LAYOUT_PLACES = 2
};

/* The layout that a writer would take for these labels and as many channels. It does not ask whether
 * the labels are known, nor whether a record has places for them. Writes out[0..1]. With fewer than
 * CAF_LAYOUT_PLACES places: CAF_NO_ROOM, and writes nothing.
 *
 * Numbers: 14. */
uint32_t caf_layout_for_labels(const uint32_t *labels, size_t label_count, uint64_t *out, size_t out_len);

/* ---- the layout that a file says
 *
 *     number = caf_read_strict(file, file_len, info, CAF_STRICT_PLACES);
 *     caf_find_chan(file, file_len, place, CAF_CHAN_PLACES);
 *     if (number == CAF_DONE && place[CAF_CHAN_FOUND])
 *         number = caf_read_chan(file + place[CAF_CHAN_START], place[CAF_CHAN_SIZE],
 *                                (uint32_t)info[CAF_STRICT_CHANNELS], out, out_len, said, CAF_SAID_PLACES);
 */

/* Places in the array that caf_find_chan fills. */
enum caf_chan_place {
    CAF_CHAN_FOUND = 0, /* 1, or 0 where there is none: then the other two are 0 as well */
    CAF_CHAN_START = 1, /* where in the file the body stands */
    CAF_CHAN_SIZE = 2,  /* how many bytes it has */
    CAF_CHAN_PLACES = 3
};

/* The first `chan` before the data. It goes by the sizes of chunk headers, looks at no other byte and
 * refuses no file: whether the bytes are one is caf_read_strict's to say. A place that it finds lies
 * within the file; a chunk that runs past the end ends the search. Writes out[0..2]. With fewer than
 * CAF_CHAN_PLACES places: CAF_NO_ROOM, and writes nothing.
 *
 * Numbers: 14. */
uint32_t caf_find_chan(const uint8_t *file, size_t file_len, uint64_t *out, size_t out_len);

/* Places in the array `said` of caf_read_chan. */
enum caf_said_place {
    CAF_SAID_TAG = 0,
    CAF_SAID_BITMAP = 1,
    CAF_SAID_COUNT = 2,       /* how many channels are described */
    CAF_SAID_ORDER_COUNT = 3, /* channels in the order that the tag stands for; 0 where it names no row */
    CAF_SAID_ORDER = 4,       /* the labels of that order, and zeros up to eight */
    CAF_SAID_PLACES = 12
};

/* Places of one description in the array `out` of caf_read_chan, CAF_DESCRIPTION for each. */
enum caf_description_place {
    CAF_DESCRIPTION_LABEL = 0,
    CAF_DESCRIPTION_KNOWN = 1, /* 1 where the label is one of the 47, else 0 */
    CAF_DESCRIPTION_FLAGS = 2,
    CAF_DESCRIPTION_COORDINATES = 3, /* three, each by its 32 bits, an IEEE 754 float */
    CAF_DESCRIPTION = 6
};

/* What the body of a `chan` says. `channels` is the count of channels in `desc`. Done: writes
 * said[0..11], and to out the descriptions one after the other; the places after them keep their
 * contents. Refused: writes nothing. In this order:
 *   CAF_NO_ROOM     fewer than CAF_SAID_PLACES places in `said`;
 *   CAF_CUT_SHORT   a body of fewer than 12 bytes;
 *   CAF_BAD_LAYOUT  a body that is not 12 + 20 * n bytes long, n being its count of descriptions; tag 0
 *                   where n is not `channels`; any other tag but 65536 whose low half is not `channels`;
 *   CAF_NO_ROOM     fewer than CAF_DESCRIPTION * n places in `out`.
 * Tags, labels and bitmaps that are none of CAF's are given as they stand.
 *
 * Numbers: 14, 1, 22, 14. */
uint32_t caf_read_chan(const uint8_t *body, size_t body_len, uint32_t channels,
                       uint32_t *out, size_t out_len, uint64_t *said, size_t said_len);

/* ---- the overview that a file has
 *
 *     number = caf_read_strict(file, file_len, info, CAF_STRICT_PLACES);
 *     caf_find_overview(file, file_len, place, CAF_OVERVIEW_PLACES);
 *     if (number == CAF_DONE && place[CAF_OVERVIEW_FOUND])
 *         number = caf_read_overview(file + place[CAF_OVERVIEW_START], place[CAF_OVERVIEW_SIZE],
 *                                    (uint32_t)info[CAF_STRICT_CHANNELS], pairs, pairs_len, said, CAF_PICTURE_PLACES);
 */

/* Places in the array that caf_find_overview fills. */
enum caf_overview_place {
    CAF_OVERVIEW_FOUND = 0, /* 1, or 0 where there is none: then the other two are 0 as well */
    CAF_OVERVIEW_START = 1, /* where in the file the body stands */
    CAF_OVERVIEW_SIZE = 2,  /* how many bytes it has */
    CAF_OVERVIEW_PLACES = 3
};

/* The first `ovvw` after the data. It goes by the sizes of chunk headers, looks at no other byte and
 * refuses no file: whether the bytes are one is caf_read_strict's to say. A place that it finds lies
 * within the file; a chunk that runs past the end, as open data do, ends the search. Writes out[0..2].
 * With fewer than CAF_OVERVIEW_PLACES places: CAF_NO_ROOM, and writes nothing.
 *
 * Numbers: 14. */
uint32_t caf_find_overview(const uint8_t *file, size_t file_len, uint64_t *out, size_t out_len);

/* Places in the array `said` of caf_read_overview. */
enum caf_picture_place {
    CAF_PICTURE_EDITS = 0,  /* the edit count of the data that it was made of */
    CAF_PICTURE_FRAMES = 1, /* frames per overview sample */
    CAF_PICTURE_GROUPS = 2, /* overview samples for each channel */
    CAF_PICTURE_PLACES = 3
};

/* What the body of an `ovvw` shows. `channels` is the count of channels in `desc`. Done: writes
 * said[0..2], and to out for each overview sample and each channel the least and the greatest sample;
 * the places after them keep their contents. Refused: writes nothing. In this order:
 *   CAF_NO_ROOM    fewer than CAF_PICTURE_PLACES places in `said`;
 *   CAF_CUT_SHORT  a body of fewer than 8 bytes, no channels, or a group that is not whole;
 *   CAF_NO_ROOM    fewer places in `out` than the body has numbers: (body_len - 8) / 2.
 *
 * Numbers: 14, 1, 14. */
uint32_t caf_read_overview(const uint8_t *body, size_t body_len, uint32_t channels,
                           int16_t *out, size_t out_len, uint64_t *said, size_t said_len);

/* ---- two files compared
 *
 *     uint64_t counts[CHANNELS], out[CAF_COMPARE_PLACES];
 *
 *     number = caf_compare(one, one_len, two, two_len, counts, CHANNELS, out, CAF_COMPARE_PLACES);
 *
 * A sample is its 24 bits, by the byte order of its own file. Files are compared by the format, the layout
 * (the first `chan` before the data) and the payload; other chunks, edit counts and an open end are no
 * differences. Swapping two files that are compared swaps the two places of the surplus and nothing else.
 */

/* Places in the array that caf_compare fills. */
enum caf_compare_place {
    CAF_COMPARE_FILE = 0, /* refused: 1 or 2, the file that the number is of, or 0 where it is of both */
    CAF_COMPARE_RATE = 1, /* 1 where the fields differ, else 0; the rate by its bits */
    CAF_COMPARE_FORMAT_ID = 2,
    CAF_COMPARE_FLAGS = 3,
    CAF_COMPARE_BYTES_PER_PACKET = 4,
    CAF_COMPARE_FRAMES_PER_PACKET = 5,
    CAF_COMPARE_CHANNELS = 6,
    CAF_COMPARE_BITS = 7,
    CAF_COMPARE_LAYOUTS = 8,      /* 1 where the layouts differ */
    CAF_COMPARE_HAS_FRAME = 9,    /* 1 where a sample of a common frame differs */
    CAF_COMPARE_FRAME = 10,       /* the first such frame, from 0; 0 without one */
    CAF_COMPARE_SURPLUS_ONE = 11, /* frames that the first file has beyond the second, and */
    CAF_COMPARE_SURPLUS_TWO = 12, /* the second beyond the first: one of the two is 0 */
    CAF_COMPARE_REST = 13,        /* 1 where the bytes after the last whole frame of each differ */
    CAF_COMPARE_PLACES = 14
};

/* What differs between two files. Done: writes out[0..13], and to counts for each channel how many of its
 * samples differ in the frames that both files have; the counts after them keep their contents. Of the
 * fields only rate, flags and frames per packet can differ then. Refused: writes out[CAF_COMPARE_FILE] and
 * nothing else. In this order:
 *   CAF_NO_ROOM         fewer than CAF_COMPARE_PLACES places in `out`: then nothing is written;
 *   the first file's number of caf_read_strict, or of caf_read_chan with room for any layout;
 *   the second file's;
 *   CAF_WRONG_WIDTH     of the first, then of the second: not 24-bit integers, three bytes for each of at
 *                       least one channel, by the format alone;
 *   CAF_CANNOT_COMPARE  other counts of channels;
 *   CAF_NO_ROOM         fewer counts than channels.
 * It looks at both payloads from one end to the other, at the speed of memory where they are the same.
 *
 * Numbers: 14; as caf_read_strict 1, 2, 6, then chunk by chunk 3, 1, 7, 23, 4, 1, 5, 8; 1, 22; 27, 30, 14. */
uint32_t caf_compare(const uint8_t *one, size_t one_len, const uint8_t *two, size_t two_len,
                     uint64_t *counts, size_t count_len, uint64_t *out, size_t out_len);

/* Places in the array that caf_compare_samples fills. */
enum caf_samples_place {
    CAF_SAMPLES_HAS_FRAME = 0,
    CAF_SAMPLES_FRAME = 1,
    CAF_SAMPLES_PLACES = 2
};

/* The samples of two blocks, each in its own byte order, with as many channels as there are counts: their
 * common whole frames. Writes every count, and out[0..1] as caf_compare does for a frame; the frame is
 * counted from the start of the blocks. Blocks of whole frames, one after the other, add up to the whole:
 * so for a payload that is not held in one piece, or to say how far a comparison has come. With fewer than
 * CAF_SAMPLES_PLACES places: CAF_NO_ROOM, and writes nothing.
 *
 * Numbers: 14. */
uint32_t caf_compare_samples(const uint8_t *one, size_t one_len, bool one_little, const uint8_t *two,
                             size_t two_len, bool two_little, uint64_t *counts, size_t count_len,
                             uint64_t *out, size_t out_len);

/* ---- the writer
 *
 * The caller keeps the writer record, CAF_RECORD numbers, and the buffer that the file is written to.
 * caf_new and caf_resume make a record; the calls below change it. Nobody else should: an array of
 * another length, or one whose numbers stand for no record or contradict each other (docs/FORMAT.md,
 * When a record is sound), is an unsound record: CAF_BAD_WRITER.
 *
 * Any place may be read. Of a record that calls made, record[CAF_RECORD_FILE_LEN] is how many bytes of
 * the buffer are the file, record[CAF_RECORD_SIZE_POSITION] where the eight bytes of its data size
 * stand, and record[CAF_RECORD_DATA_START] where its payload starts; all three are 0 before a header.
 * These places and those of the format stay where they are in later versions.
 *
 * Done: the call writes the next record over the old one. Refused: the record, the buffer and every
 * other place that the call was lent keep their contents, unless a call below says otherwise. Bytes
 * of the buffer that a call does not store keep their contents. What is lent as const is only read.
 *
 * What is proved is what the buffer holds when a call returns. The stores of a whole call may be one
 * memmove: that they reach memory in ascending order, so that a host which dies within the call leaves
 * what its counted form says, is assumed wherever the buffer outlives the host, as a mapped file does. Do
 * not write films through such a buffer: film.h does not, it appends to the file what a call has stored. */
enum caf_record_place {
    CAF_RECORD_HAS_FORMAT = 0,   /* 1 or 0; then the seven numbers of the format, not looked at for 0 */
    CAF_RECORD_RATE = 1,         /* the 64 bits of the rate */
    CAF_RECORD_FORMAT_ID = 2,    /* this and the five after it: 32 bits */
    CAF_RECORD_FLAGS = 3,
    CAF_RECORD_BYTES_PER_PACKET = 4,
    CAF_RECORD_FRAMES_PER_PACKET = 5,
    CAF_RECORD_CHANNELS = 6,
    CAF_RECORD_BITS = 7,
    CAF_RECORD_ENDIANNESS = 8,   /* 0 big, 1 little, which only a resumed file is */
    CAF_RECORD_LAYOUT_KIND = 9,  /* 0 no layout, 1 a tag, 2 descriptions */
    CAF_RECORD_LAYOUT_TAG = 10,  /* 32 bits; not looked at unless the kind is 1 */
    CAF_RECORD_LABEL_COUNT = 11,
    CAF_RECORD_LABELS = 12,      /* 64 numbers of 32 bits */
    CAF_RECORD_HAS_HEADER = 76,  /* 1 or 0 */
    CAF_RECORD_SIZE_POSITION = 77,
    CAF_RECORD_DATA_START = 78,
    CAF_RECORD_FILE_LEN = 79,
    CAF_RECORD_DATA_COUNT = 80,
    CAF_RECORD_FINISHED = 81,    /* 1 or 0 */
    CAF_RECORD_GROUP = 82,       /* frames per sample of the overview, 32 bits; 0 where none are chosen */
    CAF_RECORD_OVERVIEW = 83,    /* 1 where an overview was appended, else 0 */
    CAF_RECORD = 84
};

/* A fresh record. Writes record[0..83]. An array of another length: CAF_BAD_WRITER, and writes
 * nothing.
 *
 * Numbers: 19. */
uint32_t caf_new(uint64_t *record, size_t record_len);

/* Resumes the file that stands in the first file_len bytes of the buffer. It can be resumed where the
 * plain reading finds its data and they go to its end: a data size of -1 or any negative one, or one of
 * r or more, where r counts the bytes from the edit count to the end of the file. 0 to 3:
 * CAF_BAD_SIZE. 4 to r - 1: CAF_TAIL_AFTER_DATA, since what follows the data would be taken for audio.
 *
 * Done: puts -1 back into the data size field of the file, eight stores from the most significant
 * byte, also where it holds -1 already, and writes the record. From then on, until caf_finish, the
 * file reads as open: whatever a host appends before it dies counts as payload. Refused: stores
 * nothing in the buffer and writes a fresh record. To go on with that one begins a new file: the bytes
 * of the old one must be cut off first, else those after a shorter header would be billed as its audio.
 * In both cases writes the count of chunk headers met to chunks[0]. An array of another length than CAF_RECORD: CAF_BAD_WRITER; then no place for
 * the count: CAF_NO_ROOM; either stores and writes nothing. Then CAF_BAD_WRITER for a file_len above
 * buf_len or 2^63 - 1.
 *
 * Numbers: 19, 14, 19; as caf_parse 1, 2, then chunk by chunk 3, 1, 5, 4, 3; then 4, 24. */
uint32_t caf_resume(uint8_t *buf, size_t buf_len, uint64_t file_len,
                    uint64_t *record, size_t record_len, uint64_t *chunks, size_t chunks_len);

/* Places in the array that caf_resume_counted fills. */
enum caf_resume_counted_place {
    CAF_RESUME_COUNTED_STORES = 0,   /* stores done, 0 if refused */
    CAF_RESUME_COUNTED_FILE_LEN = 1, /* file_len, as it was given */
    CAF_RESUME_COUNTED_CHUNKS = 2,   /* chunk headers met */
    CAF_RESUME_COUNTED_PLACES = 3
};

/* The first n stores of a resume, or all eight. Makes no record. Done and refused: writes out[0..2]; a
 * refused one stores nothing in the buffer. With fewer than CAF_RESUME_COUNTED_PLACES places:
 * CAF_NO_ROOM, and stores and writes nothing.
 *
 * Numbers: 14, 19; as caf_parse 1, 2, then chunk by chunk 3, 1, 5, 4, 3; then 4, 24. */
uint32_t caf_resume_counted(uint8_t *buf, size_t buf_len, uint64_t file_len, uint64_t n,
                            uint64_t *out, size_t out_len);

/* Settings: they write to the record alone. Once a header stands, also that of a resumed file, those of
 * format and layout are refused: CAF_HEADER_ALREADY. A later setting replaces an earlier one. */

/* Sets the format: id `lpcm`, one frame per packet, rate, channels and bits as given, and the flag of
 * floating point. The layout stays as it is. Little-endian formats are no longer set: with little_endian
 * true, CAF_LITTLE_RETIRED. A file of that order is read as any other, and resumed: caf_write_samples packs
 * in the file's own order.
 *
 * Bytes per packet of the format are the bytes that hold `bits` (bits / 8, rounded up) times channels:
 * 20 bits and 2 channels make 6. From 2^32 on: CAF_PACKET_TOO_BIG. Samples are packed in three bytes
 * whatever `bits` says, so that a packet is a frame of them where bits is 17 to 24.
 *
 * Numbers: 19, 12, 31, 5, 15. */
uint32_t caf_set_format(uint64_t *record, size_t record_len,
                        double rate, uint32_t channels, uint32_t bits, bool is_float, bool little_endian);

/* Sets the layout to a tag. Its channels are not compared with the format's.
 *
 * Numbers: 19, 12, 18. */
uint32_t caf_set_layout_tag(uint64_t *record, size_t record_len, uint32_t tag);

/* Sets the layout to what caf_layout_for_labels says of these labels, where they are as many as
 * `channels`. Where they are not, the layout is cleared: the file gets no `chan`; but all labels have
 * to be known all the same. More than 64 are CAF_TOO_MANY_LABELS only where they are as many as
 * `channels`. The channels of the format are not looked at.
 *
 * Numbers: 19, 12, 17, 16. */
uint32_t caf_set_layout_for_labels(uint64_t *record, size_t record_len,
                                   const uint32_t *labels, size_t label_count, uint32_t channels);

/* Sets format and layout in one call, or neither: the format as caf_set_format does for integers,
 * big-endian, and the layout as caf_set_layout_for_labels does. So a label_count that is not `channels`
 * sets the format and clears the layout.
 *
 * Numbers: 19, 12, 5, 15, 17, 16. */
uint32_t caf_configure_format(uint64_t *record, size_t record_len,
                              double rate, uint32_t channels, uint32_t bits,
                              const uint32_t *labels, size_t label_count);

/* Chooses the frames per sample of the overview that caf_append_overview makes: any number, 0 for none.
 * A header does not refuse it, data do: CAF_DATA_BEGUN once this session has taken any. A resumed file
 * has no choice until one is made.
 *
 * Numbers: 19, 33. */
uint32_t caf_set_overview_group(uint64_t *record, size_t record_len, uint32_t group);

/* Stores the header from buf[0] on. A buffer of CAF_LONGEST_HEADER bytes has room for any.
 *
 * Numbers: 19, 10, 12, 13, 14. */
uint32_t caf_write_header(uint64_t *record, size_t record_len, uint8_t *buf, size_t buf_len);

/* Stores the bytes at the end of the file.
 *
 * Numbers: 19, 10, 11, 14. */
uint32_t caf_write_data(uint64_t *record, size_t record_len, uint8_t *buf, size_t buf_len,
                        const uint8_t *bytes, size_t byte_count);

/* Packs the samples, three bytes each in the record's byte order, and stores them at the end of the
 * file. A resumed file without a format takes none: CAF_NO_FORMAT, also for no samples.
 *
 * Numbers: 19, 10, 11, 13, 14. */
uint32_t caf_write_samples(uint64_t *record, size_t record_len, uint8_t *buf, size_t buf_len,
                           const int32_t *samples, size_t sample_count);

/* Stores the eight bytes of the size field; nothing where the record is finished.
 *
 * Numbers: 19, 11. */
uint32_t caf_finish(uint64_t *record, size_t record_len, uint8_t *buf, size_t buf_len);

/* Stores the overview of the data at the end of the finished file: CAF's `ovvw` chunk, for each group of
 * frames and each channel the least and the greatest sample as 16 bits. The last group may be short. It
 * takes 20 bytes, and 4 for each channel of each group. The samples have to be whole frames of 24-bit
 * integers, three bytes for each channel, else CAF_WRONG_WIDTH; CAF_NOT_CLOSED before caf_finish,
 * CAF_TAIL_AFTER_DATA for a second overview, CAF_NO_GROUP where no frames are chosen. The file is no
 * longer resumed afterwards: caf_resume answers CAF_TAIL_AFTER_DATA.
 *
 * Numbers: 19, 11, 25, 24, 26, 27, 14. */
uint32_t caf_append_overview(uint64_t *record, size_t record_len, uint8_t *buf, size_t buf_len);

/* Places in the array that caf_stats fills. */
enum caf_stats_place {
    CAF_STATS_DATA_COUNT = 0, /* data bytes taken in this session */
    CAF_STATS_FINISHED = 1,   /* 1 or 0 */
    CAF_STATS_PLACES = 2
};

/* Done for any record, sound or not: writes out[0..1]. CAF_BAD_WRITER only where the array stands for
 * no record; then it writes nothing. With fewer than CAF_STATS_PLACES places: CAF_NO_ROOM.
 *
 * Numbers: 14, 19. */
uint32_t caf_stats(const uint64_t *record, size_t record_len, uint64_t *out, size_t out_len);

/* The counted forms: the first n stores of the call, or all if there are fewer. The record is only
 * read. Done and refused: write out[0..1]; a refused call has done no store, and the length is then
 * the record's own (0 where the array stands for no record). With fewer than CAF_COUNTED_PLACES
 * places: CAF_NO_ROOM, and nothing is written anywhere. */
enum caf_counted_place {
    CAF_COUNTED_STORES = 0,
    CAF_COUNTED_FILE_LEN = 1,
    CAF_COUNTED_PLACES = 2
};

/* Numbers: 14, 19, 10, 12, 13, 14. */
uint32_t caf_write_header_counted(const uint64_t *record, size_t record_len, uint8_t *buf, size_t buf_len,
                                  uint64_t n, uint64_t *out, size_t out_len);

/* Numbers: 14, 19, 10, 11, 14. */
uint32_t caf_write_data_counted(const uint64_t *record, size_t record_len, uint8_t *buf, size_t buf_len,
                                const uint8_t *bytes, size_t byte_count,
                                uint64_t n, uint64_t *out, size_t out_len);

/* Numbers: 14, 19, 10, 11, 13, 14. */
uint32_t caf_write_samples_counted(const uint64_t *record, size_t record_len, uint8_t *buf, size_t buf_len,
                                   const int32_t *samples, size_t sample_count,
                                   uint64_t n, uint64_t *out, size_t out_len);

/* Numbers: 14, 19, 11. */
uint32_t caf_finish_counted(const uint64_t *record, size_t record_len, uint8_t *buf, size_t buf_len,
                            uint64_t n, uint64_t *out, size_t out_len);

/* ---- 24-bit samples, three bytes each */

/* Writes 3 * sample_count bytes to out. CAF_NO_ROOM where out is shorter: writes nothing.
 *
 * Numbers: 14. */
uint32_t caf_pack_24(const int32_t *samples, size_t sample_count, bool little_endian,
                     uint8_t *out, size_t out_len);

/* Writes byte_count / 3 samples to out. CAF_ODD_LENGTH where 3 does not divide byte_count, then
 * CAF_NO_ROOM: writes nothing.
 *
 * Numbers: 20, 14. */
uint32_t caf_unpack_24(const uint8_t *bytes, size_t byte_count, bool little_endian,
                       int32_t *out, size_t out_len);

/* ---- WAVE
 *
 * A closed CAF file of 24-bit integers is delivered as a WAVE file: little-endian samples, an extensible
 * format chunk with a channel mask, a zero byte after odd data; RF64 with a `ds64` chunk where the RIFF
 * size would pass 4294967294. Channels keep their order, so that only labels which ascend, from 1 to 18,
 * can be delivered: label n is bit n - 1 of the mask.
 *
 * A film of any length goes through a block:
 *
 *     number = caf_wave_plan(file, file_len, head, CAF_WAVE_HEAD, plan, CAF_PLAN_PLACES);
 *     write(fd, head, plan[CAF_PLAN_HEAD_SIZE]);
 *     for (at = 0; at < plan[CAF_PLAN_PAYLOAD]; at += n) {
 *         n = ... ; (a multiple of 3, at most what is left)
 *         memcpy(block, file + plan[CAF_PLAN_START] + at, n);
 *         caf_wave_samples(block, n, plan[CAF_PLAN_LITTLE]);
 *         write(fd, block, n);
 *     }
 *     if (plan[CAF_PLAN_PAYLOAD] % 2) write(fd, "", 1);
 *
 * However it is cut, the file is the one that caf_to_wave makes. */

/* Bytes of the longest header, that of RF64. RIFF has 68. */
enum { CAF_WAVE_HEAD = 104 };

/* The header of a WAVE file with this format, labels and payload. The format stands in info[1..7], as
 * caf_read_strict gives it; of the six numbers after the rate the low 32 bits are looked at. Done:
 * writes the header to head and its size, 68 or 104, to size[0]. Refused: writes nothing. In this order:
 *   CAF_NO_ROOM       no place for the size;
 *   CAF_WRONG_WIDTH   not `lpcm` of 24-bit integers, three bytes for each of at least one channel, or a
 *                     payload that is not whole frames;
 *   CAF_NOT_FOR_WAVE  labels that are not one for each channel, from 1 to 18 and ascending; a rate that is
 *                     no whole number from 1 to 4294967295; 3 * channels * rate from 2^32 on; a size from 2^64 on;
 *   CAF_NO_ROOM       a header that is longer than head_len.
 *
 * Numbers: 14, 27, 29, 14. */
uint32_t caf_wave_header(const uint64_t *info, size_t info_len, const uint32_t *labels, size_t label_count,
                         uint64_t payload, uint8_t *head, size_t head_len, uint64_t *size, size_t size_len);

/* Places in the array that caf_wave_plan fills. */
enum caf_plan_place {
    CAF_PLAN_HEAD_SIZE = 0, /* bytes of the header: 68 or 104 */
    CAF_PLAN_START = 1,     /* where the samples begin in the CAF file */
    CAF_PLAN_PAYLOAD = 2,   /* how many bytes they are */
    CAF_PLAN_LITTLE = 3,    /* 1 where their low byte stands first, else 0 */
    CAF_PLAN_PLACES = 4
};

/* The header of the WAVE file that a CAF file makes. It looks at chunk headers, `desc` and `chan` and at no
 * sample, so that a film of any length can be mapped. Done: writes the header to head and out[0..3].
 * Refused: writes nothing.
 *
 * Numbers: 14; as caf_read_strict 1, 2, 6, then chunk by chunk 3, 1, 7, 23, 4, 1, 5, 8; 1, 22; 25, 27, 29, 14. */
uint32_t caf_wave_plan(const uint8_t *file, size_t file_len, uint8_t *head, size_t head_len,
                       uint64_t *out, size_t out_len);

/* Samples turned where they stand: from the byte order that they are in to low byte first.
 * CAF_ODD_LENGTH where 3 does not divide byte_count: changes nothing.
 *
 * Numbers: 20. */
uint32_t caf_wave_samples(uint8_t *bytes, size_t byte_count, bool little_endian);

/* The whole WAVE file that a CAF file makes, from wave[0] on, and its length to length[0]. Bytes after it
 * keep their contents. Refused: writes nothing. `wave` needs plan[CAF_PLAN_HEAD_SIZE] +
 * plan[CAF_PLAN_PAYLOAD] bytes, and one more for an odd payload.
 *
 * Numbers: 14; as caf_wave_plan 1, 2, 6, then chunk by chunk 3, 1, 7, 23, 4, 1, 5, 8; 1, 22; 25, 27, 29, 14. */
uint32_t caf_to_wave(const uint8_t *file, size_t file_len, uint8_t *wave, size_t wave_len,
                     uint64_t *length, size_t length_len);

/* Places in the array that caf_wave_read fills. */
enum caf_wave_place {
    CAF_WAVE_RATE = 0, /* in Hz */
    CAF_WAVE_CHANNELS = 1,
    CAF_WAVE_MASK = 2,
    CAF_WAVE_START = 3,   /* where the samples begin: 68, or 104 for RF64 */
    CAF_WAVE_PAYLOAD = 4, /* bytes of audio */
    CAF_WAVE_PLACES = 5
};

/* What a WAVE file says that a conversion makes. Every other file is CAF_BAD_WAVE: other chunks, another width,
 * RF64 where RIFF would do, a pad byte that is not zero, a byte too many or too few. It looks at the
 * header and the pad byte. Done: writes out[0..4]. Refused: writes nothing.
 *
 * Numbers: 14, 32. */
uint32_t caf_wave_read(const uint8_t *file, size_t file_len, uint64_t *out, size_t out_len);

#ifdef __cplusplus
}
#endif

#endif
