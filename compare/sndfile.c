/* Opens a file in memory with libsndfile, for compare/bench. */
#include <sndfile.h>
#include <stdint.h>
#include <stdio.h>
#include <string.h>

struct memory {
    const uint8_t *bytes;
    sf_count_t length, at;
};

static sf_count_t length(void *file) {
    return ((struct memory *)file)->length;
}

static sf_count_t seek(sf_count_t offset, int whence, void *file) {
    struct memory *m = file;
    m->at = offset + (whence == SEEK_CUR ? m->at : whence == SEEK_END ? m->length : 0);
    return m->at;
}

static sf_count_t get(void *to, sf_count_t count, void *file) {
    struct memory *m = file;
    sf_count_t left = m->at < m->length ? m->length - m->at : 0;
    if (count > left) count = left;
    memcpy(to, m->bytes + m->at, (size_t)count);
    m->at += count;
    return count;
}

static sf_count_t put(const void *from, sf_count_t count, void *file) {
    (void)from, (void)count, (void)file;
    return 0;
}

static sf_count_t tell(void *file) {
    return ((struct memory *)file)->at;
}

/* The count of channels that libsndfile finds, or 0 where it does not take the file. */
int sndfile_channels(const uint8_t *bytes, size_t count) {
    SF_VIRTUAL_IO calls = {length, seek, get, put, tell};
    struct memory file = {bytes, (sf_count_t)count, 0};
    SF_INFO info = {0};
    SNDFILE *opened = sf_open_virtual(&calls, SFM_READ, &info, &file);
    if (!opened) return 0;
    sf_close(opened);
    return info.channels;
}
