/* The chunks of a film's file, one after the other. Sizes are followed to know where chunks begin; what a film is, is
 * the library's to say. */
#include "parts.h"

#include <string.h>

uint64_t film_there(const struct film *film, uint64_t at, uint64_t n) {
    return at < film->length ? film_least(n, film->length - at) : 0;
}

enum film_error film_fetch(struct film *film, struct film_chunk *chunk) {
    if (chunk->from <= chunk->at && chunk->at + film_there(film, chunk->at, FILM_LOOKED_AT) <= chunk->to)
        return FILM_DONE;
    chunk->from = chunk->at;
    chunk->to = chunk->at + film_there(film, chunk->at, sizeof chunk->block);
    return film_load(film, chunk->from, chunk->block, chunk->to - chunk->from);
}

const uint8_t *film_chunk_bytes(const struct film_chunk *chunk) {
    return chunk->block + (chunk->at - chunk->from);
}

enum film_error film_walk(struct film *film, struct film_chunks *chunks) {
    struct film_chunk chunk = {FILM_FILE_HEADER, 0, 0, {0}};
    bool after_data = false;
    uint64_t left;

    chunks->has_overview = false;
    while ((left = film_there(film, chunk.at, UINT64_MAX)) >= FILM_CHUNK_HEADER) {
        const uint8_t *header;
        uint64_t size;

        if (film_fetch(film, &chunk) != FILM_DONE)
            return film->fault.error;
        header = film_chunk_bytes(&chunk);
        size = film_big(header + 4);
        if (size > left - FILM_CHUNK_HEADER)
            break;
        if (after_data && memcmp(header, "ovvw", 4) == 0)
            chunks->has_overview = true;
        after_data = after_data || memcmp(header, "data", 4) == 0;
        chunk.at += FILM_CHUNK_HEADER + size;
    }
    chunks->whole = chunk.at;
    return FILM_DONE;
}
