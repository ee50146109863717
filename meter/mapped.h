/* The bytes of a file by its name: mapped, so that a film costs its chunk headers and not its bytes. */
#ifndef MAPPED_H
#define MAPPED_H

#include <stddef.h>
#include <stdint.h>

/* Has to be called once, before any use. */
void guard_mappings(void);

/* Opens what is a file, for reading, or says why not. *fd is to be closed where it is not -1. */
const char *open_file(const char *name, int *fd, uint64_t *len);

/* What is done with the bytes. It takes no lock, allocates nothing, calls nothing that does and stores to nothing
 * but *into. */
typedef void use_bytes(const uint8_t *file, size_t len, void *into);

/* Lends the bytes of an open file, or says why they cannot be had: then what stands in *into is worth nothing. */
const char *use_mapped(int fd, uint64_t len, use_bytes *use, void *into);

#endif
