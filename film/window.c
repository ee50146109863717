/* A buffer as long as the film, of which only a window is memory.
 *
 * The library's calls take the buffer that a film is written to, and store at the film's own positions. So
 * the layer sets aside address space for the whole film, which costs nothing, and makes pages of it usable
 * only where a call is going to store or to look. The record's proved numbers are then the only bookkeeping.
 * A page that was not lent cannot be touched: a mistake ends the process and does not write a wrong byte. */
#include "parts.h"

#include <sys/mman.h>
#include <unistd.h>

/* Address space is set aside in powers of two, so that a growing film asks for it a few times. */
static const uint64_t least_room = 1 << 24;

static uint64_t page_mask(void) {
    return (uint64_t)sysconf(_SC_PAGESIZE) - 1;
}

static uint64_t page_before(uint64_t at) {
    return at & ~page_mask();
}

static uint64_t page_after(uint64_t at) {
    return page_before(at + page_mask());
}

static uint8_t *set_aside(void *where, uint64_t room, int fixed) {
    void *base = mmap(where, room, PROT_NONE, MAP_PRIVATE | MAP_ANONYMOUS | MAP_NORESERVE | fixed, -1, 0);

    return base == MAP_FAILED ? NULL : base;
}

void film_window_close(struct film_window *window) {
    if (window->room > 0)
        munmap(window->base, window->room);
    window->base = NULL;
    window->room = window->from = window->to = 0;
}

int film_window_reach(struct film_window *window, uint64_t end) {
    uint64_t room = least_room;

    if (end <= window->room)
        return 0;
    /* a film of 2^62 bytes asks for more than any machine has: mmap says so */
    while (room < end && room < UINT64_C(1) << 62)
        room *= 2;
    film_window_close(window);
    window->base = set_aside(NULL, room, 0);
    if (window->base == NULL) {
        /* less than a power of two may still be had */
        room = page_after(end);
        window->base = set_aside(NULL, room, 0);
    }
    if (window->base == NULL)
        return -1;
    window->room = room;
    return 0;
}

/* Setting the address space aside once more drops the pages that stood there. */
int film_window_clear(struct film_window *window) {
    window->from = window->to = 0;
    if (window->room == 0)
        return 0;
    return set_aside(window->base, window->room, MAP_FIXED) == NULL ? -1 : 0;
}

int film_window_add(struct film_window *window, uint64_t at, uint64_t n) {
    uint64_t from = page_before(at), to = page_after(at + n);

    return mprotect(window->base + from, to - from, PROT_READ | PROT_WRITE);
}

int film_window_lend(struct film_window *window, uint64_t at, size_t n) {
    uint64_t from = page_before(at);
    /* a piece at least, so that small appends share one window */
    uint64_t to = page_after(at + (n > FILM_PIECE ? n : FILM_PIECE));

    if (window->from <= at && at + n <= window->to)
        return 0;
    if (film_window_reach(window, to) < 0 || film_window_clear(window) < 0 ||
        film_window_add(window, from, to - from) < 0)
        return -1;
    window->from = from;
    window->to = to;
    return 0;
}
