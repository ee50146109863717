/* Files are mapped, and a guard stands around every use of their bytes.
 *
 * A page of a mapped file that is no longer there (another program made the file shorter) or that the
 * disk can't give is answered with SIGBUS, which would end the whole bill. The guard turns it into an
 * answer for this one file: the handler jumps out of the proved reading, back to where it was called.
 * That is safe, since the reading takes no lock, allocates nothing, calls nothing that does and stores to
 * nothing but what this call was lent, which is then thrown away. */
#define _FILE_OFFSET_BITS 64
#include <errno.h>
#include <fcntl.h>
#include <setjmp.h>
#include <signal.h>
#include <stdbool.h>
#include <string.h>
#include <sys/mman.h>
#include <sys/stat.h>
#include <unistd.h>

#include "mapped.h"

/* The mapping that is being read; of no bytes where none is. */
static volatile uintptr_t guarded;
static volatile size_t guarded_len;
static sigjmp_buf page_is_gone;

static void on_bus(int number, siginfo_t *about, void *context) {
    (void)context;
    /* from the processor (a code above 0), and for a page of the mapping */
    if (about->si_code > 0 && (uintptr_t)about->si_addr - guarded < guarded_len)
        siglongjmp(page_is_gone, 1);
    /* any other: as without a guard */
    signal(number, SIG_DFL);
    raise(number);
}

void guard_mappings(void) {
    struct sigaction action;
    sigset_t bus;

    memset(&action, 0, sizeof action);
    action.sa_sigaction = on_bus;
    /* SA_NODEFER: the jump leaves the handler for good, and the next SIGBUS must come through as well */
    action.sa_flags = SA_SIGINFO | SA_NODEFER;
    sigaction(SIGBUS, &action, NULL);
    /* whoever started the program may have blocked it */
    sigemptyset(&bus);
    sigaddset(&bus, SIGBUS);
    sigprocmask(SIG_UNBLOCK, &bus, NULL);
}

/* The use of bytes that are mapped, or false where a page could not be had. */
static bool use_guarded(const uint8_t *file, size_t len, use_bytes *use, void *into) {
    if (sigsetjmp(page_is_gone, 0)) {
        guarded_len = 0;
        return false;
    }
    guarded = (uintptr_t)file;
    guarded_len = len;
    use(file, len, into);
    guarded_len = 0;
    return true;
}

const char *use_mapped(int fd, uint64_t len, use_bytes *use, void *into) {
    struct stat after;
    void *file = NULL;
    bool whole;

    /* nothing of an empty file can be mapped; it needs no bytes to be refused */
    if (len > 0)
        file = mmap(NULL, len, PROT_READ, MAP_PRIVATE | MAP_NORESERVE, fd, 0);
    if (file == MAP_FAILED)
        return strerror(errno);
    whole = use_guarded(file, len, use, into);
    if (len > 0)
        munmap(file, len);
    /* within its last page a file that became shorter reads as zeros, and no signal comes */
    if (fstat(fd, &after) < 0 || (uint64_t)after.st_size < len)
        return "it became shorter while it was read";
    return whole ? NULL : strerror(EIO);
}

static const char *no_file(const struct stat *about) {
    if (S_ISREG(about->st_mode))
        return NULL;
    return S_ISDIR(about->st_mode) ? "is a directory" : "is not a file";
}

const char *open_file(const char *name, int *fd, uint64_t *len) {
    struct stat about;
    const char *fault;

    *fd = -1;
    if (stat(name, &about) < 0)
        return strerror(errno);
    /* what is no file is not even opened: that would let a FIFO's writer go on, or rewind a tape */
    if ((fault = no_file(&about)))
        return fault;
    /* the name may stand for something else by now: O_NONBLOCK, so that no FIFO is waited for */
    *fd = open(name, O_RDONLY | O_NONBLOCK | O_NOCTTY | O_CLOEXEC);
    if (*fd < 0 || fstat(*fd, &about) < 0)
        return strerror(errno);
    *len = (uint64_t)about.st_size;
    return no_file(&about);
}
