/* The file of a film: opened, locked, written and read so that nothing is left half done without being
 * noticed. */
#include "parts.h"

#include <errno.h>
#include <fcntl.h>
#include <signal.h>
#include <sys/stat.h>
#include <time.h>
#include <unistd.h>

static enum film_error fault_of(struct film_fault *fault, enum film_error error, int system) {
    fault->error = error;
    fault->number = 0;
    fault->system = system;
    return error;
}

/* A process without a standard stream would get its number for the film, and print into it. */
static int above_the_standard_streams(int fd) {
    int higher, kept;

    if (fd < 0 || fd > STDERR_FILENO)
        return fd;
    higher = fcntl(fd, F_DUPFD_CLOEXEC, STDERR_FILENO + 1);
    kept = errno;
    close(fd);
    errno = kept;
    return higher;
}

/* What stat or fstat said of a name or a file. */
static enum film_error regular(int failed, const struct stat *about, struct film_fault *fault) {
    if (failed)
        return fault_of(fault, FILM_SYSTEM, errno);
    return S_ISREG(about->st_mode) ? FILM_DONE : fault_of(fault, FILM_NOT_A_FILE, 0);
}

/* Opens a file, whatever signals come meanwhile. O_NONBLOCK, so that no FIFO is waited for, nor a lease. */
static int open_file(const char *path, int flags) {
    int fd;

    do
        fd = open(path, flags | O_CLOEXEC | O_NONBLOCK | O_NOCTTY, 0666);
    while (fd < 0 && errno == EINTR);
    return above_the_standard_streams(fd);
}

/* Why a file could not be opened or locked: someone else has it, or the system says no. */
static enum film_error denied(struct film_fault *fault) {
    return errno == EWOULDBLOCK ? fault_of(fault, FILM_BUSY, 0) : fault_of(fault, FILM_SYSTEM, errno);
}

/* Asks whether a program has the file open for writing, before this one has. */
static enum film_error look_for_writers(struct film *film, const char *path) {
    struct stat about;
    enum film_use use = FILM_UNTOLD;
    int fd;

    /* what is no file is not even opened: that would let the writer of a FIFO go on, or rewind a tape */
    if (regular(stat(path, &about), &about, &film->fault) != FILM_DONE)
        return film->fault.error;
    fd = open_file(path, O_RDONLY);
    if (fd < 0 && errno == EWOULDBLOCK)
        return denied(&film->fault);
    if (fd >= 0) {
        use = film_use_of(fd);
        close(fd);
    }
    film->untold = use == FILM_UNTOLD;
    return use == FILM_USED ? fault_of(&film->fault, FILM_BUSY, 0) : FILM_DONE;
}

enum film_error film_disk_open(struct film *film, const char *path, int flags) {
    struct stat about;
    int fd;

    if (!(flags & O_CREAT) && look_for_writers(film, path) != FILM_DONE)
        return film->fault.error;
    fd = open_file(path, flags);
    if (fd < 0)
        return denied(&film->fault);
    /* the name may stand for something else by now */
    if (regular(fstat(fd, &about), &about, &film->fault) == FILM_DONE &&
        film_lock(fd, (flags & O_ACCMODE) != O_RDONLY) < 0)
        denied(&film->fault);
    if (film->fault.error != FILM_DONE) {
        close(fd);
        return film->fault.error;
    }
    film->fd = fd;
    film->process = getpid();
    return FILM_DONE;
}

/* All of it, or up to the first error. */
static size_t store_all(int fd, const uint8_t *bytes, size_t n, uint64_t at) {
    size_t done = 0;

    while (done < n) {
        ssize_t wrote = pwrite(fd, bytes + done, n - done, (off_t)(at + done));

        if (wrote < 0 && errno == EINTR)
            continue;
        if (wrote == 0)
            errno = EIO; /* no file system says this; it would be an endless loop */
        if (wrote <= 0)
            return done;
        done += (size_t)wrote;
    }
    return done;
}

/* Past RLIMIT_FSIZE a write sends SIGXFSZ to its own thread, which ends the process. It is held back around
 * the write, in this thread alone, and taken out of the queue, unless one was waiting there before: so the
 * write gives EFBIG, and the handlers of the process, which are the caller's, are left alone. */
size_t film_disk_store(int fd, const uint8_t *bytes, size_t n, uint64_t at) {
    const struct timespec no_time = {0, 0};
    sigset_t limit, before, waiting;
    size_t done;
    int kept;

    sigemptyset(&limit);
    sigaddset(&limit, SIGXFSZ);
    sigpending(&waiting);
    pthread_sigmask(SIG_BLOCK, &limit, &before);
    done = store_all(fd, bytes, n, at);
    kept = errno;
    if (done < n && kept == EFBIG && !sigismember(&waiting, SIGXFSZ))
        sigtimedwait(&limit, NULL, &no_time);
    pthread_sigmask(SIG_SETMASK, &before, NULL);
    errno = kept;
    return done;
}

size_t film_disk_load(int fd, uint8_t *bytes, size_t n, uint64_t at) {
    size_t done = 0;

    while (done < n) {
        ssize_t got = pread(fd, bytes + done, n - done, (off_t)(at + done));

        if (got < 0 && errno == EINTR)
            continue;
        if (got == 0)
            errno = 0;
        if (got <= 0)
            return done;
        done += (size_t)got;
    }
    return done;
}

int film_disk_length(int fd, uint64_t *length) {
    struct stat about;

    if (fstat(fd, &about) < 0)
        return -1;
    if (about.st_nlink == 0) {
        errno = ENOENT;
        return -1;
    }
    *length = (uint64_t)about.st_size;
    return 0;
}

int film_disk_sync(int fd) {
    int done;

    do
        done = fdatasync(fd);
    while (done < 0 && errno == EINTR);
    return done;
}
