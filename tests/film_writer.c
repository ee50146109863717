/* A writer of films for tests/film: one session on a film, which the test may kill, cut or starve.
 *
 *   film_writer create|open FILM AUDIO LENGTH MOST SEED [COUNTERS]
 *   film_writer add FILM
 *
 * Byte i of the film's data is byte i of the file AUDIO, which is repeated; so a later session goes on where
 * the film ends. The session appends pieces of up to MOST bytes, by turns as bytes and as samples, until the
 * film has LENGTH data bytes, and finishes it (LENGTH with a + before it: that many more). In the file
 * COUNTERS, if it is named, stand two numbers for the test: what is being done (enum doing), and how many
 * data bytes the film has by the calls that have returned.
 *
 * It prints the data bytes that arrived and the most memory it had, in KiB. Where a call fails it prints the
 * call, the fault in words and the bytes that arrived, and exits with 1. `add` adds an overview to a film on the
 * disk, and prints the payload that was worked out in the place of what arrived.
 *
 * From the environment: FILM_OVERVIEW=n appends an overview of n frames per sample after the finish, or adds it.
 * FILM_STOP_AFTER=n kills the process when n bytes were written to files, in the middle of a write if need be.
 * FILM_SHORT=n lets a write take at most n bytes, and interrupts every third one, and every other opening and
 * locking of the film. FILM_SHORTEN=n cuts all bytes off the film when n were written.
 * FILM_SLOW=n makes every sync take n microseconds more before it and after it. FILM_BAD_SYNC=n makes the
 * sync of that number fail. FILM_TELL=1 prints every write, with its place and length, and every sync. */
#define _DEFAULT_SOURCE
#include <errno.h>
#include <fcntl.h>
#include <inttypes.h>
#include <signal.h>
#include <stdarg.h>
#include <stdatomic.h>
#include <stdio.h>
#include <stdlib.h>
#include <string.h>
#include <sys/file.h>
#include <sys/mman.h>
#include <unistd.h>

#include "film.h"
#include "caf_names.h"

/* SHOWING is between FINISHING and FINISHED, where an overview is asked for */
enum doing { NOTHING = 0, BEGINNING = 1, APPENDING = 2, FINISHING = 3, FINISHED = 4, SHOWING = 5 };

struct counters {
    _Atomic uint64_t doing, returned;
};

struct session {
    struct film film;
    struct counters *counters;
    int audio;
    uint64_t audio_length, length, most, seed;
    uint8_t *bytes;
    int32_t *samples;
};

static uint64_t from_environment(const char *name, uint64_t otherwise) {
    const char *value = getenv(name);

    return value == NULL ? otherwise : strtoull(value, NULL, 10);
}

/* ---- the disk, with the faults that the test asks for: the linker puts these in the place of the system's
 * calls */

ssize_t __real_pwrite(int fd, const void *bytes, size_t n, off_t at);
ssize_t __wrap_pwrite(int fd, const void *bytes, size_t n, off_t at);
int __real_fdatasync(int fd);
int __wrap_fdatasync(int fd);
int __real_open(const char *path, int flags, ...);
int __wrap_open(const char *path, int flags, ...);
int __real_flock(int fd, int how);
int __wrap_flock(int fd, int how);

ssize_t __wrap_pwrite(int fd, const void *bytes, size_t n, off_t at) {
    static uint64_t written, calls;
    uint64_t stop_after = from_environment("FILM_STOP_AFTER", UINT64_MAX),
             most = from_environment("FILM_SHORT", UINT64_MAX);
    ssize_t wrote;

    if (most < UINT64_MAX && ++calls % 3 == 0) {
        errno = EINTR;
        return -1;
    }
    if (n > most)
        n = most;
    if (n > stop_after - written)
        n = stop_after - written;
    if (from_environment("FILM_TELL", 0))
        printf("write %lld %zu\n", (long long)at, n);
    wrote = __real_pwrite(fd, bytes, n, at);
    if (wrote > 0)
        written += (uint64_t)wrote;
    if (written == stop_after)
        kill(getpid(), SIGKILL);
    if (written >= from_environment("FILM_SHORTEN", UINT64_MAX) && ftruncate(fd, 0) < 0)
        return -1;
    return wrote;
}

static bool is_interrupted(void) {
    static uint64_t calls;

    if (from_environment("FILM_SHORT", 0) == 0 || ++calls % 2 == 0)
        return false;
    errno = EINTR;
    return true;
}

int __wrap_open(const char *path, int flags, ...) {
    va_list more;
    mode_t mode;

    va_start(more, flags);
    mode = flags & O_CREAT ? va_arg(more, mode_t) : 0;
    va_end(more);
    /* the layer's own calls have this flag */
    return flags & O_NONBLOCK && is_interrupted() ? -1 : __real_open(path, flags, mode);
}

int __wrap_flock(int fd, int how) {
    return is_interrupted() ? -1 : __real_flock(fd, how);
}

int __wrap_fdatasync(int fd) {
    static uint64_t calls;
    useconds_t slow = (useconds_t)from_environment("FILM_SLOW", 0);
    int done;

    if (++calls == from_environment("FILM_BAD_SYNC", 0)) {
        errno = EIO;
        return -1;
    }
    if (from_environment("FILM_TELL", 0))
        puts("sync");
    usleep(slow);
    done = __real_fdatasync(fd);
    usleep(slow);
    return done;
}

/* ---- the session */

static _Noreturn void give_up(const char *what) {
    perror(what);
    exit(2);
}

static int failed(const struct session *s, const char *call) {
    char words[FILM_WORDS];

    printf("%s: %s\narrived %" PRIu64 "\n", call, film_words(&s->film.fault, words, sizeof words),
           film_arrived(&s->film));
    return 1;
}

static void say(struct session *s, enum doing doing) {
    atomic_store(&s->counters->doing, doing);
}

/* xorshift: any order of sizes will do, as long as the seed gives it again */
static uint64_t random_number(uint64_t *seed) {
    *seed ^= *seed << 13;
    *seed ^= *seed >> 7;
    *seed ^= *seed << 17;
    return *seed;
}

static void read_audio(struct session *s, uint64_t at, size_t n) {
    size_t done = 0;
    ssize_t got;

    while (done < n) {
        got = pread(s->audio, s->bytes + done, n - done, (off_t)((at + done) % s->audio_length));
        if (got <= 0)
            give_up("audio");
        done += (size_t)got;
    }
}

static enum film_error append(struct session *s, size_t n) {
    if (n % 3 != 0)
        return film_append(&s->film, s->bytes, n);
    if (caf_unpack_24(s->bytes, n, false, s->samples, n / 3) != CAF_DONE)
        give_up("unpack");
    return film_append_samples(&s->film, s->samples, n / 3);
}

static int begin(struct session *s, const char *how, const char *path) {
    static const uint32_t labels[] = {CAF_LABEL_RIGHT, CAF_LABEL_LEFT};

    if (strcmp(how, "open") == 0)
        return film_open(&s->film, path) != FILM_DONE;
    return film_create(&s->film, path) || film_set_format(&s->film, 48000, 2, 24, false, false) ||
           film_set_layout_labels(&s->film, labels, 2, 2) || film_write_header(&s->film);
}

static int append_all(struct session *s) {
    uint64_t at = film_arrived(&s->film), n;

    while (at < s->length) {
        n = 1 + random_number(&s->seed) % s->most;
        /* half of them in whole samples */
        if (random_number(&s->seed) % 2 == 0 && n > 3)
            n -= n % 3;
        if (n > s->length - at)
            n = s->length - at;
        read_audio(s, at, n);
        if (append(s, n) != FILM_DONE)
            return 1;
        at += n;
        atomic_store(&s->counters->returned, at);
    }
    return 0;
}

static long most_memory(void) {
    char line[200];
    long kib = -1;
    FILE *status = fopen("/proc/self/status", "r");

    while (status != NULL && fgets(line, sizeof line, status) != NULL)
        if (sscanf(line, "VmHWM: %ld", &kib) == 1)
            break;
    if (status != NULL)
        fclose(status);
    return kib;
}

static int run(struct session *s, const char *how, const char *path, const char *length) {
    say(s, BEGINNING);
    if (begin(s, how, path))
        return failed(s, how);
    s->length = strtoull(length, NULL, 10) + (*length == '+' ? film_arrived(&s->film) : 0);
    atomic_store(&s->counters->returned, film_arrived(&s->film));
    say(s, APPENDING);
    if (append_all(s))
        return failed(s, "append");
    say(s, FINISHING);
    if (film_finish(&s->film))
        return failed(s, "finish");
    if (getenv("FILM_OVERVIEW") != NULL) {
        say(s, SHOWING);
        if (film_append_overview(&s->film, (uint32_t)from_environment("FILM_OVERVIEW", 0)))
            return failed(s, "overview");
    }
    if (film_close(&s->film))
        return failed(s, "close");
    say(s, FINISHED);
    printf("arrived %" PRIu64 "\nmemory %ld\n", film_arrived(&s->film), most_memory());
    return 0;
}

static void take_progress(void *self, uint64_t done, uint64_t payload) {
    (void)payload;
    *(uint64_t *)self = done;
}

static int add(const char *path) {
    struct film_fault fault;
    uint64_t done = 0;
    char words[FILM_WORDS];

    if (film_add_overview(path, (uint32_t)from_environment("FILM_OVERVIEW", 0), take_progress, &done, &fault)) {
        printf("add: %s\n", film_words(&fault, words, sizeof words));
        return 1;
    }
    printf("worked out %" PRIu64 "\nmemory %ld\n", done, most_memory());
    return 0;
}

static struct counters *share(const char *path) {
    void *shared;
    int fd = open(path, O_RDWR);

    if (fd < 0)
        give_up(path);
    shared = mmap(NULL, sizeof(struct counters), PROT_READ | PROT_WRITE, MAP_SHARED, fd, 0);
    if (shared == MAP_FAILED)
        give_up(path);
    return shared;
}

int main(int argc, char **argv) {
    static struct counters unshared;
    static struct session s;
    int status;

    if (argc == 3 && strcmp(argv[1], "add") == 0)
        return add(argv[2]);
    if (argc < 7)
        return 2;
    s.counters = argc > 7 ? share(argv[7]) : &unshared;
    s.audio = open(argv[3], O_RDONLY);
    if (s.audio < 0)
        give_up(argv[3]);
    s.audio_length = (uint64_t)lseek(s.audio, 0, SEEK_END);
    s.most = strtoull(argv[5], NULL, 10);
    s.seed = strtoull(argv[6], NULL, 10) * 2 + 1;
    s.bytes = malloc(s.most);
    s.samples = malloc(s.most / 3 * sizeof *s.samples + 1);
    if (s.bytes == NULL || s.samples == NULL)
        give_up("memory");
    status = run(&s, argv[1], argv[2], argv[4]);
    film_close(&s.film);
    free(s.bytes);
    free(s.samples);
    return status;
}
