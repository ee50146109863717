/* Written beside, synced, renamed. */
#define _GNU_SOURCE
#define _FILE_OFFSET_BITS 64
#include <errno.h>
#include <fcntl.h>
#include <signal.h>
#include <stdlib.h>
#include <string.h>
#include <sys/stat.h>
#include <unistd.h>

#include "out.h"

/* The other name of the file that is being written; NULL where none is. */
static char *volatile being_written;

static void on_end(int number) {
    if (being_written)
        unlink(being_written);
    signal(number, SIG_DFL);
    raise(number);
}

static void guard_ends(void) {
    static const int ends[] = {SIGINT, SIGTERM, SIGHUP};
    struct sigaction action, old;
    size_t i;

    memset(&action, 0, sizeof action);
    action.sa_handler = on_end;
    for (i = 0; i < sizeof ends / sizeof *ends; i++)
        /* what the caller has ignored, as nohup does, stays so */
        if (sigaction(ends[i], NULL, &old) == 0 && old.sa_handler != SIG_IGN)
            sigaction(ends[i], &action, NULL);
    /* a write past the limit of a file's length then says so */
    signal(SIGXFSZ, SIG_IGN);
}

/* Why what stands under the name may not be replaced. */
static const char *standing(const char *name, bool force) {
    struct stat about;

    if (lstat(name, &about) < 0)
        return errno == ENOENT ? NULL : strerror(errno);
    if (!force)
        return "it exists (--force replaces it)";
    return S_ISREG(about.st_mode) ? NULL : "it exists and is not a file";
}

/* In the folder of the name, and not longer than names get. */
static char *name_beside(const char *name) {
    static const char last[] = ".part-XXXXXX";
    const char *slash = strrchr(name, '/');
    size_t folder = slash ? (size_t)(slash - name) + 1 : 0;
    char *made = malloc(folder + sizeof last);

    if (made) {
        memcpy(made, name, folder);
        memcpy(made + folder, last, sizeof last);
    }
    return made;
}

/* Makes the file beside. No end comes between it and its name. */
static int make_part(char *part) {
    sigset_t all, old;
    int fd;

    sigfillset(&all);
    sigprocmask(SIG_BLOCK, &all, &old);
    fd = mkostemp(part, O_CLOEXEC);
    if (fd >= 0)
        being_written = part;
    sigprocmask(SIG_SETMASK, &old, NULL);
    return fd;
}

static void drop_part(struct out *out) {
    unlink(out->part);
    being_written = NULL;
    free(out->part);
}

/* Above the standard streams: where one of them is closed, messages would be written into the file. */
static FILE *open_part(int fd) {
    int higher = fcntl(fd, F_DUPFD_CLOEXEC, STDERR_FILENO + 1);
    FILE *file = higher < 0 ? NULL : fdopen(higher, "wb");

    if (!file && higher >= 0)
        close(higher);
    close(fd);
    return file;
}

bool out_is(const char *name, const char *other) {
    struct stat a, b;

    return stat(name, &a) == 0 && stat(other, &b) == 0 && a.st_dev == b.st_dev && a.st_ino == b.st_ino;
}

const char *out_begin(struct out *out, const char *name, bool force) {
    const char *fault = standing(name, force);
    int fd;

    if (fault)
        return fault;
    out->name = name;
    out->force = force;
    out->part = name_beside(name);
    if (!out->part)
        return strerror(ENOMEM);
    guard_ends();
    fd = make_part(out->part);
    if (fd < 0) {
        fault = strerror(errno);
        free(out->part);
        return fault;
    }
    out->file = open_part(fd);
    if (out->file)
        return NULL;
    fault = strerror(errno);
    drop_part(out);
    return fault;
}

/* The rights of the file that it replaces, or those of any new one. */
static mode_t rights_of(const char *name) {
    struct stat about;
    mode_t mask;

    if (lstat(name, &about) == 0)
        return about.st_mode & 0777;
    mask = umask(0);
    umask(mask);
    return 0666 & ~mask;
}

/* All that was written is on the disk. */
static bool is_whole(const struct out *out) {
    return !ferror(out->file) && fflush(out->file) == 0 && fchmod(fileno(out->file), rights_of(out->name)) == 0 && fsync(fileno(out->file)) == 0;
}

/* Without `force` nothing is replaced that came meanwhile. */
static bool give_name(const struct out *out) {
    if (out->force)
        return rename(out->part, out->name) == 0;
    if (renameat2(AT_FDCWD, out->part, AT_FDCWD, out->name, RENAME_NOREPLACE) == 0)
        return true;
    /* not every file system can */
    return errno == EINVAL && link(out->part, out->name) == 0;
}

const char *out_end(struct out *out) {
    const char *fault = is_whole(out) ? NULL : strerror(errno);

    if (fclose(out->file) != 0 && !fault)
        fault = strerror(errno);
    if (!fault && !give_name(out))
        fault = strerror(errno);
    /* where it has its name, there is mostly no part any more */
    drop_part(out);
    return fault;
}

void out_drop(struct out *out) {
    fclose(out->file);
    drop_part(out);
}
