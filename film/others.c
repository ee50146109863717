/* Others who have the file: those who write films, by a lock; any program that writes, as far as the system
 * tells. */
#include "parts.h"

#include <errno.h>
#include <fcntl.h>
#include <linux/magic.h>
#include <signal.h>
#include <string.h>
#include <sys/file.h>
#include <sys/stat.h>
#include <sys/vfs.h>
#include <time.h>

/* No signal that comes meanwhile makes a lock fail. */
static int lock(int fd, int how) {
    int done;

    do
        done = flock(fd, how);
    while (done < 0 && errno == EINTR);
    return done;
}

/* Whoever only reads shares the lock with others that do, since a lock of one's own is not given for such a
 * file everywhere; and gives it back at once, so that no writer has to wait for a reader. */
int film_lock(int fd, bool to_write) {
    int done = lock(fd, (to_write ? LOCK_EX : LOCK_SH) | LOCK_NB);

    return done == 0 && !to_write ? lock(fd, LOCK_UN) : done;
}

/* What a file system's answer to a wish for a lease is worth. */
enum worth {
    FULL,
    A_NO_SAYS_NOTHING, /* a server gives none for reasons of its own */
    A_YES_SAYS_NOTHING /* other machines may write, and are not asked */
};

static enum worth worth_of(int fd) {
    struct statfs about;

    if (fstatfs(fd, &about) < 0)
        return A_NO_SAYS_NOTHING;
    switch ((uint32_t)about.f_type) {
    case NFS_SUPER_MAGIC:
    case SMB_SUPER_MAGIC:
    case CIFS_SUPER_MAGIC:
    case SMB2_SUPER_MAGIC:
        return A_NO_SAYS_NOTHING;
    case FUSE_SUPER_MAGIC:
        return A_YES_SAYS_NOTHING;
    default:
        return FULL;
    }
}

/* A lock on a byte that no film has. It is a mark: who took it has let go of the film. */
static struct flock mark(short type) {
    struct flock at_the_mark;

    memset(&at_the_mark, 0, sizeof at_the_mark);
    at_the_mark.l_type = type;
    at_the_mark.l_whence = SEEK_SET;
    at_the_mark.l_start = INT64_C(1) << 62;
    at_the_mark.l_len = 1;
    return at_the_mark;
}

static bool is_marked(int fd) {
    struct flock asked = mark(F_WRLCK);

    return fcntl(fd, F_OFD_GETLK, &asked) == 0 && asked.l_type != F_UNLCK;
}

/* A child that was forked meanwhile has the file open too, with the same lock. So the lock is given back by
 * name, and the mark says that such a child is no writer. (A server would take the mark for a lock.) */
void film_unlock(int fd) {
    struct flock set = mark(F_RDLCK);

    if ((fcntl(fd, F_GETFL) & O_ACCMODE) != O_RDONLY && worth_of(fd) != A_NO_SAYS_NOTHING)
        fcntl(fd, F_OFD_SETLK, &set);
    lock(fd, LOCK_UN);
}

/* A lease for reading is given only where nobody has the file open for writing, and only to its owner or a
 * privileged user, on a file system that has leases. It is given back at once; should someone want to write in
 * between, SIGURG comes, which is ignored unless the caller waits for it. */
enum film_use film_use_of(int fd) {
    enum worth worth = worth_of(fd);

    fcntl(fd, F_SETSIG, SIGURG);
    if (fcntl(fd, F_SETLEASE, F_RDLCK) == 0) {
        fcntl(fd, F_SETLEASE, F_UNLCK);
        return worth == A_YES_SAYS_NOTHING ? FILM_UNTOLD : FILM_UNUSED;
    }
    return errno == EAGAIN && worth != A_NO_SAYS_NOTHING && !is_marked(fd) ? FILM_USED : FILM_UNTOLD;
}

int film_is_quiet(int fd, uint32_t seconds, bool *quiet) {
    struct timespec now;
    struct stat about;

    if (fstat(fd, &about) < 0 || clock_gettime(CLOCK_REALTIME, &now) < 0)
        return -1;
    now.tv_sec -= seconds;
    *quiet = seconds == 0 || about.st_mtim.tv_sec < now.tv_sec ||
             (about.st_mtim.tv_sec == now.tv_sec && about.st_mtim.tv_nsec <= now.tv_nsec);
    return 0;
}
