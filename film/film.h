/* Films on disk: the writing calls of caf.h, for a file in the place of a lent buffer.
 *
 *     struct film film;
 *     char words[FILM_WORDS];
 *     if (film_create(&film, "film.caf") || film_set_format(&film, 48000, 2, 24, false, false) ||
 *         film_append_samples(&film, samples, count) || film_finish(&film))
 *         fprintf(stderr, "film.caf: %s\n", film_words(&film.fault, words, sizeof words));
 *     film_close(&film);
 *
 * Compile film.c, reopen.c, chunks.c, recovery.c, overview.c, pairs.c, cut.c, strict.c, disk.c, others.c and
 * window.c (or link the libfilm.a that film/build makes of them), and link with libcaf.a and -pthread. For 64-bit
 * Linux.
 *
 * What is promised. The proved library makes every byte and judges every call; this layer carries its stores
 * to the disk, in their order and nothing else. The file is at every moment exactly as long as the stores
 * made: data are appended, never overwritten, and no room is made in advance. So whatever ends the process,
 * at any moment and in any session, film_open or film_recover finds every byte whose append had returned, and
 * of an append that was under way the first so many bytes. Memory stays flat, some 2 MiB, however long the
 * film and however many chunks it has; of address space it takes as much as the film is long, so that a limit
 * on that (ulimit -v) is one on films.
 *
 * What is assumed. If the process dies, nothing: what a write gave to the system stays. If the machine dies:
 * that a file does not become longer before the bytes that make it longer are on the disk, and that the eight
 * bytes of a size field, which are one write, arrive whole or from the most significant byte on. That is what
 * is proved; should they arrive in another order, each is still one of -1 or of the true size, so that the
 * field reads as negative, or as the true size or more: nothing wrong is billed, and recovery takes it. The
 * disk is made to sync between the header and the data, between -1 put back into a reopened film and what is
 * appended, between the data and the size of a finish, and after it; film_sync makes appended data outlive
 * the machine. That the name of a new film does too is for the caller to see to, by an fsync of its folder.
 *
 * Others. A film open for writing is locked (flock), until film_close by the process that opened it or the end
 * of all that have it open. A child that was forked meanwhile may film_close its own copy, or go on with the film
 * if its parent does not film_close it. The lock binds film_open, film_recover and film_add_overview. Of other
 * programs these ask the system whether one has the file open for writing, by a lease that they give back at
 * once, and then say FILM_BUSY: a file that is still uploaded or recorded must not be closed under its writer's
 * hands. The system does not tell where the file is another user's (unless this one has CAP_LEASE), where its
 * file system has no leases or is a network disk that gives none (NFS, SMB) or knows this machine alone (FUSE),
 * and where a child of a process that wrote and closed the film still has it open. There film_recover and
 * film_add_overview leave a film alone that was modified within the last FILM_QUIET seconds (FILM_RECENT);
 * film_open goes on, as its caller knows whose film it is. Nobody is asked between the answer and
 * the end of a session: a program that begins to write later is noticed only by what it does to the file. For
 * that every append and finish looks, just before it writes, whether the file is as long as what was written
 * (FILM_CHANGED) and still has a name (FILM_SYSTEM with ENOENT).
 *
 * film_open waits up to a second for a film that someone else has, since who recovers it or asks whether it is
 * written has it for a moment; film_recover waits for nobody, and locks a film only where it found something to
 * write.
 *
 * What arrived may end within a frame, after a kill or on a full disk. Whoever resumes goes on with the very
 * next byte, film_arrived, by film_append, before whole samples are appended again.
 *
 * A call must not be made on a film while another thread makes one on it. Different films are independent of
 * each other. A caller must have 8 KiB of stack left, for film_recover and film_add_overview 32. */
#ifndef FILM_H
#define FILM_H

#include <stdbool.h>
#include <stddef.h>
#include <stdint.h>

#include "caf.h"

#ifdef __cplusplus
extern "C" {
#endif

/* What every call gives back. After FILM_REFUSED nothing has changed, and the film may be gone on with if it
 * was open. After any other failure nothing more is written: the calls give FILM_STOPPED until film_close.
 * What arrived stays, and can be reopened or recovered. */
enum film_error {
    FILM_DONE = 0,
    FILM_REFUSED = 1,    /* the library refused the call: `number` says why */
    FILM_SYSTEM = 2,     /* a system call failed: `system` is its errno (ENOSPC, EFBIG, EACCES..) */
    FILM_BUSY = 3,       /* someone is writing or recovering this film, or has the file open for writing */
    FILM_NOT_A_FILE = 4, /* the name of a folder, a FIFO, a device */
    FILM_CHANGED = 5,    /* another program made the file longer or shorter */
    FILM_STOPPED = 6,    /* an earlier call failed, or the film is not open */
    FILM_RECENT = 7      /* to be recovered or added to, but modified so lately that someone may still write it */
};

/* Of the last call that failed. */
struct film_fault {
    enum film_error error;
    uint32_t number; /* a caf_number where the error is FILM_REFUSED, seconds where FILM_RECENT, else 0 */
    int system;      /* an errno where it is FILM_SYSTEM, else 0 */
};

/* Room for the longest words. */
enum { FILM_WORDS = 200 };

/* Puts a fault into words, for instance "refused, number 14 NoRoom: ..."; gives back `text`. */
const char *film_words(const struct film_fault *fault, char *text, size_t room);

/* Address space in which byte i of a film stands at base[i]. Only the pages between `from` and `to` can be
 * used. */
struct film_window {
    uint8_t *base;
    uint64_t room, from, to;
};

/* A film that is being written. A caller may read `fault`; all else is the layer's own. All zero it is one
 * that is not open. */
struct film {
    struct film_fault fault;
    int fd;      /* never 0 to 2, the standard streams; 0 where the film is not open */
    int process; /* the one that opened it */
    bool stopped;
    bool untold;     /* whether another program writes the file could not be told */
    uint64_t length; /* of the file on disk */
    uint64_t record[CAF_RECORD];
    struct film_window window;
};

/* ---- writing a film
 *
 * film_create and film_open begin a film and set all of *film, also where they fail; film_close is due after
 * either, and does no harm twice. */

/* A new film. The name must not exist: FILM_SYSTEM with EEXIST; no film is ever overwritten. */
enum film_error film_create(struct film *film, const char *path);

/* Resumes a film, to append to it: open, finished, or left by a writer that died. It reads as open from then
 * on, until it is finished. What cannot be resumed is FILM_REFUSED, with caf_resume's number, and not
 * changed: a file shorter than its header, in which no data had arrived (remove it and begin anew), or one
 * with other chunks after its data (CAF_TAIL_AFTER_DATA). */
enum film_error film_open(struct film *film, const char *path);

/* Settings, as caf_set_format, caf_set_layout_tag and caf_set_layout_for_labels have them: before the
 * header. No film is begun little-endian any longer: with little_endian true film_set_format is
 * FILM_REFUSED, with CAF_LITTLE_RETIRED. An old film of that order is read, listed, metered, recovered,
 * shown, delivered and compared as any other, and film_open resumes it: film_append_samples packs in the
 * film's own order. */
enum film_error film_set_format(struct film *film, double rate, uint32_t channels, uint32_t bits,
                                bool is_float, bool little_endian);
enum film_error film_set_layout_tag(struct film *film, uint32_t tag);
enum film_error film_set_layout_labels(struct film *film, const uint32_t *labels, size_t count,
                                       uint32_t channels);

/* Writes the header. Who does not call it has it written by the first append, or by film_finish. */
enum film_error film_write_header(struct film *film);

/* Appends bytes as they are, or samples packed to three bytes each. Where a write fails part of them may have
 * arrived: film_arrived says how far it went. Past RLIMIT_FSIZE the error is EFBIG, and no SIGXFSZ is
 * seen. */
enum film_error film_append(struct film *film, const void *bytes, size_t count);
enum film_error film_append_samples(struct film *film, const int32_t *samples, size_t count);

/* Returns when all that was appended is on the disk. */
enum film_error film_sync(struct film *film);

/* Closes the film's data: puts their size into the header. When it returns all of the film is on the disk. A
 * finished film takes no more data (CAF_FINISHED) unless it is opened again; a second finish does nothing. */
enum film_error film_finish(struct film *film);

/* Lets go of the file. It does not finish the film: one that was not finished reads as open. */
enum film_error film_close(struct film *film);

/* How many data bytes of the film, of all sessions, are in the file. */
uint64_t film_arrived(const struct film *film);

/* ---- a waveform overview after the data
 *
 * Either call appends the chunk that caf_append_overview makes of the film, byte for byte. The data are read in blocks,
 * so that memory stays flat however long the film is: 2 MiB, and four bytes for each channel. They are on the disk
 * before the first byte of the chunk is, and all of it when the call returns.
 *
 * Where the process dies meanwhile, the film may end within the chunk. Then the strict reading refuses it with
 * CAF_CUT_SHORT, and film_recover takes off what there is of the chunk. Where a call fails it takes that off itself:
 * the film is again as finish left it. (Not where the last sync fails: the chunk is whole.) */

/* Appends an overview to a finished film, of so many frames per sample. FILM_REFUSED with the number that
 * caf_append_overview gives: CAF_NO_HEADER, CAF_NOT_CLOSED before film_finish, CAF_TAIL_AFTER_DATA for a second one,
 * CAF_NO_GROUP for 0 frames, CAF_WRONG_WIDTH for other samples than 24-bit integers in whole frames. */
enum film_error film_append_overview(struct film *film, uint32_t frames_per_sample);

/* Is told now and then how many bytes of the payload are worked out. */
typedef void film_progress(void *self, uint64_t done, uint64_t payload);

/* Appends an overview in place to a closed film on the disk that no one has open for writing. Every byte before it
 * stays as it was, also those of other chunks after the data, which the strict reading allows. Without frames per
 * sample, 0, it takes the power of two that makes 2,000 to 4,000 overview samples, and 1 for a shorter film. `progress`
 * may be NULL. *fault says what is given back.
 *
 * FILM_REFUSED, and nothing is changed: with the number of the strict reading; CAF_NOT_CLOSED for an open film;
 * CAF_TAIL_AFTER_DATA where an overview stands anywhere after the data, and for a film without payload that goes on
 * (see film_recover); CAF_WRONG_WIDTH. */
enum film_error film_add_overview(const char *path, uint32_t frames_per_sample, film_progress *progress, void *self,
                                  struct film_fault *fault);

/* ---- recovery */

/* What a film was, by its size field: that is all that a cut leaves. Where two causes leave the same bytes
 * the state is named after what the bytes are, and both are said here. */
enum film_state {
    FILM_UNKNOWN = 0,       /* no reading: the fault says why */
    FILM_CLOSED = 1,        /* its true size: finished, or cut where that made no difference */
    FILM_OPEN = 2,          /* -1: never finished, or reopened, or cut where that made no difference */
    FILM_CUT_IN_FINISH = 3, /* bytes of its true size, then of -1; or finished at this size and shortened */
    FILM_CUT_IN_REOPEN = 4, /* bytes of -1, then of its true size, which a cut finish may end with -1 */
    FILM_SHORTENED = 5,     /* a size beyond its end that no cut leaves: it was longer once */
    FILM_NEGATIVE = 6,      /* a negative size that no cut leaves */
    FILM_CUT_OVERVIEW = 7   /* its true size, and after the data the first bytes of an overview */
};

/* What a recovery found, and made or would make. */
struct film_report {
    struct film_fault fault;
    enum film_state state;
    uint32_t number;          /* of the strict reading before; where it is not CAF_DONE the next two are 0 */
    uint64_t payload, frames; /* before */
    uint64_t size_field;      /* before; 0 where it was closed */
    uint64_t payload_now, frames_now;
    uint64_t tail; /* bytes of other chunks after the data of a closed film */
    uint64_t cut;  /* bytes of a cut overview, which are taken off */
};

/* Closes a film in place, by resume and finish: its payload is then all that arrived. One that is closed is
 * not written to. It changes nothing, and gives FILM_REFUSED, where resume refuses the film, with its number,
 * and where the strict reading would refuse it afterwards, with that one. With dry_run it says the same and
 * writes nothing.
 *
 * A closed film may have chunks after its data; but one without payload that goes on is refused with
 * CAF_TAIL_AFTER_DATA, since a killed writer of another house leaves just that and what follows may be its
 * audio. Nothing but the overview of no frames, the 20 bytes that are appended here, may follow it.
 *
 * Of a closed film that ends within an overview the bytes of this chunk are taken off: from a first byte `o` to all but
 * one, behind other chunks too. They have to be bytes that film_append_overview or film_add_overview would write there:
 * the name, the size, the edit count and the frames per sample, as far as they are there, have to fit the film and
 * each other (the pairs are not looked at), no other overview stands before it, and the film takes one. After no
 * payload the name has to be whole, and to follow at once. Nothing else is ever cut off. */
enum film_error film_recover(const char *path, bool dry_run, struct film_report *report);

/* For how many seconds a film must not have been modified where the system can't tell whether it is written. */
enum { FILM_QUIET = 60 };

/* The same, but for every film, whatever the system tells: one that is to be closed and was modified less than
 * so many seconds ago, or after now, is left alone (FILM_RECENT). With 0 none is. What the system tells holds
 * besides (FILM_BUSY). */
enum film_error film_recover_older(const char *path, bool dry_run, uint32_t seconds,
                                   struct film_report *report);

#ifdef __cplusplus
}
#endif

#endif
