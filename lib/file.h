/* A file of mutexes, condition variables, reader-writer locks and data: what it begins with, and how a process opens one.
 *
 * Two bytes of the file are locked with open file description locks (fcntl(2)). A process that creates the file, or
 * marks what dead owners left, has the first one for itself. The second one says who uses the file: a mapping keeps its
 * description's locks, so the lock lasts as long as the mapping does, in forked children too, and costs no descriptor.
 */
#ifndef PZ_FILE_H
#define PZ_FILE_H
#include "pazdrig.h"
#include "word.h"

/* The system that the TIDs in a file belong to: two threads have one TID only if these differ. */
struct pz_system {
    char boot[40];
    uint64_t pid_namespace[2]; /* its device and inode */
};

/* What a file begins with. It is written once, except for `system`. */
struct pz_header {
    pz_word magic;
    int32_t futex_offset; /* FUTEX_OFFSET: another C library may have chosen another one */
    uint32_t version;     /* of the program's data */
    uint64_t mutexes, conds, data, rwlocks, lanes;
    struct pz_system system;
};

/* Where the parts of a file are, in bytes. The mutexes follow the header, and the reader-writer locks the mutexes. */
enum { PZ_MUTEXES_AT = 128 };
_Static_assert(sizeof(struct pz_header) <= PZ_MUTEXES_AT, "the header ends before the mutexes");
struct pz_parts {
    size_t rwlocks, conds, data, size;
};

/* A file that a thread of this process is about to open. A forked child closes it, because its locks would otherwise
 * last as long as the child does. */
struct pz_opening {
    int fd;
    size_t size;
    char *mapped; /* NULL: not yet */
    struct pz_opening *next;
};

#pragma GCC visibility push(hidden)

/* ---- opening.c. These return 0 or an errno. */

/* Opens the file, or creates it if there is none. */
int pz_begin_opening(struct pz_opening *, const char *path, mode_t mode);
int pz_map(struct pz_opening *, size_t size);
/* Closes the descriptor. With `is_opened`, the mapping stays; without, it goes too. */
void pz_end_opening(struct pz_opening *, int is_opened);

enum pz_lock { PZ_MAKER, PZ_USERS };
enum pz_lock_kind { PZ_NONE, PZ_SHARED, PZ_ALONE };
/* Sets one of the two locks. EAGAIN: another process has it, and the call doesn't wait. */
int pz_set_lock(int fd, enum pz_lock, enum pz_lock_kind, int waits);

/* ---- system.c. */

/* Reads which system this is. */
int pz_this_system(struct pz_system *);
/* Does what Linux's walk would have done if the system hadn't gone down: every owner is dead, and nobody sleeps. */
void pz_mark_all_dead(char *mapped, const struct pz_parts *, const struct pz_layout *);

#pragma GCC visibility pop
#endif
