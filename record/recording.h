/* A recording, which is a file that all recorded processes map, and its stamps. A process that is killed at any
 * instruction does no harm: a row is filled first and then shown, and nothing is ever locked. Everything except the
 * chunks has its disk space from the beginning. A chunk gets its space before it is used. */
#ifndef RECORDING_H
#define RECORDING_H
#include <stdatomic.h>
#include <stddef.h>
#include <stdint.h>
#include <sys/mman.h>

#ifndef MADV_POPULATE_WRITE
#define MADV_POPULATE_WRITE 23 /* since Linux 5.14 */
#endif

/* What tests do at a moment (tests/record/hooks.h). */
#ifndef PZ_AT
#define PZ_AT(moment) ((void)0)
#endif

#define MAGIC 0x32636572647a70ull /* "pzdrec2" */
enum { PAGE = 4096, PROCESSES = 1 << 16, LIVES = 1 << 17, NAMES = 1 << 18, OBJECTS = 1 << 12 };
enum { NAME_SLOTS = 2 * NAMES, OBJECT_SLOTS = 2 * OBJECTS, OBJECT_PATH = 488 };
enum { BY_TSC, BY_COUNTER };

enum call_kind {
    LOCK = 1,
    TRYLOCK,
    TIMEDLOCK,
    UNLOCK,
    CONSISTENT,
    WAIT,
    SIGNAL,
    BROADCAST,
    INIT,
    DESTROY,
    COND_INIT,
    COND_DESTROY,
    NO_CALL /* histories don't have it */
};
enum { RECURSIVE = 1, ROBUST = 2 }; /* flags of calls and names */
enum { CANCELLED = -1 };            /* the reply of a wait that was cancelled */

/* A call. If the thread was killed in it, `end` is 0. */
struct record {
    _Atomic uint64_t begin, end; /* stamps; 0: not yet */
    uint32_t mutex, cond;        /* numbers of names, from 1 */
    uint16_t call, flags;
    int32_t reply; /* as errno(3) */
};

/* Calls of one life, in their order. In a ring, the oldest call comes after the newest. */
struct chunk {
    _Atomic uint64_t next; /* the offset of the life's next chunk; 0: none */
    uint32_t records, life;
    uint64_t unused[2];
    struct record record[];
};

/* A thread, from its first call on. The stamp `gone` is later than the kernel's walk over its robust list. */
struct life {
    _Atomic uint64_t chunk; /* the first one's offset; 0: none yet */
    _Atomic uint64_t gone;
    uint64_t self;              /* its pthread_t */
    uint64_t since;             /* when this row was filled, in nanoseconds since boot */
    uint32_t process, thread;   /* a row; a thread id */
    _Atomic uint32_t has_ended; /* stored by the thread itself, last */
    _Atomic uint32_t is_shown;
    uint64_t unused[2];
};
struct process {
    _Atomic uint64_t gone;
    uint64_t namespace; /* of `pid`; 0: not known */
    uint32_t pid;
    _Atomic uint32_t is_shown;
    uint64_t unused;
};

/* A mutex or condition variable, from one init to the next at the same place. The place's first row, which its slot
 * names, says which row is the last. */
struct name {
    uint64_t offset;
    uint32_t object;
    uint32_t is_cond;
    _Atomic uint32_t last; /* a number; 0: this one */
    /* These two are the place's, in its first row: the flags of the last init, if the mutex's own bytes don't say what
     * it is, and whether a call of libpazdrig has come. */
    _Atomic uint16_t by_init, is_seen;
    _Atomic uint32_t before; /* the mutex's number before the reinit that isn't complete; 0: there is none */
    uint32_t unused;
};
struct object {
    uint64_t dev, ino, unused;
    char path[OBJECT_PATH];
};

struct head {
    uint64_t magic, size, namespace;
    char boot[40];          /* in which its stamps and thread ids are valid */
    uint32_t clock, last;   /* how to make stamps; how many calls of a thread to keep, 0: all */
    _Atomic uint64_t ended; /* the stamp from which on calls may be missing; 0: none are */
    char apart[64];
    _Atomic uint64_t count; /* BY_COUNTER: the last stamp */
    char apart_too[64];
    _Atomic uint64_t used; /* bytes */
    _Atomic uint32_t lives, processes, names, objects;
    _Atomic uint32_t news;            /* a futex word that each new life increments */
    _Atomic uint32_t has_other_kinds; /* a mutex was initialised whose kind only its own library knows */
};

struct recording {
    struct head head;
    char page[PAGE - sizeof(struct head)];
    struct process process[PROCESSES];
    struct life life[LIVES];
    struct name name[NAMES];
    struct object object[OBJECTS];
    _Atomic uint32_t name_slot[NAME_SLOTS], object_slot[OBJECT_SLOTS];
    char chunks[];
};
_Static_assert(sizeof(struct record) == 32 && sizeof(struct chunk) == 32, "records lie in whole cache lines");
_Static_assert(sizeof(struct life) == 64 && sizeof(struct process) == 32 && sizeof(struct name) == 32, "rows");
_Static_assert(sizeof(struct object) == 512 && sizeof(struct recording) % PAGE == 0, "pages");

static inline uint32_t rows(_Atomic uint32_t *count, uint32_t most)
{
    uint32_t n = atomic_load(count);
    return n < most ? n : most;
}

/* A stamp that isn't later than anything that the thread does after it. */
static inline uint64_t stamp_before(struct head *h)
{
#ifdef __x86_64__
    if (h->clock == BY_TSC) {
        uint64_t t = __builtin_ia32_rdtsc();
        __builtin_ia32_lfence();
        return t;
    }
#endif
    return atomic_fetch_add(&h->count, 1) + 1;
}

/* A stamp that is later than everything that the thread did before it, when all processors can see that. */
static inline uint64_t stamp_after(struct head *h)
{
#ifdef __x86_64__
    if (h->clock == BY_TSC) {
        __builtin_ia32_mfence();
        __builtin_ia32_lfence();
        return __builtin_ia32_rdtsc();
    }
#endif
    return atomic_fetch_add(&h->count, 1) + 1;
}

/* Only the first stamp is kept. */
static inline void stamp_gone(struct head *h, _Atomic uint64_t *gone)
{
    uint64_t none = 0;
    atomic_compare_exchange_strong(gone, &none, stamp_after(h));
}
#endif
