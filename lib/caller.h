/* The calling thread: its TID, and the robust list that the C library registered for it. */
#ifndef PZ_CALLER_H
#define PZ_CALLER_H
#include "kernel.h"
#include "word.h"

/* What a thread knows of itself. */
struct caller {
    uint64_t life;     /* the number of the process's life in which the thread asked for the rest */
    uint64_t tid;      /* gettid(2) */
    pz_word *list;     /* the list's head: first entry, futex offset, pending entry */
    const void *owes;  /* a mutex that the thread freed while another one was due to get it */
    void *waits_for;   /* a mutex of libpazdrig_pthread.so for which the thread waits, which a handler may interrupt */
    uint32_t owned;    /* how many mutexes it owns */
    uint32_t pause;    /* how long waiting awake pays, in ns */
    uint32_t waits;    /* how often it waited awake */
    uint16_t spares;   /* how often it left a wake to an heir */
    uint16_t was_heir; /* whether it last took a mutex as the heir */
    uint32_t rwlocks;  /* how many reader-writer locks it has */
    uint32_t lane;     /* which lane of a reader-writer lock it tries first */
};

/* NEW_THREAD differs from the word of `pz_life` in every state: before the first call of a process (NO_LIFE), in a
 * child whose page the kernel has wiped (0), and later (a time). Otherwise a thread that comes while another one asks
 * would pass with TID 0. */
enum { NEW_THREAD = 1, NO_LIFE = 2 };

extern _Thread_local struct caller pz_caller __attribute__((tls_model("initial-exec"), visibility("hidden")));
/* The number of this process's life. It is on a page that the kernel wipes in a child, after fork(2), _Fork(3) or
 * clone(2), so no thread takes its parent's TID for its own, whichever thread of the child calls first. */
extern pz_word *_Atomic pz_life __attribute__((visibility("hidden")));

/* Fills pz_caller. Returns NULL if the kernel or the C library lacks what the library needs. */
struct caller *pz_ask(void) __attribute__((visibility("hidden")));

/* Returns the calling thread, or NULL: ENOTSUP. */
static inline struct caller *caller(void)
{
    struct caller *s = &pz_caller;
    return LIKELY(s->life == load_relaxed(atomic_load_explicit(&pz_life, memory_order_acquire))) ? s : pz_ask();
}
#endif
