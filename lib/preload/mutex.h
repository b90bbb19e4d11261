/* A program's robust, process-shared pthread_mutex_t, in its own bytes. wait.c has the protocol. */
#ifndef PZ_PRELOAD_MUTEX_H
#define PZ_PRELOAD_MUTEX_H
#include "../pazdrig.h"
#include "../cell.h"
#include "../list.h"
#include "../real.h"
#include "kind.h"
#include <pthread.h>
#include <stddef.h>

typedef _Atomic uint32_t half_word;

struct mutex {
    pz_word cell;           /* see cell.h, and OWED and TAKE below */
    half_word bell;         /* a second futex word, which says who is awake */
    half_word since;        /* when that thread came, or was called, in us */
    half_word kind;         /* MARK, with the type and PLAIN */
    uint16_t space;         /* the PID namespace in which it was initialised; 0: not known */
    uint16_t again;         /* how often its owner has locked it again */
    pz_word previous, next; /* the cell's links in the C library's own robust list */
};
_Static_assert(sizeof(struct mutex) <= sizeof(pthread_mutex_t), "it fits in place");
_Static_assert(offsetof(struct mutex, next) == -FUTEX_OFFSET, "its links are where the C library has them");
_Static_assert(offsetof(struct mutex, kind) == offsetof(pthread_mutex_t, __data.__kind), "so is its kind");

/* Above UNUSABLE the cell has OWED (an unlock may not have made its wake yet) and a turn, which each take increments.
 */
#define OWED (1ull << 33)
#define TAKE (1ull << 34)

/* The bell: 0, COMES, a TID with COMES, or Linux's mark of a dead thread, OWNER_DIED with COMES. */
#define COMES (1u << 31)
#define AWAKE 0x3fffffffu

static inline int is_ours(struct mutex *m) { return is_marked(atomic_load_explicit(&m->kind, memory_order_acquire)); }
static inline struct mutex *ours(pthread_mutex_t *mutex)
{
    struct mutex *m = (struct mutex *)mutex;
    return UNLIKELY(is_ours(m)) ? m : NULL;
}
static inline int is_plain(struct mutex *m)
{
    return (atomic_load_explicit(&m->kind, memory_order_relaxed) & PLAIN) != 0;
}
static inline int type_of(struct mutex *m)
{
    return (int)(atomic_load_explicit(&m->kind, memory_order_relaxed) >> TYPE_AT & 3);
}

static inline pz_word *cell_entry(struct mutex *m) { return &m->next; }
/* Only ever pending. It is outside of the mutex, but Linux uses a pending entry only to find the word. */
static inline pz_word *bell_entry(struct mutex *m) { return (pz_word *)((char *)&m->bell - FUTEX_OFFSET); }

static inline uint32_t now_us(void) { return (uint32_t)(now_ns() / 1000); }

/* ---- process.c: the calling thread, and what its process can serve. */
extern _Atomic uint16_t pre_space; /* this PID namespace; 0: pre_refuse has to look at each mutex */
struct caller *pre_ask(void);
int pre_refuse(struct mutex *m, struct caller *s);
int pre_has_two_word_sleep(void);
int pre_lose_two_word_sleep(struct mutex *m, struct caller *s);
uint16_t pre_namespace(void);
static inline struct caller *here(void)
{
    struct caller *s = &pz_caller;
    return LIKELY(s->life == load_relaxed(atomic_load_explicit(&pz_life, memory_order_acquire))) ? s : pre_ask();
}
static inline int is_owner(struct mutex *m, struct caller *s)
{
    return s && (load_acquire(&m->cell) & OWNER) == s->tid;
}

/* ---- report.c */
void pre_report(const char *what);

/* ---- wait.c */
/* A wait that a signal handler has interrupted, and what it has pending. Without a wait, all is NULL. */
struct interrupted {
    struct mutex *waits_for;
    pz_word *pending;
};
struct interrupted pre_interrupt(struct caller *s);
void pre_resume(struct caller *s, struct interrupted was);
int pre_wait(struct mutex *m, struct caller *s, const struct deadline *d);
int pre_call(struct mutex *m, uint64_t v, uint32_t now);
void pre_hand_on(struct mutex *m, uint64_t is, int calls, uint32_t now);

static inline uint64_t taken(uint64_t v, const struct caller *s) { return (v + TAKE) | s->tid; }

/* The rest of a take, after the exchange of the cell, which was v. */
static inline int take(struct mutex *m, struct caller *s, uint64_t v)
{
    put_on_list(s, cell_entry(m));
    s->owned++;
    set_pending(s, NULL);
    if (LIKELY(!(v & OWNER_DIED)))
        return 0;
    m->again = 0;
    return EOWNERDEAD;
}

/* ---- lock.c */
int pre_lock(struct mutex *m);
int pre_unlock(struct mutex *m);

/* ---- real.c: the C library's functions. */
extern struct real {
    PZ_MUTEX_FUNCTIONS(PZ_REAL_POINTER)
} pre_real;
#endif
