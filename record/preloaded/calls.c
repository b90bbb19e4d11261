/* The calls on mutexes: those on robust mutexes that processes share are recorded, and all are passed on to the library
 * beneath. */
#include "recorder.h"
#include "preload/kind.h"

/* In the word where the C library keeps a mutex's kind: the bits of a robust one, and of one that processes share. */
enum { THEIR_ROBUST = 16, THEIR_SHARED = 128, THEIR_TYPE = 3, THEIR_MOST = 1023 };

static inline uint32_t kind_of(pthread_mutex_t *m)
{
    return atomic_load_explicit((_Atomic uint32_t *)(void *)&m->__data.__kind, memory_order_relaxed);
}

static inline int is_theirs(uint32_t kind)
{
    return (kind & (THEIR_ROBUST | THEIR_SHARED)) == (THEIR_ROBUST | THEIR_SHARED) && kind <= THEIR_MOST;
}

/* ---- Mutexes of a library that keeps its kinds in its own way: their last init says that they are robust. Nobody
 * looks for them unless there is one. */

static inline int has_other_kinds(void)
{
    return __builtin_expect(atomic_load_explicit(&rec_file->head.has_other_kinds, memory_order_relaxed) != 0, 0);
}

static RARE struct name *by_its_init(pthread_mutex_t *m)
{
    struct name *place = rec_find(m, A_MUTEX);
    return place && atomic_load(&place->by_init) ? place : NULL;
}

static void note_init(struct name *place, pthread_mutex_t *m, const pthread_mutexattr_t *a)
{
    int type = PTHREAD_MUTEX_NORMAL;
    if (is_theirs(kind_of(m)) || is_marked(kind_of(m)))
        return;
    pthread_mutexattr_gettype(a, &type);
    atomic_store(&place->by_init, type == PTHREAD_MUTEX_RECURSIVE ? ROBUST | RECURSIVE : ROBUST);
    atomic_store(&rec_file->head.has_other_kinds, 1);
}

/* Called if m is destroyed, or initialised as a mutex that isn't recorded. */
static void forget_init(pthread_mutex_t *m)
{
    struct name *place = rec_is_on() && has_other_kinds() ? by_its_init(m) : NULL;
    if (place)
        atomic_store(&place->by_init, 0);
}

/* ---- Which calls are recorded. */

struct name *rec_mutex(pthread_mutex_t *m)
{
    if (!rec_is_on())
        return NULL;
    if (is_theirs(kind_of(m)) || is_marked(kind_of(m)))
        return rec_place(m, A_MUTEX);
    return has_other_kinds() ? by_its_init(m) : NULL;
}

static int flags_of(const struct name *place, pthread_mutex_t *m)
{
    uint32_t kind = kind_of(m), type = is_marked(kind) ? kind >> TYPE_AT & 3 : kind & THEIR_TYPE;
    if (!is_marked(kind) && !is_theirs(kind))
        return (int)atomic_load(&place->by_init) & RECURSIVE;
    return type == PTHREAD_MUTEX_RECURSIVE ? RECURSIVE : 0;
}

/* Returns NULL if the call isn't recorded. */
static inline struct record *begin(enum call_kind call, pthread_mutex_t *m)
{
    struct name *place = rec_mutex(m);
    return place ? rec_begin(call, rec_number(place), 0, flags_of(place, m)) : NULL;
}

/* ---- The calls. */

static int is_robust_and_shared(const pthread_mutexattr_t *a)
{
    int robust, shared;
    return a && !pthread_mutexattr_getrobust(a, &robust) && robust == PTHREAD_MUTEX_ROBUST &&
           !pthread_mutexattr_getpshared(a, &shared) && shared == PTHREAD_PROCESS_SHARED;
}

/* The mutex has its new number before it is initialised: if the call doesn't end, or isn't recorded, the state in which
 * the mutex of that number begins is unknown. */
SHOWN int pthread_mutex_init(pthread_mutex_t *m, const pthread_mutexattr_t *a)
{
    int is_wanted = rec_is_on() && is_robust_and_shared(a);
    struct name *place = is_wanted ? rec_place(m, A_MUTEX) : NULL;
    if (!is_wanted)
        forget_init(m);
    if (!place)
        return rec_real()->pthread_mutex_init(m, a);
    uint32_t before = rec_number(place), number = rec_make(place, 0);
    PZ_AT(numbered);
    struct record *r = number ? rec_begin(INIT, number, 0, 0) : NULL;
    int reply = rec_real()->pthread_mutex_init(m, a);
    PZ_AT(called);
    if (reply)
        atomic_store(&place->last, before);
    else
        note_init(place, m, a);
    return rec_end(r, reply);
}

SHOWN int pthread_mutex_destroy(pthread_mutex_t *m)
{
    struct record *r = begin(DESTROY, m);
    int reply = rec_real()->pthread_mutex_destroy(m);
    PZ_AT(called);
    rec_end(r, reply);
    if (reply == 0)
        forget_init(m);
    return reply;
}

#define RECORDED(name, call, parameters, arguments)                                                                    \
    SHOWN int name parameters                                                                                          \
    {                                                                                                                  \
        struct record *r = begin(call, m);                                                                             \
        int reply = rec_real()->name arguments;                                                                        \
        PZ_AT(called);                                                                                                 \
        return rec_end(r, reply);                                                                                      \
    }
RECORDED(pthread_mutex_lock, LOCK, (pthread_mutex_t * m), (m))
RECORDED(pthread_mutex_trylock, TRYLOCK, (pthread_mutex_t * m), (m))
RECORDED(pthread_mutex_timedlock, TIMEDLOCK, (pthread_mutex_t * m, const struct timespec *t), (m, t))
RECORDED(pthread_mutex_clocklock, TIMEDLOCK, (pthread_mutex_t * m, clockid_t k, const struct timespec *t), (m, k, t))
RECORDED(pthread_mutex_unlock, UNLOCK, (pthread_mutex_t * m), (m))
RECORDED(pthread_mutex_consistent, CONSISTENT, (pthread_mutex_t * m), (m))
