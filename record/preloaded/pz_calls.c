/* libpazdrig's calls, recorded like the C library's. They are seen if the program is linked with libpazdrig.so. */
#include "recorder.h"
#include "cell.h"
#include <errno.h>

/* A call that is being recorded. r is NULL: it isn't. */
struct call {
    struct record *r;
    struct name *place;
    uint32_t before; /* the mutex's number before a reinit that hasn't ended; 0: there is none */
};

static uint64_t cell_of(const pz_mutex *m)
{
    return atomic_load_explicit((const _Atomic uint64_t *)&m->words[0], memory_order_acquire);
}

/* A mutex of zeros was never taken, so its whole history is here: as with an init that was recorded. */
static RARE void begin_name(struct name *place, const pz_mutex *m)
{
    if (atomic_exchange(&place->is_seen, 1) == 0 && cell_of(m) == 0)
        rec_end(rec_begin(INIT, rec_number(place), 0, 0), 0);
}

static struct name *place_of(const pz_mutex *m)
{
    int is_aligned = (uintptr_t)m % sizeof *m == 0;
    struct name *place = is_aligned && rec_is_on() ? rec_place(m, A_MUTEX) : NULL;
    if (place && __builtin_expect(!atomic_load_explicit(&place->is_seen, memory_order_relaxed), 0))
        begin_name(place, m);
    return place;
}

static struct call begin(enum call_kind kind, const pz_mutex *m, const pz_cond *c)
{
    struct name *place = place_of(m), *cond = place && c ? rec_place(c, A_COND) : NULL;
    if (!place || (c && !cond && kind != WAIT))
        return (struct call){NULL, NULL, 0};
    uint32_t number = rec_number(place), before = atomic_load(&rec_file->name[number - 1].before);
    return (struct call){rec_begin(kind, number, cond ? rec_number(cond) : 0, 0), place, before};
}

/* A wait that began with the unusable mutex, and has taken the one that it became: histories don't have that, so both
 * are left out. */
static RARE int end_wait(struct record *r, uint32_t number, int reply)
{
    uint32_t cond = r->cond;
    rec_end(r, CANCELLED);
    rec_end(rec_begin(WAIT, number, cond, 0), CANCELLED);
    return reply;
}

/* Ends a call in which the mutex was reinitialised, or that began while it was. */
static RARE int end_beside_a_reinit(const struct call *k, uint32_t number, int reply)
{
    int is_wait = k->r->call == WAIT, is_taken = reply == 0 || reply == EOWNERDEAD || (is_wait && reply == ETIMEDOUT);
    if (k->r->mutex == number) {
        k->r->mutex = reply == ENOTRECOVERABLE ? k->before : number;
        return rec_end(k->r, reply);
    }
    if (is_taken && is_wait)
        return end_wait(k->r, number, reply);
    if (is_taken)
        k->r->mutex = number;
    else if (reply != ENOTRECOVERABLE)
        k->r->call = NO_CALL; /* it isn't known of which one it is, and changed neither */
    return rec_end(k->r, reply);
}

static int end(const struct call *k, int reply)
{
    if (!k->r)
        return reply;
    PZ_AT(called);
    uint32_t number = rec_number(k->place);
    if (__builtin_expect((k->before || number != k->r->mutex) && k->r->call <= WAIT, 0))
        return end_beside_a_reinit(k, number, reply);
    return rec_end(k->r, reply);
}

#define RECORDED(name, kind, parameters, m, c, arguments)                                                              \
    SHOWN int name parameters                                                                                          \
    {                                                                                                                  \
        struct call it = begin(kind, m, c);                                                                            \
        return end(&it, rec_library()->name arguments);                                                                \
    }
RECORDED(pz_mutex_lock, LOCK, (pz_mutex * m), m, NULL, (m))
RECORDED(pz_mutex_trylock, TRYLOCK, (pz_mutex * m), m, NULL, (m))
RECORDED(pz_mutex_timedlock, TIMEDLOCK, (pz_mutex * m, const struct timespec *t), m, NULL, (m, t))
RECORDED(pz_mutex_clocklock, TIMEDLOCK, (pz_mutex * m, clockid_t k, const struct timespec *t), m, NULL, (m, k, t))
RECORDED(pz_mutex_unlock, UNLOCK, (pz_mutex * m), m, NULL, (m))
RECORDED(pz_mutex_consistent, CONSISTENT, (pz_mutex * m), m, NULL, (m))
RECORDED(pz_cond_wait, WAIT, (pz_cond * c, pz_mutex *m), m, c, (c, m))
RECORDED(pz_cond_timedwait, WAIT, (pz_cond * c, pz_mutex *m, const struct timespec *t), m, c, (c, m, t))
RECORDED(pz_cond_clockwait, WAIT, (pz_cond * c, pz_mutex *m, clockid_t k, const struct timespec *t), m, c, (c, m, k, t))
RECORDED(pz_cond_signal, SIGNAL, (pz_cond * c, pz_mutex *m), m, c, (c, m))
RECORDED(pz_cond_broadcast, BROADCAST, (pz_cond * c, pz_mutex *m), m, c, (c, m))

/* An unusable mutex becomes another one, as by pthread_mutex_init. It has its new number before it is free, and the old
 * one is in `before` until it is. */
static int reinitialise(pz_mutex *m, struct name *place)
{
    uint32_t before = rec_number(place), number = rec_make(place, before);
    struct record *r = number ? rec_begin(INIT, number, 0, 0) : NULL;
    PZ_AT(numbered);
    int reply = rec_library()->pz_mutex_reinit(m);
    PZ_AT(called);
    if (reply)
        atomic_store(&place->last, before);
    if (number)
        atomic_store(&rec_file->name[number - 1].before, 0);
    return rec_end(r, reply);
}

/* The reinit of a mutex that isn't unusable is a trylock, a declaration and an unlock. */
SHOWN int pz_mutex_reinit(pz_mutex *m)
{
    struct name *place = place_of(m);
    if (!place)
        return rec_library()->pz_mutex_reinit(m);
    if (cell_of(m) & UNUSABLE)
        return reinitialise(m, place);
    int r = pz_mutex_trylock(m);
    if (r == ENOTRECOVERABLE)
        return reinitialise(m, place);
    if (r == EOWNERDEAD)
        r = pz_mutex_consistent(m);
    return r ? r : pz_mutex_unlock(m);
}
