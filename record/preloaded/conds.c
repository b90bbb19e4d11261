/* The calls on condition variables. A wait is recorded if its mutex is, and another call if processes share the
 * variable. */
#include "recorder.h"

static struct record *begin(enum call_kind call, pthread_cond_t *c)
{
    struct name *place = rec_is_on() ? rec_place(c, A_COND) : NULL;
    return place ? rec_begin(call, 0, rec_number(place), 0) : NULL;
}

SHOWN int pthread_cond_init(pthread_cond_t *c, const pthread_condattr_t *a)
{
    struct record *r = begin(COND_INIT, c);
    return rec_end(r, rec_real()->pthread_cond_init(c, a));
}

SHOWN int pthread_cond_destroy(pthread_cond_t *c)
{
    struct record *r = begin(COND_DESTROY, c);
    return rec_end(r, rec_real()->pthread_cond_destroy(c));
}

SHOWN int pthread_cond_signal(pthread_cond_t *c)
{
    struct record *r = begin(SIGNAL, c);
    return rec_end(r, rec_real()->pthread_cond_signal(c));
}

SHOWN int pthread_cond_broadcast(pthread_cond_t *c)
{
    struct record *r = begin(BROADCAST, c);
    return rec_end(r, rec_real()->pthread_cond_broadcast(c));
}

/* ---- Waits. */

struct wait {
    pthread_cond_t *cond;
    pthread_mutex_t *mutex;
    const struct timespec *until;
    clockid_t clock;
    int (*call)(const struct wait *);
};
static int for_ever(const struct wait *w) { return rec_real()->pthread_cond_wait(w->cond, w->mutex); }
static int timed(const struct wait *w) { return rec_real()->pthread_cond_timedwait(w->cond, w->mutex, w->until); }
static int by_clock(const struct wait *w)
{
    return rec_real()->pthread_cond_clockwait(w->cond, w->mutex, w->clock, w->until);
}

/* Not inlined: locals of a function with a cancellation handler might be clobbered. */
static __attribute__((noinline)) struct record *begin_wait(const struct wait *w)
{
    struct name *m = rec_mutex(w->mutex);
    struct name *c = m ? rec_place(w->cond, A_COND) : NULL;
    return m ? rec_begin(WAIT, rec_number(m), c ? rec_number(c) : 0, 0) : NULL;
}

/* The thread's cancellation ends its wait. It owns the mutex again unless that is unusable, and runs its handlers,
 * whose calls are recorded. */
static void cancelled(void *r) { rec_end(r, CANCELLED); }

static int wait_on(const struct wait *w)
{
    int reply;
    struct record *r = begin_wait(w);
    if (!r)
        return w->call(w);
    pthread_cleanup_push(cancelled, r);
    reply = w->call(w);
    PZ_AT(called);
    pthread_cleanup_pop(0);
    return rec_end(r, reply);
}

SHOWN int pthread_cond_wait(pthread_cond_t *c, pthread_mutex_t *m)
{
    return wait_on(&(struct wait){.cond = c, .mutex = m, .call = for_ever});
}

SHOWN int pthread_cond_timedwait(pthread_cond_t *c, pthread_mutex_t *m, const struct timespec *until)
{
    return wait_on(&(struct wait){.cond = c, .mutex = m, .until = until, .call = timed});
}

SHOWN int pthread_cond_clockwait(pthread_cond_t *c, pthread_mutex_t *m, clockid_t clock, const struct timespec *until)
{
    return wait_on(&(struct wait){.cond = c, .mutex = m, .until = until, .clock = clock, .call = by_clock});
}
