/* The calls on mutexes. A mutex that isn't this library's goes to the C library. */
#include "mutex.h"
#include <limits.h>

#define SHOWN __attribute__((visibility("default")))

/* ---- Lock. */

/* A lock by the owner. */
static __attribute__((cold)) int lock_again(struct mutex *m, const struct deadline *d, int tries)
{
    if (type_of(m) == PTHREAD_MUTEX_RECURSIVE)
        return m->again == UINT16_MAX ? EAGAIN : (m->again++, 0);
    if (type_of(m) == PTHREAD_MUTEX_ERRORCHECK || !(d || tries))
        return EDEADLK;
    if (tries)
        return EBUSY;
    if (!is_time(d->at))
        return EINVAL;
    int saved = errno;
    while (syscall(SYS_clock_nanosleep, d->clock, TIMER_ABSTIME, since_1970(d->at), NULL) < 0 && errno == EINTR)
        ;
    errno = saved;
    return ETIMEDOUT;
}

static __attribute__((noinline, cold)) int lock_in_handler(struct mutex *, struct caller *, const struct deadline *,
                                                           int);

static inline __attribute__((always_inline)) int lock(struct mutex *m, const struct deadline *d, int tries)
{
    struct caller *s = here();
    int refused;
    if (UNLIKELY(!s || s->owned >= PZ_MOST_OWNED || m->space != pre_space) && (refused = pre_refuse(m, s)))
        return refused;
    if (UNLIKELY(s->waits_for))
        return lock_in_handler(m, s, d, tries);
    uint64_t v = load_acquire(&m->cell);
    if (UNLIKELY((v & OWNER) == s->tid))
        return lock_again(m, d, tries);
    set_pending(s, cell_entry(m));
    while (LIKELY(!(v & (OWNER | UNUSABLE))))
        if (LIKELY(compare_exchange(&m->cell, &v, taken(v, s))))
            return take(m, s, v);
    if (!tries && !(v & UNUSABLE) && (!d || is_time(d->at)))
        return pre_wait(m, s, d);
    set_pending(s, NULL);
    return v & UNUSABLE ? ENOTRECOVERABLE : tries ? EBUSY : EINVAL;
}

static int lock_in_handler(struct mutex *m, struct caller *s, const struct deadline *d, int tries)
{
    struct interrupted was = pre_interrupt(s);
    int reply = lock(m, d, tries);
    pre_resume(s, was);
    return reply;
}

int pre_lock(struct mutex *m) { return lock(m, NULL, 0); }

SHOWN int pthread_mutex_lock(pthread_mutex_t *mutex)
{
    struct mutex *m = ours(mutex);
    return m ? lock(m, NULL, 0) : pre_real.pthread_mutex_lock(mutex);
}

SHOWN int pthread_mutex_trylock(pthread_mutex_t *mutex)
{
    struct mutex *m = ours(mutex);
    return m ? lock(m, NULL, 1) : pre_real.pthread_mutex_trylock(mutex);
}

SHOWN int pthread_mutex_timedlock(pthread_mutex_t *mutex, const struct timespec *until)
{
    struct mutex *m = ours(mutex);
    return m ? lock(m, &(struct deadline){CLOCK_REALTIME, until}, 0) : pre_real.pthread_mutex_timedlock(mutex, until);
}

SHOWN int pthread_mutex_clocklock(pthread_mutex_t *mutex, clockid_t clock, const struct timespec *until)
{
    struct mutex *m = ours(mutex);
    if (!m)
        return pre_real.pthread_mutex_clocklock(mutex, clock, until);
    return is_clock(clock) ? lock(m, &(struct deadline){clock, until}, 0) : EINVAL;
}

/* ---- Unlock. */

/* A mutex that its owner didn't declare consistent: it stays unusable, and all who sleep learn of that. */
static __attribute__((cold)) void make_unusable(struct mutex *m, struct caller *s)
{
    if (fetch_add(&m->cell, UNUSABLE - OWNER_DIED - s->tid) & WAITERS)
        wake(&m->cell, INT_MAX);
}

static __attribute__((noinline, cold)) int unlock_in_handler(struct mutex *m, struct caller *s)
{
    struct interrupted was = pre_interrupt(s);
    int reply = pre_unlock(m);
    pre_resume(s, was);
    return reply;
}

/* Not inlined, so that the unlock of a private mutex saves no registers. */
__attribute__((noinline)) int pre_unlock(struct mutex *m)
{
    struct caller *s = here();
    uint64_t v = load_acquire(&m->cell);
    if (UNLIKELY(!s || (v & OWNER) != s->tid))
        return EPERM;
    if (UNLIKELY(m->again))
        return m->again--, 0;
    if (UNLIKELY(s->waits_for))
        return unlock_in_handler(m, s);
    set_pending(s, cell_entry(m));
    if (UNLIKELY(!take_off_list(s, cell_entry(m))))
        return set_pending(s, NULL), EPERM;
    s->owned--;
    if (UNLIKELY(v & OWNER_DIED)) {
        make_unusable(m, s);
    } else {
        uint32_t now = UNLIKELY(v & WAITERS) ? now_us() : 0;
        int calls = !(v & WAITERS) || pre_call(m, v, now);
        v = fetch_sub(&m->cell, s->tid);
        if (UNLIKELY(v & WAITERS))
            pre_hand_on(m, v - s->tid, calls, now);
    }
    set_pending(s, NULL);
    return 0;
}

SHOWN int pthread_mutex_unlock(pthread_mutex_t *mutex)
{
    struct mutex *m = ours(mutex);
    return m ? pre_unlock(m) : pre_real.pthread_mutex_unlock(mutex);
}

SHOWN int pthread_mutex_consistent(pthread_mutex_t *mutex)
{
    struct mutex *m = ours(mutex);
    if (!m)
        return pre_real.pthread_mutex_consistent(mutex);
    if (!is_owner(m, here()) || !(load_acquire(&m->cell) & OWNER_DIED))
        return EINVAL;
    fetch_and(&m->cell, ~OWNER_DIED);
    return 0;
}

/* The name that old programs call. pthread.h redirects it, so that it can't be defined by that name. */
SHOWN int consistent_np(pthread_mutex_t *) __asm__("pthread_mutex_consistent_np");
int consistent_np(pthread_mutex_t *mutex) { return pthread_mutex_consistent(mutex); }
