/* The calls on mutexes, where nobody is in the way. heir.c has the rest. */
#include "mutex.h"

static int wake_all(pz_mutex *m) { return wake(cell(m), INT_MAX); }

/* ---- Lock. */

static inline __attribute__((always_inline)) int lock(pz_mutex *m, const struct deadline *d)
{
    struct caller *s = caller();
    if (UNLIKELY(!s))
        return ENOTSUP;
    if (UNLIKELY(!is_aligned(m)))
        return EINVAL;
    if (UNLIKELY(s->owes == m))
        pz_give_way(m, s);
    uint64_t seen = load_acquire(cell(m));
    if (UNLIKELY(is_own(seen, s)))
        return EDEADLK;
    if (UNLIKELY(s->owned >= PZ_MOST_OWNED))
        return EAGAIN;
    set_pending(s, cell_entry(m));
    if (LIKELY(is_free(seen))) {
        if (LIKELY(compare_exchange(cell(m), &seen, taken(seen, s))))
            return acquired(s, m, seen);
    } else {
        seen = load_acquire(cell(m)); /* what a look before `pending` found doesn't count */
    }
    return pz_wait_for(m, s, seen, d, TRIED);
}

int pz_mutex_lock(pz_mutex *m) { return lock(m, NULL); }

int pz_mutex_clocklock(pz_mutex *m, clockid_t clock, const struct timespec *until)
{
    struct deadline d = {clock, until};
    return is_clock(clock) ? lock(m, &d) : EINVAL;
}

int pz_mutex_timedlock(pz_mutex *m, const struct timespec *until)
{
    return pz_mutex_clocklock(m, CLOCK_REALTIME, until);
}

int pz_mutex_trylock(pz_mutex *m)
{
    struct caller *s = caller();
    return LIKELY(s) ? try_lock(m, s) : ENOTSUP;
}

/* ---- Unlock. */

/* The owner hasn't declared the mutex consistent. */
__attribute__((noinline, cold)) int pz_make_unusable(pz_mutex *m, struct caller *s)
{
    set_pending(s, cell_entry(m));
    if (!take_off(s, m))
        return reply_with(s, EPERM);
    if (fetch_add(cell(m), UNUSABLE - OWNER_DIED - s->tid) & WAITERS)
        wake_all(m);
    return reply_with(s, 0);
}

int pz_mutex_unlock(pz_mutex *m)
{
    struct caller *s = caller();
    return LIKELY(s) ? unlock(m, s) : ENOTSUP;
}

/* ---- What an owner's death leaves. */

int pz_mutex_consistent(pz_mutex *m)
{
    struct caller *s = caller();
    if (!s)
        return ENOTSUP;
    uint64_t seen = load_relaxed(cell(m));
    if (!is_own(seen, s))
        return EPERM;
    if (!(seen & OWNER_DIED))
        return EINVAL;
    fetch_and(cell(m), ~OWNER_DIED);
    return 0;
}

/* Sleepers of an unusable mutex were woken, or WAITERS stays for its next owner. */
static int is_reinitialised(pz_mutex *m)
{
    uint64_t seen = load_acquire(cell(m));
    while (seen & UNUSABLE)
        if (compare_exchange(cell(m), &seen, (seen & ~UNUSABLE) + TURN))
            return 1;
    return 0;
}

int pz_mutex_reinit(pz_mutex *m)
{
    int r;
    do {
        if (!is_aligned(m))
            return EINVAL;
        if (is_reinitialised(m))
            return 0;
        r = pz_mutex_trylock(m);
    } while (r == ENOTRECOVERABLE);
    if (r == EOWNERDEAD)
        r = pz_mutex_consistent(m);
    return r ? r : pz_mutex_unlock(m);
}

pid_t pz_mutex_owner(const pz_mutex *m) { return (pid_t)(load_acquire(cell(m)) & OWNER); }
