/* Condition variables. Word 0 has a counter of signals, on which waits sleep, and above it SLEPT: somebody may wait.
 * Word 1 says with which mutex: its distance in memory, as processes may map both at different addresses. Only the
 * mutex's owner changes them. */
#include "mutex.h"

#define SLEPT (1ull << 32)

static inline pz_word *counter(pz_cond *c) { return (pz_word *)&c->words[0]; }
static inline pz_word *mutex_distance(pz_cond *c) { return (pz_word *)&c->words[1]; }
static inline uint64_t distance(const pz_cond *c, const pz_mutex *m) { return (uintptr_t)m - (uintptr_t)c; }

/* Whether threads may wait there with another mutex. */
static inline int is_of_another(pz_cond *c, const pz_mutex *m, uint64_t count)
{
    return (count & SLEPT) && load_relaxed(mutex_distance(c)) != distance(c, m);
}
static inline int is_aligned_cond(const pz_cond *c) { return (uintptr_t)c % sizeof *c == 0; }

/* ---- Wait. */

/* Releases the mutex. SLEPT is set before that, so each signal that comes later wakes. */
static void release(pz_cond *c, pz_mutex *m, struct caller *s, uint64_t seen, uint64_t count)
{
    if (!(count & SLEPT)) {
        store_release(mutex_distance(c), distance(c, m));
        store_release(counter(c), count | SLEPT);
    }
    int is_announced = (seen & WAITERS) && announce_wake(m, s);
    uint64_t left = fetch_sub(cell(m), s->tid) - s->tid;
    if ((left & WAITERS) && !pz_hand_on(m, is_announced) && is_announced)
        pz_unannounce_wake(m);
}

static int lock_again(pz_mutex *m, struct caller *s)
{
    set_pending(s, cell_entry(m)); /* again: a signal handler may have locked another robust mutex */
    uint64_t seen = load_acquire(cell(m));
    if (is_free(seen) && compare_exchange(cell(m), &seen, taken(seen, s)))
        return acquired(s, m, seen);
    return pz_wait_for(m, s, seen, NULL, WAITED);
}

static int wait_until(pz_cond *c, pz_mutex *m, const struct deadline *d)
{
    struct caller *s = caller();
    if (!s)
        return ENOTSUP;
    uint64_t seen = load_relaxed(cell(m));
    if (!is_own(seen, s))
        return EPERM;
    uint64_t count = load_relaxed(counter(c));
    if ((seen & OWNER_DIED) || !is_aligned_cond(c) || is_of_another(c, m, count))
        return EINVAL;
    set_pending(s, cell_entry(m));
    if (!take_off(s, m))
        return reply_with(s, EPERM);
    release(c, m, s, seen, count);
    /* A wait is late only if no signal came: after one, a broadcast may have moved it to the mutex. */
    int is_late = sleep_on(counter(c), count, d) == ETIMEDOUT && (uint32_t)load_acquire(counter(c)) == (uint32_t)count;
    int reply = lock_again(m, s);
    return reply == 0 && is_late ? ETIMEDOUT : reply;
}

int pz_cond_wait(pz_cond *c, pz_mutex *m) { return wait_until(c, m, NULL); }

int pz_cond_clockwait(pz_cond *c, pz_mutex *m, clockid_t clock, const struct timespec *until)
{
    struct deadline d = {clock, until};
    return is_clock(clock) && is_time(until) ? wait_until(c, m, &d) : EINVAL;
}

int pz_cond_timedwait(pz_cond *c, pz_mutex *m, const struct timespec *until)
{
    return pz_cond_clockwait(c, m, CLOCK_REALTIME, until);
}

/* ---- Signal and broadcast. */

/* Returns 0 and the word before and after a count, or why the caller may not. */
static inline int may_signal(pz_cond *c, pz_mutex *m, uint64_t *count, uint64_t *next)
{
    struct caller *s = caller();
    if (UNLIKELY(!s))
        return ENOTSUP;
    if (UNLIKELY(!is_own(load_relaxed(cell(m)), s)))
        return EPERM;
    *count = load_relaxed(counter(c));
    *next = (*count & SLEPT) | (uint32_t)(*count + 1);
    return UNLIKELY(!is_aligned_cond(c) || is_of_another(c, m, *count)) ? EINVAL : 0;
}

int pz_cond_signal(pz_cond *c, pz_mutex *m)
{
    uint64_t count, next;
    int r = may_signal(c, m, &count, &next);
    if (r)
        return r;
    if (LIKELY(!(count & SLEPT))) {
        store_release(counter(c), next);
        return 0;
    }
    exchange(counter(c), next);
    if (!wake(counter(c), 1)) /* each that has waited since SLEPT was set is dead, or awake, or finds a new count */
        store_release(counter(c), next & ~SLEPT);
    return 0;
}

/* Moves all who wait to the mutex's cell, where unlocks wake them one by one. */
int pz_cond_broadcast(pz_cond *c, pz_mutex *m)
{
    uint64_t count, next;
    int r = may_signal(c, m, &count, &next);
    if (r)
        return r;
    if (LIKELY(!(count & SLEPT))) {
        store_release(counter(c), next);
        return 0;
    }
    exchange(counter(c), next);
    fetch_or(cell(m), WAITERS);
    move_sleepers(counter(c), next, cell(m));
    store_release(counter(c), next & ~SLEPT);
    return 0;
}
