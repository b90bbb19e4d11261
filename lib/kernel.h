/* The calls to Linux. None of them changes errno. */
#ifndef PZ_KERNEL_H
#define PZ_KERNEL_H
#include "word.h"
#include <errno.h>
#include <limits.h>
#include <linux/futex.h>
#include <sys/syscall.h>
#include <time.h>
#include <unistd.h>

/* futex_waitv(2) for headers from before Linux 5.16. */
#ifndef SYS_futex_waitv
#define SYS_futex_waitv 449
#endif
#ifndef FUTEX_32
#define FUTEX_32 2
struct futex_waitv {
    uint64_t val, uaddr;
    uint32_t flags, unused;
};
#endif

/* A time until which a call waits. */
struct deadline {
    clockid_t clock;
    const struct timespec *at;
};

static inline int is_clock(clockid_t clock) { return clock == CLOCK_REALTIME || clock == CLOCK_MONOTONIC; }
static inline int is_time(const struct timespec *t) { return t->tv_nsec >= 0 && t->tv_nsec < 1000000000; }

/* futex(2) refuses times before 1970, which have passed. */
static inline const struct timespec *since_1970(const struct timespec *t)
{
    static const struct timespec then;
    return t->tv_sec < 0 ? &then : t;
}

static inline uint64_t now_ns(void)
{
    struct timespec t;
    clock_gettime(CLOCK_MONOTONIC, &t);
    return (uint64_t)t.tv_sec * 1000000000 + (uint64_t)t.tv_nsec;
}

/* A cheap clock: it counts about 2,000,000 in a second, or up to three times as many, and need not agree with other
 * clocks. */
static inline uint64_t ticks(void)
{
#if defined __x86_64__
    return __builtin_ia32_rdtsc() >> 10; /* costs a third of clock_gettime(2); at 2 GHz or more */
#else
    return now_ns() >> 9;
#endif
}

static inline int has_passed(const struct deadline *d)
{
    struct timespec t;
    clock_gettime(d->clock, &t);
    return t.tv_sec > d->at->tv_sec || (t.tv_sec == d->at->tv_sec && t.tv_nsec >= d->at->tv_nsec);
}

/* Sleeps if the futex word of w is still that of `is`. Returns 0 if a wake came, or an errno. A sleep without a
 * deadline has one that never comes: only then does a signal handler that was installed with SA_RESTART end it, too. */
static inline int sleep_on(pz_word *w, uint64_t is, const struct deadline *d)
{
    static const struct timespec never = {.tv_sec = INT64_MAX};
    int realtime = d && d->clock == CLOCK_REALTIME ? FUTEX_CLOCK_REALTIME : 0, saved = errno;
    long r = syscall(SYS_futex, w, FUTEX_WAIT_BITSET | realtime, (uint32_t)is, d ? since_1970(d->at) : &never, NULL,
                     FUTEX_BITSET_MATCH_ANY);
    int error = r ? errno : 0;
    errno = saved;
    return error;
}

/* Wakes up to `most` sleepers, and returns how many it woke. */
static inline int wake(pz_word *w, int most)
{
    int saved = errno;
    long woken = syscall(SYS_futex, w, FUTEX_WAKE, most, NULL, NULL, 0);
    errno = saved;
    return (int)woken;
}

static inline void yield(void) { syscall(SYS_sched_yield); } /* it doesn't fail */

/* Sleeps for less than a second, or until a signal handler has run. */
static inline void sleep_for(long ns)
{
    int saved = errno;
    syscall(SYS_clock_nanosleep, CLOCK_MONOTONIC, 0, &(struct timespec){.tv_nsec = ns}, NULL);
    errno = saved;
}

/* Moves all sleepers to another word if the futex word of w is still that of `is`. Nobody wakes. */
static inline void move_sleepers(pz_word *w, uint64_t is, pz_word *to)
{
    int saved = errno;
    syscall(SYS_futex, w, FUTEX_CMP_REQUEUE, 0, (void *)(uintptr_t)INT_MAX, to, (uint32_t)is);
    errno = saved;
}
#endif
