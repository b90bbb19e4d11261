/* Condition variables that are used with this library's mutexes: a count of signals in the variable itself, on which
 * waiters sleep. Nothing says who waits, or how many, so a thread that is killed leaves nothing there.
 *
 * The bytes are the C library's until a thread waits there with one of this library's mutexes. From then on, until the
 * variable is initialised again, they are this library's, whatever the mutex; the C library's functions then find that
 * nobody waits. A variable in which the C library's own waits have left something can't be used with such a mutex. */
#include "mutex.h"

#define SHOWN __attribute__((visibility("default")))

/* `kind` is where the C library counts signals that nobody has taken yet, and more than it can have there; newer ones
 * keep nothing there. */
enum { WORDS = sizeof(pthread_cond_t) / sizeof(uint32_t), COUNTED = 0x7a617063 };
union cond {
    pthread_cond_t theirs;
    half_word word[WORDS];
    struct {
        char kept[sizeof(pthread_cond_t) - sizeof(uint64_t)];
        union {
            struct {
                half_word count, kind;
            };
            pz_word both;
        };
    };
};
_Static_assert(sizeof(union cond) == sizeof(pthread_cond_t), "it fits in place");

static inline int is_counted(pthread_cond_t *c)
{
    return UNLIKELY(atomic_load_explicit(&((union cond *)c)->kind, memory_order_acquire) == COUNTED);
}

/* ---- What pthread_cond_init leaves: zeros, except for bits that say the clock, and whether processes share it.
 * Versions of the C library differ in which bits these are. */

static union cond by_monotonic, by_all;
static pthread_once_t once = PTHREAD_ONCE_INIT;
static void learn(void)
{
    pthread_condattr_t a;
    pthread_condattr_init(&a);
    pthread_condattr_setclock(&a, CLOCK_MONOTONIC);
    pre_real.pthread_cond_init(&by_monotonic.theirs, &a);
    pthread_condattr_setpshared(&a, PTHREAD_PROCESS_SHARED);
    pre_real.pthread_cond_init(&by_all.theirs, &a);
    pthread_condattr_destroy(&a);
}

static int is_unused(union cond *c)
{
    for (int i = 0; i < WORDS; i++)
        if (atomic_load(&c->word[i]) & ~by_all.word[i])
            return 0;
    return 1;
}

static clockid_t clock_of(pthread_cond_t *cond)
{
    union cond *c = (union cond *)cond;
    pthread_once(&once, learn);
    for (size_t i = 0; i < sizeof c->kept / sizeof *c->word; i++)
        if (atomic_load(&c->word[i]) & by_monotonic.word[i])
            return CLOCK_MONOTONIC;
    return CLOCK_REALTIME;
}

/* The count goes up by STEP. WAITED: a thread has come to sleep since all were woken. OWED_ALL: all were to be woken,
 * and the thread that did so may have been killed before its wake. */
enum { WAITED = 1, OWED_ALL = 2, STEP = 4 };
static uint64_t both_of(uint32_t kind, uint32_t count) { return (uint64_t)kind << 32 | count; }

/* The count begins anywhere: a thread that was about to sleep on what was here before sees another number. */
static uint64_t beginning(void)
{
    return both_of(COUNTED, (uint32_t)(now_ns() * 0x9e3779b97f4a7c15ull >> 32) & ~(uint32_t)(WAITED | OWED_ALL));
}

/* Marks that a thread waits, and puts the count into *seen. Returns NULL if the variable is the C library's. */
static pz_word *come(pthread_cond_t *cond, uint64_t *seen)
{
    union cond *c = (union cond *)cond;
    uint64_t both = 0;
    pthread_once(&once, learn);
    if (!is_counted(cond) && is_unused(c))
        compare_exchange(&c->both, &both, beginning());
    both = load_acquire(&c->both);
    do
        if (both >> 32 != COUNTED)
            return NULL;
    while (!compare_exchange(&c->both, &both, both | WAITED));
    *seen = both | WAITED;
    return &c->both;
}

/* ---- Signals. A thread that has seen the count, and doesn't sleep yet, finds it raised. */

static uint32_t for_one(uint32_t count) { return count + STEP; }
static uint32_t for_all(uint32_t count)
{
    uint32_t owed = count & WAITED ? OWED_ALL : 0;
    return ((count + STEP) & ~(uint32_t)(WAITED | OWED_ALL)) | owed;
}

/* Raises the count, and gives the variable this kind. Returns 0 if it isn't this library's any more. */
static int raise_count(union cond *c, uint32_t (*next)(uint32_t), uint32_t kind)
{
    uint64_t both = load_acquire(&c->both);
    do
        if (both >> 32 != COUNTED)
            return 0;
    while (!compare_exchange(&c->both, &both, both_of(kind, next((uint32_t)both))));
    return 1;
}

/* A thread that is woken may end the variable, so nothing is stored there after the wake. */
static void wake_all(union cond *c, uint32_t kind)
{
    if (raise_count(c, for_all, kind))
        wake(&c->both, INT_MAX);
}

/* If nobody slept, the next signal need not make a system call. */
static void wake_one(union cond *c)
{
    if (raise_count(c, for_one, COUNTED) && wake(&c->both, 1) == 0)
        wake_all(c, COUNTED);
}

/* ---- Waits. */

struct wait {
    pz_word *count;
    uint64_t seen;
    const struct deadline *deadline; /* NULL: none */
    pthread_mutex_t *mutex;
};

static int lock_any(pthread_mutex_t *m) { return ours(m) ? pre_lock(ours(m)) : pre_real.pthread_mutex_lock(m); }
static int unlock_any(pthread_mutex_t *m) { return ours(m) ? pre_unlock(ours(m)) : pre_real.pthread_mutex_unlock(m); }

/* A cancelled thread may have been woken too, so another one is woken instead. It locks the mutex before its handlers.
 */
static void cancelled(void *wait)
{
    const struct wait *w = wait;
    wake(w->count, 1);
    lock_any(w->mutex);
}

/* Returns ETIMEDOUT, or 0. The variable isn't read after the sleep, as it may be gone. The thread can be cancelled. */
static int sleep_until_signal(const struct wait *w)
{
    int type, error;
    do {
        pthread_setcanceltype(PTHREAD_CANCEL_ASYNCHRONOUS, &type);
        error = sleep_on(w->count, w->seen, w->deadline);
        pthread_setcanceltype(type, NULL);
    } while (error == EINTR);
    return error == ETIMEDOUT ? error : 0;
}

static int sleep_and_lock(struct wait *w)
{
    int end, reply;
    pthread_cleanup_push(cancelled, w);
    end = sleep_until_signal(w);
    pthread_cleanup_pop(0);
    reply = lock_any(w->mutex);
    return reply ? reply : end; /* a death comes before the deadline */
}

static int check_owner(pthread_mutex_t *mutex)
{
    struct mutex *m = ours(mutex);
    if (!m)
        return 0;
    if (!is_owner(m, here()))
        return EPERM;
    return load_acquire(&m->cell) & OWNER_DIED ? EINVAL : 0;
}

static __attribute__((noinline)) int wait_on(pthread_cond_t *cond, pthread_mutex_t *m, const struct deadline *d)
{
    struct wait w = {.deadline = d, .mutex = m};
    int saved = errno, reply = check_owner(m);
    if (!reply && !(w.count = come(cond, &w.seen)))
        reply = EINVAL;
    if (!reply)
        reply = unlock_any(m);
    if (!reply)
        reply = sleep_and_lock(&w);
    errno = saved;
    return reply;
}

static inline int is_for_us(pthread_cond_t *c, pthread_mutex_t *m) { return is_counted(c) || ours(m); }

/* ---- What programs call. */

/* Threads that wait there, or were about to, are woken: they would sleep forever. The variable is this library's until
 * they have been, so if the caller is killed before that, the next signal, or the next call of this one, wakes them.
 * Then those are woken that came meanwhile. */
static void end(pthread_cond_t *c)
{
    if (!is_counted(c))
        return;
    wake_all((union cond *)c, COUNTED);
    wake_all((union cond *)c, 0);
}

SHOWN int pthread_cond_init(pthread_cond_t *c, const pthread_condattr_t *a)
{
    end(c);
    return pre_real.pthread_cond_init(c, a);
}

SHOWN int pthread_cond_destroy(pthread_cond_t *c)
{
    end(c);
    return pre_real.pthread_cond_destroy(c);
}

SHOWN int pthread_cond_signal(pthread_cond_t *c)
{
    if (!is_counted(c))
        return pre_real.pthread_cond_signal(c);
    uint32_t count = atomic_load(&((union cond *)c)->count);
    if (count & WAITED)
        wake_one((union cond *)c);
    else if (count & OWED_ALL)
        wake_all((union cond *)c, COUNTED);
    return 0;
}

SHOWN int pthread_cond_broadcast(pthread_cond_t *c)
{
    if (!is_counted(c))
        return pre_real.pthread_cond_broadcast(c);
    if (atomic_load(&((union cond *)c)->count) & (WAITED | OWED_ALL))
        wake_all((union cond *)c, COUNTED);
    return 0;
}

SHOWN int pthread_cond_wait(pthread_cond_t *c, pthread_mutex_t *m)
{
    return is_for_us(c, m) ? wait_on(c, m, NULL) : pre_real.pthread_cond_wait(c, m);
}

SHOWN int pthread_cond_timedwait(pthread_cond_t *c, pthread_mutex_t *m, const struct timespec *until)
{
    if (!is_for_us(c, m))
        return pre_real.pthread_cond_timedwait(c, m, until);
    return is_time(until) ? wait_on(c, m, &(struct deadline){clock_of(c), until}) : EINVAL;
}

SHOWN int pthread_cond_clockwait(pthread_cond_t *c, pthread_mutex_t *m, clockid_t clock, const struct timespec *until)
{
    if (!is_for_us(c, m))
        return pre_real.pthread_cond_clockwait(c, m, clock, until);
    return is_clock(clock) && is_time(until) ? wait_on(c, m, &(struct deadline){clock, until}) : EINVAL;
}
