/* A reader-writer lock whose readers and writers may die, made of mutexes alone.
 *
 * Each lane is a mutex in a cache line of its own. A reader owns one of them: the one that it had last, or the first
 * free one. A writer owns the gate, and then all lanes. `state` says whether a writer is inside. Only a thread that owns
 * all of these changes it, and only one that owns the gate or a lane relies on it. So a reader that finds `state` set
 * has found the trace of a writer that died inside; it frees its lane, takes all lanes, and gets EOWNERDEAD. No other
 * death needs care, be it a reader's, or that of a writer that was still taking lanes or already freeing them: what it
 * owned is declared consistent at once.
 *
 * The gate's owner says in `wanted` that it is a writer, and readers then come in by the gate, too. So a thread that
 * reads again and again keeps a writer waiting at most once. A dead writer's `wanted` goes with the gate's next owner.
 */
#include "mutex.h"

enum { FREE, WRITES, REPAIRS, LOST }; /* REPAIRS: after EOWNERDEAD. LOST: unlocked without pz_rwlock_consistent */

static inline pz_word *lanes(pz_rwlock *l) { return (pz_word *)&l->words[0]; }
static inline pz_word *state(pz_rwlock *l) { return (pz_word *)&l->words[1]; }
static inline pz_word *wanted(pz_rwlock *l) { return (pz_word *)&l->words[2]; }
static inline pz_mutex *lane(pz_rwlock *l, uint32_t i) { return (pz_mutex *)(l + 1) + i; }

static inline int owns(const pz_mutex *m, const struct caller *s) { return is_own(load_relaxed(cell(m)), s); }

/* How a call waits: not at all, until a time, or for as long as it takes. */
struct how {
    int tries;
    clockid_t clock;
    const struct timespec *until;
};

static const struct how waits = {0, 0, NULL}, tries = {1, 0, NULL};

/* After a lock of the gate or a lane: whether its last owner died doesn't matter. */
static inline int taken_over(pz_mutex *m, int reply)
{
    return UNLIKELY(reply == EOWNERDEAD) ? pz_mutex_consistent(m) : reply;
}
static int take(pz_mutex *m, const struct how *h)
{
    return taken_over(m, h->tries   ? pz_mutex_trylock(m)
                         : h->until ? pz_mutex_clocklock(m, h->clock, h->until)
                                    : pz_mutex_lock(m));
}

/* Returns the number of lanes, or 0: it isn't a lock, or not yet. */
static inline uint32_t lanes_of(pz_rwlock *l)
{
    uint64_t n = is_aligned(&l->gate) ? load_acquire(lanes(l)) : 0;
    return n <= PZ_MOST_LANES ? (uint32_t)n : 0;
}

/* ---- What the calling thread has. */

/* Returns the lane that the thread owns, or `n`: none. It looks first where it was last. */
static inline uint32_t own_lane(pz_rwlock *l, const struct caller *s, uint32_t n)
{
    uint32_t i = 0;
    if (LIKELY(s->lane < n && owns(lane(l, s->lane), s)))
        return s->lane;
    while (i < n && !owns(lane(l, i), s))
        i++;
    return i;
}

static inline int has_lock(pz_rwlock *l, const struct caller *s, uint32_t n)
{
    return s->rwlocks && (owns(&l->gate, s) || own_lane(l, s, n) < n);
}

/* ---- Writers. */

static int free_gate(pz_rwlock *l)
{
    store_release(wanted(l), 0);
    return pz_mutex_unlock(&l->gate);
}

/* Frees the first `n` lanes, and then the gate. */
static int free_all(pz_rwlock *l, uint32_t n)
{
    int r = 0, next;
    for (uint32_t i = n; i-- > 0;)
        if ((next = pz_mutex_unlock(lane(l, i))))
            r = next;
    next = free_gate(l);
    return r ? r : next;
}

/* A caller that would own too many mutexes is refused before it waits, or keeps others waiting. */
static int take_gate(pz_rwlock *l, const struct caller *s, uint32_t n, const struct how *h)
{
    return s->owned + n >= PZ_MOST_OWNED ? EAGAIN : take(&l->gate, h);
}

/* The caller owns the gate. If it is refused a lane, it frees what it owns. */
static int take_lanes(pz_rwlock *l, uint32_t n, const struct how *h)
{
    int r = 0;
    store_release(wanted(l), 1);
    for (uint32_t i = 0; i < n && !r; i++)
        if ((r = take(lane(l, i), h)))
            free_all(l, i);
    return r;
}

static int take_all(pz_rwlock *l, const struct caller *s, uint32_t n, const struct how *h)
{
    int r = take_gate(l, s, n, h);
    return r ? r : take_lanes(l, n, h);
}

/* The caller owns all lanes. Returns what it gets as a writer; for ENOTRECOVERABLE it has freed them. */
static int begin_to_write(pz_rwlock *l, struct caller *s, uint32_t n)
{
    uint64_t was = load_relaxed(state(l));
    if (was == LOST) {
        free_all(l, n);
        return ENOTRECOVERABLE;
    }
    store_release(state(l), was == FREE ? WRITES : REPAIRS);
    s->rwlocks++;
    return was == FREE ? 0 : EOWNERDEAD;
}

static inline int is_listed(pz_mutex *m, const struct caller *s)
{
    pz_word *entry = cell_entry(m);
    return owns(m, s) && leads_back(s, entry, load_relaxed(entry - 1), load_relaxed(entry));
}

/* Looks at all links before it changes `state`, so that a call by another mapping of the lock, which no mutex's unlock
 * would accept, leaves the lock as it was. */
static __attribute__((noinline)) int unlock_writer(pz_rwlock *l, const struct caller *s, uint32_t n)
{
    int is_whole = is_listed(&l->gate, s);
    for (uint32_t i = 0; i < n && is_whole; i++)
        is_whole = is_listed(lane(l, i), s);
    if (!is_whole)
        return EPERM;
    store_release(state(l), load_relaxed(state(l)) == REPAIRS ? LOST : FREE);
    return free_all(l, n);
}

/* Why a call can't go on to take lanes, or 0. */
static inline int refusal(pz_rwlock *l, const struct caller *s, uint32_t n, const struct how *h)
{
    if (UNLIKELY(!n))
        return EINVAL;
    return UNLIKELY(has_lock(l, s, n)) ? h->tries ? EBUSY : EDEADLK : 0;
}

static int lock_to_write(pz_rwlock *l, const struct how *h)
{
    struct caller *s = caller();
    if (!s)
        return ENOTSUP;
    uint32_t n = lanes_of(l);
    int r = refusal(l, s, n, h);
    if (!r)
        r = take_all(l, s, n, h);
    return r ? r : begin_to_write(l, s, n);
}

/* ---- Readers. */

/* Takes any lane that is free. */
static int take_free_lane(pz_rwlock *l, struct caller *s, uint32_t n)
{
    int r = EBUSY;
    for (uint32_t i = 0, at = s->lane % n; i < n && r == EBUSY; i++, at = at + 1 < n ? at + 1 : 0)
        if ((r = take(lane(l, at), &tries)) == 0)
            s->lane = at;
    return r;
}

/* Takes a lane, by the gate if a writer wants the lock. If all are taken, waits for one. */
static __attribute__((noinline)) int take_lane(pz_rwlock *l, struct caller *s, uint32_t n, const struct how *h)
{
    int by_gate = load_acquire(wanted(l)) != 0, r = by_gate ? take(&l->gate, h) : 0;
    if (r)
        return r;
    r = take_free_lane(l, s, n);
    if (by_gate)
        free_gate(l);
    if (r != EBUSY || h->tries)
        return r;
    s->lane %= n;
    return take(lane(l, s->lane), h);
}

/* Takes the lane that the thread had last, if it is free and no writer wants the lock. */
static inline int take_same_lane(pz_rwlock *l, struct caller *s, uint32_t n)
{
    if (UNLIKELY(s->lane >= n || load_acquire(wanted(l))))
        return EBUSY;
    return taken_over(lane(l, s->lane), try_lock(lane(l, s->lane), s));
}

/* The caller owns a lane, and `state` isn't FREE. Unless the lock is unusable, a writer died inside: the caller takes
 * its place. If another thread has repaired the data by the time that the caller has the gate, it stays a reader, which
 * waits for no other reader. */
static __attribute__((noinline, cold)) int recover(pz_rwlock *l, struct caller *s, uint32_t n, const struct how *h)
{
    do {
        uint64_t was = load_relaxed(state(l));
        int r = pz_mutex_unlock(lane(l, s->lane));
        if (!r)
            r = was == LOST ? ENOTRECOVERABLE : take_gate(l, s, n, h);
        if (r)
            return r;
        if (load_relaxed(state(l)) != FREE) {
            r = take_lanes(l, n, h);
            return r ? r : begin_to_write(l, s, n);
        }
        r = free_gate(l);
        if (r || (r = take_lane(l, s, n, h)))
            return r;
    } while (load_relaxed(state(l)) != FREE);
    s->rwlocks++;
    return 0;
}

static inline __attribute__((always_inline)) int lock_to_read(pz_rwlock *l, const struct how *h)
{
    struct caller *s = caller();
    if (UNLIKELY(!s))
        return ENOTSUP;
    uint32_t n = lanes_of(l);
    int r = refusal(l, s, n, h);
    if (LIKELY(!r) && UNLIKELY((r = take_same_lane(l, s, n)) == EBUSY))
        r = take_lane(l, s, n, h);
    if (UNLIKELY(r))
        return r;
    if (UNLIKELY(load_relaxed(state(l)) != FREE))
        return recover(l, s, n, h);
    s->rwlocks++;
    return 0;
}

/* ---- The calls. */

int pz_rwlock_init(pz_rwlock *l, unsigned n)
{
    uint64_t was = 0;
    if (n == 0 || n > PZ_MOST_LANES || !is_aligned(&l->gate))
        return EINVAL;
    return compare_exchange(lanes(l), &was, n) || was == n ? 0 : EINVAL;
}

int pz_rwlock_rdlock(pz_rwlock *l) { return lock_to_read(l, &waits); }
int pz_rwlock_tryrdlock(pz_rwlock *l) { return lock_to_read(l, &tries); }
int pz_rwlock_clockrdlock(pz_rwlock *l, clockid_t clock, const struct timespec *until)
{
    return is_clock(clock) ? lock_to_read(l, &(struct how){0, clock, until}) : EINVAL;
}
int pz_rwlock_timedrdlock(pz_rwlock *l, const struct timespec *until)
{
    return pz_rwlock_clockrdlock(l, CLOCK_REALTIME, until);
}

int pz_rwlock_wrlock(pz_rwlock *l) { return lock_to_write(l, &waits); }
int pz_rwlock_trywrlock(pz_rwlock *l) { return lock_to_write(l, &tries); }
int pz_rwlock_clockwrlock(pz_rwlock *l, clockid_t clock, const struct timespec *until)
{
    return is_clock(clock) ? lock_to_write(l, &(struct how){0, clock, until}) : EINVAL;
}
int pz_rwlock_timedwrlock(pz_rwlock *l, const struct timespec *until)
{
    return pz_rwlock_clockwrlock(l, CLOCK_REALTIME, until);
}

int pz_rwlock_unlock(pz_rwlock *l)
{
    struct caller *s = caller();
    if (UNLIKELY(!s))
        return ENOTSUP;
    uint32_t n = lanes_of(l), at = n ? own_lane(l, s, n) : n;
    if (UNLIKELY(at == n))
        return n ? EPERM : EINVAL;
    int is_writer = load_relaxed(state(l)) != FREE, r = is_writer ? unlock_writer(l, s, n) : unlock(lane(l, at), s);
    s->rwlocks -= r == 0;
    return r;
}

int pz_rwlock_consistent(pz_rwlock *l)
{
    struct caller *s = caller();
    if (!s)
        return ENOTSUP;
    if (!lanes_of(l))
        return EINVAL;
    if (!owns(&l->gate, s))
        return EPERM;
    if (load_relaxed(state(l)) != REPAIRS)
        return EINVAL;
    store_release(state(l), WRITES);
    return 0;
}

int pz_rwlock_reinit(pz_rwlock *l)
{
    struct caller *s = caller();
    if (!s)
        return ENOTSUP;
    uint32_t n = lanes_of(l);
    int r = n ? take_all(l, s, n, &tries) : EINVAL;
    if (r)
        return r;
    store_release(state(l), FREE);
    return free_all(l, n);
}
