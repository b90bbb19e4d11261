/* A mutex's eight words, and what mutex.c, heir.c, cond.c and rwlock.c share.
 *
 *   0     cell: owner's TID, OWNER_DIED, WAITERS; UNUSABLE; the turn (cell.h)
 *   1     hints: who is due, who comes, and since when. No promise depends on them
 *   2     slot: the cell of a second robust mutex, on which nobody sleeps. Its owner waits awake for the first one
 *   3, 4  the cell's links, and 5, 6 the slot's: previous and next entry, where pthread_mutex_t has them
 *
 * A thread that is about to take or to free a cell has the cell's entry pending until its call ends. So whenever it
 * dies, the kernel marks what it owned and wakes a sleeper, and also wakes one that sleeps on a pending cell without an
 * owner. */
#ifndef PZ_MUTEX_H
#define PZ_MUTEX_H
#include "caller.h"
#include "cell.h"
#include "list.h"
#include "pazdrig.h"

/* A flag of the hints: an heir has waited long, and the thread that frees the mutex gives way to it. */
#define DUE 1ull

/* A flag of the slot: its owner is the *heir*. Above it is when the heir last said that it is awake. */
#define AWAKE (1ull << 32)
#define SINCE (1ull << 33)

#define HIDDEN __attribute__((visibility("hidden")))

static inline pz_word *cell(const pz_mutex *m) { return (pz_word *)&m->words[0]; }
static inline pz_word *hint(pz_mutex *m) { return (pz_word *)&m->words[1]; }
static inline pz_word *slot(pz_mutex *m) { return (pz_word *)&m->words[2]; }
static inline pz_word *cell_entry(pz_mutex *m) { return (pz_word *)&m->words[4]; }
static inline pz_word *slot_entry(pz_mutex *m) { return (pz_word *)&m->words[6]; }

static inline int is_aligned(const pz_mutex *m) { return (uintptr_t)m % sizeof *m == 0; }
static inline int is_free(uint64_t cell) { return !(cell & (OWNER | UNUSABLE)); }
static inline int is_own(uint64_t cell, const struct caller *s) { return (cell & OWNER) == s->tid; }
static inline uint64_t taken(uint64_t cell, const struct caller *s) { return (cell + TURN) | s->tid; }
static inline int is_heir(uint64_t slot) { return (slot & AWAKE) && (slot & OWNER) && !(slot & OWNER_DIED); }

/* Ends a call. */
static inline int reply_with(struct caller *s, int reply)
{
    set_pending(s, NULL);
    return reply;
}

/* After the exchange that took a cell, which was `seen` before. */
static inline void put_on(struct caller *s, pz_mutex *m)
{
    put_on_list(s, cell_entry(m));
    s->owned++;
}
static inline int acquired(struct caller *s, pz_mutex *m, uint64_t seen)
{
    put_on(s, m);
    return reply_with(s, seen & OWNER_DIED ? EOWNERDEAD : 0);
}

/* Before the release of a cell. Returns 0 if the links aren't those of an entry of this thread. */
static inline int take_off(struct caller *s, pz_mutex *m)
{
    if (!take_off_list(s, cell_entry(m)))
        return 0;
    s->owned--;
    return 1;
}

/* ---- heir.c */

/* How a lock comes to pz_wait_for: it has tried the cell; it was woken on the cell, or slept there without a wake; or
 * it is the end of a wait on a condition variable, which doesn't use the slot. */
enum arrival { TRIED, WOKEN, LATER, WAITED };

/* Locks a mutex that another thread may own. The cell's entry is pending, and `seen` was loaded after that. */
int pz_wait_for(pz_mutex *, struct caller *, uint64_t seen, const struct deadline *, enum arrival) HIDDEN;

/* Lets a thread go first that was due when the caller freed the mutex. */
void pz_give_way(pz_mutex *, struct caller *) HIDDEN;

/* Before the release of a cell with WAITERS. Returns 1 if the caller is to wake a sleeper whether there is an heir or
 * not; that one is announced in the hints. */
int pz_announce_wake(pz_mutex *, struct caller *) HIDDEN;
/* The same. If there is an heir, each ASK_AFTER-th unlock asks whether a sleeper has waited long. */
enum { ASK_AFTER = 16 };
static inline int announce_wake(pz_mutex *m, struct caller *s)
{
    int is_left_to_heir = !s->was_heir && is_heir(load_acquire(slot(m))) && ++s->spares % ASK_AFTER;
    return !is_left_to_heir && pz_announce_wake(m, s);
}
/* Takes that announcement back, for a caller that is a user of the mutex still. */
void pz_unannounce_wake(pz_mutex *) HIDDEN;

/* After a release that left WAITERS. Returns 0 if nobody was woken, and neither an heir nor an owner answers for the
 * mutex. */
int pz_hand_on(pz_mutex *, int is_announced) HIDDEN;

/* ---- Calls, without the question who calls. */

static inline __attribute__((always_inline)) int try_lock(pz_mutex *m, struct caller *s)
{
    if (UNLIKELY(s->owned >= PZ_MOST_OWNED || !is_aligned(m)))
        return is_aligned(m) ? EAGAIN : EINVAL;
    uint64_t seen = load_acquire(cell(m));
    if (is_free(seen)) {
        set_pending(s, cell_entry(m));
        do
            if (LIKELY(compare_exchange(cell(m), &seen, taken(seen, s))))
                return acquired(s, m, seen);
        while (is_free(seen));
        set_pending(s, NULL);
    }
    return seen & UNUSABLE ? ENOTRECOVERABLE : EBUSY;
}

/* mutex.c: frees a mutex that its owner hasn't declared consistent. */
int pz_make_unusable(pz_mutex *, struct caller *) HIDDEN;

/* The release left `left`, and its wake woke nobody. Clears WAITERS if nobody has taken the mutex since: nobody starts
 * to sleep on a cell without an owner, and a broadcast moves sleepers to an owned one, so nobody sleeps there now. */
static inline void trim(pz_mutex *m, uint64_t left) { compare_exchange(cell(m), &left, left & ~WAITERS); }

/* The next owner may be the last user of the mutex, and free its memory as soon as the cell is released. So hints are
 * stored before that, and after it only the trim stores, which does nothing if the mutex was taken since. */
static inline __attribute__((always_inline)) int unlock(pz_mutex *m, struct caller *s)
{
    uint64_t seen = load_relaxed(cell(m));
    if (UNLIKELY(!is_own(seen, s)))
        return EPERM;
    if (UNLIKELY(seen & OWNER_DIED))
        return pz_make_unusable(m, s);
    if (UNLIKELY(load_relaxed(hint(m)) & DUE))
        s->owes = m;
    set_pending(s, cell_entry(m));
    if (UNLIKELY(!take_off(s, m)))
        return reply_with(s, EPERM);
    int is_announced = UNLIKELY(seen & WAITERS) && announce_wake(m, s);
    uint64_t left = fetch_sub(cell(m), s->tid) - s->tid; /* (A) of heir.c */
    if (UNLIKELY(left & WAITERS) && !pz_hand_on(m, is_announced))
        trim(m, left);
    return reply_with(s, 0);
}
#endif
