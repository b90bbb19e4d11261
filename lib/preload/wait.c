/* How threads wait for a mutex. A mutex has one of two modes, chosen by the thread that initialised it.
 *
 * In both, the cell is as in cell.h: owner, OWNER_DIED, WAITERS, which stays until nobody sleeps, and a turn. An unlock
 * releases the cell, and wakes one sleeper if it finds WAITERS. If nobody slept, it takes WAITERS away, unless the turn
 * shows that the cell was taken since (the *trim*). Nobody begins to sleep on a cell that nobody owns. A thread that is
 * about to take or to free the cell has it pending.
 *
 * PLAIN: a thread that waits, awake, asleep, or woken, has the cell pending throughout, and sleeps on the cell. If it
 * dies, Linux wakes another sleeper if nobody owns the cell. If somebody does, WAITERS is still there, so that thread's
 * unlock wakes one. Each unlock that finds WAITERS makes a system call.
 *
 * Else the mutex has a second futex word, the bell, which saves nearly all of these calls. It says who is awake:
 *
 *   0: nobody. An unlock that finds WAITERS makes its system call.
 *   COMES: an unlock has woken a thread, or is about to. Other unlocks leave their wakes to that thread.
 *   A TID and COMES: that thread waits awake: it is the heir. Unlocks leave their wakes to it.
 *   OWNER_DIED and COMES: the heir died, and Linux has woken a thread. An unlock makes its system call.
 *
 *   lock     Finds the cell owned: pending := bell. Then, until the thread has the mutex:
 *            - awake, once a call: bell := its TID if there is none; looks at the cell; bell := 0
 *            - asleep: sets WAITERS; if the bell is COMES, bell := 0 and again; sleeps on the bell and the cell
 *            - found free: if the bell is COMES, bell := 0; pending := cell; looks again, and this look decides: takes
 *              the cell, or pending := bell and waits again
 *   unlock   Pending := cell. With WAITERS, it looks at the bell. If it has to call: OWED into the cell, bell := COMES.
 *            Releases the cell. If it called, or if nobody answers at the bell and nobody owns the cell now: wakes one
 *            thread. If one woke, OWED goes from the cell; if none did, OWED and WAITERS; each only if all 64 bits are
 *            as the release left them
 *   init     By its owner, in both modes: pending := cell, until the end. Takes it off the list, bell := 0. Releases
 *            the cell, with a new turn, without OWED, and with WAITERS if it has that; wakes all
 *
 * Why no wake is lost. As a thread dies, Linux marks each listed or pending word that the thread owns, and wakes one
 * that sleeps there if the word has WAITERS or COMES; at a pending word that nobody owns it wakes one; at a pending
 * word that another thread owns it does nothing.
 *
 * 1. A thread that dies while it waits wakes another one that sleeps on the mutex, whoever owns the cell. If there is
 *    an heir, that one answers instead.
 * 2. A thread that dies after its release, before its wake, has the cell pending: Linux wakes one, unless the cell was
 *    taken. Then the new owner finds OWED, doesn't trust COMES, and calls.
 * 3. A thread that was left a wake takes its mark from the bell, and then looks at the cell. Until then it doesn't
 *    sleep, give up or have anything else pending. If it dies first, 1 holds.
 * 4. Nobody begins to sleep while the bell is COMES. The thread that comes may be dead, and what Linux does for it may
 *    be over. The bell is compared, so this also holds for a thread that has looked and doesn't sleep yet.
 * 5. The bell is queued on before the cell is compared. So a thread that isn't woken at the bell finds the cell
 *    changed.
 * 6. COMES without WAITERS does no harm: a thread that sets WAITERS goes on to take COMES away.
 *
 * The next owner may be the last user of a mutex, and free its memory. So nothing is stored after the release except by
 * an exchange of all 64 bits of the cell, which the turn lets fail if anybody has taken it since.
 *
 * An heir or a thread that comes is trusted for a while only, since it may be stopped. The time is kept in 32 bits, so
 * such a moment comes again every 72 minutes. No promise depends on a clock: one that is wrong costs wakes.
 * tests/preload/model explores both modes step by step. */
#include "mutex.h"

/* In ns: how long a thread waits awake at most, and at least if that didn't pay; the first and the longest time between
 * two looks. Each TRY_ALL-th wait is of full length. Counts end a wait too, as a clock may stand still. */
enum {
    PAUSE = 20000,
    LEAST = 1000,
    FIRST_LOOK = 500,
    LAST_LOOK = 10000,
    TRY_ALL = 16,
    MOST_LOOKS = 16,
    MOST_PAUSES = 1000
};
/* In us: how long an unlock trusts an heir, which pauses less, and a thread that comes. */
enum { TRUST_HEIR = 250, TRUST_COMER = 10000 };
enum { AGAIN = -1 };

/* Waits awake, by few looks, each twice as far off: a look takes the word's line from the owner, who will change it. */
static void pause_awake(struct mutex *m, struct caller *s)
{
    uint64_t most = s->waits++ % TRY_ALL ? s->pause : PAUSE, began = now_ns(), now = began, step = FIRST_LOOK;
    int is_free = 0;
    for (int looks = 0; !is_free && looks < MOST_LOOKS && now - began < most; looks++) {
        uint64_t since = now;
        for (int i = 0; i < MOST_PAUSES && now - since < step; i++, now = now_ns())
            relax();
        is_free = !(load_acquire(&m->cell) & OWNER);
        step = step < LAST_LOOK ? 2 * step : step;
    }
    if (is_free)
        s->pause = 2 * s->pause < PAUSE ? 2 * s->pause : PAUSE;
    else
        s->pause = s->pause / 2 > LEAST ? s->pause / 2 : LEAST;
}

/* Becomes the heir if the bell is still b, which has no TID, and waits awake. */
static int wait_as_heir(struct mutex *m, struct caller *s, uint32_t b)
{
    atomic_store(&m->since, now_us());
    if (!atomic_compare_exchange_strong(&m->bell, &b, COMES | (uint32_t)s->tid))
        return 0;
    pause_awake(m, s);
    atomic_exchange(&m->bell, 0);
    return 1;
}

/* Sleeps if the bell is b and the cell's futex word that of v. Returns 0 if a wake came, or an errno. */
static int sleep_on_both(struct mutex *m, uint32_t b, uint64_t v, const struct deadline *d)
{
    struct futex_waitv on[2] = {{b, (uintptr_t)&m->bell, FUTEX_32, 0}, {(uint32_t)v, (uintptr_t)&m->cell, FUTEX_32, 0}};
    int saved = errno;
    long r = syscall(SYS_futex_waitv, on, 2, 0, d ? since_1970(d->at) : NULL, d ? d->clock : 0);
    int error = r < 0 ? errno : 0;
    errno = saved;
    return error;
}

/* What ends a wait: the deadline, or a filter that came after the process had asked whether it may sleep on two words.
 */
static int end_of(int error, struct mutex *m, struct caller *s)
{
    if (error == 0 || error == EAGAIN || error == EINTR)
        return 0;
    return error == ETIMEDOUT ? error : pre_lose_two_word_sleep(m, s);
}

static void take_comes_away(struct mutex *m)
{
    uint32_t b = atomic_load(&m->bell);
    if (b == COMES)
        atomic_compare_exchange_strong(&m->bell, &b, 0);
}

/* One step of a wait for a cell that is v, owned by another thread. Returns 0, or why the wait ends. */
static int wait_on_bell(struct mutex *m, struct caller *s, uint64_t v, int *paused, const struct deadline *d)
{
    uint32_t b = atomic_load(&m->bell);
    if (!*paused && !(b & AWAKE)) {
        *paused = wait_as_heir(m, s, b);
    } else if (!(v & WAITERS)) {
        compare_exchange(&m->cell, &v, v | WAITERS);
    } else if (b == COMES) {
        atomic_compare_exchange_strong(&m->bell, &b, 0);
    } else {
        *paused = 1;
        return end_of(sleep_on_both(m, b, v, d), m, s);
    }
    return 0;
}

static int wait_on_cell(struct mutex *m, struct caller *s, uint64_t v, int *paused, const struct deadline *d)
{
    if (!*paused) {
        *paused = 1;
        pause_awake(m, s);
    } else if (!(v & WAITERS)) {
        compare_exchange(&m->cell, &v, v | WAITERS);
    } else {
        return end_of(sleep_on(&m->cell, v, d), m, s);
    }
    return 0;
}

/* Takes a cell that was seen free. Returns AGAIN if it is owned again. */
static int take_free(struct mutex *m, struct caller *s)
{
    take_comes_away(m);
    set_pending(s, cell_entry(m));
    uint64_t v = load_in_order(&m->cell); /* this look decides */
    while (!(v & (OWNER | UNUSABLE)))
        if (compare_exchange(&m->cell, &v, taken(v, s)))
            return take(m, s, v);
    if (!(v & UNUSABLE))
        return AGAIN;
    if (v & WAITERS)
        wake(&m->cell, INT_MAX);
    set_pending(s, NULL);
    return is_ours(m) ? ENOTRECOVERABLE : EINVAL;
}

/* Waits until the thread has the mutex, and returns as lock does; or EINVAL if the mutex was destroyed, or initialised
 * as one of the C library's, of which all who sleep there learn. What is pending is set before each look, as a handler
 * that ran during a sleep or a pause may have used a robust mutex of the C library's. */
static int wait_until_taken(struct mutex *m, struct caller *s, const struct deadline *d)
{
    for (int paused = 0; is_ours(m);) {
        int plain = is_plain(m), end;
        set_pending(s, plain ? cell_entry(m) : bell_entry(m));
        uint64_t v = load_in_order(&m->cell);
        if (!(v & OWNER)) {
            int reply = take_free(m, s);
            if (reply != AGAIN)
                return reply;
            continue;
        }
        end = plain ? wait_on_cell(m, s, v, &paused, d) : wait_on_bell(m, s, v, &paused, d);
        if (end) {
            set_pending(s, NULL);
            return end;
        }
    }
    wake(&m->cell, INT_MAX);
    set_pending(s, NULL);
    return EINVAL;
}

__attribute__((noinline)) int pre_wait(struct mutex *m, struct caller *s, const struct deadline *d)
{
    s->waits_for = m;
    atomic_signal_fence(memory_order_seq_cst);
    int reply = wait_until_taken(m, s, d);
    atomic_signal_fence(memory_order_seq_cst);
    s->waits_for = NULL;
    return reply;
}

/* ---- A handler's call during a wait has its own mutex pending until it ends. So before it begins, the wait gives up
 * what it may have been given, just as Linux would if the thread died; it looks again after the handler. */

/* Looks through the list, as the links of a mutex that isn't there are another thread's. */
static int is_listed(struct mutex *m, struct caller *s)
{
    uint64_t entry = load_relaxed(s->list);
    for (int n = 0; linked(entry) != s->list && n < 2 * PZ_MOST_OWNED; n++, entry = load_relaxed(linked(entry)))
        if (entry == (uint64_t)cell_entry(m))
            return 1;
    return 0;
}

struct interrupted pre_interrupt(struct caller *s)
{
    struct interrupted was = {s->waits_for, NULL};
    if (!was.waits_for)
        return was;
    uint32_t heir = COMES | (uint32_t)s->tid;
    was.pending = linked(load_relaxed(s->list + 2));
    s->waits_for = NULL;
    /* The wait may have taken the cell without listing it yet. It then lists it once more, with the same links. */
    if (is_owner(was.waits_for, s) && !is_listed(was.waits_for, s))
        put_on_list(s, cell_entry(was.waits_for));
    atomic_compare_exchange_strong(&was.waits_for->bell, &heir, 0);
    if (was.pending)
        wake(was.pending + FUTEX_OFFSET / (int)sizeof *was.pending, 1);
    return was;
}

void pre_resume(struct caller *s, struct interrupted was)
{
    set_pending(s, was.pending);
    s->waits_for = was.waits_for;
}

/* ---- Unlock. */

static int is_trusted(struct mutex *m, uint32_t b, uint32_t now)
{
    uint32_t trust = b & AWAKE ? TRUST_HEIR : b == COMES ? TRUST_COMER : 0;
    return trust && now + trust - atomic_load(&m->since) < 2 * trust;
}

/* Before the release of a cell that is v, with WAITERS. Returns whether the unlock has to wake one. */
__attribute__((noinline)) int pre_call(struct mutex *m, uint64_t v, uint32_t now)
{
    if (is_plain(m))
        return 1;
    uint32_t b = atomic_load(&m->bell);
    if (is_trusted(m, b, now) && ((b & AWAKE) || !(v & OWED)))
        return 0;
    if (b & AWAKE) /* an heir that is stopped, and keeps its mark */
        return 1;
    if (!(v & OWED))
        fetch_or(&m->cell, OWED);
    atomic_store(&m->since, now);
    atomic_compare_exchange_strong(&m->bell, &b, COMES);
    return 1;
}

/* After a release that left the cell as it `is`, with WAITERS. The memory may be another's by now. */
__attribute__((noinline)) void pre_hand_on(struct mutex *m, uint64_t is, int calls, uint32_t now)
{
    if (!calls && (is_trusted(m, atomic_load(&m->bell), now) || (load_in_order(&m->cell) & OWNER)))
        return;
    int woken = wake(&m->cell, 1);
    if (woken > 0 && (is & OWED))
        compare_exchange(&m->cell, &is, is & ~OWED);
    if (woken == 0)
        compare_exchange(&m->cell, &is, is & ~(WAITERS | OWED));
}
