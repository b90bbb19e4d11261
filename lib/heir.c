/* Waiting for a mutex, and handing it on.
 *
 * A lock that finds the cell owned tries the slot. The thread that gets it waits awake: with AWAKE set it is the
 * *heir*. All other threads sleep on the cell. An unlock wakes one sleeper, unless it finds an heir: then it leaves the
 * wake to that heir. No wake is lost:
 *
 *      an unlock                                   an heir
 *  (A) frees the cell                          (C) makes the cell's entry pending, and then sets AWAKE
 *  (B) loads the slot, once: owner, AWAKE      (D) clears AWAKE
 *      and OWNER_DIED are one word             (E) looks at the cell for the last time, while it is still pending
 *
 * If (B) finds AWAKE, it comes before (D), so (E) finds the cell free, or its next owner. If (B) finds it clear, the
 * unlock makes its wake. If the heir is killed between (C) and the end of (E), the kernel walks its list, where the
 * slot is, before it looks at what was pending. So if (B) finds the slot not yet marked, the kernel looks at the cell
 * later, and wakes a sleeper.
 *
 * (F) An unlock also leaves its wake to the cell's new owner, whose own unlock finds WAITERS. */
#include "mutex.h"

/* Times in ns. How long a thread waits awake at most, and at least if that didn't pay; its first and last interval
 * between two looks. */
enum { LONGEST = 20000, SHORTEST = 2000, FIRST_LOOK = 500, LAST_LOOK = 10000 };
/* The same if the mutex is *hot*, that is, if others took it more than HOT times between two looks. A hot mutex is left
 * to the thread that takes it again and again until the heir is due. If others took it that often since the first look,
 * the heir also waits for as long as that. It sleeps through one interval, NAP and what Linux adds to it, by default
 * 50 us, unless a round takes less than SHORT_ROUND: then it would lose more than the others gain. */
enum { HOT = 3, HOT_LONGEST = 150000, HOT_LOOK = 12000, NAP = 25000, SHORT_ROUND = 1000 };
/* When an heir is due, and how long others give way to it; how long a woken thread is waited for; after how long
 * without a wake a sleeper gets one in spite of an heir. */
enum { FAIR = 100000, WAY = 20000, COMING = 20000, LATE = 300000 };
/* Each TRY_ALL-th wait is of full length. */
enum { TRY_ALL = 16 };
/* How often a thread looks again at a slot that is about to change hands. */
enum { MOST_LOOKS = 60, MOST_LOOKS_INSIDE = 40 };
/* How often an heir looks at the cell, and how often it relaxes between two looks, if a clock stands still. */
enum { MOST_LOOKS_AWAKE = 1000, MOST_PAUSES = 2000 };

/* Another flag of the hints: an unlock has woken a sleeper, which is on its way. Above the flags is a time in us: when a
 * sleeper was last woken. */
#define COMES 2ull

/* ---- The heir's clock. An unlock leaves its wake only to an heir that said less than ALIVE ago that it is awake: a
 * stopped one would keep the mutex from all sleepers. A wrong clock costs a wake, and nothing else. */
enum { ALIVE = 250000 >> 9 }; /* in ticks: about 250 us at most */

/* The caller has the slot, so nobody else changes it. An exchange, and before each look, as this takes the cache line
 * from the mutex's owner once, and not twice. */
static inline void say_awake(pz_mutex *m, const struct caller *s)
{
    exchange(slot(m), ticks() * SINCE | AWAKE | s->tid);
}

static inline int answers(uint64_t slot)
{
    return is_heir(slot) && (ticks() + ALIVE) * SINCE - (slot & ~(SINCE - 1)) < 2 * ALIVE * SINCE;
}

/* ---- Hints. */

static inline uint64_t hint_time(uint64_t ns) { return (uint64_t)(uint32_t)(ns / 1000) << 32; }
static inline int is_older(uint64_t hint, uint64_t ns) { return (hint_time(now_ns()) - hint) >> 32 > ns / 1000; }

static inline void clear_hint(pz_mutex *m, uint64_t which)
{
    if (load_acquire(hint(m)) & which)
        fetch_and(hint(m), ~which);
}
static inline void set_hint(pz_mutex *m, uint64_t which)
{
    if (!(load_acquire(hint(m)) & which))
        fetch_or(hint(m), which);
}

/* ---- The slot. */

/* Returns whether the calling thread has it; `found` is what the slot's word was. A thread that takes a marked slot
 * clears the dead heir's AWAKE before it declares the slot consistent. */
static int take_slot(pz_mutex *m, struct caller *s, uint64_t found)
{
    while (!compare_exchange(slot(m), &found, taken(found, s)))
        if (found & OWNER)
            return 0;
    put_on_list(s, slot_entry(m));
    if (found & OWNER_DIED) {
        set_pending(s, NULL);
        fetch_and(slot(m), ~AWAKE);
        fetch_and(slot(m), ~OWNER_DIED);
    }
    return 1;
}

/* If another process has written over the links, the slot stays taken, without AWAKE: then nobody is heir until this
 * thread ends, and unlocks make their wakes. */
static void free_slot(pz_mutex *m, struct caller *s)
{
    set_pending(s, slot_entry(m));
    if (LIKELY(take_off_list(s, slot_entry(m))))
        fetch_sub(slot(m), s->tid);
}

/* ---- The end of a lock. */

enum { WAITS = -1 }; /* no reply yet */

/* `seen` was found in the cell by a look that decides. Returns the call's reply, or WAITS: another thread owns it. */
static int decide(pz_mutex *m, struct caller *s, uint64_t *seen)
{
    while (is_free(*seen))
        if (compare_exchange(cell(m), seen, taken(*seen, s)))
            return acquired(s, m, *seen);
    if (*seen & UNUSABLE) {
        if (*seen & WAITERS)
            wake(cell(m), INT_MAX);
        return reply_with(s, ENOTRECOVERABLE);
    }
    return is_own(*seen, s) ? reply_with(s, EDEADLK) : WAITS;
}

/* Sets WAITERS, and sleeps until a wake. Returns 0 for a wake, or an errno: EAGAIN if the cell has changed. */
static int sleep_on_cell(pz_mutex *m, struct caller *s, uint64_t *seen, const struct deadline *d)
{
    if (!(*seen & WAITERS)) {
        if (!compare_exchange(cell(m), seen, *seen | WAITERS))
            return EAGAIN;
        *seen |= WAITERS;
    }
    int r = sleep_on(cell(m), *seen, d);
    if (r == EAGAIN)
        yield(); /* as the mutex is changing hands: often its owner, or the heir, waits for a processor */
    set_pending(s, cell_entry(m)); /* again: a signal handler may have locked another robust mutex */
    *seen = load_acquire(cell(m));
    return r;
}

/* ---- The heir. */

/* Ends by a count, too, as a clock may stand still. */
static void pause_until(uint64_t ns)
{
    int pauses = 0;
    do
        relax();
    while (now_ns() < ns && ++pauses < MOST_PAUSES);
}

/* How an heir waits: for how long at most, and until its next look, which it may sleep through once; and whether others
 * have been told to give way to it. */
struct pace {
    uint64_t most, step;
    int sleeps, has_slept, is_due;
};

static void wait_for_look(const struct pace *p)
{
    if (p->is_due)
        relax();
    else if (p->sleeps)
        sleep_for(NAP);
    else
        pause_until(now_ns() + p->step);
}

/* Others took the mutex `turns` times since the last look, and `all` times in the `ns` since the first one. */
static void set_pace(struct pace *p, uint64_t turns, uint64_t all, uint64_t ns)
{
    if (all > HOT && !p->is_due)
        p->most = HOT_LONGEST;
    p->step = turns > HOT ? HOT_LOOK : 2 * p->step < LAST_LOOK ? 2 * p->step : LAST_LOOK;
    p->sleeps = all > HOT && ns >= all * SHORT_ROUND && !p->has_slept;
    p->has_slept |= p->sleeps;
}

static uint32_t longer(uint32_t pause) { return 2 * pause < LONGEST ? 2 * pause : LONGEST; }
static uint32_t shorter(uint32_t pause) { return pause / 2 > SHORTEST ? pause / 2 : SHORTEST; }

/* Looks at the cell, each time after twice as long, until it is free or unusable: 1. Returns 0 if waiting awake doesn't
 * pay any more, or the deadline has passed. */
static int watch(pz_mutex *m, struct caller *s, uint64_t *seen, const struct deadline *d, uint64_t began)
{
    struct pace pace = {.most = s->waits++ % TRY_ALL ? s->pause : LONGEST, .step = FIRST_LOOK};
    uint64_t first = now_ns(), now = first, at_first = *seen, was = *seen;
    for (int looks = 0; now - first < pace.most && looks < MOST_LOOKS_AWAKE; was = *seen, looks++) {
        wait_for_look(&pace);
        now = now_ns();
        set_pending(s, cell_entry(m)); /* again: a signal handler may have locked another robust mutex */
        say_awake(m, s);
        *seen = load_acquire(cell(m));
        uint64_t turns = *seen / TURN - was / TURN;
        if ((*seen & UNUSABLE) || (!(*seen & OWNER) && (turns <= HOT || now - began >= FAIR))) {
            s->pause = longer(s->pause);
            return 1;
        }
        set_pace(&pace, turns, *seen / TURN - at_first / TURN, now - first);
        if (!pace.is_due && now - began >= FAIR) {
            pace.is_due = 1;
            pace.most = pace.most > now - first + WAY ? pace.most : now - first + WAY;
            set_hint(m, DUE);
        }
        if (d && has_passed(d))
            return 0;
    }
    s->pause = shorter(s->pause);
    return 0;
}

/* Takes the cell if it is free. */
static int take_as_heir(pz_mutex *m, struct caller *s, uint64_t *seen)
{
    while (is_free(*seen))
        if (compare_exchange(cell(m), seen, taken(*seen, s))) {
            clear_hint(m, DUE);
            fetch_and(slot(m), ~AWAKE);
            put_on(s, m);
            s->was_heir = 1;
            free_slot(m, s);
            return reply_with(s, *seen & OWNER_DIED ? EOWNERDEAD : 0);
        }
    return WAITS;
}

/* The heir's last look, after it has cleared AWAKE. Returns 1 if it finds the cell unusable, or owned and with WAITERS:
 * an unlock from then on makes its wake. */
static int is_last_look(pz_mutex *m, uint64_t *seen)
{
    fetch_and(slot(m), ~AWAKE);     /* (D) */
    *seen = load_in_order(cell(m)); /* (E) */
    if (is_free(*seen))
        return 0;
    return (*seen & (WAITERS | UNUSABLE)) || compare_exchange(cell(m), seen, *seen | WAITERS);
}

/* Gives the slot up. */
static int leave_slot(pz_mutex *m, struct caller *s, uint64_t *seen, const struct deadline *d)
{
    int reply = *seen & UNUSABLE ? ENOTRECOVERABLE : d && has_passed(d) ? ETIMEDOUT : WAITS;
    if ((*seen & UNUSABLE) && (*seen & WAITERS))
        wake(cell(m), INT_MAX);
    if (reply != WAITS)
        clear_hint(m, DUE);
    free_slot(m, s);
    if (reply != WAITS)
        return reply_with(s, reply);
    set_pending(s, cell_entry(m));
    *seen = load_acquire(cell(m));
    return WAITS;
}

/* Waits awake, as the slot's owner, for the cell, the deadline, or until that doesn't pay any more: WAITS. */
static int wait_awake(pz_mutex *m, struct caller *s, uint64_t *seen, const struct deadline *d)
{
    uint64_t began = now_ns();
    if (!(*seen & WAITERS))
        store_release(hint(m), hint_time(began));
    for (;;) {
        set_pending(s, cell_entry(m)); /* (C) */
        say_awake(m, s);
        *seen = load_in_order(cell(m));
        int is_over = is_free(*seen) || (*seen & UNUSABLE) || watch(m, s, seen, d, began);
        set_pending(s, cell_entry(m)); /* again: a signal handler may have locked another robust mutex */
        int reply = is_over ? take_as_heir(m, s, seen) : WAITS;
        if (reply != WAITS)
            return reply;
        if (is_over && !(*seen & UNUSABLE) && !(d && has_passed(d)))
            continue; /* another thread was faster */
        if (is_last_look(m, seen))
            return leave_slot(m, s, seen, d);
    }
}

/* ---- Lock. Its steps are those of calls of the specification: a trylock of the cell; a trylock of the slot, a lock of
 * the cell whose deadline may pass, and an unlock of the slot; a lock of the cell, asleep. So a thread that comes to
 * the slot from a lock has set WAITERS. */

/* Whether the slot is worth a trylock: nobody has it, and no woken thread is on its way to it. */
static int is_slot_open(pz_mutex *m, uint64_t seen, uint64_t slot, enum arrival how)
{
    if (how == WAITED || (slot & OWNER))
        return 0;
    uint64_t hints = load_acquire(hint(m));
    return how == WOKEN || !(hints & COMES) || !(seen & WAITERS) || is_older(hints, COMING);
}

/* Whether its owner is about to free it, as it has just taken the cell, or about to say that it is awake. */
static inline int is_moving(uint64_t slot) { return (slot & OWNER) && !(slot & (AWAKE | OWNER_DIED)); }

/* Tries the slot, and waits awake if it has it. */
static int try_slot(pz_mutex *m, struct caller *s, uint64_t *seen, const struct deadline *d, enum arrival *how,
                    uint64_t found)
{
    *how = LATER;
    set_pending(s, slot_entry(m));
    if (take_slot(m, s, found)) {
        clear_hint(m, COMES);
        return wait_awake(m, s, seen, d);
    }
    set_pending(s, cell_entry(m));
    *seen = load_acquire(cell(m));
    return WAITS;
}

__attribute__((noinline)) int pz_wait_for(pz_mutex *m, struct caller *s, uint64_t seen, const struct deadline *d,
                                          enum arrival how)
{
    int reply, looks = 0;
    while ((reply = decide(m, s, &seen)) == WAITS) {
        if (how == TRIED && d && !is_time(d->at))
            return reply_with(s, EINVAL);
        uint64_t found = load_acquire(slot(m));
        if (how != WAITED && is_moving(found) && looks++ < MOST_LOOKS) {
            relax();
            seen = load_acquire(cell(m));
            continue;
        }
        if (is_slot_open(m, seen, found, how)) {
            if (how != TRIED && !(seen & WAITERS) && !compare_exchange(cell(m), &seen, seen | WAITERS))
                continue;
            if ((reply = try_slot(m, s, &seen, d, &how, found)) != WAITS)
                return reply;
            if (is_free(seen) || (seen & UNUSABLE))
                continue;
        }
        int r = sleep_on_cell(m, s, &seen, d);
        if (r == ETIMEDOUT)
            return reply_with(s, ETIMEDOUT);
        how = how == WAITED ? WAITED : r == 0 ? WOKEN : LATER;
    }
    if (how == WOKEN)
        clear_hint(m, COMES);
    return reply;
}

__attribute__((noinline, cold)) void pz_give_way(pz_mutex *m, struct caller *s)
{
    s->owes = NULL;
    uint64_t began = now_ns();
    for (int n = 0; (load_acquire(hint(m)) & DUE) && now_ns() - began < WAY && n < MOST_PAUSES; n++)
        relax();
    clear_hint(m, DUE);
}

/* ---- Unlock. */

/* Whether there is an heir. A thread that got the mutex as the heir waits a moment for the next one: mostly the mutex's
 * former owner is about to be that. */
static int find_heir(pz_mutex *m, struct caller *s)
{
    int has_heir = is_heir(load_acquire(slot(m)));
    for (int i = 0; s->was_heir && !has_heir && i < MOST_LOOKS_INSIDE; i++) {
        relax();
        has_heir = is_heir(load_acquire(slot(m)));
    }
    s->was_heir = 0;
    return has_heir;
}

__attribute__((noinline)) int pz_announce_wake(pz_mutex *m, struct caller *s)
{
    int has_heir = find_heir(m, s);
    uint64_t hints = load_acquire(hint(m));
    if (has_heir && !is_older(hints, LATE))
        return 0;
    store_release(hint(m), (has_heir ? hints & DUE : 0) | COMES | hint_time(now_ns()));
    return 1;
}

void pz_unannounce_wake(pz_mutex *m) { clear_hint(m, COMES); }

__attribute__((noinline)) int pz_hand_on(pz_mutex *m, int is_announced)
{
    if (!is_announced && (answers(load_in_order(slot(m))) || (load_in_order(cell(m)) & OWNER))) /* (B); (F) */
        return 1;
    return wake(cell(m), 1);
}
