// The calls of lib/ that release a mutex, and those of condition variables. See locking.h.
#ifndef MODEL_RELEASING_H
#define MODEL_RELEASING_H
#include "locking.h"

// ---- mutex.c, pz_mutex_consistent: here always just before the next call.
inline void declare(State &s, int t)
{
    Thread &x = s.thread[t];
    if (!(x.flags & DIED))
        return;
    s.word[cell_of(x.m)] &= u16(~OWNER_DIED);
    s.inconsistent[x.m] = 0;
    x.flags &= u16(~DIED);
}

// ---- mutex.c, pz_mutex_unlock; a wait releases in the same way.
inline bool heir_answers(u16 g)
{
    return (g & AWAKE) && (mutated(unlock_trusts_awake_alone) || ((g & OWNER) && !(g & OWNER_DIED)));
}
inline void release_cell(State &s, int t)
{
    Thread &x = s.thread[t];
    bool spoils = x.flags & SPOILS, waits = x.at == WAIT_RELEASE;
    int cell = cell_of(x.m);
    drain(s, t);
    if ((s.word[cell] & OWNER) != t + 1 || s.believes[x.m] != t + 1)
        breaks("a thread that doesn't own the mutex releases it");
    u16 old = s.word[cell];
    s.word[cell] ^= u16((t + 1) | (spoils ? OWNER_DIED | UNUSABLE : 0));
    if (spoils)
        s.inconsistent[x.m] = 0;
    s.believes[x.m] = 0;
    x.released = s.word[cell];
    x.flags &= u16(~DIED);
    if (mutated(waits ? wait_releases_without_pending : unlock_releases_without_pending))
        x.pending = 0;
    if (!(old & WAITERS) || mutated(unlock_wakes_before_release))
        to(x, waits ? WAIT_SLEEP : UNLOCK_END);
    else if (spoils && !mutated(unusable_leaves_the_wake))
        to(x, UNLOCK_WAKE);
    else
        to(x, waits ? WAIT_SLOT : UNLOCK_SLOT);
    if (waits && mutated(wait_counts_after_release))
        to(x, WAIT_COUNT);
}
// heir.c, hand_on: a wake is left to an heir, or to the cell's new owner. An unlock may also look further, or make its
// wake, in spite of them: it has announced the wake, or the heir may be stopped.
inline void spare(State &s, int t)
{
    Thread &x = s.thread[t];
    law_of_spares(s, t);
    to(x, x.at == WAIT_SLOT || x.at == WAIT_OWNER ? WAIT_SLEEP : UNLOCK_END);
}
inline bool look_at_slot(State &s, int t, int choice)
{
    Thread &x = s.thread[t];
    bool waits = x.at == WAIT_SLOT;
    bool answers = heir_answers(load(s, t, slot_of(x.m)));
    if (mutated(unlock_looks_at_slot_before_release))
        answers = x.flags & SPARES;
    if (choice > (answers ? 1 : 0))
        return false;
    if (answers && !choice)
        spare(s, t);
    else
        to(x, waits ? WAIT_OWNER : UNLOCK_OWNER);
    return true;
}
inline bool look_at_owner(State &s, int t, int choice)
{
    Thread &x = s.thread[t];
    bool waits = x.at == WAIT_OWNER;
    u16 v = load(s, t, cell_of(x.m));
    bool answers = (v & OWNER) || (mutated(unlock_trusts_waiters_alone) && (v & WAITERS));
    if (choice > (answers ? 1 : 0))
        return false;
    if (answers && !choice)
        spare(s, t);
    else
        to(x, waits ? WAIT_WAKE : UNLOCK_WAKE);
    return true;
}
inline void wake_and_trim(State &s, int t, Seen &seen)
{
    Thread &x = s.thread[t];
    bool spoils = x.flags & SPOILS;
    drain(s, t);
    int woken = wake(s, cell_of(x.m), spoils && !mutated(unusable_wakes_one) ? int(THREADS) : 1, seen);
    bool trims = !spoils && (!woken || mutated(trim_after_a_wake));
    to(x, mutated(unlock_wakes_before_release) ? UNLOCK_RELEASE : trims ? UNLOCK_TRIM : UNLOCK_END);
}
// The whole cell is as the release left it, so nobody has taken it since, and nobody sleeps.
inline void trim(State &s, int t)
{
    Thread &x = s.thread[t];
    int cell = cell_of(x.m);
    u16 is = x.released, before = s.word[cell];
    if (mutated(trim_without_compare))
        fetch_and(s, t, cell, u16(~WAITERS));
    else
        compare_exchange(s, t, cell, is, u16(is & ~WAITERS));
    if (s.word[cell] != before && s.sleepers[cell])
        breaks("WAITERS was cleared while somebody slept");
    to(x, UNLOCK_END);
}
inline bool begin_unlock(State &s, int t, int choice)
{
    Thread &x = s.thread[t];
    if (choice > (config.spoils && (x.flags & DIED) ? 1 : 0))
        return false;
    if (choice)
        x.flags |= SPOILS;
    else
        declare(s, t);
    if (mutated(unlock_looks_at_slot_before_release) && heir_answers(load(s, t, slot_of(x.m))))
        x.flags |= SPARES;
    to(x, UNLOCK_PEND);
    return true;
}
inline bool unlock_step(State &s, int t, int choice, Seen &seen)
{
    Thread &x = s.thread[t];
    u8 entry = entry_of(cell_of(x.m));
    if (x.at == UNLOCK_BEGIN)
        return begin_unlock(s, t, choice);
    if (x.at == UNLOCK_SLOT)
        return look_at_slot(s, t, choice);
    if (x.at == UNLOCK_OWNER)
        return look_at_owner(s, t, choice);
    if (choice)
        return false;
    switch (x.at) {
    case UNLOCK_PEND:
        x.pending = entry, to(x, UNLOCK_UNLINK);
        break;
    case UNLOCK_UNLINK:
        take_off_list(s, t, entry);
        to(x, mutated(unlock_wakes_before_release) ? UNLOCK_WAKE : UNLOCK_RELEASE);
        break;
    case UNLOCK_RELEASE:
        release_cell(s, t);
        break;
    case UNLOCK_WAKE:
        wake_and_trim(s, t, seen);
        break;
    case UNLOCK_TRIM:
        trim(s, t);
        break;
    default:
        x.pending = 0, call_ends(s, t);
        break;
    }
    return true;
}

// ---- mutex.c, pz_mutex_trylock: pending stays until the take is decided.
inline void try_take(State &s, int t)
{
    Thread &x = s.thread[t];
    u16 before = x.v;
    if (compare_exchange(s, t, cell_of(x.m), x.v, take_of(x.v, t))) {
        law_of_takes(s, t, before);
        return to(x, LOCK_LINK);
    }
    if (is_free(x.v)) {
        if (mutated(trylock_drops_pending_between_tries))
            x.pending = 0, to(x, TRY_PEND);
        return;
    }
    x.result = (x.v & UNUSABLE) ? UNRECOVERABLE : BUSY;
    to(x, LOCK_END);
}
inline void try_step(State &s, int t)
{
    Thread &x = s.thread[t];
    switch (x.at) {
    case TRY_LOAD:
        x.v = load(s, t, cell_of(x.m));
        if (is_free(x.v))
            to(x, TRY_PEND);
        else
            call_fails(s, t);
        break;
    case TRY_PEND:
        x.pending = entry_of(cell_of(x.m)), to(x, TRY_TAKE);
        break;
    default:
        try_take(s, t);
        break;
    }
}

// ---- mutex.c, pz_mutex_reinit.
inline void reinit_step(State &s, int t)
{
    Thread &x = s.thread[t];
    int cell = cell_of(x.m);
    if (x.at == REINIT_LOAD)
        x.v = load(s, t, cell);
    else if (compare_exchange(s, t, cell, x.v,
                              u16(((x.v & ~UNUSABLE) + TURN) & ~(mutated(reinit_forgets_waiters) ? WAITERS : 0)))) {
        s.inconsistent[x.m] = 0;
        return call_ends(s, t);
    }
    if (x.v & UNUSABLE)
        to(x, REINIT_SWAP);
    else
        call_ends(s, t);
}

// ---- cond.c, pz_cond_wait.
inline void say_that_somebody_waits(State &s, int t)
{
    u16 is = load(s, t, COND);
    if (!(is & WAITED) && !mutated(wait_says_nothing))
        store(s, t, COND, is | WAITED);
}
inline void say_before_release(State &s, int t)
{
    if (!mutated(wait_says_so_after_release))
        say_that_somebody_waits(s, t);
    to(s.thread[t], WAIT_RELEASE);
}
inline void sleep_on_cond(State &s, int t)
{
    Thread &x = s.thread[t];
    if (mutated(wait_says_so_after_release))
        say_that_somebody_waits(s, t);
    drain(s, t);
    if ((s.cond & COUNT) == x.seen) {
        if (x.flags & DUE)
            breaks("a thread sleeps although a signal was counted since its release");
        fall_asleep(s, COND, t);
        to(x, WAITING);
    } else
        to(x, WAIT_RELOCK);
    x.released = 0;
}
inline void decide_whether_late(State &s, int t)
{
    Thread &x = s.thread[t];
    bool late = (load(s, t, COND) & COUNT) == x.seen || mutated(late_by_the_clock_alone);
    if (late && (x.flags & MOVED))
        breaks("a wait that a broadcast ended timed out");
    to(x, WAIT_RELOCK);
}
inline void relock(Thread &x)
{
    if (!mutated(sleep_leaves_pending_empty))
        x.pending = entry_of(cell_of(x.m));
    x.how = WAITED_FOR, x.seen = 0, x.v = 0;
    x.flags &= u16(~(DUE | MOVED | TIMED_WAIT));
    to(x, mutated(woken_sleeper_goes_to_the_slot_unseen) ? SLOT_PEND : LOCK_LOAD);
}
inline void see_count(State &s, int t)
{
    Thread &x = s.thread[t];
    declare(s, t);
    x.seen = u8(load(s, t, COND) & COUNT);
    to(x, x.pending ? WAIT_SLEEP : WAIT_PEND); // with an entry pending only by a mutation
}
inline bool wait_step(State &s, int t, int choice, Seen &seen)
{
    Thread &x = s.thread[t];
    u8 entry = entry_of(cell_of(x.m));
    if (x.at == WAIT_SLOT)
        return look_at_slot(s, t, choice);
    if (x.at == WAIT_OWNER)
        return look_at_owner(s, t, choice);
    if (choice)
        return false;
    switch (x.at) {
    case WAIT_COUNT:
        see_count(s, t);
        break;
    case WAIT_PEND:
        x.pending = entry, to(x, WAIT_UNLINK);
        break;
    case WAIT_UNLINK:
        take_off_list(s, t, entry), to(x, WAIT_SAY);
        break;
    case WAIT_SAY:
        say_before_release(s, t);
        break;
    case WAIT_RELEASE:
        release_cell(s, t);
        break;
    case WAIT_WAKE:
        drain(s, t), wake(s, cell_of(x.m), 1, seen), to(x, WAIT_SLEEP);
        break;
    case WAIT_SLEEP:
        sleep_on_cond(s, t);
        break;
    case WAIT_LATE:
        decide_whether_late(s, t);
        break;
    default:
        relock(x);
        break; // WAIT_RELOCK
    }
    return true;
}

// ---- cond.c, pz_cond_signal and pz_cond_broadcast.
inline u16 next_count(u16 is) { return u16((is & WAITED) | ((is + 1) & COUNT)); }
inline void count_one(State &s, int t, Step next)
{
    u16 is = load(s, t, COND);
    declare(s, t);
    store(s, t, COND, next_count(is));
    if ((is & WAITED) && !(next == SIGNAL_WAKE && mutated(signal_wakes_nobody)))
        return to(s.thread[t], next);
    law_of_quiet_signals(s);
    call_ends(s, t);
}
inline void wake_one_waiter(State &s, int t, Seen &seen)
{
    Thread &x = s.thread[t];
    drain(s, t);
    int woken = wake(s, COND, 1, seen);
    if (mutated(signal_wakes_before_it_counts))
        return x.g = u16(woken), to(x, SIGNAL_CLEAR);
    law_of_counts(s);
    if (!woken || mutated(signal_always_clears_waited))
        to(x, SIGNAL_CLEAR);
    else
        call_ends(s, t);
}
inline void count_late(State &s, int t)
{
    store(s, t, COND, next_count(load(s, t, COND)));
    drain(s, t);
    if (!s.thread[t].g && s.sleepers[COND])
        breaks("a signal woke nobody while somebody slept");
}
inline void move_waiters(State &s, int t)
{
    Thread &x = s.thread[t];
    int target = mutated(broadcast_moves_to_the_slot) ? slot_of(x.m) : cell_of(x.m);
    drain(s, t);
    law_of_counts(s);
    while (s.sleepers[COND]) {
        int u = s.queue[COND][0];
        leave_queues(s, u);
        fall_asleep(s, target, u);
        s.thread[u].flags |= MOVED;
    }
    to(x, BROADCAST_CLEAR);
}
inline void signal_step(State &s, int t, Seen &seen)
{
    Thread &x = s.thread[t];
    switch (x.at) {
    case SIGNAL_COUNT:
        if (mutated(signal_wakes_before_it_counts) && (load(s, t, COND) & WAITED))
            to(x, SIGNAL_WAKE);
        else
            count_one(s, t, SIGNAL_WAKE);
        break;
    case SIGNAL_WAKE:
        wake_one_waiter(s, t, seen);
        break;
    case BROADCAST_COUNT:
        count_one(s, t, mutated(broadcast_sets_no_waiters) ? BROADCAST_MOVE : BROADCAST_MARK);
        break;
    case BROADCAST_MARK:
        fetch_or(s, t, cell_of(x.m), WAITERS), to(x, BROADCAST_MOVE);
        break;
    case BROADCAST_MOVE:
        move_waiters(s, t);
        break;
    default: // SIGNAL_CLEAR, BROADCAST_CLEAR
        if (x.at == SIGNAL_CLEAR && mutated(signal_wakes_before_it_counts))
            count_late(s, t);
        store(s, t, COND, u16(load(s, t, COND) & ~WAITED));
        call_ends(s, t);
        break;
    }
}

#endif
