// The calls of lib/ that lock a mutex, step by step. A function makes the step at which its thread is, by `choice`, and
// returns false if there is no such choice. Choices stand for what depends on time and on hints; the promises may not
// depend on them.
#ifndef MODEL_LOCKING_H
#define MODEL_LOCKING_H
#include "laws.h"

inline u16 take_of(u16 v, int t) { return u16(taken(v, t) + (mutated(take_keeps_the_turn) ? 0 : TURN)); }
inline void to(Thread &x, Step at) { x.at = at; }

// ---- mutex.c, pz_mutex_lock and wait_for: somebody is in the way, and v is what the last look found.
inline void sleeps_next(Thread &x) { to(x, (x.v & WAITERS) || mutated(sleep_sets_no_waiters) ? SLEEP : SLEEP_MARK); }
inline bool decide(Thread &x, int choice)
{
    bool may_choose = !is_free(x.v) && !(x.v & UNUSABLE) && x.how != WAITED_FOR;
    if (choice > (may_choose ? 1 : 0))
        return false;
    if (x.v & UNUSABLE) {
        x.result = UNRECOVERABLE;
        to(x, (x.v & WAITERS) ? LOCK_WAKE_ALL : LOCK_END);
    } else if (is_free(x.v))
        to(x, LOCK_TAKE);
    else if (choice || x.how == WAITED_FOR)
        sleeps_next(x);
    else
        to(x, x.how != TRIED && !(x.v & WAITERS) ? SLOT_MARK : SLOT_PEND);
    return true;
}
// Takes the cell, or decides by what it found there.
inline bool take_cell(State &s, int t, int choice)
{
    Thread &x = s.thread[t];
    u16 before = x.v;
    if (!compare_exchange(s, t, cell_of(x.m), x.v, take_of(x.v, t)))
        return decide(x, choice);
    if (choice)
        return false;
    law_of_takes(s, t, before);
    to(x, LOCK_LINK);
    return true;
}
inline void lock_ends(State &s, int t)
{
    Thread &x = s.thread[t];
    x.pending = 0;
    if (x.result == TAKEN)
        call_ends(s, t);
    else
        call_fails(s, t);
}
inline bool lock_step(State &s, int t, int choice, Seen &seen)
{
    Thread &x = s.thread[t];
    int cell = cell_of(x.m);
    switch (x.at) {
    case LOCK_LOAD:
        x.v = load(s, t, cell);
        return decide(x, choice);
    case LOCK_TAKE:
        return take_cell(s, t, choice);
    default:
        break;
    }
    if (choice)
        return false;
    switch (x.at) {
    case LOCK_LOOK:
        x.v = load(s, t, cell), to(x, mutated(lock_takes_without_pending) ? LOCK_TAKE : LOCK_PEND);
        break;
    case LOCK_PEND:
        x.pending = entry_of(cell), to(x, is_free(x.v) ? LOCK_TAKE : LOCK_LOAD);
        break;
    case LOCK_WAKE_ALL:
        drain(s, t), wake(s, cell, THREADS, seen), to(x, LOCK_END);
        break;
    case LOCK_LINK:
        put_on_list(s, t, entry_of(cell)), to(x, LOCK_END);
        break;
    default:
        lock_ends(s, t);
        break;
    }
    return true;
}

// ---- mutex.c, sleeps: asleep on the cell until woken.
inline void sleep_on_cell(State &s, int t)
{
    Thread &x = s.thread[t];
    drain(s, t);
    if ((s.word[cell_of(x.m)] & FUTEX_WORD) == (x.v & FUTEX_WORD)) {
        fall_asleep(s, cell_of(x.m), t);
        to(x, ASLEEP);
    } else {
        x.how = x.how == WAITED_FOR ? x.how : u8(LATER);
        to(x, SLEEP_PEND);
    }
    x.v = 0;
}
inline void after_sleep(Thread &x)
{
    if (!mutated(sleep_leaves_pending_empty))
        x.pending = entry_of(cell_of(x.m));
    if (x.result == TIMED_OUT)
        to(x, LOCK_END);
    else
        to(x, mutated(woken_sleeper_goes_to_the_slot_unseen) && x.how == WAITED_FOR ? SLOT_PEND : SLEEP_LOOK);
}
inline bool sleep_step(State &s, int t, int choice)
{
    Thread &x = s.thread[t];
    int cell = cell_of(x.m);
    switch (x.at) {
    case SLEEP_LOOK:
        x.v = load(s, t, cell);
        return decide(x, choice);
    case SLEEP_MARK:
        if (!compare_exchange(s, t, cell, x.v, x.v | WAITERS)) {
            x.how = x.how == WAITED_FOR ? x.how : u8(LATER);
            return decide(x, choice);
        }
        x.v |= WAITERS, to(x, SLEEP);
        return choice == 0;
    case SLEEP_LOAD: // without the slot, which another thread has, or which this one gave up
        x.v = load(s, t, cell);
        if (is_free(x.v) || (x.v & UNUSABLE))
            return x.how = LATER, decide(x, choice);
        sleeps_next(x);
        return choice == 0;
    case SLEEP:
        sleep_on_cell(s, t);
        return choice == 0;
    default:
        after_sleep(x);
        return choice == 0;
    }
}

// ---- heir.c, take_slot: a trylock of the slot. A dead heir's AWAKE is cleared before the slot is declared consistent.
inline void take_slot(State &s, int t)
{
    Thread &x = s.thread[t];
    int slot = slot_of(x.m);
    if (compare_exchange(s, t, slot, x.g, taken(x.g, t)))
        to(x, mutated(heir_is_awake_before_link) ? HEIR_PEND : SLOT_LINK);
    else if ((x.g & OWNER) || mutated(slot_is_tried_once))
        to(x, SLOT_LEFT);
    if (x.at != SLOT_TAKE)
        x.v = 0;
}
inline void clear_a_dead_heirs_awake(State &s, int t, Step next)
{
    if (!mutated(slot_keeps_a_dead_heirs_awake))
        fetch_and(s, t, slot_of(s.thread[t].m), u16(~AWAKE));
    to(s.thread[t], next);
}
// The slot is the thread's own now.
inline void own_slot_step(State &s, int t)
{
    Thread &x = s.thread[t];
    bool declares_first = mutated(slot_is_declared_before_awake_is_cleared);
    switch (x.at) {
    case SLOT_LINK:
        if (!mutated(slot_is_not_listed))
            put_on_list(s, t, entry_of(slot_of(x.m)));
        to(x, (x.g & OWNER_DIED) ? SLOT_PEND_NOTHING : HEIR_PEND);
        break;
    case SLOT_PEND_NOTHING:
        x.pending = 0, to(x, declares_first ? SLOT_DECLARE : SLOT_CLEAR);
        break;
    case SLOT_CLEAR:
        clear_a_dead_heirs_awake(s, t, declares_first ? HEIR_PEND : SLOT_DECLARE);
        break;
    default: // SLOT_DECLARE
        fetch_and(s, t, slot_of(x.m), u16(~OWNER_DIED));
        to(x, declares_first ? SLOT_CLEAR : HEIR_PEND);
        break;
    }
}
inline bool slot_step(State &s, int t, int choice)
{
    Thread &x = s.thread[t];
    int cell = cell_of(x.m), slot = slot_of(x.m);
    if (x.at == SLOT_MARK && !compare_exchange(s, t, cell, x.v, x.v | WAITERS))
        return decide(x, choice);
    if (choice)
        return false;
    switch (x.at) {
    case SLOT_MARK:
        x.v |= WAITERS, to(x, SLOT_PEND);
        break;
    case SLOT_PEND:
        x.pending = entry_of(slot), to(x, SLOT_LOAD);
        break;
    case SLOT_LOAD:
        x.g = load(s, t, slot), to(x, (x.g & OWNER) ? SLOT_LEFT : SLOT_TAKE);
        break;
    case SLOT_TAKE:
        take_slot(s, t);
        break;
    case SLOT_LEFT:
        x.pending = entry_of(cell), x.g = 0, to(x, SLEEP_LOAD);
        break;
    default:
        own_slot_step(s, t);
        break;
    }
    return true;
}

// ---- heir.c, as_heir: waits awake, with the cell pending and AWAKE in the slot.
inline void clear_awake(State &s, int t)
{
    int slot = slot_of(s.thread[t].m);
    if (mutated(heir_clears_awake_by_a_store))
        store(s, t, slot, u16(load(s, t, slot) & ~AWAKE));
    else
        fetch_and(s, t, slot, u16(~AWAKE));
}
inline void heir_takes(State &s, int t)
{
    Thread &x = s.thread[t];
    u16 before = x.v;
    if (compare_exchange(s, t, cell_of(x.m), x.v, take_of(x.v, t))) {
        law_of_takes(s, t, before);
        bool late = mutated(heir_frees_slot_before_awake);
        to(x, late ? HEIR_LINK : mutated(heir_frees_slot_before_link) ? FREE_PEND : HEIR_HAS);
    } else if (x.v & UNUSABLE)
        to(x, HEIR_CLEAR);
    else if (x.v & OWNER)
        to(x, HEIR_PEND);
}
// AWAKE is cleared and WAITERS is set: the heir goes to sleep, or its deadline has passed.
inline bool heir_gives_up(Thread &x, int choice)
{
    if (choice > ((x.flags & TIMED) ? 1 : 0))
        return false;
    if (choice)
        x.result = TIMED_OUT;
    to(x, choice ? HEIR_PEND_NOTHING : FREE_PEND);
    return true;
}
inline bool last_look(State &s, int t, int choice)
{
    Thread &x = s.thread[t];
    x.v = load(s, t, cell_of(x.m));
    if (is_free(x.v))
        return to(x, HEIR_PEND), choice == 0;
    if (x.v & UNUSABLE) {
        x.result = UNRECOVERABLE;
        return to(x, (x.v & WAITERS) ? HEIR_WAKE_ALL : HEIR_PEND_NOTHING), choice == 0;
    }
    if (!(x.v & WAITERS))
        return to(x, HEIR_MARK), choice == 0;
    return heir_gives_up(x, choice);
}
inline bool heir_marks(State &s, int t, int choice)
{
    Thread &x = s.thread[t];
    if (compare_exchange(s, t, cell_of(x.m), x.v, x.v | WAITERS))
        return heir_gives_up(x, choice);
    return to(x, HEIR_PEND), choice == 0;
}
inline void heir_looks(State &s, int t)
{
    Thread &x = s.thread[t];
    x.v = load(s, t, cell_of(x.m));
    to(x, is_free(x.v) ? HEIR_TAKE : HEIR_CLEAR);
}
inline bool heir_clears(State &s, int t, int choice)
{
    Thread &x = s.thread[t];
    bool gives_up = !(x.v & UNUSABLE);
    bool has_no_last_look = mutated(heir_times_out_without_last_look) || mutated(heir_clears_pending_before_awake);
    if (choice > (gives_up && has_no_last_look && (x.flags & TIMED) ? 1 : 0))
        return false;
    if (choice) {
        if (mutated(heir_times_out_without_last_look))
            clear_awake(s, t);
        return x.result = TIMED_OUT, to(x, HEIR_PEND_NOTHING), true;
    }
    if (!mutated(heir_sleeps_awake) || !gives_up)
        clear_awake(s, t);
    if (!gives_up && mutated(heir_trusts_first_look_at_unusable)) {
        x.result = UNRECOVERABLE;
        return to(x, (x.v & WAITERS) ? HEIR_WAKE_ALL : HEIR_PEND_NOTHING), choice == 0;
    }
    to(x, mutated(heir_gives_up_without_last_look) && gives_up ? FREE_PEND : HEIR_LAST_LOOK);
    return true;
}
inline void heir_pends(State &s, int t)
{
    Thread &x = s.thread[t];
    if (mutated(heir_is_awake_before_pending) && !(s.word[slot_of(x.m)] & AWAKE))
        return fetch_or(s, t, slot_of(x.m), AWAKE);
    x.pending = entry_of(cell_of(x.m)), x.how = LATER, x.v = x.g = 0;
    to(x, HEIR_AWAKE);
}
inline void heir_says_awake(State &s, int t)
{
    Thread &x = s.thread[t];
    u8 entry = entry_of(slot_of(x.m));
    fetch_or(s, t, slot_of(x.m), AWAKE);
    if (mutated(heir_is_awake_before_link) && !is_listed(x, entry))
        put_on_list(s, t, entry);
    to(x, HEIR_LOOK);
}
inline bool heir_step(State &s, int t, int choice, Seen &seen)
{
    Thread &x = s.thread[t];
    if (x.at == HEIR_LAST_LOOK)
        return last_look(s, t, choice);
    if (x.at == HEIR_MARK)
        return heir_marks(s, t, choice);
    if (x.at == HEIR_CLEAR)
        return heir_clears(s, t, choice);
    if (choice)
        return false;
    switch (x.at) {
    case HEIR_PEND:
        heir_pends(s, t);
        break;
    case HEIR_AWAKE:
        heir_says_awake(s, t);
        break;
    case HEIR_LOOK:
        heir_looks(s, t);
        break;
    case HEIR_TAKE:
        heir_takes(s, t);
        break;
    case HEIR_HAS:
        clear_awake(s, t), to(x, mutated(heir_frees_slot_before_awake) ? LOCK_END : HEIR_LINK);
        break;
    case HEIR_LINK:
        put_on_list(s, t, entry_of(cell_of(x.m))), to(x, FREE_PEND);
        break;
    case HEIR_WAKE_ALL:
        drain(s, t), wake(s, cell_of(x.m), THREADS, seen), to(x, HEIR_PEND_NOTHING);
        break;
    default:
        x.pending = 0, to(x, FREE_PEND);
        break; // HEIR_PEND_NOTHING
    }
    return true;
}

// ---- heir.c, free_slot.
inline void release_slot(State &s, int t)
{
    Thread &x = s.thread[t];
    drain(s, t);
    if ((s.word[slot_of(x.m)] & OWNER) != t + 1)
        breaks("a thread that doesn't own the slot frees it");
    s.word[slot_of(x.m)] ^= u16(t + 1);
    to(x, x.result == UNDECIDED ? SLOT_LEFT : LOCK_END);
    if (mutated(heir_frees_slot_before_awake) && x.result == TAKEN)
        to(x, HEIR_HAS);
    if (mutated(heir_frees_slot_before_link) && x.result == TAKEN)
        to(x, LOCK_LINK);
}
inline void free_step(State &s, int t)
{
    Thread &x = s.thread[t];
    u8 entry = entry_of(slot_of(x.m));
    switch (x.at) {
    case FREE_PEND:
        if (mutated(heir_clears_pending_before_awake) && x.result == TIMED_OUT)
            clear_awake(s, t);
        x.pending = entry, x.v = 0, to(x, FREE_UNLINK);
        break;
    case FREE_UNLINK:
        take_off_list(s, t, entry), to(x, FREE_RELEASE);
        break;
    default:
        release_slot(s, t);
        break;
    }
}
#endif
