// What has to hold, and what a step tells the laws.
#ifndef MODEL_LAWS_H
#define MODEL_LAWS_H
#include "kernel.h"

// Begins the thread's next call.
inline void call_ends(State &, int t);
// A lock that didn't get its mutex: continues after the unlock.
inline void call_fails(State &, int t);

inline void clear_call(Thread &x)
{
    x.at = IDLE;
    x.v = x.g = x.released = 0;
    x.seen = 0, x.result = UNDECIDED, x.how = TRIED;
    x.flags &= DIED;
}
inline void call_ends(State &s, int t)
{
    Thread &x = s.thread[t];
    clear_call(x);
    x.op++;
}
inline void call_fails(State &s, int t)
{
    Thread &x = s.thread[t];
    u8 m = x.m;
    clear_call(x);
    x.flags = 0;
    const auto &script = config.script[t];
    do
        x.op++;
    while (script[x.op].op != END && !(script[x.op - 1].op == UNLOCK && script[x.op - 1].m == m));
}

// A thread took the cell, which held v.
inline void law_of_takes(State &s, int t, u16 v)
{
    Thread &x = s.thread[t];
    int m = x.m;
    if (s.believes[m])
        breaks("a thread took the mutex while another one was in the critical section");
    s.believes[m] = u8(t + 1);
    if (((v & OWNER_DIED) != 0) != (s.inconsistent[m] != 0))
        breaks("EOWNERDEAD isn't exactly after a death");
    x.result = TAKEN, x.v = x.g = 0;
    x.flags = u16((x.flags & ~DIED) | ((v & OWNER_DIED) ? DIED : 0));
}

// ---- Who answers: a thread that is awake, has the cell pending, and will look at it or wake somebody on it.
inline bool will_look(const State &s, int u, int m)
{
    const Thread &x = s.thread[u];
    if (x.m != m || x.pending != entry_of(cell_of(m)))
        return false;
    switch (x.at) {
    case LOCK_LOAD:
    case LOCK_TAKE:
    case LOCK_WAKE_ALL:
    case SLEEP_LOAD:
    case SLEEP_MARK:
    case SLEEP:
    case SLEEP_LOOK:
    case HEIR_AWAKE:
    case HEIR_LOOK:
    case HEIR_TAKE:
    case HEIR_CLEAR:
    case HEIR_LAST_LOOK:
    case HEIR_MARK:
    case HEIR_WAKE_ALL:
    case UNLOCK_SLOT:
    case UNLOCK_OWNER:
    case UNLOCK_WAKE:
    case WAIT_SLOT:
    case WAIT_OWNER:
    case WAIT_WAKE:
        return true;
    default:
        return false;
    }
}
// A thread was killed with the cell pending, and its walk has still to look at the cell, or to wake somebody on it.
inline bool walk_will_look(const State &s, int u, int m)
{
    const Thread &x = s.thread[u];
    u8 entry = entry_of(cell_of(m));
    if (!is_dying(x) || x.pending != entry || x.at == WALK_END)
        return false;
    if (x.at == WALK_NEXT)
        return x.walked <= x.listed;
    return x.entry != entry || x.at == WALK_LOAD || x.at == WALK_MARK || x.at == WALK_WAKE;
}
// An unlock leaves its wake to somebody else: the mutex is owned by now, or somebody answers.
inline void law_of_spares(const State &s, int t)
{
    int m = s.thread[t].m;
    bool answered = s.word[cell_of(m)] & OWNER;
    for (int u = 0; u < config.threads; u++)
        if (u != t)
            answered = answered || will_look(s, u, m) || walk_will_look(s, u, m);
    if (!answered)
        breaks("an unlock left its wake, and nobody answers");
}

// ---- Condition variables.
inline bool has_released(const Thread &x)
{
    return x.at == WAIT_SLOT || x.at == WAIT_OWNER || x.at == WAIT_WAKE || x.at == WAIT_SLEEP ||
           (x.at == WAIT_COUNT && x.pending);
}
inline void law_of_quiet_signals(const State &s)
{
    if (s.sleepers[COND])
        breaks("a signal woke nobody while somebody slept");
    for (int u = 0; u < config.threads; u++)
        if (has_released(s.thread[u]) && !(s.thread[u].flags & DUE))
            breaks("a signal missed a thread that was about to sleep");
}
inline void law_of_counts(State &s)
{
    for (int u = 0; u < config.threads; u++)
        if (has_released(s.thread[u]))
            s.thread[u].flags |= DUE;
}

// ---- What holds in each state.
bool makes_progress(const State &, int m);

inline void law_of_words(const State &s, int m)
{
    int cell = cell_of(m), slot = slot_of(m);
    u8 owner = s.believes[m];
    if (owner && (s.word[cell] & OWNER) != owner)
        breaks("a thread in the critical section isn't the owner");
    if (s.sleepers[cell] && !(s.word[cell] & OWNER) && !makes_progress(s, m))
        breaks("the mutex is free, somebody sleeps, and nobody answers");
    if (s.sleepers[cell] && !(s.word[cell] & WAITERS))
        breaks("somebody sleeps on a cell without WAITERS");
    if (s.sleepers[slot])
        breaks("somebody sleeps on a slot");
}
inline void law_of_lists(const State &s, int t)
{
    const Thread &x = s.thread[t];
    if (x.at == DEAD || is_dying(x))
        return;
    for (int w = 0; w < 2 * config.mutexes; w++)
        if ((s.word[w] & OWNER) == t + 1 && x.pending != entry_of(w) && !is_listed(x, entry_of(w)))
            breaks("a word is owned, and is neither on the list nor pending");
    for (int i = 0; i < x.listed; i++)
        if ((s.word[x.list[i] - 1] & OWNER) != t + 1)
            breaks("a word is on the list, and isn't owned");
}
// Nobody runs any more: then nobody may sleep on a mutex, unless a deadline is still to come.
inline void law_of_ends(const State &s)
{
    for (int t = 0; t < config.threads; t++) {
        const Thread &x = s.thread[t];
        if (!is_gone(x) && !is_asleep(x))
            return;
        if (is_asleep(x) && (x.flags & TIMED) && config.mutexes > 1)
            return;
    }
    for (int w = 0; w < 2 * config.mutexes; w++)
        if (s.sleepers[w])
            breaks("nobody runs any more, and somebody sleeps on a mutex");
}
inline void check_laws(const State &s)
{
    for (int m = 0; m < config.mutexes; m++)
        law_of_words(s, m);
    for (int t = 0; t < config.threads; t++)
        law_of_lists(s, t);
    if (s.sleepers[COND] && !(s.cond & WAITED) && !config.buffers)
        breaks("somebody waits, and the bit that says so is clear");
    law_of_ends(s);
}
#endif
