// What Linux does: queues of sleepers, wakes, and the walk over a dead thread's robust list (kernel/futex/core.c,
// exit_robust_list and handle_futex_death).
#ifndef MODEL_KERNEL_H
#define MODEL_KERNEL_H
#include "state.h"

// What a step did, for the law that somebody answers.
struct Seen {
    bool took[MUTEXES], woke[QUEUES];
};

inline void fall_asleep(State &s, int queue, int t) { s.queue[queue][s.sleepers[queue]++] = u8(t); }
inline void leave_queues(State &s, int t)
{
    for (int q = 0; q < QUEUES; q++) {
        int kept = 0;
        for (int i = 0; i < s.sleepers[q]; i++)
            if (s.queue[q][i] != t)
                s.queue[q][kept++] = s.queue[q][i];
        for (int i = kept; i < s.sleepers[q]; i++)
            s.queue[q][i] = 0;
        s.sleepers[q] = u8(kept);
    }
}

// A thread's sleep has ended. One that was woken competes for the slot even if somebody else was woken too.
inline void sleep_ends(State &s, int t, How how)
{
    Thread &x = s.thread[t];
    leave_queues(s, t);
    if (x.at == WAITING) {
        x.at = WAIT_RELOCK;
        return;
    }
    if (x.how != WAITED_FOR)
        x.how = how;
    x.at = SLEEP_PEND;
}

inline int wake(State &s, int queue, int most, Seen &seen)
{
    int woken = 0;
    for (; woken < most && s.sleepers[queue]; woken++) {
        sleep_ends(s, s.queue[queue][0], WOKEN);
        seen.woke[queue] = true;
    }
    return woken;
}

inline void kill(State &s, int t)
{
    drain(s, t);
    leave_queues(s, t);
    Thread &x = s.thread[t], left = {};
    for (int m = 0; m < config.mutexes; m++)
        if (s.believes[m] == t + 1)
            s.believes[m] = 0;
    left.at = WALK_NEXT;
    left.op = x.op, left.m = x.m;
    left.pending = x.pending, left.listed = x.listed;
    memcpy(left.list, x.list, sizeof left.list);
    x = left;
}

// Which entry the walk looks at next: those of the list first, and at last the pending one. `walked` counts entries.
inline bool next_entry(Thread &x)
{
    int first = mutated(walk_takes_pending_first) ? 1 : 0;
    if (first && x.walked == 0) {
        x.walked = 1;
        if ((x.entry = x.pending))
            return true;
    }
    while (x.walked - first < x.listed)
        if ((x.entry = x.list[x.walked++ - first]) != x.pending)
            return true;
    if (first || x.walked > x.listed || !x.pending)
        return false;
    x.walked++;
    x.entry = x.pending;
    return true;
}

// Whether this kernel wakes one at the pending word, which holds v.
inline bool wakes_at_pending(u16 v, int t)
{
    if (config.walk == WALK_OLD)
        return !(v & FUTEX_WORD);
    if (!(v & OWNER))
        return true;
    return config.walk == WALK_NEWEST && (v & OWNER) != t + 1 && !(v & WAITERS);
}

inline void walk_load(State &s, int t)
{
    Thread &x = s.thread[t];
    u16 v = s.word[x.entry - 1];
    if (x.entry == x.pending && wakes_at_pending(v, t))
        x.at = WALK_WAKE;
    else if ((v & OWNER) != t + 1)
        x.at = WALK_NEXT;
    else
        x.v = v, x.at = WALK_MARK;
}

inline void walk_mark(State &s, int t)
{
    Thread &x = s.thread[t];
    int w = x.entry - 1;
    if (s.word[w] != x.v)
        return walk_load(s, t);
    s.word[w] = u16((x.v & (WAITERS | KEPT_BY_WALK)) | OWNER_DIED);
    if (w % 2 == 0)
        s.inconsistent[w / 2] = 1;
    x.at = (x.v & WAITERS) ? WALK_WAKE : WALK_NEXT;
}

inline void walk_end(State &s, int t)
{
    for (int w = 0; w < 2 * config.mutexes; w++)
        if ((s.word[w] & OWNER) == t + 1)
            breaks("a dead thread owns a word after its walk");
    bool again = s.reuses > 0;
    s.reuses -= again;
    s.thread[t] = {};
    s.thread[t].at = again ? IDLE : DEAD;
}

inline void walk_step(State &s, int t, Seen &seen)
{
    Thread &x = s.thread[t];
    switch (x.at) {
    case WALK_NEXT:
        x.at = next_entry(x) ? WALK_LOAD : WALK_END;
        break;
    case WALK_LOAD:
        walk_load(s, t);
        break;
    case WALK_MARK:
        walk_mark(s, t);
        break;
    case WALK_WAKE:
        wake(s, x.entry - 1, 1, seen), x.at = WALK_NEXT;
        break;
    default:
        walk_end(s, t);
        break;
    }
}
#endif
