// The machine of the specification, as far as refine.h needs it: rows of its calls, and its events. It has two mutexes
// for each of the library's, the cell and the slot. AWAKE and turns aren't in its words.
#ifndef MODEL_MACHINE_H
#define MODEL_MACHINE_H
#include "laws.h"

enum Call : u8 { NO_CALL, TRY_CALL, LOCK_CALL, UNLOCK_CALL, DECLARE_CALL, WAIT_CALL, SIGNAL_CALL, BROADCAST_CALL };
enum Row : u8 {
    NO_ROW,
    ANNOUNCE, // sets pending
    LOAD,
    TAKE,
    MARK, // sets WAITERS
    COMPARE,
    ON_MUTEX, // asleep
    WAKE_ALL,
    LINK,
    CLEAR, // clears pending
    UNLINK,
    RELEASE,
    WAKE_ONE,
    WAKE_OF_UNUSABLE,
    TRIM,
    DECLARE,
    OWNED, // a call of a condition variable checks the owner
    SEE_COUNT,
    COMPARE_COUNT,
    ON_COND, // asleep
    COUNT_ONE,
    WAKE_WAITER,
    MARK_TARGET,
    MOVE_ALL,
    DYING,
};
struct MachineThread {
    u8 call, row, word, v, seen, was_marked, pending, listed, list[ENTRIES];
};
struct Machine {
    u8 word[WORDS], count, sleepers[QUEUES], queue[QUEUES][THREADS];
    MachineThread thread[THREADS];
};
// The events of one thread. The begins of calls follow: of a try on the cell, a try on the slot, and so on.
enum MachineEvent { STEP, SPARE, DECLINE, EXPIRE, LEAVE, REMAKE, BEGIN, LAST_EVENT = BEGIN + 10 };

inline void end_call(MachineThread &x) { x.call = NO_CALL, x.row = NO_ROW, x.word = x.v = x.seen = x.was_marked = 0; }
inline void go(MachineThread &x, Row row)
{
    x.row = row, x.v = 0;
    if (row == LINK || row == CLEAR)
        x.call = NO_CALL, x.seen = x.was_marked = 0;
}
inline void leave_machine_queues(Machine &a, int t)
{
    for (int q = 0; q < QUEUES; q++) {
        int kept = 0;
        for (int i = 0; i < a.sleepers[q]; i++)
            if (a.queue[q][i] != t)
                a.queue[q][kept++] = a.queue[q][i];
        for (int i = kept; i < a.sleepers[q]; i++)
            a.queue[q][i] = 0;
        a.sleepers[q] = u8(kept);
    }
}
inline int machine_wake(Machine &a, int queue, int most)
{
    int woken = 0;
    for (; woken < most && a.sleepers[queue]; woken++) {
        int u = a.queue[queue][0];
        leave_machine_queues(a, u);
        a.thread[u].row = LOAD, a.thread[u].v = a.thread[u].seen = 0;
    }
    return woken;
}
inline void machine_sleep(Machine &a, int queue, int t) { a.queue[queue][a.sleepers[queue]++] = u8(t); }

// What a lock does with the word that it saw.
inline void machine_decide(MachineThread &x, u8 v, int t)
{
    if (x.call == TRY_CALL) {
        if (v & (UNUSABLE | OWNER))
            return go(x, CLEAR);
        x.row = TAKE, x.v = v;
    } else if (v & UNUSABLE) {
        go(x, (v & WAITERS) ? WAKE_ALL : CLEAR);
    } else if ((v & OWNER) == t + 1) {
        go(x, CLEAR);
    } else {
        x.row = !(v & OWNER) ? TAKE : (v & WAITERS) ? COMPARE : MARK, x.v = v;
    }
}
inline void machine_load(Machine &a, int t)
{
    MachineThread &x = a.thread[t];
    u8 v = a.word[x.word];
    if (x.call == TRY_CALL || x.call == LOCK_CALL || x.call == WAIT_CALL)
        machine_decide(x, v, t);
    else if ((v & OWNER) != t + 1)
        end_call(x);
    else if (x.call == UNLOCK_CALL)
        x.was_marked = (v & OWNER_DIED) != 0, x.row = ANNOUNCE;
    else if (v & OWNER_DIED)
        x.row = DECLARE;
    else
        end_call(x);
}
inline void machine_exchange(Machine &a, int t)
{
    MachineThread &x = a.thread[t];
    u8 &w = a.word[x.word];
    if (w != x.v)
        return machine_decide(x, w, t);
    if (x.row == TAKE) {
        w = u8((w & ~OWNER) | (t + 1));
        go(x, LINK);
    } else {
        w |= WAITERS;
        x.v = w, x.row = COMPARE;
    }
}
inline void machine_release(Machine &a, int t)
{
    MachineThread &x = a.thread[t];
    u8 &w = a.word[x.word], before = w;
    bool spoils = x.call == UNLOCK_CALL && x.was_marked;
    w ^= u8((t + 1) | (spoils ? OWNER_DIED | UNUSABLE : 0));
    x.was_marked = 0;
    if (before & WAITERS)
        x.row = spoils ? WAKE_OF_UNUSABLE : WAKE_ONE;
    else if (x.call == UNLOCK_CALL)
        go(x, CLEAR);
    else
        x.row = COMPARE_COUNT;
}
inline void machine_list(MachineThread &x, bool puts_on)
{
    u8 entry = entry_of(x.word), kept[ENTRIES] = {}, n = 0;
    if (puts_on)
        kept[n++] = entry;
    for (int i = 0; i < x.listed; i++)
        if (x.list[i] != entry)
            kept[n++] = x.list[i];
    memcpy(x.list, kept, sizeof kept);
    x.listed = n;
}
inline void machine_compare(Machine &a, int t)
{
    MachineThread &x = a.thread[t];
    if ((a.word[x.word] & FUTEX_WORD) == (x.v & FUTEX_WORD)) {
        machine_sleep(a, x.word, t);
        go(x, ON_MUTEX);
    } else
        go(x, LOAD);
}
inline void machine_compare_count(Machine &a, int t)
{
    MachineThread &x = a.thread[t];
    if (a.count == x.seen) {
        machine_sleep(a, COND, t);
        x.row = ON_COND;
    } else
        x.row = LOAD;
    x.seen = 0;
}
inline void machine_move(Machine &a, int t)
{
    while (a.sleepers[COND]) {
        int u = a.queue[COND][0];
        leave_machine_queues(a, u);
        machine_sleep(a, a.thread[t].word, u);
        a.thread[u].row = ON_MUTEX;
    }
    end_call(a.thread[t]);
}
inline void machine_owned(Machine &a, int t)
{
    MachineThread &x = a.thread[t];
    u8 v = a.word[x.word];
    if ((v & OWNER) != t + 1 || (x.call == WAIT_CALL && (v & OWNER_DIED)))
        end_call(x);
    else
        x.row = x.call == WAIT_CALL ? SEE_COUNT : COUNT_ONE;
}
inline void machine_wake_one(Machine &a, int t)
{
    MachineThread &x = a.thread[t];
    int woken = machine_wake(a, x.word, 1);
    if (x.call == UNLOCK_CALL)
        go(x, woken ? CLEAR : TRIM);
    else
        x.row = COMPARE_COUNT;
}
inline void machine_trim(Machine &a, int t)
{
    MachineThread &x = a.thread[t];
    if (!a.sleepers[x.word] && a.word[x.word] == WAITERS)
        a.word[x.word] = 0;
    go(x, CLEAR);
}
// The rows of calls on condition variables. Returns false if there is none.
inline bool machine_cond_step(Machine &a, int t)
{
    MachineThread &x = a.thread[t];
    switch (x.row) {
    case OWNED:
        machine_owned(a, t);
        break;
    case SEE_COUNT:
        x.seen = a.count, x.row = ANNOUNCE;
        break;
    case COMPARE_COUNT:
        machine_compare_count(a, t);
        break;
    case COUNT_ONE:
        a.count++, x.row = x.call == SIGNAL_CALL ? WAKE_WAITER : MARK_TARGET;
        break;
    case WAKE_WAITER:
        machine_wake(a, COND, 1), end_call(x);
        break;
    case MARK_TARGET:
        a.word[x.word] |= WAITERS, x.row = MOVE_ALL;
        break;
    case MOVE_ALL:
        machine_move(a, t);
        break;
    default:
        return false;
    }
    return true;
}
// The rows that change the thread's pending entry and list. Returns false if it is at another one.
inline bool machine_private_step(MachineThread &x)
{
    switch (x.row) {
    case ANNOUNCE:
        x.pending = entry_of(x.word);
        x.row = x.call == TRY_CALL || x.call == LOCK_CALL ? LOAD : UNLINK;
        return true;
    case LINK:
        machine_list(x, true), go(x, CLEAR);
        return true;
    case UNLINK:
        machine_list(x, false), x.row = RELEASE;
        return true;
    case CLEAR:
        x.pending = 0, end_call(x);
        return true;
    default:
        return false;
    }
}
inline bool machine_step(Machine &a, int t)
{
    MachineThread &x = a.thread[t];
    if (machine_private_step(x) || machine_cond_step(a, t))
        return true;
    switch (x.row) {
    case LOAD:
        machine_load(a, t);
        return true;
    case TAKE:
    case MARK:
        machine_exchange(a, t);
        return true;
    case COMPARE:
        machine_compare(a, t);
        return true;
    case WAKE_ALL:
    case WAKE_OF_UNUSABLE:
        machine_wake(a, x.word, THREADS), go(x, CLEAR);
        return true;
    case RELEASE:
        machine_release(a, t);
        return true;
    case WAKE_ONE:
        machine_wake_one(a, t);
        return true;
    case TRIM:
        machine_trim(a, t);
        return true;
    case DECLARE:
        a.word[x.word] &= u8(~OWNER_DIED), end_call(x);
        return true;
    default:
        return false;
    }
}
#endif
