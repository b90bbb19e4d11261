// Checks that the library's calls are calls of the specification's machine: each step is zero to nine events of the
// machine, all of the same thread, all at that moment. They are found by a search from what the machine is before the
// step to what it is after it.
#ifndef MODEL_REFINE_H
#define MODEL_REFINE_H
#include "machine.h"
#include "scenarios.h"
#include "search.h"

const Scenario refined[] = {
    {"refined: 2 lock, ids again", {"L0U0", "L0U0"}, "k=2 r=2"},
    {"refined: timed, lock", {"T0U0", "L0U0"}, "k=2 i"},
    {"refined: wait, broadcast", {"L0W0U0", "L0B0U0"}, "k=2"},
    {"refined: wait, signal", {"L0W0U0", "L0S0U0"}, "k=2 i"},
    {"refined: unusable, reinit", {"L0U0", "R0L0U0"}, "k=2 r=1 s"},
    {"refined: unusable, timed", {"L0U0", "T0U0", "R0"}, "k=0 s d"},
    {"refined: lock, trylock, lock", {"L0U0", "Y0U0", "L0U0"}, "k=1"},
    {"refined: 3 lock", {"L0U0", "L0U0", "L0U0"}, "k=1"},
    {"refined: wait, signal, lock", {"L0W0U0", "L0S0U0", "L0U0"}, "k=1"},
};
// Where the machine's thread is at each step of the library's. A call may depend on how the lock came there.
enum Which : u8 { ON_CELL, ON_SLOT, ON_PENDING };
enum : u8 { BY_WAIT = 100, BY_ARRIVAL };
struct Standing {
    u8 step, call, row, which;
};
const Standing standings[] = {
    {LOCK_LOAD, BY_ARRIVAL, LOAD, ON_CELL},
    {LOCK_TAKE, BY_ARRIVAL, LOAD, ON_CELL},
    {LOCK_WAKE_ALL, BY_WAIT, WAKE_ALL, ON_CELL},
    {LOCK_LINK, NO_CALL, LINK, ON_CELL},
    {LOCK_END, NO_CALL, CLEAR, ON_PENDING},
    {SLOT_MARK, LOCK_CALL, LOAD, ON_CELL},
    {SLOT_PEND, NO_CALL, CLEAR, ON_CELL},
    {SLOT_LOAD, TRY_CALL, LOAD, ON_SLOT},
    {SLOT_TAKE, TRY_CALL, LOAD, ON_SLOT},
    {SLOT_LINK, NO_CALL, LINK, ON_SLOT},
    {SLOT_PEND_NOTHING, NO_CALL, CLEAR, ON_SLOT},
    {SLOT_LEFT, NO_CALL, CLEAR, ON_SLOT},
    {SLEEP_LOAD, LOCK_CALL, LOAD, ON_CELL},
    {SLEEP_MARK, BY_WAIT, LOAD, ON_CELL},
    {SLEEP, BY_WAIT, COMPARE, ON_CELL},
    {ASLEEP, BY_WAIT, ON_MUTEX, ON_CELL},
    {SLEEP_PEND, BY_WAIT, LOAD, ON_CELL},
    {SLEEP_LOOK, BY_WAIT, LOAD, ON_CELL},
    {HEIR_AWAKE, LOCK_CALL, LOAD, ON_CELL},
    {HEIR_LOOK, LOCK_CALL, LOAD, ON_CELL},
    {HEIR_TAKE, LOCK_CALL, LOAD, ON_CELL},
    {HEIR_CLEAR, LOCK_CALL, LOAD, ON_CELL},
    {HEIR_LAST_LOOK, LOCK_CALL, LOAD, ON_CELL},
    {HEIR_MARK, LOCK_CALL, LOAD, ON_CELL},
    {HEIR_WAKE_ALL, LOCK_CALL, WAKE_ALL, ON_CELL},
    {HEIR_PEND_NOTHING, NO_CALL, CLEAR, ON_CELL},
    {HEIR_HAS, NO_CALL, LINK, ON_CELL},
    {HEIR_LINK, NO_CALL, LINK, ON_CELL},
    {FREE_UNLINK, UNLOCK_CALL, UNLINK, ON_SLOT},
    {FREE_RELEASE, UNLOCK_CALL, RELEASE, ON_SLOT},
    {UNLOCK_UNLINK, UNLOCK_CALL, UNLINK, ON_CELL},
    {UNLOCK_RELEASE, UNLOCK_CALL, RELEASE, ON_CELL},
    {UNLOCK_SLOT, UNLOCK_CALL, WAKE_ONE, ON_CELL},
    {UNLOCK_OWNER, UNLOCK_CALL, WAKE_ONE, ON_CELL},
    {UNLOCK_WAKE, UNLOCK_CALL, WAKE_ONE, ON_CELL},
    {UNLOCK_TRIM, UNLOCK_CALL, TRIM, ON_CELL},
    {UNLOCK_END, NO_CALL, CLEAR, ON_CELL},
    {TRY_TAKE, TRY_CALL, LOAD, ON_CELL},
    {WAIT_PEND, WAIT_CALL, ANNOUNCE, ON_CELL},
    {WAIT_UNLINK, WAIT_CALL, UNLINK, ON_CELL},
    {WAIT_SAY, WAIT_CALL, RELEASE, ON_CELL},
    {WAIT_RELEASE, WAIT_CALL, RELEASE, ON_CELL},
    {WAIT_SLOT, WAIT_CALL, WAKE_ONE, ON_CELL},
    {WAIT_OWNER, WAIT_CALL, WAKE_ONE, ON_CELL},
    {WAIT_WAKE, WAIT_CALL, WAKE_ONE, ON_CELL},
    {WAIT_SLEEP, WAIT_CALL, COMPARE_COUNT, ON_CELL},
    {WAITING, WAIT_CALL, ON_COND, ON_CELL},
    {WAIT_LATE, WAIT_CALL, LOAD, ON_CELL},
    {WAIT_RELOCK, WAIT_CALL, LOAD, ON_CELL},
    {SIGNAL_WAKE, SIGNAL_CALL, WAKE_WAITER, ON_CELL},
    {BROADCAST_MARK, BROADCAST_CALL, MARK_TARGET, ON_CELL},
    {BROADCAST_MOVE, BROADCAST_CALL, MOVE_ALL, ON_CELL},
};

inline Standing standing_at(const Thread &x)
{
    if (is_dying(x) || x.at == DEAD)
        return {x.at, NO_CALL, DYING, ON_CELL};
    if ((x.at == HEIR_PEND || x.at == FREE_PEND) && x.pending == entry_of(cell_of(x.m)))
        return x.at == HEIR_PEND ? Standing{x.at, LOCK_CALL, LOAD, ON_CELL} : Standing{x.at, NO_CALL, CLEAR, ON_CELL};
    if (x.at == HEIR_PEND && x.pending)
        return {x.at, NO_CALL, CLEAR, ON_SLOT};
    if (x.at == SLEEP_PEND && x.result == TIMED_OUT)
        return {x.at, NO_CALL, CLEAR, ON_CELL};
    for (const Standing &s : standings)
        if (s.step == x.at)
            return s;
    return {x.at, NO_CALL, NO_ROW, ON_CELL};
}
inline u8 call_of(const Thread &x, u8 call)
{
    if (call == BY_WAIT)
        return (x.flags & IN_WAIT) ? WAIT_CALL : LOCK_CALL;
    if (call == BY_ARRIVAL)
        return x.how == TRIED ? TRY_CALL : x.how == WAITED_FOR ? WAIT_CALL : LOCK_CALL;
    return call;
}
inline bool is_in_queue(const State &s, int queue, int t)
{
    for (int i = 0; i < s.sleepers[queue]; i++)
        if (s.queue[queue][i] == t)
            return true;
    return false;
}
inline MachineThread machine_thread_of(const State &s, int t)
{
    const Thread &x = s.thread[t];
    Standing is = standing_at(x);
    MachineThread y = {};
    y.pending = x.pending, y.listed = x.listed;
    memcpy(y.list, x.list, sizeof y.list);
    y.call = call_of(x, is.call), y.row = is.row;
    if (is.row != NO_ROW && is.row != DYING)
        y.word = u8(is.which == ON_SLOT ? slot_of(x.m) : is.which == ON_CELL ? cell_of(x.m) : x.pending - 1);
    if (is.row == COMPARE)
        y.v = u8(x.v & 0x3f);
    if (x.at >= WAIT_PEND && x.at <= WAIT_SLEEP)
        y.seen = x.seen;
    if (x.flags & SPOILS) {
        y.was_marked = x.at == UNLOCK_UNLINK || x.at == UNLOCK_RELEASE;
        y.row = is.row == WAKE_ONE ? u8(WAKE_OF_UNUSABLE) : is.row;
    }
    if (x.at == WAITING && !is_in_queue(s, COND, t))
        y.row = ON_MUTEX;
    return y;
}
inline Machine machine_of(const State &s)
{
    Machine a = {};
    for (int w = 0; w < WORDS; w++)
        a.word[w] = s.word[w] & 0x3f;
    a.count = u8(s.cond & COUNT);
    memcpy(a.sleepers, s.sleepers, sizeof a.sleepers);
    memcpy(a.queue, s.queue, sizeof a.queue);
    for (int t = 0; t < config.threads; t++)
        a.thread[t] = machine_thread_of(s, t);
    return a;
}

// A wake may be spared if the mutex is owned, or somebody answers: a thread in a lock or about to wake, or a walk.
inline bool may_spare(const Machine &a, const State &before, int t)
{
    u8 word = a.thread[t].word;
    if (a.word[word] & OWNER)
        return true;
    for (int u = 0; u < config.threads; u++) {
        const MachineThread &y = a.thread[u];
        bool looks = (y.call == LOCK_CALL || y.call == WAIT_CALL) &&
                     (y.row == LOAD || y.row == TAKE || y.row == MARK || y.row == COMPARE || y.row == WAKE_ALL);
        bool wakes = y.row == WAKE_ONE || y.row == WAKE_OF_UNUSABLE;
        if (u != t && ((y.word == word && (looks || wakes)) || (y.row == DYING && walk_will_look(before, u, word / 2))))
            return true;
    }
    return false;
}
inline bool begin(MachineThread &x, int which, int m)
{
    static const Call calls[] = {TRY_CALL,     TRY_CALL,     LOCK_CALL, UNLOCK_CALL, UNLOCK_CALL,
                                 DECLARE_CALL, DECLARE_CALL, WAIT_CALL, SIGNAL_CALL, BROADCAST_CALL};
    static const bool on_slot[] = {false, true, false, false, true, false, true, false, false, false};
    if (x.call || x.row)
        return false;
    x.call = calls[which], x.word = u8(on_slot[which] ? slot_of(m) : cell_of(m));
    bool is_lock = x.call == TRY_CALL || x.call == LOCK_CALL;
    x.row = is_lock ? ANNOUNCE : x.call == UNLOCK_CALL || x.call == DECLARE_CALL ? LOAD : OWNED;
    return true;
}
inline bool machine_event(Machine &a, const State &before, int t, int event, int m)
{
    MachineThread &x = a.thread[t];
    switch (event) {
    case STEP:
        return machine_step(a, t);
    case SPARE:
        if (x.row != WAKE_ONE || !may_spare(a, before, t))
            return false;
        return x.call == UNLOCK_CALL ? go(x, CLEAR) : void(x.row = COMPARE_COUNT), true;
    case DECLINE:
        return x.row == TRIM && (go(x, CLEAR), true);
    case EXPIRE:
        return x.row == ON_MUTEX && x.call == LOCK_CALL && (leave_machine_queues(a, t), go(x, CLEAR), true);
    case LEAVE:
        if (x.row != ON_MUTEX && x.row != ON_COND)
            return false;
        return leave_machine_queues(a, t), x.row = LOAD, x.v = x.seen = 0, true;
    case REMAKE:
        if (x.call || x.row || !(a.word[cell_of(m)] & UNUSABLE))
            return false;
        return a.word[cell_of(m)] &= WAITERS, true;
    default:
        return begin(x, event - BEGIN, m);
    }
}
inline bool finds_events(const Machine &a, const Machine &goal, const State &before, int t, int m, int depth)
{
    if (!memcmp(&a, &goal, sizeof a))
        return true;
    for (int event = 0; depth && event < LAST_EVENT; event++) {
        Machine next = a;
        if (machine_event(next, before, t, event, m) && finds_events(next, goal, before, t, m, depth - 1))
            return true;
    }
    return false;
}
inline void refines(const State &before, const Next &next)
{
    if (is_dying(before.thread[next.t]) || before.thread[next.t].at == DEAD || next.event == KILLED ||
        next.event == DRAINED)
        return;
    Machine a = machine_of(before), goal = machine_of(next.state);
    for (int depth = 0; depth <= 9; depth++)
        if (finds_events(a, goal, before, next.t, next.state.thread[next.t].m, depth))
            return;
    breaks("a step is no events of the machine");
}
#endif
