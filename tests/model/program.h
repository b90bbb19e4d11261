// A thread's program: the calls of its script, and one step of it.
#ifndef MODEL_PROGRAM_H
#define MODEL_PROGRAM_H
#include "releasing.h"

// ---- The next call of the thread's script.
inline void begin_call(State &s, int t)
{
    static const Step first[] = {DONE,       LOCK_LOOK,  LOCK_LOOK,    TRY_LOAD,        UNLOCK_BEGIN,
                                 WAIT_COUNT, WAIT_COUNT, SIGNAL_COUNT, BROADCAST_COUNT, REINIT_LOAD};
    Thread &x = s.thread[t];
    auto call = config.script[t][x.op];
    x.m = call.m;
    if (call.op == TIMEDLOCK)
        x.flags |= TIMED;
    if (call.op == WAIT || call.op == TIMEDWAIT)
        x.flags |= IN_WAIT;
    if (call.op == TIMEDWAIT)
        x.flags |= TIMED_WAIT;
    to(x, first[call.op]);
}

// One step of thread t. Returns false if it has no such choice.
inline bool step(State &s, int t, int choice, Seen &seen)
{
    u8 at = s.thread[t].at;
    if (at >= LOCK_LOOK && at <= LOCK_END)
        return lock_step(s, t, choice, seen);
    if (at >= SLEEP_LOAD && at <= SLEEP_LOOK)
        return sleep_step(s, t, choice);
    if (at >= SLOT_MARK && at <= SLOT_LEFT)
        return slot_step(s, t, choice);
    if (at >= HEIR_PEND && at <= HEIR_PEND_NOTHING)
        return heir_step(s, t, choice, seen);
    if (at >= UNLOCK_BEGIN && at <= UNLOCK_END)
        return unlock_step(s, t, choice, seen);
    if (at >= WAIT_COUNT && at <= WAIT_RELOCK)
        return wait_step(s, t, choice, seen);
    if (choice)
        return false;
    if (at == IDLE)
        begin_call(s, t);
    else if (at >= FREE_PEND && at <= FREE_RELEASE)
        free_step(s, t);
    else if (at >= TRY_LOAD && at <= TRY_TAKE)
        try_step(s, t);
    else if (at >= SIGNAL_COUNT && at <= BROADCAST_CLEAR)
        signal_step(s, t, seen);
    else if (at >= REINIT_LOAD && at <= REINIT_SWAP)
        reinit_step(s, t);
    else
        walk_step(s, t, seen);
    return true;
}
#endif
