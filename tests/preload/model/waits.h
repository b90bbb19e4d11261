// The steps of a thread that locks or waits. Each adds the states that follow from s if thread i goes on.
#ifndef WAITS_H
#define WAITS_H
#include "states.h"

static void try_to_take(const State &s, int i, Place unusable)
{
    Step x(s, i);
    if (x.t.seen.unusable)
        return x.go(unusable);
    if (x.t.seen.owner)
        return x.go(WAIT);
    if (!(s.cell == x.t.seen)) {
        x.t.seen = s.cell;
        return x.go(x.t.at);
    }
    take(x.n, i);
    x.go(LISTED);
}

static void lock_step(const State &s, int i)
{
    Step x(s, i);
    switch (x.t.at) {
    case LOCK:
        x.t.seen = s.cell;
        return x.go(LOCK_PENDING);
    case LOCK_PENDING:
        x.t.pending = CELL;
        return x.go(LOCK_TRY);
    case LOCK_TRY:
        return try_to_take(s, i, END);
    case LISTED:
        x.t.listed = 1;
        return x.go(OWNED);
    default: // OWNED
        x.t.pending = NONE;
        return x.go(INSIDE);
    }
}

// The cell was seen owned, and then the bell was seen.
static void decide(const State &s, int i)
{
    Step x(s, i);
    if (!plain && !no_heir && !x.t.paused && x.t.bell < HEIR) {
        Step heir(s, i);
        if (s.bell == x.t.bell) {
            heir.n.bell = (uint8_t)(HEIR + i);
            heir.t.paused = 1;
            heir.go(HEIR_PAUSES);
        } else
            heir.go(WAIT);
    }
    if (!x.t.seen.waiters) {
        if (s.cell == x.t.seen)
            x.n.cell.waiters = 1;
        return x.go(WAIT);
    }
    if (!plain && x.t.bell == COMES && !is("sleeps_after_comes")) {
        if (s.bell == COMES)
            x.n.bell = NOBODY;
        return x.go(WAIT);
    }
    x.t.paused = 1; // only a newcomer waits awake
    x.go(QUEUE);
}

// A handler comes, once, if it may: to one that pauses, sleeps, or has been woken.
static void interrupt(const State &s, int i)
{
    Step x(s, i);
    if (!may_handle || s.handlers)
        return;
    x.n.handlers = 1;
    x.t.was_heir = x.t.at == HEIR_PAUSES;
    x.t.queued = NONE;
    x.t.woken = 0;
    x.go(HANDLER);
}

static void handler_step(const State &s, int i)
{
    Step x(s, i);
    switch (x.t.at) {
    case HANDLER:
        if (s.bell == HEIR + i && !is("handler_keeps_the_heirs_mark"))
            x.n.bell = NOBODY;
        return x.go(is("handler_keeps_a_wake") ? HANDLER_PENDING : HANDLER_WAKES);
    case HANDLER_WAKES:
        return wake_one(s, x.t.pending, [i](State n, int) {
            n.thread[i].at = HANDLER_PENDING;
            add(n);
        });
    case HANDLER_PENDING: // the other mutex's
        x.t.pending = NONE;
        return x.go(HANDLER_CALLS);
    default: // HANDLER_CALLS
        if (!is("handler_leaves_nothing_pending"))
            x.t.pending = plain ? CELL : BELL;
        if (!x.t.was_heir) { // with SA_RESTART, the sleep goes on
            Step sleeps(x.n, i);
            sleeps.go(QUEUE);
        }
        x.go(x.t.was_heir ? HEIR_PAUSES : WAIT);
    }
}

static void wait_step(const State &s, int i)
{
    Step x(s, i);
    switch (x.t.at) {
    case WAIT:
        if (s.has_no_kind)
            fail("a thread waits for what is no mutex", s);
        x.t.pending = plain || is("waits_with_the_cell_pending") ? CELL : BELL;
        if (is("waits_with_nothing_pending"))
            x.t.pending = NONE;
        return x.go(LOOK);
    case LOOK:
        x.t.seen = s.cell;
        return x.go(s.cell.owner ? SEEN : plain ? FREE_PENDING : FREE);
    case SEEN:
        x.t.bell = s.bell;
        return x.go(DECIDE);
    case DECIDE:
        return decide(s, i);
    default: // HEIR_PAUSES
        interrupt(s, i);
        x.n.bell = NOBODY;
        return x.go(is("heir_sleeps_without_a_look") && x.t.seen.waiters ? QUEUE : WAIT);
    }
}

static void sleep_step(const State &s, int i)
{
    Step x(s, i);
    bool on_bell = s.bell == x.t.bell || is("bell_is_not_compared"), on_cell = s.cell.same_futex_word(x.t.seen);
    bool cell_alone = plain || is("sleeps_on_the_cell_alone"),
         cell_first = cell_alone || is("queues_on_the_cell_first");
    switch (x.t.at) {
    case QUEUE:
        x.t.woken = 0;
        if (!(cell_first ? on_cell : on_bell))
            return x.go(WAIT);
        x.t.queued = cell_first ? CELL : BELL;
        return x.go(cell_alone ? ASLEEP : QUEUE_SECOND);
    case QUEUE_SECOND:
        if (cell_first ? on_bell : on_cell) {
            x.t.queued |= x.t.woken ? NONE : cell_first ? BELL : CELL;
            return x.go(ASLEEP);
        }
        x.t.queued = NONE;
        return x.go(WAIT);
    default: // ASLEEP
        interrupt(s, i);
        if (x.t.woken || (timed && i == threads - 1)) {
            Place next = x.t.woken ? WAIT : END;
            x.t.queued = NONE;
            x.t.woken = 0;
            x.go(next);
        }
    }
}

static void free_step(const State &s, int i)
{
    Step x(s, i);
    switch (x.t.at) {
    case FREE:
        x.t.bell = s.bell;
        return x.go(FREE_COMES);
    case FREE_COMES:
        if (x.t.bell == COMES && s.bell == COMES && !is("takes_with_comes"))
            x.n.bell = NOBODY;
        return x.go(FREE_PENDING);
    case FREE_PENDING:
        x.t.pending = CELL;
        return x.go(FREE_LOOK);
    case FREE_LOOK:
        x.t.seen = s.cell;
        return x.go(FREE_TRY);
    case FREE_TRY:
        return try_to_take(s, i, UNUSABLE_FOUND);
    default: // UNUSABLE_FOUND
        if (x.t.seen.waiters && !is("unusable_wakes_nobody"))
            wake_all(x.n);
        return x.go(END);
    }
}
#endif
