// The steps of an unlock, and of Linux as a thread dies.
#ifndef UNLOCKS_H
#define UNLOCKS_H
#include "states.h"

static void inside_step(const State &s, int i)
{
    Step x(s, i);
    for (int j = 0; j < threads; j++)
        if (j != i && s.thread[j].at == INSIDE)
            fail("two threads are inside", s);
    if (s.cell.owner != i + 1)
        fail("a thread is inside, and doesn't own the mutex", s);
    if (s.cell.died && may_spoil)
        Step(s, i).go(UNLOCK);
    if (may_init && !s.inits) {
        Step again(s, i);
        again.n.inits = 1;
        again.go(INIT);
    }
    if (s.cell.died)
        x.n.cell.died = x.n.dirty = 0;
    x.go(UNLOCK);
}

static void see_bell(const State &s, int i)
{
    Step x(s, i), trusts(s, i);
    bool owed = s.cell.owed && !is("owed_is_ignored");
    if (plain || !x.t.seen.waiters) {
        x.t.calls = 1;
        return x.go(RELEASE);
    }
    x.t.bell = s.bell;
    if (may_trust(s.bell) && (s.bell >= HEIR || !owed)) {
        trusts.t.calls = 0;
        trusts.go(RELEASE);
    }
    x.t.calls = 1; // also if an heir or a thread that comes isn't trusted any more
    x.go(s.bell >= HEIR ? RELEASE : is("comes_is_set_before_owed") ? CALL_BELL : CALL_OWED);
}

static void release(const State &s, int i)
{
    Step x(s, i);
    if (s.cell.owner != i + 1)
        fail("a mutex is released that another thread owns", s);
    x.n.cell.owner = 0;
    if (s.cell.died) {
        x.n.cell.died = x.n.dirty = 0;
        x.n.cell.unusable = 1;
        return x.go(s.cell.waiters ? WAKE_ALL : END);
    }
    if (is("waiters_goes_at_the_release"))
        x.n.cell.waiters = 0;
    x.t.seen = x.n.cell;
    x.go(!s.cell.waiters ? END : x.t.calls ? WAKE : RELEASED);
}

static void unlock_step(const State &s, int i)
{
    Step x(s, i);
    switch (x.t.at) {
    case UNLOCK:
        x.t.seen = s.cell;
        x.t.pending = CELL;
        return x.go(UNLOCK_LIST);
    case UNLOCK_LIST:
        x.t.listed = 0;
        return x.go(s.cell.died ? RELEASE : UNLOCK_BELL);
    case UNLOCK_BELL:
        return see_bell(s, i);
    case CALL_OWED:
        x.n.cell.owed = !is("owed_is_not_set");
        return x.go(is("comes_is_set_before_owed") ? RELEASE : CALL_BELL);
    case CALL_BELL:
        if (s.bell == x.t.bell)
            x.n.bell = COMES;
        return x.go(is("comes_is_set_before_owed") ? CALL_OWED : RELEASE);
    default: // RELEASE
        return release(s, i);
    }
}

// The cell's last value: free, with WAITERS if it had that.
static void init_cell(State &n)
{
    Cell fresh = Cell();
    fresh.waiters = n.cell.waiters && !is("init_drops_waiters");
    fresh.turn = (n.cell.turn + 1) & 31;
    n.cell = fresh;
    n.dirty = 0;
}

static void init_step(const State &s, int i)
{
    Step x(s, i);
    switch (x.t.at) {
    case INIT:
        x.t.pending = is("init_has_nothing_pending") ? NONE : CELL;
        return x.go(INIT_LIST);
    case INIT_LIST:
        x.t.listed = 0;
        return x.go(INIT_FILL);
    case INIT_FILL:
        x.n.bell = NOBODY;
        x.n.has_no_kind = is("init_clears_the_kind");
        if (is("init_shows_a_free_cell"))
            init_cell(x.n);
        return x.go(INIT_KIND);
    case INIT_KIND:
        x.n.has_no_kind = 0;
        return x.go(INIT_CELL);
    case INIT_CELL:
        init_cell(x.n);
        if (is("init_wakes_with_nothing_pending"))
            x.t.pending = NONE;
        return x.go(INIT_WAKE);
    default: // INIT_WAKE
        if (!is("init_wakes_nobody"))
            wake_all(x.n);
        return x.go(END);
    }
}

static void hand_on_step(const State &s, int i)
{
    Step x(s, i);
    bool unchanged = is("trim_compares_the_futex_word") ? s.cell.same_futex_word(x.t.seen) : s.cell == x.t.seen;
    switch (x.t.at) {
    case RELEASED:
        if (may_trust(s.bell) || is("bell_is_not_looked_at_again"))
            Step(s, i).go(END);
        if (!is("bell_is_not_looked_at_again"))
            x.go(RELEASED_LOOK);
        return;
    case RELEASED_LOOK:
        return x.go(s.cell.owner || (is("waiters_passes_for_an_owner") && s.cell.waiters) ? END : WAKE);
    case WAKE:
        return wake_one(s, CELL, [i](State n, int woken) {
            n.thread[i].at = woken ? CLEAR_OWED : TRIM;
            add(n);
        });
    case CLEAR_OWED:
        if (unchanged || is("owed_goes_from_a_taken_cell"))
            x.n.cell.owed = 0;
        return x.go(END);
    case TRIM:
        if (unchanged)
            x.n.cell.waiters = x.n.cell.owed = 0;
        return x.go(END);
    case WAKE_ALL:
        wake_all(x.n);
        return x.go(END);
    default: // END
        begin(x.t);
        add(x.n);
    }
}

// ---- Linux, as a thread dies.
static void die_step(const State &s, int i)
{
    Step x(s, i);
    auto wakes = [i, &s](uint8_t word, Place next) {
        wake_one(s, word, [i, next](State n, int) {
            n.thread[i].at = next;
            add(n);
        });
    };
    bool owns = s.cell.owner == i + 1;
    switch (x.t.at) {
    case DIES:
        x.t.queued = NONE;
        return x.go(WALK);
    case WALK: // the list, without the pending entry
        if (!x.t.listed || x.t.pending == CELL || !owns)
            return x.go(PENDING);
        x.n.cell.owner = 0;
        x.n.cell.died = 1;
        return x.go(s.cell.waiters ? WALK_WAKE : PENDING);
    case WALK_WAKE:
        return wakes(CELL, PENDING);
    case PENDING:
        if (x.t.pending == CELL && owns) {
            x.n.cell.owner = 0;
            x.n.cell.died = 1;
            return x.go(s.cell.waiters ? PENDING_WAKE : DEAD);
        }
        if (x.t.pending == CELL)
            return x.go(!s.cell.owner || (new_walk && !s.cell.waiters) ? PENDING_WAKE : DEAD);
        if (x.t.pending == BELL && s.bell == HEIR + i)
            x.n.bell = MARKED;
        return x.go(x.t.pending == BELL && (s.bell < HEIR || s.bell == HEIR + i) ? PENDING_WAKE : DEAD);
    default: // PENDING_WAKE
        return wakes(x.t.pending, DEAD);
    }
}
#endif
