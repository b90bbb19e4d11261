// The states of the model, and how they are kept.
#ifndef STATES_H
#define STATES_H
#include <cstddef>
#include <cstdint>
#include <cstdio>
#include <cstdlib>
#include <cstring>
#include <string>
#include <utility>
#include <vector>

enum Place : uint8_t {
    // lock, with nobody in the way
    LOCK,
    LOCK_PENDING,
    LOCK_TRY,
    LISTED,
    OWNED,
    // a wait: what is pending, the cell, the bell, and what follows from them
    WAIT,
    LOOK,
    SEEN,
    DECIDE,
    HEIR_PAUSES,
    QUEUE,
    QUEUE_SECOND,
    ASLEEP,
    // the cell was seen free
    FREE,
    FREE_COMES,
    FREE_PENDING,
    FREE_LOOK,
    FREE_TRY,
    UNUSABLE_FOUND,
    // a signal handler interrupts a wait, and uses another mutex
    HANDLER,
    HANDLER_WAKES,
    HANDLER_PENDING,
    HANDLER_CALLS,
    // unlock
    INSIDE,
    UNLOCK,
    UNLOCK_LIST,
    UNLOCK_BELL,
    CALL_OWED,
    CALL_BELL,
    RELEASE,
    // an initialisation by the owner
    INIT,
    INIT_LIST,
    INIT_FILL,
    INIT_KIND,
    INIT_CELL,
    INIT_WAKE,
    // the rest of an unlock
    RELEASED,
    RELEASED_LOOK,
    WAKE,
    CLEAR_OWED,
    TRIM,
    WAKE_ALL,
    END,
    DONE,
    // a death
    DIES,
    WALK,
    WALK_WAKE,
    PENDING,
    PENDING_WAKE,
    DEAD
};
enum Bell : uint8_t { NOBODY, COMES, MARKED, HEIR }; // HEIR + i: thread i is the heir
enum Words : uint8_t { NONE = 0, CELL = 1, BELL = 2 };

struct Cell {
    uint8_t owner, waiters, died, unusable, owed, turn;
    bool operator==(const Cell &o) const { return !memcmp(this, &o, sizeof o); }
    bool same_futex_word(const Cell &o) const { return owner == o.owner && waiters == o.waiters && died == o.died; }
    bool is_free() const { return !owner && !unusable; }
};
struct Thread {
    Place at;
    uint8_t pending, listed, queued, woken, calls_left, bell, paused, calls, was_heir;
    Cell seen;
};
enum { MOST = 4 };
struct State {
    Cell cell;
    uint8_t bell, dirty, kills, inits, handlers, has_no_kind;
    Thread thread[MOST];
};

static int threads = 3, most_kills = 1, calls_each = 1, calls_of_first;
static bool plain, timed, may_spoil, no_heir, new_walk, may_init, may_handle, show_way;
static std::string mistake;
static bool is(const char *name) { return mistake == name; }

// ---- What was seen: hashes of states in an open table.
static std::vector<uint64_t> table;
static size_t states, ends;
static std::vector<State> open_states, all;
static std::vector<int> from, index_of_open;
static int current = -1;
static bool wrong;

static uint64_t hash(const State &s)
{
    uint64_t h = 1469598103934665603ull, g = 0x9e3779b97f4a7c15ull;
    const uint8_t *p = (const uint8_t *)&s;
    size_t n = offsetof(State, thread) + (size_t)threads * sizeof(Thread);
    for (size_t i = 0; i < n; i++) {
        h = (h ^ p[i]) * 1099511628211ull;
        g = (g + p[i]) * 0xff51afd7ed558ccdull;
        g ^= g >> 29;
    }
    return (h ^ g) ? h ^ g : 1;
}

static bool is_new(uint64_t h)
{
    if (2 * states >= table.size()) {
        std::vector<uint64_t> old(table.empty() ? 1 << 16 : 2 * table.size());
        std::swap(old, table);
        for (uint64_t x : old)
            if (x) {
                size_t i = x & (table.size() - 1);
                while (table[i])
                    i = (i + 1) & (table.size() - 1);
                table[i] = x;
            }
    }
    size_t i = h & (table.size() - 1);
    for (; table[i]; i = (i + 1) & (table.size() - 1))
        if (table[i] == h)
            return false;
    table[i] = h;
    return true;
}

static void add(const State &s)
{
    if (!is_new(hash(s)))
        return;
    states++;
    open_states.push_back(s);
    if (show_way) {
        index_of_open.push_back((int)all.size());
        all.push_back(s);
        from.push_back(current);
    }
}

static void print(const State &s)
{
    printf("  cell %d%s%s%s%s turn %d, bell %d:", s.cell.owner, s.cell.waiters ? " waiters" : "",
           s.cell.died ? " died" : "", s.cell.unusable ? " unusable" : "", s.cell.owed ? " owed" : "", s.cell.turn,
           s.bell);
    for (int i = 0; i < threads; i++)
        printf(" (%d queued %d pending %d bell %d)", s.thread[i].at, s.thread[i].queued, s.thread[i].pending,
               s.thread[i].bell);
    puts("");
}

static void fail(const char *what, const State &s)
{
    if (wrong)
        return;
    wrong = true;
    printf("WRONG: %s\n", what);
    std::vector<int> way;
    for (int i = show_way ? current : -1; i >= 0; i = from[(size_t)i])
        way.push_back(i);
    while (!way.empty()) {
        print(all[(size_t)way.back()]);
        way.pop_back();
    }
    print(s);
}

// ---- What steps share.

// Wakes one thread that is queued on a word: each choice is a state. then(state, how many it woke)
template <class Then> static void wake_one(const State &s, uint8_t word, Then then)
{
    bool any = false;
    for (int i = 0; i < threads; i++)
        if (s.thread[i].queued & word) {
            State n = s;
            n.thread[i].queued = s.thread[i].queued & (uint8_t)~word;
            n.thread[i].woken = any = true;
            then(n, 1);
        }
    if (!any)
        then(s, 0);
}

static void wake_all(State &s)
{
    for (int i = 0; i < threads; i++)
        if (s.thread[i].queued & CELL)
            s.thread[i].queued &= (uint8_t)~CELL, s.thread[i].woken = 1;
}

static void begin(Thread &t)
{
    Thread fresh;
    memset((void *)&fresh, 0, sizeof fresh);
    fresh.calls_left = t.calls_left ? t.calls_left - 1 : 0;
    fresh.at = t.calls_left ? LOCK : DONE;
    t = fresh;
}

static void take(State &n, int i)
{
    if (n.dirty && !n.cell.died)
        fail("an owner doesn't learn of a death", n);
    if (!n.dirty && n.cell.died)
        fail("an owner learns of a death that didn't happen", n);
    n.cell.owner = (uint8_t)(i + 1);
    n.cell.turn = (n.cell.turn + 1) & 31;
    if (is("taker_drops_waiters"))
        n.cell.waiters = 0;
}

static bool may_trust(uint8_t bell)
{
    return bell >= HEIR || bell == COMES || (is("dead_heir_is_trusted") && bell == MARKED);
}

// What a step leaves: where the thread is next.
struct Step {
    State n;
    Thread &t;
    Step(const State &s, int i) : n(s), t(n.thread[i]) {}
    void go(Place at)
    {
        t.at = at;
        add(n);
    }
};
#endif
