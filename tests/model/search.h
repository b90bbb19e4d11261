// Visits every state of a scenario, depth first. Visited states are kept as hashes of 64 bits.
#ifndef MODEL_SEARCH_H
#define MODEL_SEARCH_H
#include "program.h"
#include <utility>
#include <vector>

// How a state came about: a choice, or something that happens to a thread.
enum Event : u8 { CHOICE_0, CHOICE_1, KILLED, INTERRUPTED, HANDLED, TIMEOUT, DRAINED };
struct Next {
    State state;
    u8 t;
    Event event;
};

// Steps that change only the thread's own pending entry and list. No other thread can see them, so it is enough to
// explore them first, and a death before and after each.
inline bool is_private(const State &s, int t)
{
    switch (s.thread[t].at) {
    case LOCK_PEND:
    case LOCK_LINK:
    case LOCK_END:
    case SLOT_PEND:
    case SLOT_LINK:
    case SLOT_PEND_NOTHING:
    case SLOT_LEFT:
    case SLEEP_PEND:
    case HEIR_LINK:
    case HEIR_PEND_NOTHING:
    case FREE_UNLINK:
    case UNLOCK_PEND:
    case UNLOCK_UNLINK:
    case UNLOCK_END:
    case TRY_PEND:
    case WAIT_PEND:
    case WAIT_UNLINK:
    case WAIT_RELOCK:
    case WALK_NEXT:
    case WALK_END:
        return true;
    case HEIR_PEND:
        return !mutated(heir_is_awake_before_pending);
    case FREE_PEND:
        return !mutated(heir_clears_pending_before_awake);
    default:
        return false;
    }
}

// Whether some thread that is in a call takes the mutex, or wakes somebody on it, if it runs alone.
inline bool makes_progress(const State &now, int m)
{
    std::string kept = broken;
    bool answers = false;
    for (int t = 0; t < config.threads && !answers; t++) {
        State s = now;
        const Thread &x = s.thread[t];
        for (int n = 0; n < 120 && !answers && x.at != IDLE && !is_gone(x) && !is_asleep(x); n++) {
            Seen seen = {};
            if (!step(s, t, 0, seen))
                break;
            bool took = s.believes[m] == t + 1 && now.believes[m] != t + 1;
            answers = took || seen.woke[cell_of(m)];
        }
    }
    broken = kept;
    return answers;
}

inline void add(std::vector<Next> &out, const State &s, int t, Event e) { out.push_back({s, u8(t), e}); }
inline void add_kill(std::vector<Next> &out, const State &s, int t)
{
    if (!s.kills || is_dying(s.thread[t]) || is_gone(s.thread[t]))
        return;
    add(out, s, t, KILLED);
    out.back().state.kills--;
    kill(out.back().state, t);
}
inline void add_ends_of_sleep(std::vector<Next> &out, const State &s, int t)
{
    const Thread &x = s.thread[t];
    if (config.interrupts) {
        add(out, s, t, INTERRUPTED);
        sleep_ends(out.back().state, t, LATER);
    }
    if (config.handlers) { // a handler that used another robust mutex
        add(out, s, t, HANDLED);
        sleep_ends(out.back().state, t, LATER);
        out.back().state.thread[t].pending = 0;
    }
    if (!(x.flags & (x.at == WAITING ? TIMED_WAIT : TIMED)))
        return;
    add(out, s, t, TIMEOUT);
    Thread &late = out.back().state.thread[t];
    leave_queues(out.back().state, t);
    if (x.at == WAITING)
        late.at = WAIT_LATE;
    else
        late.at = SLEEP_PEND, late.result = TIMED_OUT;
}
inline void add_steps(std::vector<Next> &out, const State &s, int t)
{
    for (int choice = 0; choice < 2; choice++) {
        Seen seen = {};
        add(out, s, t, Event(choice));
        if (!step(out.back().state, t, choice, seen)) {
            out.pop_back();
            return;
        }
        if (!broken.empty())
            return;
    }
}
inline void successors(const State &s, std::vector<Next> &out)
{
    for (int t = 0; t < config.threads; t++)
        if (is_private(s, t)) {
            add_steps(out, s, t);
            add_kill(out, s, t);
            return;
        }
    for (int t = 0; t < config.threads && broken.empty(); t++) {
        const Thread &x = s.thread[t];
        if (is_gone(x))
            continue;
        if (is_asleep(x))
            add_ends_of_sleep(out, s, t);
        else
            add_steps(out, s, t);
        if (!broken.empty())
            return;
        if (x.buffered) {
            add(out, s, t, DRAINED);
            drain_one(out.back().state, t);
        }
        add_kill(out, s, t);
    }
}

// ---- The set of visited states.
inline u64 hash_of(const State &s)
{
    const char *bytes = reinterpret_cast<const char *>(&s);
    u64 h = 0x9e3779b97f4a7c15ull;
    for (size_t i = 0; i < sizeof s; i += 8) {
        u64 w = 0;
        memcpy(&w, bytes + i, sizeof s - i < 8 ? sizeof s - i : 8);
        h = (h ^ w) * 0xff51afd7ed558ccdull;
        h ^= h >> 32;
    }
    h = (h ^ h >> 29) * 0xc4ceb9fe1a85ec53ull;
    h ^= h >> 31;
    return h ? h : 1;
}
class Visited
{
    std::vector<u64> table = std::vector<u64>(1 << 16);
    size_t held = 0;
    bool put(u64 h)
    {
        size_t mask = table.size() - 1, i = h & mask;
        for (; table[i]; i = (i + 1) & mask)
            if (table[i] == h)
                return false;
        table[i] = h;
        return true;
    }

  public:
    size_t size() const { return held; }
    // Returns whether the state is new.
    bool insert(const State &s)
    {
        if (held * 4 > table.size() * 3) {
            std::vector<u64> old(table.size() * 2);
            old.swap(table);
            for (u64 h : old)
                if (h)
                    put(h);
        }
        bool is_new = put(hash_of(s));
        held += is_new;
        return is_new;
    }
};

struct Frame {
    Next from;
    std::vector<Next> next;
    size_t tried;
};
using OnStep = void (*)(const State &, const Next &);

// Visits up to `most` states; `path` is the way to the state that breaks a law. Returns how many states there are.
inline size_t search(const State &first, size_t most, std::vector<Frame> &path, OnStep on_step)
{
    Visited visited;
    visited.insert(first);
    path.push_back({{first, 0, CHOICE_0}, {}, 0});
    successors(first, path.back().next);
    while (!path.empty() && broken.empty() && visited.size() < most) {
        Frame &f = path.back();
        if (f.tried == f.next.size()) {
            path.pop_back();
            continue;
        }
        Next next = f.next[f.tried++];
        if (on_step)
            on_step(f.from.state, next);
        if (broken.empty() && !visited.insert(next.state))
            continue;
        path.push_back({next, {}, 0});
        check_laws(next.state);
        if (broken.empty())
            successors(next.state, path.back().next);
    }
    return visited.size();
}
#endif
