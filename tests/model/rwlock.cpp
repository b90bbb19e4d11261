// Checks lib/rwlock.c in every interleaving and with deaths anywhere, for a few threads and lanes. A mutex is what its own
// model (model.cpp) and the proofs say of it: one call on it is one step, a lock waits while a thread owns it, and a dead
// owner's mutexes are freed one by one, in any order, each with a mark that the next owner finds. Each other access of
// rwlock.c is a step of its own.
//
//   rwlock [--long] [NAME..]
#include <array>
#include <cstdint>
#include <cstdio>
#include <cstring>
#include <string>
#include <unordered_set>
#include <vector>

using u8 = std::uint8_t;
enum { MOST_THREADS = 3, MOST_LANES = 2, GATE = MOST_LANES, NOBODY = 0 };
enum word : u8 { FREE, WRITES, REPAIRS, LOST }; // the lock's state

// Where a thread is: before the step of that name.
enum place : u8 {
    IDLE,
    LOOKS_AT_WANTED, // a reader
    READER_LOCKS_GATE,
    TRIES_LANE,
    CLEARS_WANTED,
    READER_FREES_GATE,
    LOCKS_LANE,
    READER_DECLARES, // that the mutex `at` is consistent
    LOOKS_AT_STATE,
    FREES_LANE_TO_RECOVER,
    READS,
    READER_UNLOCKS,
    LOCKS_GATE, // a writer
    SETS_WANTED,
    LOCKS_ALL,
    WRITER_DECLARES,
    ENTERS,
    BEGINS_CHANGE,
    ENDS_CHANGE,
    REPAIRS_DATA,
    DECLARES_LOCK,
    SETS_STATE_BACK,
    FREES_ALL,
    FREES_WANTED,
    FREES_GATE,
    DYING,
    DEAD
};
enum how : u8 { WAITS, TRIES, LATE }; // LATE: its deadline may pass
// What a thread does once it has freed all lanes and the gate.
enum after : u8 { ENDS, THEN_READS };

struct thread {
    place at;
    how waits;
    u8 writes, home, i, by_gate, got, recovers, rounds;
    place next; // after a declaration
    u8 declares;
    after then;
};
struct mutex {
    u8 owner, died;
};
struct world {
    mutex m[MOST_LANES + 1];
    word state;
    u8 wanted, torn, died_inside, is_lost, deaths;
    thread t[MOST_THREADS];
};
static_assert(sizeof(world) == 2 * (MOST_LANES + 1) + 6 + 12 * MOST_THREADS, "no padding");

// A mistake in rwlock.c, which the model has to see.
enum mistake {
    NONE,
    HIDES_A_DEATH,
    READER_IGNORES_A_DEAD_WRITER,
    LEAVES_OUT_A_LANE,
    CLEARS_STATE_LATE,
    SETS_STATE_EARLY,
    WAITS_IN_SECRET,
    KEEPS_LANES_WHEN_LATE,
    KEEPS_GATE_WHEN_LATE,
    FORGETS_THAT_NOTHING_WAS_REPAIRED,
    FORGETS_A_DEATH_IN_A_REPAIR,
    READER_STAYS_A_WRITER,
    DEAD_READERS_LANE_IS_REPORTED,
    CLEARS_WANTED_LATE
};

struct scenario {
    const char *name;
    int threads, lanes, deaths, rounds;
    mistake plants;
    bool is_long;
};
static scenario sc;
static const char *broken;

static void law(bool holds, const char *text)
{
    if (!holds && !broken)
        broken = text;
}

static bool is_alive(const thread &t) { return t.at != DYING && t.at != DEAD; }
static bool is_reading(const thread &t) { return t.at == READS || t.at == READER_UNLOCKS; }
static bool is_writing(const thread &t) { return t.at >= BEGINS_CHANGE && t.at <= SETS_STATE_BACK; }
static bool waits_for_lanes(const thread &t) { return t.at == LOCKS_ALL; }

static void check(const world &w)
{
    for (int i = 0; i < sc.threads; i++) {
        law(!is_reading(w.t[i]) || !w.torn, "a reader finds a change that isn't whole");
        for (int k = 0; k < sc.threads && is_writing(w.t[i]); k++)
            law(k == i || !(is_writing(w.t[k]) || is_reading(w.t[k])), "a writer isn't alone");
    }
}

struct search {
    std::vector<world> todo;
    std::unordered_set<std::string> seen;

    void add(const world &w)
    {
        check(w);
        if (seen.emplace(reinterpret_cast<const char *>(&w), sizeof w).second)
            todo.push_back(w);
    }
};

// ---- Mutexes. A lock by thread i of mutex k. Returns whether it has it; then the thread goes on at `next`, where it has
// to declare it consistent first if its owner died.
static bool has_taken(world &w, int i, int k, place next, place declaring)
{
    thread &t = w.t[i];
    if (w.m[k].owner != NOBODY)
        return false;
    w.m[k].owner = u8(i + 1);
    t.at = next;
    if (w.m[k].died && sc.plants == DEAD_READERS_LANE_IS_REPORTED)
        law(false, "the death of a thread that wasn't inside is reported");
    if (w.m[k].died)
        t.at = declaring, t.declares = u8(k), t.next = next;
    return true;
}
static void unlock(world &w, int i, int k)
{
    law(w.m[k].owner == i + 1, "a thread unlocks what it doesn't own");
    law(!w.m[k].died, "a lane becomes unusable");
    w.m[k].owner = NOBODY;
}

// ---- Readers.

static void ends(thread &t)
{
    t.at = IDLE;
    t.by_gate = t.got = t.recovers = t.i = t.declares = 0;
    t.next = IDLE;
    t.then = ENDS;
}
static void has_tried_lanes(thread &t)
{
    if (t.by_gate)
        t.at = CLEARS_WANTED;
    else if (t.got)
        t.at = LOOKS_AT_STATE;
    else if (t.waits == TRIES)
        ends(t);
    else
        t.at = LOCKS_LANE;
}
static void tries_lane(world &w, int i)
{
    thread &t = w.t[i];
    int k = (t.home + t.i) % sc.lanes;
    if (has_taken(w, i, k, TRIES_LANE, READER_DECLARES)) {
        t.home = u8(k), t.got = 1, t.i = 0;
        if (t.at == TRIES_LANE)
            has_tried_lanes(t);
    } else if (++t.i == sc.lanes) {
        t.i = 0;
        has_tried_lanes(t);
    }
}
static void looks_at_wanted(world &w, int i)
{
    for (int k = 0; k < sc.threads; k++)
        law(!waits_for_lanes(w.t[k]) || w.wanted, "a reader doesn't see that a writer waits");
    w.t[i].by_gate = w.wanted;
    w.t[i].at = w.wanted ? READER_LOCKS_GATE : TRIES_LANE;
}
static void begins_to_recover(thread &t)
{
    t.recovers = 1, t.by_gate = t.got = 0;
    t.at = LOCKS_GATE;
}

// ---- Writers.

// Frees the first `n` lanes, and the gate.
static void begins_to_free(thread &t, int n)
{
    t.i = u8(n);
    t.at = FREES_ALL;
}
static void is_refused(thread &t)
{
    int lanes = sc.plants == KEEPS_LANES_WHEN_LATE ? 0 : t.i;
    if (sc.plants == KEEPS_GATE_WHEN_LATE && lanes == 0)
        return ends(t);
    begins_to_free(t, lanes);
}
static void enters(world &w, int i)
{
    thread &t = w.t[i];
    if (w.state == LOST) {
        law(w.is_lost, "a lock is unusable that nobody has given up");
        return begins_to_free(t, sc.lanes);
    }
    law(!(t.recovers && w.state == FREE), "a reader becomes a writer without a death");
    bool is_told = sc.plants == FORGETS_A_DEATH_IN_A_REPAIR ? w.state == WRITES : w.state != FREE;
    w.state = is_told ? REPAIRS : WRITES;
    if (sc.plants == HIDES_A_DEATH)
        is_told = false;
    law(is_told == bool(w.died_inside), "EOWNERDEAD exactly if a writer died inside");
    law(!w.is_lost, "an unusable lock is had");
    t.at = is_told ? REPAIRS_DATA : BEGINS_CHANGE;
}
static void sets_state_back(world &w)
{
    bool is_lost = w.state == REPAIRS && sc.plants != FORGETS_THAT_NOTHING_WAS_REPAIRED;
    w.is_lost |= w.state == REPAIRS;
    w.died_inside = 0;
    w.state = is_lost ? LOST : FREE;
}

// ---- Steps. A thread at a lock of a mutex that another one owns has none, unless its deadline passes.

static void step_of_lock(search &s, world w, int i)
{
    thread &t = w.t[i];
    bool is_gate = t.at == READER_LOCKS_GATE || t.at == LOCKS_GATE, is_reader = t.at == READER_LOCKS_GATE || t.at == LOCKS_LANE;
    int k = is_gate ? GATE : t.at == LOCKS_LANE ? t.home % sc.lanes : t.i;
    place was = t.at, next = was == READER_LOCKS_GATE ? TRIES_LANE
                            : was == LOCKS_LANE       ? LOOKS_AT_STATE
                            : was == LOCKS_GATE       ? SETS_WANTED
                                                      : LOCKS_ALL;
    if (was == LOCKS_LANE)
        t.home = u8(k);
    if (has_taken(w, i, k, next, is_reader ? READER_DECLARES : WRITER_DECLARES)) {
        if (was == LOCKS_LANE)
            t.got = 1;
        if (was == LOCKS_ALL)
            t.i++;
        if (t.at == LOCKS_ALL && t.i == sc.lanes)
            t.at = ENTERS;
        return s.add(w);
    }
    if (t.waits == WAITS)
        return;
    if (was == LOCKS_ALL)
        is_refused(t);
    else
        ends(t);
    s.add(w);
}
static void step_of_reader(search &s, world w, int i)
{
    thread &t = w.t[i];
    switch (t.at) {
    case LOOKS_AT_WANTED:
        looks_at_wanted(w, i);
        break;
    case TRIES_LANE:
        tries_lane(w, i);
        break;
    case READER_DECLARES:
        w.m[t.declares].died = 0;
        t.at = t.next;
        if (t.at == TRIES_LANE && t.got)
            has_tried_lanes(t);
        break;
    case CLEARS_WANTED:
        w.wanted = 0;
        t.at = READER_FREES_GATE;
        break;
    case READER_FREES_GATE:
        unlock(w, i, GATE);
        t.by_gate = 0;
        has_tried_lanes(t);
        break;
    case LOOKS_AT_STATE:
        t.at = w.state == FREE || sc.plants == READER_IGNORES_A_DEAD_WRITER ? READS : FREES_LANE_TO_RECOVER;
        law(t.at != READS || !w.died_inside, "a reader isn't told that a writer died inside");
        t.recovers = t.at != READS && w.state != LOST;
        law(t.at == READS || t.recovers || w.is_lost, "a lock is unusable that nobody has given up");
        break;
    case FREES_LANE_TO_RECOVER:
        unlock(w, i, t.home);
        if (t.recovers)
            begins_to_recover(t);
        else
            ends(t); // ENOTRECOVERABLE
        break;
    case READS:
        t.at = READER_UNLOCKS;
        break;
    default: // READER_UNLOCKS
        unlock(w, i, t.home);
        ends(t);
    }
    s.add(w);
}
static void step_of_freeing(search &s, world w, int i)
{
    thread &t = w.t[i];
    if (t.at == FREES_ALL) {
        if (t.i > 0)
            unlock(w, i, --t.i);
        if (t.i == 0)
            t.at = FREES_WANTED;
    } else if (t.at == FREES_WANTED) {
        if (sc.plants == CLEARS_WANTED_LATE)
            unlock(w, i, GATE);
        else
            w.wanted = 0;
        t.at = FREES_GATE;
        if (sc.plants == CLEARS_STATE_LATE && t.then == ENDS)
            sets_state_back(w);
    } else {
        after then = t.then;
        if (sc.plants == CLEARS_WANTED_LATE)
            w.wanted = 0;
        else
            unlock(w, i, GATE);
        ends(t);
        if (then == THEN_READS)
            t.at = LOOKS_AT_WANTED;
    }
    s.add(w);
}
static void step_of_writer(search &s, world w, int i)
{
    thread &t = w.t[i];
    switch (t.at) {
    case SETS_WANTED:
        if (t.recovers && w.state == FREE && sc.plants != READER_STAYS_A_WRITER) { // another thread has repaired
            t.then = THEN_READS;
            t.at = FREES_WANTED;
            break;
        }
        w.wanted = sc.plants != WAITS_IN_SECRET;
        if (sc.plants == SETS_STATE_EARLY && w.state == FREE)
            w.state = WRITES;
        t.i = sc.plants == LEAVES_OUT_A_LANE;
        t.at = t.i == sc.lanes ? ENTERS : LOCKS_ALL;
        break;
    case WRITER_DECLARES:
        w.m[t.declares].died = 0;
        t.at = t.next == LOCKS_ALL && t.i == sc.lanes ? ENTERS : t.next;
        break;
    case ENTERS:
        enters(w, i);
        break;
    case BEGINS_CHANGE:
        w.torn = 1;
        t.at = ENDS_CHANGE;
        break;
    case ENDS_CHANGE:
        w.torn = 0;
        t.at = SETS_STATE_BACK;
        break;
    case REPAIRS_DATA: {
        world gives_up = w;
        gives_up.t[i].at = SETS_STATE_BACK;
        s.add(gives_up);
        w.torn = 0;
        t.at = DECLARES_LOCK;
        break;
    }
    case DECLARES_LOCK:
        w.state = WRITES;
        w.died_inside = 0;
        t.at = BEGINS_CHANGE;
        break;
    default: // SETS_STATE_BACK
        if (sc.plants != CLEARS_STATE_LATE)
            sets_state_back(w);
        begins_to_free(t, sc.lanes);
    }
    s.add(w);
}
static void begins_a_call(search &s, const world &w, int i)
{
    for (int writes = 0; writes < 2 && w.t[i].rounds; writes++)
        for (how waits : {WAITS, TRIES, LATE}) {
            world next = w;
            thread &t = next.t[i];
            t.rounds--;
            t.writes = u8(writes), t.waits = waits;
            t.at = writes ? LOCKS_GATE : LOOKS_AT_WANTED;
            s.add(next);
        }
}
static void dies(search &s, world w, int i)
{
    if (w.deaths == sc.deaths || w.t[i].at == IDLE)
        return;
    w.deaths++;
    w.died_inside |= is_writing(w.t[i]);
    ends(w.t[i]);
    w.t[i].at = DYING;
    s.add(w);
}
static void is_walked(search &s, const world &w, int i)
{
    bool has_any = false;
    for (int k = 0; k <= GATE; k++)
        if (w.m[k].owner == i + 1) {
            world next = w;
            next.m[k] = {NOBODY, 1};
            s.add(next);
            has_any = true;
        }
    if (has_any)
        return;
    world next = w;
    next.t[i].at = DEAD;
    s.add(next);
}
static void steps_of(search &s, const world &w, int i)
{
    place at = w.t[i].at;
    if (at == DYING)
        return is_walked(s, w, i);
    if (at == DEAD)
        return;
    if (at == IDLE)
        return begins_a_call(s, w, i);
    if (at == READER_LOCKS_GATE || at == LOCKS_LANE || at == LOCKS_GATE || at == LOCKS_ALL)
        step_of_lock(s, w, i);
    else if (at < LOCKS_GATE)
        step_of_reader(s, w, i);
    else if (at >= FREES_ALL)
        step_of_freeing(s, w, i);
    else
        step_of_writer(s, w, i);
}

// Nobody waits for ever: where no thread has a step left, each is dead or has made all of its calls.
static void check_end(const world &w)
{
    for (int i = 0; i < sc.threads; i++)
        law(!is_alive(w.t[i]) || w.t[i].at == IDLE, "a thread waits for ever");
}

// Returns whether the laws hold in the scenario, or, with a mistake, whether one is broken.
static bool is_right()
{
    search s;
    world w;
    std::memset(&w, 0, sizeof w);
    for (int i = 0; i < sc.threads; i++)
        w.t[i].home = u8(i % sc.lanes), w.t[i].rounds = u8(sc.rounds);
    for (int i = sc.threads; i < MOST_THREADS; i++)
        w.t[i].at = DEAD;
    broken = nullptr;
    s.add(w);
    while (!s.todo.empty() && !broken) {
        world now = s.todo.back();
        s.todo.pop_back();
        std::size_t before = s.seen.size();
        bool moves = false;
        for (int i = 0; i < sc.threads && !broken; i++) {
            std::size_t at = s.todo.size(), known = s.seen.size();
            steps_of(s, now, i);
            moves |= s.todo.size() != at || s.seen.size() != known;
        }
        if (!moves && s.seen.size() == before) {
            // every step leads to a known state, or there is none
            search again;
            for (int i = 0; i < sc.threads; i++)
                steps_of(again, now, i);
            if (again.todo.empty())
                check_end(now);
        }
        for (int i = 0; i < sc.threads && !broken; i++)
            if (is_alive(now.t[i]))
                dies(s, now, i);
    }
    bool passes = (broken != nullptr) == (sc.plants != NONE);
    std::printf("%s %s: %d threads, %d lanes, %d deaths, %d rounds: %zu states, %s\n", passes ? "ok    " : "FAILED", sc.name,
                sc.threads, sc.lanes, sc.deaths, sc.rounds, s.seen.size(), broken ? broken : "every law holds");
    return passes;
}

int main(int count, char **names)
{
    static const scenario scenarios[] = {
        {"one_lane", 3, 1, 1, 1, NONE, false},
        {"two_lanes", 3, 2, 0, 1, NONE, false},
        {"again", 2, 2, 2, 2, NONE, false},
        {"two_deaths", 3, 1, 2, 1, NONE, true},
        {"two_deaths_and_lanes", 3, 2, 2, 1, NONE, true},
        {"hides_a_death", 2, 1, 1, 1, HIDES_A_DEATH, false},
        {"reader_ignores_a_dead_writer", 2, 1, 1, 1, READER_IGNORES_A_DEAD_WRITER, false},
        {"leaves_out_a_lane", 2, 2, 0, 1, LEAVES_OUT_A_LANE, false},
        {"clears_state_late", 3, 1, 1, 1, CLEARS_STATE_LATE, false},
        {"sets_state_early", 2, 1, 1, 1, SETS_STATE_EARLY, false},
        {"waits_in_secret", 3, 2, 0, 1, WAITS_IN_SECRET, false},
        {"keeps_lanes_when_late", 3, 2, 0, 1, KEEPS_LANES_WHEN_LATE, false},
        {"keeps_gate_when_late", 3, 2, 0, 1, KEEPS_GATE_WHEN_LATE, false},
        {"forgets_that_nothing_was_repaired", 3, 1, 1, 1, FORGETS_THAT_NOTHING_WAS_REPAIRED, false},
        {"forgets_a_death_in_a_repair", 3, 1, 2, 1, FORGETS_A_DEATH_IN_A_REPAIR, false},
        {"reader_stays_a_writer", 3, 1, 1, 1, READER_STAYS_A_WRITER, false},
        {"dead_readers_lane_is_reported", 2, 1, 1, 1, DEAD_READERS_LANE_IS_REPORTED, false},
        {"clears_wanted_late", 3, 2, 0, 1, CLEARS_WANTED_LATE, false},
    };
    int passed = 0, failed = 0;
    bool is_long = count > 1 && !std::strcmp(names[1], "--long");
    for (const scenario &each : scenarios) {
        bool is_wanted = count == 1 + is_long && (is_long || !each.is_long);
        for (int i = 1 + is_long; i < count; i++)
            is_wanted |= !std::strcmp(names[i], each.name);
        sc = each;
        if (is_wanted)
            (is_right() ? passed : failed)++;
    }
    std::printf("%d passed, %d failed\n", passed, failed);
    return failed != 0;
}
