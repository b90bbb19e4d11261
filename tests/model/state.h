// The state of the model: the words of two mutexes and one condition variable, the kernel's queues of sleepers, and the
// threads. A state is plain bytes, so that it can be hashed and compared.
#ifndef MODEL_STATE_H
#define MODEL_STATE_H
#include "steps.h"
#include <cstdint>
#include <cstring>
#include <string>

using u8 = uint8_t;
using u16 = uint16_t;
using u64 = uint64_t;

// The bits of a cell and of a slot. A thread's number, 1 to 4, is its TID. UNUSABLE is only in cells, AWAKE only in
// slots.
enum : u16 { OWNER = 7, OWNER_DIED = 8, WAITERS = 16, UNUSABLE = 32, AWAKE = 64, TURN = 256 };
enum : u16 { FUTEX_WORD = OWNER | OWNER_DIED | WAITERS, KEPT_BY_WALK = 0xff60 };
// The condition variable: a counter, and above it the bit that says that somebody may wait.
enum : u16 { COUNT = 0xff, WAITED = 256 };

enum { THREADS = 4, MUTEXES = 2, WORDS = 2 * MUTEXES, COND = WORDS, QUEUES = WORDS + 1, ENTRIES = 4, BUFFER = 2 };
enum Op : u8 { END, LOCK, TIMEDLOCK, TRYLOCK, UNLOCK, WAIT, TIMEDWAIT, SIGNAL, BROADCAST, REINIT };
enum Result : u8 { UNDECIDED, TAKEN, UNRECOVERABLE, TIMED_OUT, BUSY };
enum How : u8 { TRIED, WOKEN, LATER, WAITED_FOR };

enum Flag : u16 {
    DIED = 1,       // owns a mutex whose owner died, and hasn't declared it consistent
    IN_WAIT = 2,    // the lock is that of a wait
    TIMED = 4,      // the lock has a deadline
    TIMED_WAIT = 8, // the wait has one
    SPOILS = 16,    // the unlock makes the mutex unusable
    DUE = 32,       // for the laws: was signalled after its release, and before it slept
    MOVED = 64,     // for the laws: a broadcast moved it to the mutex
    SPARES = 128,   // for a mutation: saw an heir before its release
};

struct Thread {
    u8 at, op, m, result, how, pending, listed, list[ENTRIES], walked, entry, seen, buffered, buffer_word[BUFFER];
    u16 flags, v, g, released, buffer[BUFFER];
};

struct State {
    u16 word[WORDS], cond;
    u8 kills, reuses;
    u8 inconsistent[MUTEXES]; // for the laws: the last owner died, and nobody has declared it consistent since
    u8 believes[MUTEXES];     // for the laws: who is in the critical section by its own knowledge
    u8 sleepers[QUEUES], queue[QUEUES][THREADS];
    Thread thread[THREADS];
};

// What a scenario fixes.
enum Walk : u8 { WALK_6_2, WALK_NEWEST, WALK_OLD };
struct Config {
    int threads, mutexes, kills, reuses;
    bool interrupts, spoils, died, buffers, handlers;
    Walk walk;
    struct {
        Op op;
        u8 m;
    } script[THREADS][12];
};

extern Config config;
extern std::string broken; // the first law that broke
extern Mutation mutation;

inline bool mutated(Mutation is) { return mutation == is; }
inline void breaks(const char *law)
{
    if (broken.empty())
        broken = law;
}

inline int cell_of(int m) { return 2 * m; }
inline int slot_of(int m) { return 2 * m + 1; }
inline u8 entry_of(int word) { return u8(word + 1); }
inline bool is_free(u16 v) { return !(v & (OWNER | UNUSABLE)); }
inline u16 taken(u16 v, int t) { return u16((v & ~OWNER) | (t + 1)); }

// ---- Memory. A plain store may wait in the thread's buffer; an exchange, a fence and the kernel's calls empty it.
inline void write_word(State &s, int w, u16 value) { (w == COND ? s.cond : s.word[w]) = value; }
inline void drain_one(State &s, int t)
{
    Thread &x = s.thread[t];
    write_word(s, x.buffer_word[0], x.buffer[0]);
    for (int i = 1; i < BUFFER; i++)
        x.buffer_word[i - 1] = x.buffer_word[i], x.buffer[i - 1] = x.buffer[i];
    x.buffer_word[BUFFER - 1] = 0, x.buffer[BUFFER - 1] = 0;
    x.buffered--;
}
inline void drain(State &s, int t)
{
    while (s.thread[t].buffered)
        drain_one(s, t);
}
inline u16 load(const State &s, int t, int w)
{
    const Thread &x = s.thread[t];
    for (int i = x.buffered; i-- > 0;)
        if (x.buffer_word[i] == w)
            return x.buffer[i];
    return w == COND ? s.cond : s.word[w];
}
inline void store(State &s, int t, int w, u16 value)
{
    Thread &x = s.thread[t];
    if (!config.buffers)
        return write_word(s, w, value);
    if (x.buffered == BUFFER)
        drain_one(s, t);
    x.buffer_word[x.buffered] = u8(w), x.buffer[x.buffered++] = value;
}
// Replaces `is`, or returns false and puts what it found there.
inline bool compare_exchange(State &s, int t, int w, u16 &is, u16 value)
{
    drain(s, t);
    if (s.word[w] != is)
        return is = s.word[w], false;
    s.word[w] = value;
    return true;
}
inline void fetch_and(State &s, int t, int w, u16 bits) { drain(s, t), s.word[w] &= bits; }
inline void fetch_or(State &s, int t, int w, u16 bits) { drain(s, t), s.word[w] |= bits; }

// ---- The thread's robust list. Only its own death tells these steps apart.
inline void put_on_list(State &s, int t, u8 entry)
{
    Thread &x = s.thread[t];
    if (x.listed == ENTRIES)
        return breaks("the list is longer than the model's");
    for (int i = x.listed++; i > 0; i--)
        x.list[i] = x.list[i - 1];
    x.list[0] = entry;
}
inline void take_off_list(State &s, int t, u8 entry)
{
    Thread &x = s.thread[t];
    int kept = 0;
    for (int i = 0; i < x.listed; i++)
        if (x.list[i] != entry)
            x.list[kept++] = x.list[i];
    for (int i = kept; i < x.listed; i++)
        x.list[i] = 0;
    x.listed = u8(kept);
}
inline bool is_listed(const Thread &x, u8 entry)
{
    for (int i = 0; i < x.listed; i++)
        if (x.list[i] == entry)
            return true;
    return false;
}

inline bool is_asleep(const Thread &x) { return x.at == ASLEEP || x.at == WAITING; }
inline bool is_dying(const Thread &x) { return x.at >= WALK_NEXT && x.at <= WALK_END; }
inline bool is_gone(const Thread &x) { return x.at == DONE || x.at == DEAD; }
#endif
