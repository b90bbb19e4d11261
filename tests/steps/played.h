/* Stands in for lib/word.h and lib/kernel.h: each access and each call to Linux goes to steps.c, which makes it, lets
 * other threads act before it, and compares it with the proved programs. Included before each source of the library. */
#ifndef PLAYED_H
#define PLAYED_H
#define PZ_WORD_H
#define PZ_KERNEL_H
#include <errno.h>
#include <limits.h>
#include <stdatomic.h>
#include <stdint.h>
#include <sys/syscall.h>
#include <time.h>
#include <unistd.h>

typedef _Atomic uint64_t pz_word;

#define LIKELY(x)   (x)
#define UNLIKELY(x) (x)

struct deadline {
    clockid_t clock;
    const struct timespec *at;
};

enum played { LOAD, STORE, COMPARE_EXCHANGE, EXCHANGE, ADD, SUB, OR, AND };
/* Returns what the word was; *is_done says whether a compare_exchange replaced it. */
uint64_t play(enum played kind, const pz_word *w, uint64_t is, uint64_t value);
int play_sleep(pz_word *w, uint64_t is, const struct deadline *d);
int play_wake(pz_word *w, int most);
void play_move(pz_word *w, uint64_t is, pz_word *to);
uint64_t play_clock(void);
int play_has_passed(const struct deadline *d);

static inline uint64_t load_relaxed(const pz_word *w) { return play(LOAD, w, 0, 0); }
static inline uint64_t load_acquire(const pz_word *w) { return play(LOAD, w, 0, 0); }
static inline uint64_t load_in_order(const pz_word *w) { return play(LOAD, w, 0, 0); }
static inline void store_release(pz_word *w, uint64_t value) { play(STORE, w, 0, value); }
static inline int compare_exchange(pz_word *w, uint64_t *is, uint64_t value)
{
    uint64_t found = play(COMPARE_EXCHANGE, w, *is, value);
    int is_done = found == *is;
    *is = found;
    return is_done;
}
static inline uint64_t exchange(pz_word *w, uint64_t value) { return play(EXCHANGE, w, 0, value); }
static inline uint64_t fetch_add(pz_word *w, uint64_t value) { return play(ADD, w, 0, value); }
static inline uint64_t fetch_sub(pz_word *w, uint64_t value) { return play(SUB, w, 0, value); }
static inline uint64_t fetch_or(pz_word *w, uint64_t bits) { return play(OR, w, 0, bits); }
static inline uint64_t fetch_and(pz_word *w, uint64_t bits) { return play(AND, w, 0, bits); }
static inline void relax(void) {}
static inline void yield(void) {}
static inline void sleep_for(long ns) { (void)ns, play_clock(); }

static inline int is_clock(clockid_t clock) { return clock == CLOCK_REALTIME || clock == CLOCK_MONOTONIC; }
static inline int is_time(const struct timespec *t) { return t->tv_nsec >= 0 && t->tv_nsec < 1000000000; }
static inline uint64_t now_ns(void) { return play_clock(); }
static inline uint64_t ticks(void) { return play_clock() >> 10; }
static inline int has_passed(const struct deadline *d) { return play_has_passed(d); }
static inline int sleep_on(pz_word *w, uint64_t is, const struct deadline *d) { return play_sleep(w, is, d); }
static inline int wake(pz_word *w, int most) { return play_wake(w, most); }
static inline void move_sleepers(pz_word *w, uint64_t is, pz_word *to) { play_move(w, is, to); }
#endif
