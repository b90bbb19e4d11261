/* A call of the library, access by access: the results of its accesses are given, and the first access without one ends
 * it. So checks/lib/table.py can go through every result of each access. Compiled without optimisation and with frame
 * pointers: an access is named by the chain of calls that leads to it. */
#include "mutex.h"
#include <setjmp.h>
#include <stdlib.h>

/* After those of `enum played`. */
enum { SLEEP = 8, WAKE, MOVE, CLOCK, DEADLINE, RETURNS };

/* An access: its word and operands, and where in the source it is; or, with RETURNS, the call's reply. */
struct asked {
    uint64_t kind, word, expected, value, chain;
};

/* What a call is, and what its thread knows of itself. */
struct asking {
    uint64_t call, deadline; /* 0: none, 1: a time, 2: not a time */
    uint64_t was_heir, owes, spares;
};

enum { MOST_ASKED = 16000 }; /* of the longest loop, 1,000 looks of an heir */
struct asked asked[MOST_ASKED];
static const uint64_t *given;
static int asked_count, given_count, cycle;
static jmp_buf ended;
static uintptr_t first_frame;

static struct {
    uint64_t word[4]; /* first entry, offset, pending */
} head;
static struct {
    uint64_t previous, next;
} foreign[2]; /* entries of the C library */
static _Alignas(64) pz_mutex mutex;
static _Alignas(16) pz_cond cond;

/* The words by number: where table.py has their names. */
uint64_t word_at(int i)
{
    const void *const words[] = {&head.word[0],    &head.word[1],        &head.word[2],    &mutex.words[0],
                                 &mutex.words[1],  &mutex.words[2],      &mutex.words[3],  &mutex.words[4],
                                 &mutex.words[5],  &mutex.words[6],      &cond.words[0],   &cond.words[1],
                                 &foreign[0].next, &foreign[0].previous, &foreign[1].next, &foreign[1].previous};
    return (uint64_t)words[i];
}
uint64_t distance_of_mutex(void) { return (uint64_t)&mutex - (uint64_t)&cond; }

static uint64_t chain_of_calls(void)
{
    uint64_t chain = 14695981039346656037ull;
    for (uintptr_t *frame = __builtin_frame_address(0); (uintptr_t)frame < first_frame; frame = (uintptr_t *)frame[0])
        chain = (chain ^ frame[1]) * 1099511628211ull;
    return chain;
}

static int is_same(const struct asked *a, const struct asked *b)
{
    return a->kind == b->kind && a->word == b->word && a->expected == b->expected && a->value == b->value &&
           a->chain == b->chain;
}

/* Results past the last one are those of the last `cycle`, for as long as the accesses are the same, too. */
static uint64_t ask(struct asked a)
{
    int i = asked_count;
    a.chain = chain_of_calls();
    asked[i] = a;
    if (i >= MOST_ASKED - 1 || (i >= given_count && !cycle) || (i > given_count && !is_same(&a, &asked[i - cycle])))
        longjmp(ended, 1);
    asked_count++;
    return i < given_count ? given[i] : given[given_count - cycle + (i - given_count) % cycle];
}

static pz_word life = 7; /* that of the process, which the thread knows */

uint64_t play(enum played kind, const pz_word *w, uint64_t is, uint64_t value)
{
    if (w == &life)
        return 7;
    return ask((struct asked){.kind = kind, .word = (uint64_t)w, .expected = is, .value = value});
}
int play_sleep(pz_word *w, uint64_t is, const struct deadline *d)
{
    return (int)ask(
        (struct asked){.kind = SLEEP, .word = (uint64_t)w, .expected = is, .value = d ? (uint64_t)d->clock + 1 : 0});
}
int play_wake(pz_word *w, int most)
{
    return (int)ask((struct asked){.kind = WAKE, .word = (uint64_t)w, .value = (uint64_t)most});
}
void play_move(pz_word *w, uint64_t is, pz_word *to)
{
    ask((struct asked){.kind = MOVE, .word = (uint64_t)w, .expected = is, .value = (uint64_t)to});
}
uint64_t play_clock(void) { return ask((struct asked){.kind = CLOCK}); }
int play_has_passed(const struct deadline *d)
{
    return (int)ask((struct asked){.kind = DEADLINE, .value = (uint64_t)d->clock});
}

_Thread_local struct caller pz_caller;
pz_word *_Atomic pz_life = &life;
struct caller *pz_ask(void) { abort(); }

static const struct timespec good_time = {1, 0}, bad_time = {1, -1};

static int call(const struct asking *a)
{
    const struct timespec *t = a->deadline == 2 ? &bad_time : &good_time;
    switch (a->call) {
    case 0:
        return a->deadline ? pz_mutex_clocklock(&mutex, CLOCK_MONOTONIC, t) : pz_mutex_lock(&mutex);
    case 1:
        return pz_mutex_trylock(&mutex);
    case 2:
        return pz_mutex_unlock(&mutex);
    case 3:
        return pz_mutex_consistent(&mutex);
    case 4:
        return pz_mutex_reinit(&mutex);
    case 5:
        return a->deadline ? pz_cond_clockwait(&cond, &mutex, CLOCK_MONOTONIC, t) : pz_cond_wait(&cond, &mutex);
    case 6:
        return pz_cond_signal(&cond, &mutex);
    default:
        return pz_cond_broadcast(&cond, &mutex);
    }
}

/* Makes the call with these results. Returns the number of the access at which it stopped, in `asked`. */
int drive(const struct asking *a, const uint64_t *results, int count, int repeated)
{
    first_frame = (uintptr_t)__builtin_frame_address(0);
    given = results, given_count = count, cycle = repeated, asked_count = 0;
    pz_caller = (struct caller){.life = 7, .tid = 5, .list = (pz_word *)head.word, .pause = 20000, .owned = 1};
    pz_caller.was_heir = (uint16_t)a->was_heir;
    pz_caller.owes = a->owes ? &mutex : NULL;
    pz_caller.spares = (uint16_t)a->spares;
    if (!setjmp(ended)) {
        int reply = call(a);
        asked[asked_count] = (struct asked){.kind = RETURNS, .value = (uint64_t)reply};
    }
    return asked_count;
}
