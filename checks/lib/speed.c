/* What the C library's robust mutex and condition variables take, for checks/speed: in the words and the units of
 * crates/timings.
 *
 * speed round N                rounds of trylock and unlock in one thread
 * speed THREADS TIMES CASE     the cases of timings, which says what they are: one, own, pingpong, broadcast, death
 */
#include <errno.h>
#include <pthread.h>
#include <sched.h>
#include <stdatomic.h>
#include <stdio.h>
#include <stdlib.h>
#include <string.h>
#include <time.h>

enum { MOST = 64 };

/* A mutex fills two cache lines of its own, so that no neighbour's traffic is measured; and so does what a worker has.
 */
struct place {
    _Alignas(128) pthread_mutex_t mutex;
};

struct worker {
    _Alignas(128) struct place *place;
    int number;
    long times;
    long well;
    pthread_barrier_t *start;
};

static struct place places[MOST];
static pthread_cond_t conditions[2];
/* whose turn it is in a ping-pong, or how many broadcasts there were; under the first mutex */
static long turn;
/* how many have come to their waits */
static atomic_long come;
static int threads;

static double now(void)
{
    struct timespec t;
    clock_gettime(CLOCK_MONOTONIC, &t);
    return t.tv_sec * 1e9 + t.tv_nsec;
}

static int make(pthread_mutex_t *mutex)
{
    pthread_mutexattr_t kind;
    return pthread_mutexattr_init(&kind) || pthread_mutexattr_settype(&kind, PTHREAD_MUTEX_ERRORCHECK) ||
           pthread_mutexattr_setrobust(&kind, PTHREAD_MUTEX_ROBUST) ||
           pthread_mutexattr_setpshared(&kind, PTHREAD_PROCESS_SHARED) || pthread_mutex_init(mutex, &kind);
}

static int make_condition(pthread_cond_t *condition)
{
    pthread_condattr_t kind;
    return pthread_condattr_init(&kind) || pthread_condattr_setpshared(&kind, PTHREAD_PROCESS_SHARED) ||
           pthread_cond_init(condition, &kind);
}

static void *pairs(void *of)
{
    struct worker *w = of;
    pthread_barrier_wait(w->start);
    long well = 0;
    for (long i = 0; i < w->times; i++) {
        well += pthread_mutex_lock(&w->place->mutex) == 0;
        well += pthread_mutex_unlock(&w->place->mutex) == 0;
    }
    w->well = well;
    return NULL;
}

static void *ping_pong(void *of)
{
    struct worker *w = of;
    pthread_mutex_t *mutex = &places[0].mutex;
    pthread_barrier_wait(w->start);
    long well = pthread_mutex_lock(mutex) == 0;
    for (long i = 0; i < w->times; i++) {
        while (turn != w->number)
            well += pthread_cond_wait(&conditions[w->number], mutex) == 0;
        turn = 1 - w->number;
        well += pthread_cond_signal(&conditions[turn]) == 0;
    }
    w->well = well + (pthread_mutex_unlock(mutex) == 0);
    return NULL;
}

static void *broadcast(void *of)
{
    struct worker *w = of;
    pthread_mutex_t *mutex = &places[0].mutex;
    long well = 0;
    pthread_barrier_wait(w->start);
    if (w->number == 0) {
        for (long i = 1; i <= w->times; i++) {
            while (atomic_load(&come) < i * (threads - 1))
                sched_yield();
            well += pthread_mutex_lock(mutex) == 0;
            turn = i;
            well += pthread_cond_broadcast(&conditions[0]) == 0;
            well += pthread_mutex_unlock(mutex) == 0;
        }
    } else {
        well += pthread_mutex_lock(mutex) == 0;
        for (long i = 1; i <= w->times; i++) {
            atomic_fetch_add(&come, 1);
            while (turn < i)
                well += pthread_cond_wait(&conditions[0], mutex) == 0;
        }
        well += pthread_mutex_unlock(mutex) == 0;
    }
    w->well = well;
    return NULL;
}

/* Ends as the owner of the mutex. */
static void *death(void *of)
{
    struct worker *w = of;
    int locked = pthread_mutex_lock(&places[0].mutex);
    w->well = (locked == 0 || locked == EOWNERDEAD) +
              (locked == EOWNERDEAD && pthread_mutex_consistent(&places[0].mutex) == 0);
    return NULL;
}

static int round_time(long count)
{
    long well = 0;
    double start = now();
    for (long i = 0; i < count; i++)
        well += (pthread_mutex_trylock(&places[0].mutex) == 0) & (pthread_mutex_unlock(&places[0].mutex) == 0);
    printf("C library's robust mutex: %.0f ns a round, %ld of %ld went well\n", (now() - start) / count, well, count);
    return well != count;
}

static int tell(const char *name, double took, long units, long well)
{
    printf("%d %s: %.0f ns, %ld calls went well\n", threads, name, took / units, well);
    return 0;
}

static int by_turns(void)
{
    static struct worker worker;
    long well = 0;
    double begun = now();
    for (int i = 0; i < threads; i++) {
        pthread_t id;
        if (pthread_create(&id, NULL, death, &worker) || pthread_join(id, NULL))
            return 1;
        well += worker.well;
    }
    return tell("death", now() - begun, threads, well);
}

static int at_once(const char *name, void *(*work)(void *), long times, long units, int own)
{
    static struct worker workers[MOST];
    pthread_t ids[MOST];
    pthread_barrier_t start;
    long well = 0;
    pthread_barrier_init(&start, NULL, threads + 1);
    for (int i = 0; i < threads; i++) {
        workers[i] = (struct worker){&places[own ? i : 0], i, times, 0, &start};
        if (pthread_create(&ids[i], NULL, work, &workers[i]))
            return 1;
    }
    double begun = now();
    pthread_barrier_wait(&start);
    for (int i = 0; i < threads; i++) {
        pthread_join(ids[i], NULL);
        well += workers[i].well;
    }
    return tell(name, now() - begun, units, well);
}

static int run(const char *name, long times)
{
    long each = times / threads;
    if (!strcmp(name, "one") || !strcmp(name, "own"))
        return at_once(name, pairs, each, each * threads, !strcmp(name, "own"));
    if (!strcmp(name, "pingpong"))
        return at_once(name, ping_pong, times, times, 0);
    if (!strcmp(name, "broadcast"))
        return at_once(name, broadcast, times, times, 0);
    return by_turns();
}

int main(int words, char **word)
{
    for (int i = 0; i < MOST; i++)
        if (make(&places[i].mutex))
            return 1;
    if (make_condition(&conditions[0]) || make_condition(&conditions[1]))
        return 1;
    if (words == 3 && !strcmp(word[1], "round") && atol(word[2]) > 0)
        return round_time(atol(word[2]));
    if (words == 4) {
        threads = atoi(word[1]);
        if (threads >= 1 && threads <= MOST && atol(word[2]) >= threads)
            return run(word[3], atol(word[2]));
    }
    fprintf(stderr, "usage: speed round N | speed THREADS TIMES one|own|pingpong|broadcast|death\n");
    return 2;
}
