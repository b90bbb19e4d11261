/* A thread is killed before each instruction of its calls, in the recorder and in the library beneath. The recording
 * has what happened. usage: steps FILE CALL [STRIDE]; with STRIDE, before every STRIDEth instruction. */
#include "shared.h"
#include <time.h>

static pthread_mutex_t *m;
static pthread_cond_t *c;
static _Atomic int *owned;

static void lock(void) { pthread_mutex_lock(m); }
static void unlock(void) { pthread_mutex_unlock(m); }
static void both(void)
{
    lock();
    unlock();
}
static void trylock(void) { pthread_mutex_trylock(m); }
static void trylock_and_unlock(void)
{
    trylock();
    unlock();
}
/* A lock whose deadline has passed. */
static void timedlock(void) { pthread_mutex_timedlock(m, &(struct timespec){0}); }
static void timedlock_and_unlock(void)
{
    timedlock();
    unlock();
}
static void consistent(void) { pthread_mutex_consistent(m); }
static void take_dead_owners(void)
{
    owner_dies(m);
    lock();
    consistent();
    unlock();
    owner_dies(m);
}
static void own_dead_owners(void)
{
    take_dead_owners();
    lock();
}
static void take(void)
{
    both();
    lock();
}
static void wait_past(void)
{
    struct timespec past = {0};
    pthread_cond_timedwait(c, m, &past);
}
static void take_and_wait(void)
{
    take();
    wait_past();
}
static void signal_one(void) { pthread_cond_signal(c); }
static void take_and_signal(void)
{
    take();
    signal_one();
}
/* Another process owns the mutex, and is killed together with this one. */
static void be_too_late(void)
{
    both();
    pid_t it = a_child();
    if (!it) {
        lock();
        atomic_store(owned, 1);
        for (;;)
            pause();
    }
    while (!atomic_exchange(owned, 0))
        usleep(100);
}
static void make_anew(void) { make(m, PTHREAD_MUTEX_NORMAL); }

static const struct {
    const char *name;
    void (*first)(void), (*again)(void);
} calls[] = {
    {"lock", both, lock},
    {"trylock", trylock_and_unlock, trylock},
    {"timedlock", timedlock_and_unlock, timedlock},
    {"too_late", be_too_late, timedlock},
    {"lock_of_a_dead_owners", take_dead_owners, lock},
    {"unlock", take, unlock},
    {"consistent", own_dead_owners, consistent},
    {"wait", take_and_wait, wait_past},
    {"signal", take_and_signal, signal_one},
    {"init", make_anew, make_anew},
};

/* Whoever comes next repairs it. */
static void use(void)
{
    if (pthread_mutex_lock(m) == EOWNERDEAD)
        pthread_mutex_consistent(m);
    pthread_mutex_unlock(m);
}

int main(int argc, char **argv)
{
    CHECK(argc > 2);
    char *at = mapped(argv[1], 4096, NULL);
    m = (void *)at;
    c = (void *)(at + 256);
    owned = (void *)(at + 512);
    size_t k = 0, most = sizeof calls / sizeof *calls;
    while (k < most && strcmp(calls[k].name, argv[2]))
        k++;
    CHECK(k < most);
    make(m, PTHREAD_MUTEX_NORMAL);
    make_cond(c);
    int n = 1, stride = argc > 3 ? atoi(argv[3]) : 1;
    for (; dies_within(calls[k].first, calls[k].again, n); n += stride)
        use();
    use();
    CHECK(n > 100); /* a call has at least that many instructions */
    printf("%s: deaths within %d instructions, each %d\n", argv[2], n, stride);
    return 0;
}
