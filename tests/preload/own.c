/* Several threads in several processes lock mutexes of three types, also by trylock and timedlock. Threads end while
 * they own one, and processes are killed. Each mutex's data says which process is inside, and is written twice. usage:
 * own FILE DEATHS PROCESSES THREADS */
#include "storm.h"

enum { MUTEXES = 9 };

struct guarded {
    pthread_mutex_t mutex;
    _Atomic int inside;
    volatile long first, second;
};
static struct guarded *all;
static int threads, at_slot;

static void bad(int line)
{
    fprintf(stderr, "own.c:%d\n", line);
    atomic_fetch_add(&board->errors, 1);
    _exit(1);
}
#define GOOD(what) ((what) ? (void)0 : bad(__LINE__))

static int acquire(pthread_mutex_t *m, unsigned how)
{
    struct timespec until;
    if (how % 4 < 2)
        return pthread_mutex_lock(m);
    if (how % 4 == 2)
        return pthread_mutex_trylock(m);
    clock_gettime(CLOCK_REALTIME, &until);
    until.tv_sec += (until.tv_nsec + 300000) / 1000000000;
    until.tv_nsec = (until.tv_nsec + 300000) % 1000000000;
    return pthread_mutex_timedlock(m, &until);
}

/* The thread is alone inside, and the data is whole, unless the last owner died there. */
static void enter(struct guarded *g, int r)
{
    int was = atomic_exchange(&g->inside, (int)getpid());
    if (r == EOWNERDEAD) {
        g->second = g->first;
        GOOD(pthread_mutex_consistent(&g->mutex) == 0);
    } else
        GOOD(r == 0 && was == 0 && g->first == g->second);
}

static void change(struct guarded *g)
{
    g->first++;
    for (volatile int i = 0; i < 30; i++)
        ;
    g->second++;
    GOOD(atomic_exchange(&g->inside, 0) == (int)getpid());
}

static void twice(struct guarded *g, int i)
{
    int r = pthread_mutex_trylock(&g->mutex);
    GOOD(r == (i % 3 == PTHREAD_MUTEX_RECURSIVE ? 0 : i % 3 == PTHREAD_MUTEX_ERRORCHECK ? EDEADLK : EBUSY));
    if (r == 0)
        GOOD(pthread_mutex_unlock(&g->mutex) == 0);
}

static void *work_on(void *unused)
{
    static _Atomic unsigned threads_started;
    unsigned random = (unsigned)getpid() * 131 + atomic_fetch_add(&threads_started, 1);
    for (;;) {
        int i = rand_r(&random) % MUTEXES;
        struct guarded *g = &all[i];
        unsigned how = (unsigned)rand_r(&random);
        int r = acquire(&g->mutex, how);
        if (r == EBUSY || r == ETIMEDOUT)
            continue;
        enter(g, r);
        twice(g, i);
        if (rand_r(&random) % 300 == 0) { /* ends as the owner; another thread goes on instead */
            pthread_t t;
            GOOD(!pthread_create(&t, NULL, work_on, unused) && !pthread_detach(t));
            return NULL;
        }
        change(g);
        GOOD(pthread_mutex_unlock(&g->mutex) == 0);
        atomic_fetch_add(&board->got_on[at_slot], 1);
    }
}

static void work(int slot)
{
    at_slot = slot;
    for (int i = 0; i < threads; i++) {
        pthread_t t;
        GOOD(!pthread_create(&t, NULL, work_on, NULL) && !pthread_detach(t));
    }
    for (;;)
        pause();
}

static void make(int unused)
{
    pthread_mutexattr_t a;
    (void)unused;
    pthread_mutexattr_init(&a);
    pthread_mutexattr_setpshared(&a, PTHREAD_PROCESS_SHARED);
    pthread_mutexattr_setrobust(&a, PTHREAD_MUTEX_ROBUST);
    for (int i = 0; i < MUTEXES; i++) {
        pthread_mutexattr_settype(&a, i % 3);
        GOOD(pthread_mutex_init(&all[i].mutex, &a) == 0);
    }
}

int main(int argc, char **argv)
{
    MUST(argc > 4);
    int deaths = atoi(argv[2]), n = atoi(argv[3]), fd = open(argv[1], O_RDWR | O_CREAT, 0600);
    threads = atoi(argv[4]);
    MUST(n >= 2 && n <= SLOTS && fd >= 0 && ftruncate(fd, sizeof *all * MUTEXES) == 0);
    all = mmap(NULL, sizeof *all * MUTEXES, PROT_READ | PROT_WRITE, MAP_SHARED, fd, 0);
    MUST(all != MAP_FAILED);
    begin_storm();
    MUST(waitpid(start_in(0, make), NULL, 0) > 0);
    kill_at_random(deaths, n, work, 3000);
    CHECK(atomic_load(&counts->died) > 0);
    return end_of_storm("own", deaths);
}
