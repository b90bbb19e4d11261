/* Rounds in which nobody comes later: N processes make some calls each on M mutexes, and some are killed at random
 * moments. All others must end, no data may be torn without EOWNERDEAD, and each mutex can be locked at the end. Calls
 * are lock, trylock, timedlock with deadlines that pass, several locks at a time, waits and signals; a timer interrupts
 * all of them. The library is loaded in front. usage: rounds ROUNDS PROCESSES MUTEXES KILLS */
#include "robust.h"
#include <sys/time.h>

enum { MOST = 16, CALLS = 40, MOST_PROCESSES = 256, PARENT = 1000, PATIENCE_S = 120 };
struct guarded {
    pthread_mutex_t m;
    _Atomic int owner;
    volatile long a, b;
};
static struct shared {
    struct guarded g[MOST];
    pthread_cond_t c;
    _Atomic int bad, died, calls, late, busy, waits;
} * s;
static int mutexes, self;

static void wrong(const char *what, int m, int r)
{
    atomic_fetch_add(&s->bad, 1);
    fprintf(stderr, "mutex %d, process %d: %s %d\n", m, self, what, r);
}

/* After a lock that returned r, and may have returned `other`. Returns whether the process has the mutex. */
static int has(int m, int r, int other)
{
    struct guarded *g = &s->g[m];
    if (r == EOWNERDEAD) {
        atomic_fetch_add(&s->died, 1);
        g->b = g->a;
        atomic_store(&g->owner, self);
        if (pthread_mutex_consistent(&g->m))
            wrong("consistent", m, 0);
        return 1;
    }
    if (r == 0) {
        int was = atomic_exchange(&g->owner, self);
        if (was || g->a != g->b)
            wrong("taken from, or torn by,", m, was);
        return 1;
    }
    if (r != other)
        wrong("lock returns", m, r);
    atomic_fetch_add(r == EBUSY ? &s->busy : &s->late, 1);
    return 0;
}

enum kind { LOCK, TRYLOCK, CLOCKLOCK, TIMEDLOCK };
static int take(int m, enum kind kind)
{
    struct timespec t = after_us(kind == CLOCKLOCK ? CLOCK_MONOTONIC : CLOCK_REALTIME, a_random(200));
    switch (kind) {
    case TRYLOCK:
        return has(m, pthread_mutex_trylock(&s->g[m].m), EBUSY);
    case CLOCKLOCK:
        return has(m, pthread_mutex_clocklock(&s->g[m].m, CLOCK_MONOTONIC, &t), ETIMEDOUT);
    case TIMEDLOCK:
        return has(m, pthread_mutex_timedlock(&s->g[m].m, &t), ETIMEDOUT);
    default:
        return has(m, pthread_mutex_lock(&s->g[m].m), 0);
    }
}

static void give(int m)
{
    struct guarded *g = &s->g[m];
    g->a++;
    if (chance(60))
        nap(a_random(50));
    else
        spin(a_random(600));
    g->b++;
    int was = atomic_exchange(&g->owner, 0), r = pthread_mutex_unlock(&g->m);
    if (was != self || r)
        wrong("lost while owned, or unlock returns", m, r);
    atomic_fetch_add(&s->calls, 1);
}

static void wait_once(void)
{
    struct timespec t = after_us(CLOCK_REALTIME, a_random(2000));
    if (!take(0, LOCK))
        return;
    atomic_store(&s->g[0].owner, 0);
    int r = pthread_cond_timedwait(&s->c, &s->g[0].m, &t);
    if (has(0, r == ETIMEDOUT ? 0 : r, 0))
        give(0);
    atomic_fetch_add(&s->waits, 1);
}

static void signal_once(int all)
{
    if (!take(0, LOCK))
        return;
    if (all)
        pthread_cond_broadcast(&s->c);
    else
        pthread_cond_signal(&s->c);
    give(0);
}

static void take_several(int most)
{
    for (int i = 0; i <= most; i++)
        take(i, LOCK);
    for (int i = 0; i <= most; i++)
        give(i);
}

static void tick(int number) { (void)number; }
static _Noreturn void work(unsigned seed)
{
    seed_random(seed);
    sigaction(SIGALRM, &(struct sigaction){.sa_handler = tick}, NULL);
    setitimer(ITIMER_REAL, &(struct itimerval){{0, 300}, {0, 300}}, NULL);
    for (int n = 0; n < CALLS; n++) {
        int m = (int)a_random((unsigned)mutexes), what = (int)a_random(16);
        if (what < 12) {
            if (take(m, what < 9 ? LOCK : (enum kind)(what - 8)))
                give(m);
        } else if (what == 12)
            take_several(m);
        else if (what == 13)
            wait_once();
        else
            signal_once(what == 14);
    }
    _exit(0);
}

/* Waits until all processes of a round have ended. Returns how many haven't. */
static int await(pid_t *process, int n, long *deaths)
{
    int left = n, status;
    for (long t = 0; left && t < PATIENCE_S * 5000L; t++) {
        pid_t p = waitpid(-1, &status, WNOHANG);
        for (int i = 0; p > 0 && i < n; i++)
            if (process[i] == p)
                process[i] = 0, left--, *deaths += WIFSIGNALED(status);
        if (p <= 0)
            nap(100);
    }
    return left;
}

static int a_round(int n, int kills, unsigned seed, long *deaths)
{
    pid_t process[MOST_PROCESSES];
    for (int i = 0; i < n; i++) {
        process[i] = start_child();
        if (!process[i]) {
            self = i + 1;
            work(seed + (unsigned)i);
        }
    }
    for (int k = 0; k < kills; k++) {
        nap(a_random(1500));
        kill(process[a_random((unsigned)n)], SIGKILL);
    }
    int left = await(process, n, deaths);
    for (int m = 0; left && m < mutexes; m++)
        fprintf(stderr, "%d don't end: cell %lx, bell %x\n", left, cell_of(&s->g[m].m), bell_of(&s->g[m].m));
    for (int i = 0; i < n; i++)
        if (process[i])
            kill_child(process[i]);
    for (int m = 0; !left && m < mutexes; m++)
        if (take(m, LOCK))
            give(m);
    return CHECK(left == 0);
}

int main(int argc, char **argv)
{
    if (argc < 5)
        return 2;
    int rounds = atoi(argv[1]), n = atoi(argv[2]), kills = atoi(argv[4]);
    long deaths = 0;
    mutexes = atoi(argv[3]);
    begin_checks(7200);
    seed_random((uint64_t)getpid());
    s = shared_memory(sizeof *s);
    for (int i = 0; i < mutexes; i++)
        init_robust(&s->g[i].m, PTHREAD_MUTEX_NORMAL);
    pthread_condattr_t a;
    pthread_condattr_init(&a);
    pthread_condattr_setpshared(&a, PTHREAD_PROCESS_SHARED);
    pthread_cond_init(&s->c, &a);
    self = PARENT;
    for (int r = 0; r < rounds && !s->bad; r++)
        if (!a_round(n, kills, a_random(1 << 30), &deaths))
            break;
    printf("%d processes, %d mutexes: %ld deaths, %d calls, EOWNERDEAD %d, ETIMEDOUT %d, EBUSY %d, %d waits\n", n,
           mutexes, deaths, s->calls, s->died, s->late, s->busy, s->waits);
    EQUAL(s->bad, 0);
    return end_checks();
}
