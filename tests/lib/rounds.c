/* Rounds that nobody joins later. Some processes of several threads each make a few locks and unlocks, one or two of
 * them are killed, and the others have to come to their end alone. A storm doesn't show a wake that got lost: WAITERS
 * stays, so the next caller wakes the sleeper that was left.
 *
 *   rounds ROUNDS PROCESSES THREADS PAIRS [FLAGS]
 *
 * Flags: b one process waits on a condition variable, and each thread that gets EOWNERDEAD broadcasts; t deadlines;
 * n nobody is killed. */
#include "../check.h"
#include <pazdrig.h>
#include <pthread.h>
#include <stdatomic.h>

enum { PROCESSES = 64, THREADS = 16 };
static struct {
    pz_mutex mutex;
    pz_cond cond;
    _Atomic int ready, go, is_over;
    volatile int owner;
    volatile long a, b;
} * all;
static int processes, threads, pairs, waits, deadlines, quiet;
static _Thread_local int tid;

static void fail(const char *what, long a)
{
    fprintf(stderr, "%s: %ld\n", what, a);
    _exit(9);
}

/* Returns whether the thread has the mutex. */
static int enter(int r)
{
    if (r == ETIMEDOUT && deadlines)
        return 0;
    if (r == EOWNERDEAD) {
        all->a = all->b = 0;
        if (pz_mutex_consistent(&all->mutex) || pz_cond_broadcast(&all->cond, &all->mutex))
            fail("after EOWNERDEAD", tid);
    } else if (r || all->owner || all->a != all->b) {
        fail(r ? "lock" : "two owners", r ? r : all->owner);
    }
    all->owner = tid;
    return 1;
}
static void leave(void)
{
    all->owner = 0;
    int r = pz_mutex_unlock(&all->mutex);
    if (r)
        fail("unlock", r);
}
static void pair(void)
{
    struct timespec t = after_us(CLOCK_MONOTONIC, a_random(60));
    int has_deadline = deadlines && chance(330);
    if (!enter(has_deadline ? pz_mutex_clocklock(&all->mutex, CLOCK_MONOTONIC, &t) : pz_mutex_lock(&all->mutex)))
        return;
    all->a++;
    spin(a_random(chance(750) ? 50 : 4000));
    all->b++;
    leave();
    spin(a_random(100));
}
static void wait_until_over(void)
{
    if (!enter(pz_mutex_lock(&all->mutex)))
        return;
    while (!all->is_over) {
        all->owner = 0;
        if (!enter(pz_cond_wait(&all->cond, &all->mutex)))
            fail("wait", 0);
    }
    leave();
}
static void *thread(void *waiter)
{
    tid = (int)syscall(SYS_gettid);
    seed_random((uint64_t)tid);
    atomic_fetch_add(&all->ready, 1);
    while (!all->go)
        sched_yield();
    if (waiter)
        wait_until_over();
    else
        for (int k = 0; k < pairs; k++)
            pair();
    return NULL;
}
_Noreturn static void be_process(int number)
{
    pthread_t others[THREADS];
    void *waiter = waits && number == 0 ? all : NULL;
    for (int i = 1; i < threads; i++)
        if (pthread_create(&others[i], NULL, thread, waiter))
            fail("pthread_create", i);
    thread(waiter);
    for (int i = 1; i < threads; i++)
        pthread_join(others[i], NULL);
    _exit(0);
}

/* ---- The parent. It touches the mutex only when no process but the waiting one is left. */

static pid_t pid[PROCESSES];
static long deaths;

static void tell_waiters(void)
{
    all->is_over = 1;
    int r = pz_mutex_trylock(&all->mutex);
    if (r == EOWNERDEAD)
        all->a = all->b = 0, r = pz_mutex_consistent(&all->mutex);
    if (r)
        return;
    all->owner = 0;
    pz_cond_broadcast(&all->cond, &all->mutex);
    pz_mutex_unlock(&all->mutex);
}
static void left_asleep(long round, int left)
{
    fprintf(stderr, "round %ld: %d processes are left asleep; cell %llx hints %llx slot %llx count %llx\n", round, left,
            (unsigned long long)all->mutex.words[0], (unsigned long long)all->mutex.words[1],
            (unsigned long long)all->mutex.words[2], (unsigned long long)all->cond.words[0]);
    for (int i = 0; i < processes; i++)
        if (pid[i])
            kill(pid[i], SIGKILL);
    exit(1);
}
static int processes_left(long round)
{
    int left = 0, status;
    for (int i = 0; i < processes; i++) {
        if (pid[i] && waitpid(pid[i], &status, WNOHANG) == pid[i]) {
            pid[i] = 0;
            deaths += WIFSIGNALED(status);
            if (!CHECK(status == 0 || (WIFSIGNALED(status) && WTERMSIG(status) == SIGKILL)))
                left_asleep(round, -1);
        }
        left += pid[i] != 0;
    }
    return left;
}
static void one_round(long round)
{
    struct timespec end, now;
    memset(all, 0, sizeof *all);
    for (int i = 0; i < processes; i++)
        if ((pid[i] = start_child()) == 0)
            be_process(i);
    while (all->ready < processes * threads)
        nap(50);
    all->go = 1;
    for (unsigned n = quiet ? 0 : 1 + a_random(2); n > 0; n--) {
        spin(a_random(chance(660) ? 8000 : 100000));
        kill(pid[a_random((unsigned)processes)], SIGKILL);
    }
    end = after_us(CLOCK_MONOTONIC, patience() * 1000000l);
    for (int left; (left = processes_left(round));) {
        if (waits && left == 1 && pid[0])
            tell_waiters();
        clock_gettime(CLOCK_MONOTONIC, &now);
        if (now.tv_sec > end.tv_sec)
            left_asleep(round, left);
        nap(100);
    }
    int r = pz_mutex_trylock(&all->mutex);
    if (r == EOWNERDEAD)
        r = pz_mutex_consistent(&all->mutex);
    EQUAL(r, 0);
    EQUAL(pz_mutex_unlock(&all->mutex), 0);
}

int main(int argc, char **argv)
{
    if (argc < 5)
        return 2;
    long rounds = atol(argv[1]);
    const char *flags = argc > 5 ? argv[5] : "";
    processes = atoi(argv[2]), threads = atoi(argv[3]), pairs = atoi(argv[4]);
    waits = !!strchr(flags, 'b'), deadlines = !!strchr(flags, 't'), quiet = !!strchr(flags, 'n');
    if (processes > PROCESSES || threads > THREADS)
        return 2;
    all = shared_memory(sizeof *all);
    seed_random(1);
    for (long k = 0; k < rounds; k++)
        one_round(k);
    printf("%ld rounds of %d processes of %d threads, %d pairs %s: %ld deaths\n", rounds, processes, threads, pairs,
           flags, deaths);
    return end_checks();
}
