/* SIGKILLs by the thousand over processes of several threads that read and write under one reader-writer lock, by all of
 * its calls. Every other death is that of a process with a writer inside, if there is one. Processes map the lock at
 * different addresses. Nobody polls: if a wake gets lost, it may be that nothing moves any more, which the parent sees.
 *
 *   rwstorm KILLS PROCESSES THREADS LANES [FLAGS]
 *
 * Flags: u some that are to repair make the lock unusable; e threads end while they have it; t processes are stopped. */
#include "../check.h"
#include <pazdrig.h>
#include <pthread.h>
#include <stdatomic.h>

enum { PROCESSES = 64, THREADS = 16, LANES = 64 };
static struct shared {
    PZ_RWLOCK(LANES) lock;
    pz_mutex rebuilds;
    volatile long a, b;   /* equal, but while a writer is inside */
    volatile int inside;  /* the TID of the writer that is inside, or died there */
    _Atomic int repairs, writes_in; /* a process that repairs, or has a writer inside: its number, and 1 */
    _Atomic int stop;
    _Atomic long reads, writes, told, told_again, busy, late, lost, progress[PROCESSES];
} *all;
static int file, threads, spoils, ends, stops, self;
static _Thread_local int tid;

static void fail(const char *what, long a, long b)
{
    fprintf(stderr, "process %d: %s: %ld %ld\n", self, what, a, b);
    _exit(9);
}
static struct shared *map_elsewhere(void)
{
    size_t pad = (1 + a_random(64)) * 4096;
    void *hole = mmap(NULL, pad, PROT_NONE, MAP_PRIVATE | MAP_ANONYMOUS, -1, 0);
    void *p = mmap(NULL, sizeof(struct shared), PROT_READ | PROT_WRITE, MAP_SHARED, file, 0);
    if (p == MAP_FAILED || hole == MAP_FAILED)
        _exit(8);
    munmap(hole, pad);
    return p;
}

/* ---- A thread's rounds. */

/* Stays inside, now and then long enough for the parent to see it there. */
static void stay(unsigned long_ones)
{
    if (chance(long_ones))
        nap(300);
    else
        spin(a_random(3000));
}

static int lock_somehow(int writes)
{
    pz_rwlock *l = &all->lock.rw;
    struct timespec t;
    unsigned how = a_random(8);
    if (how == 0)
        return writes ? pz_rwlock_trywrlock(l) : pz_rwlock_tryrdlock(l);
    if (how == 1) {
        t = after_us(CLOCK_MONOTONIC, a_random(500));
        return writes ? pz_rwlock_clockwrlock(l, CLOCK_MONOTONIC, &t) : pz_rwlock_clockrdlock(l, CLOCK_MONOTONIC, &t);
    }
    if (how == 2) {
        t = after_us(CLOCK_REALTIME, a_random(500));
        return writes ? pz_rwlock_timedwrlock(l, &t) : pz_rwlock_timedrdlock(l, &t);
    }
    return writes ? pz_rwlock_wrlock(l) : pz_rwlock_rdlock(l);
}
static void look(void)
{
    long a = all->a;
    if (all->inside)
        fail("a reader beside a writer, or a death that isn't reported", all->inside, a);
    spin(a_random(400));
    if (all->inside || all->a != a || all->b != a)
        fail("a writer beside a reader", all->inside, a);
    atomic_fetch_add(&all->reads, 1);
}
static void change(void)
{
    if (all->inside)
        fail("two writers, or a death that isn't reported", all->inside, tid);
    if (all->a != all->b)
        fail("torn data without EOWNERDEAD", all->a, all->b);
    all->inside = tid;
    all->writes_in = 1 + self;
    all->a++;
    stay(2);
    all->b++;
    if (all->inside != tid)
        fail("another writer came in", all->inside, tid);
    all->writes_in = 0;
    all->inside = 0;
    atomic_fetch_add(&all->writes, 1);
}
/* Returns whether the thread made the data consistent. */
static int repair(void)
{
    int r;
    long d = all->a - all->b;
    atomic_fetch_add(all->repairs ? &all->told_again : &all->told, 1);
    if (d < 0 || d > 1)
        fail("torn by more than one writer", all->a, all->b);
    all->inside = tid;
    all->repairs = 1 + self;
    stay(500);
    all->a = all->b;
    if (all->inside != tid)
        fail("another writer came in to repair", all->inside, tid);
    all->repairs = 0;
    all->inside = 0;
    if (spoils && chance(200))
        return 0;
    if ((r = pz_rwlock_consistent(&all->lock.rw)))
        fail("consistent", r, 0);
    change();
    return 1;
}
/* The lock is unusable. One thread makes it usable, after it has seen for itself that it still isn't. */
static void rebuild(void)
{
    int r = pz_mutex_lock(&all->rebuilds);
    if (r == EOWNERDEAD)
        r = pz_mutex_consistent(&all->rebuilds);
    if (r)
        fail("the mutex of those that rebuild", r, 0);
    r = pz_rwlock_tryrdlock(&all->lock.rw);
    if (r == ENOTRECOVERABLE) {
        atomic_fetch_add(&all->lost, 1);
        r = pz_rwlock_reinit(&all->lock.rw);
    } else if (r == EOWNERDEAD || r == 0) {
        if (r == EOWNERDEAD)
            repair();
        r = pz_rwlock_unlock(&all->lock.rw);
    }
    if (r && r != EBUSY)
        fail("to rebuild", r, 0);
    pz_mutex_unlock(&all->rebuilds);
}
static void *thread(void *);
static void maybe_end(void)
{
    pthread_t next;
    if (!ends || !chance(2))
        return;
    if (pthread_create(&next, NULL, thread, NULL) == 0) {
        pthread_detach(next);
        syscall(SYS_exit, 0); /* with the lock, and without what pthread_exit(3) would do */
    }
}
static void one_round(void)
{
    int writes = chance(150), r = lock_somehow(writes);
    if (r == EBUSY || r == ETIMEDOUT)
        return (void)atomic_fetch_add(r == EBUSY ? &all->busy : &all->late, 1);
    if (r == ENOTRECOVERABLE && spoils)
        return rebuild();
    if (r && r != EOWNERDEAD)
        fail("a lock", r, writes);
    if (r == EOWNERDEAD)
        repair();
    else if (writes)
        change();
    else
        look();
    if (r != EOWNERDEAD)
        maybe_end();
    if ((r = pz_rwlock_unlock(&all->lock.rw)))
        fail("unlock", r, writes);
}
static void *thread(void *unused)
{
    (void)unused;
    tid = (int)syscall(SYS_gettid);
    seed_random((uint64_t)tid);
    while (!atomic_load(&all->stop)) {
        one_round();
        atomic_fetch_add(&all->progress[self], 1);
    }
    return NULL;
}

/* ---- Processes. */

static pid_t pid[PROCESSES];
static int processes;

static void start(int i)
{
    pthread_t others[THREADS];
    pid[i] = start_child();
    if (pid[i])
        return;
    self = i;
    struct shared *old = all;
    all = map_elsewhere();
    munmap(old, sizeof *old);
    for (int n = 0; n < threads - 1; n++)
        if (pthread_create(&others[n], NULL, thread, NULL) || pthread_detach(others[n]))
            fail("pthread_create", n, 0);
    thread(NULL);
    while (!all->stop)
        nap(1000);
    pthread_exit(NULL);
}
static void stands_still(const char *when)
{
    const uint64_t *w = all->lock.rw.words;
    fprintf(stderr, "nothing moves %s: state %llu wanted %llu gate %llx\n", when, (unsigned long long)w[1],
            (unsigned long long)w[2], (unsigned long long)all->lock.rw.gate.words[0]);
    for (unsigned i = 0; i < w[0]; i++)
        fprintf(stderr, "lane %u: %llx %llx\n", i, (unsigned long long)all->lock.parts[2 + i].words[0],
                (unsigned long long)all->lock.parts[2 + i].words[2]);
    for (int i = 0; i < processes; i++)
        kill(pid[i], SIGKILL);
    exit(3);
}
/* Each process has to get on. */
static void see_progress(void)
{
    static long last[PROCESSES];
    for (int i = 0; i < processes; i++) {
        for (long waits = 0; all->progress[i] == last[i] && waits < patience() * 1000l; waits++)
            nap(1000);
        if (all->progress[i] == last[i])
            stands_still("amid the storm");
        last[i] = all->progress[i];
    }
}
static void check_end(int i, int status)
{
    if (!WIFSIGNALED(status) || WTERMSIG(status) != SIGKILL) {
        fprintf(stderr, "process %d ended with %x\n", i, status);
        exit(1);
    }
}
/* Returns a process: one that repairs or has a writer inside, if there is any, or any. */
static int victim(void)
{
    int who = 0;
    if (chance(500))
        for (int looks = 0; looks < 20000 && !who; looks++)
            who = chance(300) ? all->repairs : all->writes_in;
    return who ? who - 1 : (int)a_random((unsigned)processes);
}
static void kill_one(void)
{
    int i, status;
    if (chance(250))
        nap(a_random(300));
    if (stops && chance(100)) {
        int other = (int)a_random((unsigned)processes);
        kill(pid[other], SIGSTOP);
        nap(a_random(2000));
        kill(pid[other], SIGCONT);
    }
    i = victim();
    kill(pid[i], SIGKILL);
    if (waitpid(pid[i], &status, 0) != pid[i])
        exit(8);
    check_end(i, status);
    start(i);
}
static void end_storm(void)
{
    all->stop = 1;
    for (int i = 0; i < processes; i++) {
        int status, has_ended = 0;
        for (long waits = 0; !has_ended && waits < patience() * 1000l; waits++) {
            has_ended = waitpid(pid[i], &status, WNOHANG) == pid[i];
            nap(has_ended ? 0 : 1000);
        }
        if (!has_ended)
            stands_still("at the end");
        EQUAL(status, 0);
    }
    int r = pz_rwlock_trywrlock(&all->lock.rw);
    if (r == ENOTRECOVERABLE && spoils)
        r = pz_rwlock_reinit(&all->lock.rw) ? -1 : pz_rwlock_trywrlock(&all->lock.rw);
    if (r == EOWNERDEAD)
        r = pz_rwlock_consistent(&all->lock.rw);
    EQUAL(r, 0);
    EQUAL(pz_rwlock_unlock(&all->lock.rw), 0);
}

int main(int argc, char **argv)
{
    if (argc < 5)
        return 2;
    const char *flags = argc > 5 ? argv[5] : "";
    long kills = atol(argv[1]);
    processes = atoi(argv[2]), threads = atoi(argv[3]);
    spoils = !!strchr(flags, 'u'), ends = !!strchr(flags, 'e'), stops = !!strchr(flags, 't');
    seed_random(1);
    file = memfd_create("rwstorm", 0);
    if (file < 0 || ftruncate(file, sizeof *all) || processes > PROCESSES || threads > THREADS || threads < 1)
        return 2;
    all = map_elsewhere();
    if (pz_rwlock_init(&all->lock.rw, (unsigned)atoi(argv[4])))
        return 2;
    for (int i = 0; i < processes; i++)
        start(i);
    for (long k = 0; k < kills; k++) {
        kill_one();
        if (k % 200 == 199)
            see_progress();
    }
    end_storm();
    printf("%ld kills, %d processes of %d threads, %s lanes %s: %ld reads, %ld writes, EOWNERDEAD %ld, and %ld after a "
           "death in a repair, EBUSY %ld, ETIMEDOUT %ld, ENOTRECOVERABLE %ld\n",
           kills, processes, threads, argv[4], flags, (long)all->reads, (long)all->writes, (long)all->told,
           (long)all->told_again, (long)all->busy, (long)all->late, (long)all->lost);
    return end_checks();
}
