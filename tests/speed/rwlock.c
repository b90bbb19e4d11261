/* Rounds of a lock that is read, or written now and then: pthread_rwlock_t between processes, pz_rwlock, one pz_mutex.
 *
 *   rwlock [RUNS [SECONDS [LANES [PROCESSES WRITES_IN_1000]..]]]
 *
 * A reader reads two words, and a writer changes them. Prints millions of rounds a second, medians of the runs, which
 * are made in turn. */
#include "pazdrig.h"
#include <pthread.h>
#include <stdatomic.h>
#include <stdio.h>
#include <stdlib.h>
#include <string.h>
#include <sys/mman.h>
#include <sys/prctl.h>
#include <signal.h>
#include <sys/wait.h>
#include <time.h>
#include <unistd.h>

enum { MOST = 64, RUNS = 99, KINDS = 3 };

static struct shared {
    PZ_RWLOCK(PZ_MOST_LANES) lock;
    pz_mutex mutex;
    _Alignas(64) pthread_rwlock_t theirs;
    _Alignas(64) volatile long a, b;
    _Alignas(64) _Atomic int stops;
    struct {
        _Alignas(128) long rounds;
    } of[MOST];
} *shared;

static void begin(int kind, int writes)
{
    if (kind == 0)
        writes ? pthread_rwlock_wrlock(&shared->theirs) : pthread_rwlock_rdlock(&shared->theirs);
    else if (kind == 1)
        writes ? pz_rwlock_wrlock(&shared->lock.rw) : pz_rwlock_rdlock(&shared->lock.rw);
    else
        pz_mutex_lock(&shared->mutex);
}
static void end(int kind)
{
    if (kind == 0)
        pthread_rwlock_unlock(&shared->theirs);
    else if (kind == 1)
        pz_rwlock_unlock(&shared->lock.rw);
    else
        pz_mutex_unlock(&shared->mutex);
}

static void work(int kind, int who, unsigned in_1000)
{
    unsigned long seed = (unsigned long)who * 77 + 3;
    long rounds = 0;
    for (; !atomic_load_explicit(&shared->stops, memory_order_relaxed); rounds++) {
        seed ^= seed << 13, seed ^= seed >> 7, seed ^= seed << 17;
        int writes = seed % 1000 < in_1000;
        begin(kind, writes);
        if (writes)
            shared->a++, shared->b++;
        else if (shared->a != shared->b)
            abort();
        end(kind);
    }
    shared->of[who].rounds = rounds;
}

static double rate(int kind, int processes, unsigned in_1000, double seconds)
{
    struct timespec pause = {(time_t)seconds, (long)((seconds - (double)(time_t)seconds) * 1e9)}, from, to;
    shared->stops = 0;
    clock_gettime(CLOCK_MONOTONIC, &from);
    for (int i = 0; i < processes; i++)
        if (fork() == 0) {
            prctl(PR_SET_PDEATHSIG, SIGKILL);
            work(kind, i, in_1000);
            _exit(0);
        }
    nanosleep(&pause, NULL);
    shared->stops = 1;
    while (wait(NULL) > 0)
        continue;
    clock_gettime(CLOCK_MONOTONIC, &to);
    double sum = 0, time = (double)(to.tv_sec - from.tv_sec) + (double)(to.tv_nsec - from.tv_nsec) / 1e9;
    for (int i = 0; i < processes; i++)
        sum += (double)shared->of[i].rounds;
    return sum / time / 1e6;
}

static int by_size(const void *a, const void *b)
{
    double x = *(const double *)a, y = *(const double *)b;
    return (x > y) - (x < y);
}

static void row(int runs, double seconds, int processes, unsigned in_1000)
{
    double rates[KINDS][RUNS];
    for (int run = 0; run < runs; run++)
        for (int kind = 0; kind < KINDS; kind++)
            rates[kind][run] = rate(kind, processes, in_1000, seconds);
    for (int kind = 0; kind < KINDS; kind++)
        qsort(rates[kind], (size_t)runs, sizeof(double), by_size);
    double theirs = rates[0][runs / 2], ours = rates[1][runs / 2], mutex = rates[2][runs / 2];
    printf("%9d %6u %14.2f %14.2f %8.2f %10.2f %8.2f\n", processes, in_1000, theirs, ours, ours / theirs, mutex,
           ours / mutex);
    fflush(stdout);
}

int main(int count, char **words)
{
    static char *all[] = {"1", "0", "2", "0", "4",   "0", "16", "0", "64",  "0",  "1",   "1",  "4",   "1",
                          "16", "1", "64", "1", "1", "10", "4",  "10", "16", "10", "64",  "10", "1",   "100",
                          "4", "100", "16", "100", "64", "100"};
    int runs = count > 1 ? atoi(words[1]) : 5, lanes = count > 3 ? atoi(words[3]) : 8;
    double seconds = count > 2 ? atof(words[2]) : 0.3;
    char **rows = count > 4 ? words + 4 : all;
    int more = count > 4 ? count - 4 : (int)(sizeof all / sizeof *all);
    pthread_rwlockattr_t shares;
    shared = mmap(NULL, sizeof *shared, PROT_READ | PROT_WRITE, MAP_SHARED | MAP_ANONYMOUS, -1, 0);
    if (shared == MAP_FAILED || runs < 1 || runs > RUNS || pz_rwlock_init(&shared->lock.rw, (unsigned)lanes))
        return 2;
    pthread_rwlockattr_init(&shares);
    pthread_rwlockattr_setpshared(&shares, PTHREAD_PROCESS_SHARED);
    pthread_rwlock_init(&shared->theirs, &shares);
    printf("processes writes  pthread_rwlock      pz_rwlock    ratio   pz_mutex    ratio   (M a second; writes in 1000; "
           "%d lanes)\n", lanes);
    for (int i = 0; i + 1 < more; i += 2)
        row(runs, seconds, atoi(rows[i]), (unsigned)atoi(rows[i + 1]));
}
