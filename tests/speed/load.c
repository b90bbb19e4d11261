/* Many processes on one mutex, with work inside and outside it, in turn with the C library's. Prints a row for each
 * implementation: thousand rounds a second, CPU time of a round, and the time from an unlock until a waiting process
 * has the mutex (median and 99th percentile). Then come the longest lock, and the share of the process with the fewest
 * rounds in those of the one with the most. Last are rounds, CPU time and longest lock as ratios to the C library's.
 * usage: load RUNS SECONDS [PROCESSES INSIDE OUTSIDE].., work in microseconds */
#include "implementations.h"
#include <sys/resource.h>

enum { MOST_RUNS = 51, MOST = 64, COLUMNS = 6, PARTS = 8, BUCKETS = 62 * PARTS };

/* The results of one process, in cache lines of its own. */
struct share {
    long rounds;
    uint64_t longest;
    double cpu_us;
    long hand_overs[BUCKETS]; /* by their ticks, PARTS buckets to each power of two */
} __attribute__((aligned(128)));

static struct shared {
    struct pair pair[MOST_IMPLEMENTATIONS];
    _Atomic int ready __attribute__((aligned(128)));
    _Atomic int go __attribute__((aligned(128)));
    _Atomic int stop __attribute__((aligned(128)));
    struct { /* what the mutex guards */
        volatile uint64_t released;
        volatile int owner;
        volatile long rounds;
    } guarded __attribute__((aligned(128)));
    struct share of[MOST];
} * shared;
static double ticks_a_us;

static uint64_t ticks(void)
{
#ifdef __x86_64__
    return __builtin_ia32_rdtsc();
#else
    return (uint64_t)(now() * 1e9);
#endif
}

static void find_ticks(void)
{
    double since = now();
    uint64_t first = ticks();
    while (now() - since < 0.05)
        ;
    ticks_a_us = (double)(ticks() - first) / ((now() - since) * 1e6);
}

static void work(double us)
{
    uint64_t since = ticks(), most = (uint64_t)(us * ticks_a_us);
    while (us > 0 && ticks() - since < most)
        ;
}

static unsigned bucket_of(uint64_t t)
{
    unsigned shift = t < 2 * PARTS ? 0 : 60 - (unsigned)__builtin_clzll(t);
    return shift * PARTS + (unsigned)(t >> shift);
}
static double ticks_of(unsigned bucket)
{
    unsigned shift = bucket < 2 * PARTS ? 0 : bucket / PARTS - 1;
    return (double)(bucket - shift * PARTS) * (double)(1ull << shift);
}

static double cpu_us(void)
{
    struct rusage r;
    getrusage(RUSAGE_SELF, &r);
    return (double)(r.ru_utime.tv_sec + r.ru_stime.tv_sec) * 1e6 + (double)(r.ru_utime.tv_usec + r.ru_stime.tv_usec);
}

static void one_round(const struct implementation *use, void *mutex, int self, double inside)
{
    struct share *mine = &shared->of[self];
    uint64_t asked = ticks();
    if (use->lock(mutex))
        _exit(1);
    uint64_t had = ticks(), released = shared->guarded.released;
    if (shared->guarded.owner != self && released > asked && had > released)
        mine->hand_overs[bucket_of(had - released)]++;
    if (had - asked > mine->longest)
        mine->longest = had - asked;
    shared->guarded.owner = self;
    shared->guarded.rounds++;
    work(inside);
    shared->guarded.released = ticks();
    if (use->unlock(mutex))
        _exit(1);
    mine->rounds++;
}

static void one_process(int i, int self, double inside, double outside)
{
    const struct implementation *use = &implementations[i];
    void *mutex = &shared->pair[i].mutex;
    srand((unsigned)self + 1);
    if (use->lock(mutex) || use->unlock(mutex))
        _exit(1);
    shared->ready++;
    while (!shared->go)
        rest(100);
    double since = cpu_us();
    while (!atomic_load_explicit(&shared->stop, memory_order_relaxed)) {
        one_round(use, mutex, self, inside);
        if (outside > 0)
            work(outside * (0.5 + rand() % 1000 / 1000.0)); /* so that they don't keep step */
    }
    shared->of[self].cpu_us = cpu_us() - since;
    _exit(0);
}

/* ---- Results. */

static double percentile(int processes, double part)
{
    static long sum[BUCKETS];
    long many = 0, below = 0;
    for (unsigned k = 0; k < BUCKETS; k++) {
        sum[k] = 0;
        for (int i = 0; i < processes; i++)
            sum[k] += shared->of[i].hand_overs[k];
        many += sum[k];
    }
    for (unsigned k = 0; k < BUCKETS; k++)
        if ((below += sum[k]) > (long)((double)many * part))
            return ticks_of(k) / ticks_a_us;
    return 0;
}

static void sum_up(int processes, double seconds, double column[COLUMNS])
{
    long rounds = 0, least = shared->of[0].rounds, most = 0;
    double cpu = 0;
    uint64_t longest = 0;
    for (int i = 0; i < processes; i++) {
        const struct share *s = &shared->of[i];
        rounds += s->rounds;
        cpu += s->cpu_us;
        least = s->rounds < least ? s->rounds : least;
        most = s->rounds > most ? s->rounds : most;
        longest = s->longest > longest ? s->longest : longest;
    }
    CHECK(rounds > 0 && rounds == shared->guarded.rounds);
    column[0] = (double)rounds / seconds / 1e3;
    column[1] = cpu / (double)rounds;
    column[2] = percentile(processes, 0.5);
    column[3] = percentile(processes, 0.99);
    column[4] = (double)longest / ticks_a_us / 1e3;
    column[5] = (double)least / (double)most;
}

static void measure(int i, int processes, double inside, double outside, double seconds, double column[COLUMNS])
{
    pid_t child[MOST];
    shared->ready = shared->go = shared->stop = 0;
    memset(shared->of, 0, sizeof shared->of);
    shared->guarded.rounds = 0;
    shared->guarded.owner = -1;
    for (int k = 0; k < processes; k++)
        if (!(child[k] = a_child()))
            one_process(i, k, inside, outside);
    while (shared->ready < processes)
        rest(100);
    double since = now();
    shared->go = 1;
    rest((long)(seconds * 1e6));
    shared->stop = 1;
    double until = now();
    for (int k = 0; k < processes; k++)
        ends_well(child[k]);
    sum_up(processes, until - since, column);
}

static void row(int processes, double inside, double outside, int runs, double seconds)
{
    static double each[MOST_IMPLEMENTATIONS][COLUMNS][MOST_RUNS];
    double c[MOST_IMPLEMENTATIONS][COLUMNS], column[COLUMNS];
    for (int k = 0; k < runs; k++)
        for (int i = 0; i < implementation_count; i++) {
            measure(i, processes, inside, outside, seconds, column);
            for (int j = 0; j < COLUMNS; j++)
                each[i][j][k] = column[j];
        }
    for (int i = 0; i < implementation_count; i++) {
        for (int j = 0; j < COLUMNS; j++)
            c[i][j] = median(each[i][j], runs);
        printf("%3d %4g/%-4g %-6s %9.1f %9.2f %9.1f %9.1f %9.1f %6.2f", processes, inside, outside,
               implementations[i].name, c[i][0], c[i][1], c[i][2], c[i][3], c[i][4], c[i][5]);
        printf("   %5.2f %5.2f %5.2f\n", c[i][0] / c[0][0], c[i][1] / c[0][1], c[i][4] / c[0][4]);
    }
    fflush(stdout);
}

int main(int argc, char **argv)
{
    int runs = argc > 1 ? atoi(argv[1]) : 3;
    double seconds = argc > 2 ? atof(argv[2]) : 0.5;
    CHECK(runs >= 1 && runs <= MOST_RUNS && seconds > 0);
    find_implementations();
    shared = shared_memory(sizeof *shared);
    for (int i = 0; i < implementation_count; i++)
        initialise_pair(&shared->pair[i], i);
    find_ticks();
    puts("  n in/out us          rounds k  cpu us a  to next   99 of   longest  least/   ratios to libc:\n"
         "                       a second  round     one, us   100, us lock, ms  most    rounds, cpu, longest");
    for (int i = 3; i + 2 < argc; i += 3)
        row(atoi(argv[i]), atof(argv[i + 1]), atof(argv[i + 2]), runs, seconds);
    return 0;
}
