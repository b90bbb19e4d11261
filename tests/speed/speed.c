/* Single calls, in turn with the C library's: pairs alone and contended, signals, refusals, and how long deaths and
 * deadlines take. Prints a row for each case, with the median of RUNS and the ratio to the C library.
 * usage: speed RUNS */
#include "implementations.h"
#include <errno.h>

enum { MOST_RUNS = 101, PAIRS = 200000, SLICES = 20, HAND_OVERS = 4000 };

static struct shared {
    struct pair pair[MOST_IMPLEMENTATIONS][2];
    _Atomic int go __attribute__((aligned(128)));
    _Atomic int ready;
    _Atomic long had_at; /* when the sleeper got the mutex, in ns */
    volatile long counter __attribute__((aligned(128)));
} * shared;

static struct implementation *use; /* what is measured now, and its mutex and condition variable */
static void *mutex, *other, *cond;

static void choose(int i)
{
    use = &implementations[i];
    mutex = &shared->pair[i][0].mutex;
    cond = &shared->pair[i][0].cond;
    other = &shared->pair[i][1].mutex;
}

/* ---- Pairs of lock and unlock. */

static void pairs(long n)
{
    for (long i = 0; i < n; i++) {
        if (use->lock(mutex))
            _exit(1);
        shared->counter++;
        if (use->unlock(mutex))
            _exit(1);
    }
}

static double alone(int unused)
{
    (void)unused;
    double since = now();
    pairs(PAIRS / SLICES);
    return (now() - since) * 1e9 / (PAIRS / SLICES);
}

static double alone_with_deadline(int unused)
{
    static const struct timespec far_away = {INT64_MAX, 0};
    (void)unused;
    double since = now();
    for (long i = 0; i < PAIRS / SLICES; i++)
        CHECK(use->clocklock(mutex, CLOCK_MONOTONIC, &far_away) == 0 && use->unlock(mutex) == 0);
    return (now() - since) * 1e9 / (PAIRS / SLICES);
}

static void start_together(int processes)
{
    while (shared->ready < processes)
        rest(100);
    shared->go = 1;
}

static double contended(int processes)
{
    pid_t child[8];
    shared->go = shared->ready = 0;
    for (int i = 0; i < processes; i++)
        if (!(child[i] = a_child())) {
            pairs(1);
            shared->ready++;
            while (!shared->go)
                ;
            pairs(PAIRS);
            _exit(0);
        }
    start_together(processes);
    double since = now();
    for (int i = 0; i < processes; i++)
        ends_well(child[i]);
    return (now() - since) * 1e9 / ((double)PAIRS * processes);
}

/* A lock, a signal or a broadcast for which nobody waits, and an unlock. */
static double notified(int is_broadcast)
{
    int (*notify)(void *, void *) = is_broadcast ? use->broadcast : use->signal;
    double since = now();
    for (long i = 0; i < PAIRS; i++)
        CHECK(use->lock(mutex) == 0 && notify(cond, mutex) == 0 && use->unlock(mutex) == 0);
    return (now() - since) * 1e9 / PAIRS;
}

/* N processes take turns, by a condition variable. */
static void take_turns(int n, int self)
{
    for (long k = 0; k < HAND_OVERS / n; k++) {
        CHECK(use->lock(mutex) == 0);
        while (shared->counter % n != self)
            CHECK(use->wait(cond, mutex) == 0);
        shared->counter++;
        CHECK((n == 2 ? use->signal(cond, mutex) : use->broadcast(cond, mutex)) == 0);
        CHECK(use->unlock(mutex) == 0);
    }
}
static double ping_pong(int n)
{
    pid_t child[8];
    shared->counter = 0;
    double since = now();
    for (int i = 0; i < n; i++)
        if (!(child[i] = a_child())) {
            take_turns(n, i);
            _exit(0);
        }
    for (int i = 0; i < n; i++)
        ends_well(child[i]);
    return (now() - since) * 1e9 / HAND_OVERS;
}

/* ---- Refusals. */

static double refused_to_lock(int unused)
{
    (void)unused;
    CHECK(use->lock(mutex) == 0);
    double since = now();
    for (long i = 0; i < PAIRS; i++)
        CHECK(use->lock(mutex) == EDEADLK);
    double until = now();
    CHECK(use->unlock(mutex) == 0);
    return (until - since) * 1e9 / PAIRS;
}

static double refused_to_unlock(int unused)
{
    (void)unused;
    double since = now();
    for (long i = 0; i < PAIRS; i++)
        CHECK(use->unlock(mutex) == EPERM);
    return (now() - since) * 1e9 / PAIRS;
}

/* ---- An owner in another process, and its death. */

static pid_t an_owner(void)
{
    shared->ready = 0;
    pid_t owner = a_child();
    if (!owner) {
        CHECK(use->lock(other) == 0);
        shared->ready = 1;
        for (;;)
            pause();
    }
    while (!shared->ready)
        rest(50);
    return owner;
}
static void kill_owner(pid_t owner)
{
    kill(owner, SIGKILL);
    CHECK(waitpid(owner, NULL, 0) == owner);
}
static void repair(void) { CHECK(use->consistent(other) == 0 && use->unlock(other) == 0); }
static void end_owner(pid_t owner)
{
    kill_owner(owner);
    CHECK(use->lock(other) == EOWNERDEAD);
    repair();
}

static double busy(int unused)
{
    (void)unused;
    pid_t owner = an_owner();
    double since = now();
    for (long i = 0; i < PAIRS; i++)
        CHECK(use->trylock(other) == EBUSY);
    double until = now();
    end_owner(owner);
    return (until - since) * 1e9 / PAIRS;
}

static double owner_died_before(int unused)
{
    (void)unused;
    kill_owner(an_owner());
    double since = now();
    CHECK(use->lock(other) == EOWNERDEAD);
    double until = now();
    repair();
    return (until - since) * 1e6;
}

static int is_asleep(pid_t process)
{
    char path[64], state = 0;
    snprintf(path, sizeof path, "/proc/%d/stat", (int)process);
    FILE *f = fopen(path, "r");
    if (f && fscanf(f, "%*d %*[^)]) %c", &state) != 1)
        state = 0;
    if (f)
        fclose(f);
    return state == 'S';
}

/* From the kill of an owner until its sleeper gets EOWNERDEAD. */
static double death(int unused)
{
    (void)unused;
    pid_t owner = an_owner(), sleeper = a_child();
    if (!sleeper) {
        int r = use->lock(other);
        shared->had_at = (long)(now() * 1e9);
        CHECK(r == EOWNERDEAD);
        repair();
        _exit(0);
    }
    for (int quiet = 0; quiet < 5; quiet = is_asleep(sleeper) ? quiet + 1 : 0)
        rest(500);
    double since = now();
    kill_owner(owner);
    ends_well(sleeper);
    return (double)shared->had_at / 1e3 - since * 1e6;
}

/* ---- Deadlines. */

static struct timespec in_ms(long ms)
{
    struct timespec t;
    clock_gettime(CLOCK_MONOTONIC, &t);
    t.tv_nsec += ms * 1000000;
    return (struct timespec){t.tv_sec + t.tv_nsec / 1000000000, t.tv_nsec % 1000000000};
}
static double us_after(const struct timespec *t)
{
    return (now() - (double)t->tv_sec - (double)t->tv_nsec * 1e-9) * 1e6;
}

static double late_lock(int ms)
{
    pid_t owner = an_owner();
    struct timespec until = in_ms(ms);
    CHECK(use->clocklock(other, CLOCK_MONOTONIC, &until) == ETIMEDOUT);
    double late = us_after(&until);
    end_owner(owner);
    return late;
}

static double late_wait(int ms)
{
    CHECK(use->lock(mutex) == 0);
    struct timespec until = in_ms(ms);
    CHECK(use->clockwait(cond, mutex, CLOCK_MONOTONIC, &until) == ETIMEDOUT);
    double late = us_after(&until);
    CHECK(use->unlock(mutex) == 0);
    return late;
}

static void row(const char *name, double (*measure)(int), int argument, int runs)
{
    static double each[MOST_IMPLEMENTATIONS][SLICES * MOST_RUNS];
    double middle[MOST_IMPLEMENTATIONS];
    for (int k = 0; k < runs; k++)
        for (int i = 0; i < implementation_count; i++) {
            choose(i);
            each[i][k] = measure(argument);
        }
    printf("%-36s", name);
    for (int i = 0; i < implementation_count; i++)
        printf(" %9.1f", middle[i] = median(each[i], runs));
    for (int i = 1; i < implementation_count; i++)
        printf(" %6.2f", middle[i] / middle[0]);
    puts("");
    fflush(stdout);
}

int main(int argc, char **argv)
{
    int runs = argc > 1 ? atoi(argv[1]) : 9;
    CHECK(runs >= 1 && runs <= MOST_RUNS / 3);
    find_implementations();
    shared = shared_memory(sizeof *shared);
    for (int i = 0; i < implementation_count; i++)
        for (int k = 0; k < 2; k++)
            initialise_pair(&shared->pair[i][k], i);
    printf("%36s", "");
    for (int i = 0; i < implementation_count; i++)
        printf(" %9s", implementations[i].name);
    puts("  ratio");
    row("lock and unlock alone, ns", alone, 0, SLICES * runs);
    row("the same with a deadline, ns", alone_with_deadline, 0, SLICES * runs);
    row("2 processes on one mutex, ns", contended, 2, runs);
    row("4 processes on one mutex, ns", contended, 4, runs);
    row("lock, signal, unlock, ns", notified, 0, runs);
    row("lock, broadcast, unlock, ns", notified, 1, runs);
    row("ping-pong of 2, ns", ping_pong, 2, runs);
    row("ping-pong of 4 by broadcast, ns", ping_pong, 4, runs);
    row("trylock of another's mutex, ns", busy, 0, runs);
    row("lock by its owner (EDEADLK), ns", refused_to_lock, 0, runs);
    row("unlock by another (EPERM), ns", refused_to_unlock, 0, runs);
    row("from SIGKILL to EOWNERDEAD, us", death, 0, 3 * runs);
    row("lock after the owner died, us", owner_died_before, 0, 3 * runs);
    row("from a lock's deadline, 2 ms, us", late_lock, 2, 3 * runs);
    row("from a wait's deadline, 2 ms, us", late_wait, 2, 3 * runs);
    return 0;
}
