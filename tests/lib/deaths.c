/* A death before each instruction of a call. A victim makes N instructions of it by single steps, and is killed, for N
 * from 0 to the call's end, with 0 to 2 other threads asleep. Then all others have to get the mutex.
 *
 *   deaths EVERY [OPERATION [SLEEPERS]]
 *
 * kills before each EVERY-th instruction. In lock-r and timed-r the owner frees the mutex at one of the last 40
 * instructions before the death. */
#include "../check.h"
#include <pazdrig.h>
#include <stdatomic.h>
#include <sys/ptrace.h>

enum { MOST_STEPS = 6000, MOST_OTHERS = 8 };
static struct {
    pz_mutex mutex, other;
    pz_cond cond;
    _Atomic int ready, waiting, go, victim_goes, is_done, waits_are_over;
    volatile long a, b;
} * all;

/* What an operation needs: an owner, the victim as owner, sleepers on the condition variable, a dead owner before;
 * FIRST: it is the victim's first call, which asks the kernel and the clock, so its instructions aren't always the
 * same. */
enum { OWNER = 1, OWNS = 2, CONDS = 4, DEAD_OWNER = 8, WAITS = 16, RELEASED = 32, TIMED = 64, FIRST = 128 };
enum call { LOCK, CLOCKLOCK, TRYLOCK, UNLOCK, WAIT, CLOCKWAIT, SIGNAL, BROADCAST };
static const struct operation {
    const char *name;
    int call, needs, fewest, most; /* sleepers */
} operations[] = {
    {"lock-free", LOCK, 0, 0, 0},
    {"lock-first", LOCK, FIRST, 0, 0},
    {"trylock-free", TRYLOCK, 0, 0, 0},
    {"lock", LOCK, OWNER, 0, 2},
    {"timed", CLOCKLOCK, OWNER | TIMED, 0, 2},
    {"trylock", TRYLOCK, OWNER, 0, 2},
    {"unlock", UNLOCK, OWNS, 0, 2},
    {"unusable", UNLOCK, OWNS | DEAD_OWNER, 0, 2},
    {"wait", WAIT, OWNS | WAITS, 0, 2},
    {"signal", SIGNAL, OWNS | CONDS, 0, 2},
    {"broadcast", BROADCAST, OWNS | CONDS, 0, 2},
    {"timedwait", CLOCKWAIT, OWNS | WAITS, 0, 2},
    {"lock-r", LOCK, OWNER | RELEASED, 1, 2},
    {"timed-r", CLOCKLOCK, OWNER | RELEASED | TIMED, 1, 2},
};
static const struct operation *op;
static pid_t other[MOST_OTHERS], owner, victim;
static int others;

/* After a lock that returned r: repairs, and counts. */
static void take(int r)
{
    if (r == EOWNERDEAD) {
        all->a = all->b;
        pz_mutex_consistent(&all->mutex);
        pz_cond_broadcast(&all->cond, &all->mutex);
    } else if (r == ENOTRECOVERABLE && (op->needs & DEAD_OWNER)) {
        _exit(0);
    } else if (r || all->a != all->b) {
        _exit(r ? r : 9);
    }
    all->a++;
    all->b++;
}
static void give(void)
{
    if (pz_mutex_unlock(&all->mutex))
        _exit(10);
}

/* ---- The others. */

static void add_locker(void)
{
    pid_t p = start_child();
    if (p == 0) {
        take(pz_mutex_lock(&all->mutex));
        give();
        _exit(0);
    }
    other[others++] = p;
    until_asleep(p);
}
static void add_waiter(void)
{
    int before = all->waiting;
    pid_t p = start_child();
    if (p == 0) {
        take(pz_mutex_lock(&all->mutex));
        while (!all->waits_are_over) {
            atomic_fetch_add(&all->waiting, 1);
            take(pz_cond_wait(&all->cond, &all->mutex));
        }
        give();
        _exit(0);
    }
    other[others++] = p;
    while (all->waiting == before)
        nap(20);
    until_asleep(p);
}
static void add_owner(void)
{
    owner = start_child();
    if (owner == 0) {
        take(pz_mutex_lock(&all->mutex));
        all->ready = 1;
        while (!all->go)
            nap(50);
        give();
        all->ready = 2;
        _exit(0);
    }
    while (all->ready != 1)
        nap(20);
}
static void add_dead_owner(void)
{
    pid_t p = start_child();
    if (p == 0) {
        pz_mutex_lock(&all->mutex);
        _exit(0);
    }
    status_of(p);
}

/* ---- The victim. */

/* Stops until the parent steps through the call. Everything else is decided before. */
static void call(enum call which)
{
    struct timespec t = after_us(CLOCK_MONOTONIC, 3000);
    long self = getpid();
    ptrace(PTRACE_TRACEME, 0, 0, 0);
    syscall(SYS_kill, self, SIGSTOP);
    switch (which) {
    case LOCK:
        pz_mutex_lock(&all->mutex);
        break;
    case CLOCKLOCK:
        pz_mutex_clocklock(&all->mutex, CLOCK_MONOTONIC, &t);
        break;
    case TRYLOCK:
        pz_mutex_trylock(&all->mutex);
        break;
    case UNLOCK:
        pz_mutex_unlock(&all->mutex);
        break;
    case WAIT:
        pz_cond_wait(&all->cond, &all->mutex);
        break;
    case CLOCKWAIT:
        pz_cond_clockwait(&all->cond, &all->mutex, CLOCK_MONOTONIC, &t);
        break;
    case SIGNAL:
        pz_cond_signal(&all->cond, &all->mutex);
        break;
    case BROADCAST:
        pz_cond_broadcast(&all->cond, &all->mutex);
        break;
    }
}
static void add_victim(void)
{
    int status;
    victim = start_child();
    if (victim == 0) {
        if (!(op->needs & FIRST))
            pz_mutex_lock(&all->other), pz_mutex_unlock(&all->other);
        if (op->needs & OWNS) {
            int r = pz_mutex_lock(&all->mutex);
            if (!(op->needs & DEAD_OWNER))
                take(r);
            all->ready = 3;
            while (!all->victim_goes)
                nap(50);
        }
        call((enum call)op->call);
        all->is_done = 1;
        for (;;)
            pause();
    }
    if (!(op->needs & OWNS))
        waitpid(victim, &status, 0);
    else
        while (all->ready != 3)
            nap(20);
}
static void begin(int sleepers)
{
    int status;
    memset(all, 0, sizeof *all);
    others = 0, owner = 0;
    for (int i = 0; (op->needs & CONDS) && i < sleepers; i++)
        add_waiter();
    if (op->needs & DEAD_OWNER)
        add_dead_owner();
    if (op->needs & OWNER)
        add_owner();
    add_victim();
    if (!(op->needs & (CONDS | FIRST)) && op->needs)
        for (int i = 0; i < sleepers; i++)
            add_locker();
    else if (sleepers)
        add_locker();
    if (op->needs & OWNS) {
        all->victim_goes = 1;
        waitpid(victim, &status, 0);
    }
}

/* The victim sleeps in its call: lets it continue. */
static void release_victim(void)
{
    if ((op->needs & OWNER) && !(op->needs & TIMED))
        all->go = 1;
    if (op->needs & WAITS) {
        take(pz_mutex_lock(&all->mutex));
        pz_cond_signal(&all->cond, &all->mutex);
        give();
    }
}
static int one_step(int *is_released)
{
    int status;
    ptrace(PTRACE_SINGLESTEP, victim, 0, 0);
    for (long waits = 0; waitpid(victim, &status, WNOHANG) != victim; waits++) {
        if (waits > 40)
            nap(100);
        if (waits > 60 && !*is_released && state_of(victim) == 'S' && is_in_futex(victim))
            *is_released = 1, release_victim();
        if (waits > patience() * 10000l)
            return CHECK(!"a step ends");
    }
    return WIFSTOPPED(status) && !all->is_done;
}
/* Makes `n` steps. Returns whether the call had ended by then. */
static int make_steps(long n)
{
    int is_released = 0;
    long at = op->needs & RELEASED ? n - 1 - (long)a_random(n < 40 ? (unsigned)n + 1 : 40) : -1;
    for (long k = 0; k < n; k++) {
        if (k == at)
            all->go = 1;
        if (k == at)
            for (long waits = 0; all->ready != 2 && waits < patience() * 10000l; waits++)
                nap(50);
        if (!one_step(&is_released))
            return 1;
    }
    return 0;
}

/* ---- After the death. */

/* Waits until all others have ended. One more process broadcasts to those that wait. */
static int others_end(void)
{
    if (op->needs & (CONDS | WAITS)) {
        pid_t p = start_child();
        if (p == 0) {
            take(pz_mutex_lock(&all->mutex));
            pz_cond_broadcast(&all->cond, &all->mutex);
            give();
            _exit(0);
        }
        other[others++] = p;
    }
    if (owner)
        other[others++] = owner;
    return all_end(other, others);
}
static void check_mutex(void)
{
    int r = pz_mutex_trylock(&all->mutex);
    if (r == EOWNERDEAD)
        r = pz_mutex_consistent(&all->mutex);
    if (r == ENOTRECOVERABLE && (op->needs & DEAD_OWNER))
        return;
    EQUAL(r, 0);
    EQUAL(pz_mutex_unlock(&all->mutex), 0);
    EQUAL(pz_mutex_owner(&all->mutex), 0);
    EQUAL(all->mutex.words[2] & 0x3fffffff, 0); /* nobody has the slot */
}
/* Returns whether the call ends before instruction n. */
static int die_before(long n, int sleepers)
{
    int failed = checks_failed;
    begin(sleepers);
    int is_over = make_steps(n);
    kill_child(victim);
    all->go = all->waits_are_over = 1;
    if (CHECK(others_end()))
        check_mutex();
    for (int i = 0; i < others; i++)
        if (other[i])
            kill_child(other[i]);
    if (checks_failed > failed)
        fprintf(stderr, "%s, %d asleep, death before instruction %ld: cell %llx slot %llx count %llx\n", op->name,
                sleepers, n, (unsigned long long)all->mutex.words[0], (unsigned long long)all->mutex.words[2],
                (unsigned long long)all->cond.words[0]);
    return is_over || checks_failed > 3;
}

int main(int argc, char **argv)
{
    long every = argc > 1 ? atol(argv[1]) : 1;
    setvbuf(stdout, NULL, _IOLBF, 0);
    seed_random(1);
    all = shared_memory(sizeof *all);
    for (op = operations; op < operations + sizeof operations / sizeof *operations; op++)
        for (int s = op->fewest; s <= op->most; s++) {
            long n = every > 1 ? (long)a_random((unsigned)every) : 0, deaths = 0;
            if ((argc > 2 && strcmp(argv[2], op->name)) || (argc > 3 && atoi(argv[3]) != s))
                continue;
            while (++deaths, !die_before(n, s) && n < MOST_STEPS)
                n += every;
            printf("%-12s %d asleep: %ld deaths, up to instruction %ld\n", op->name, s, deaths, n);
        }
    return end_checks();
}
