/* Moments that chance doesn't reach: a thread is stopped in the middle of a call, and memory is used again right after
 * the release. The library is loaded in front. usage: moments [EACH]: memory is used again after each EACH-th
 * instruction */
#include "traced.h"

enum { PAGE = 4096, SLEEPERS = 2 };
static struct shared {
    union {
        pthread_mutex_t m;
        unsigned char bytes[PAGE];
    };
    pthread_mutex_t other;
    _Atomic int ready, go, had, done;
} * s;

static void start_over(void)
{
    memset((void *)s, 0, sizeof *s);
    init_robust(&s->m, PTHREAD_MUTEX_NORMAL);
    init_robust(&s->other, PTHREAD_MUTEX_NORMAL);
}

/* A child that owns the mutex until `go` is 1; and if it is to take the mutex again, until `go` is 2. */
static pid_t an_owner(int again)
{
    pid_t p = start_child();
    if (p) {
        until(&s->ready, 1);
        return p;
    }
    pthread_mutex_lock(&s->m);
    atomic_store(&s->ready, 1);
    until(&s->go, 1);
    pthread_mutex_unlock(&s->m);
    if (again) {
        pthread_mutex_lock(&s->m);
        atomic_store(&s->ready, 2);
        until(&s->go, 2);
        pthread_mutex_unlock(&s->m);
    }
    atomic_store(&s->done, 1);
    for (;;)
        pause();
}

static pid_t a_sleeper(void)
{
    pid_t p = start_child();
    if (p) {
        until_it_sleeps(p);
        return p;
    }
    pthread_mutex_lock(&s->m);
    atomic_fetch_add(&s->had, 1);
    pthread_mutex_unlock(&s->m);
    _exit(0);
}

/* A child that stops before its lock, to be traced. */
static pid_t a_traced_locker(void)
{
    pid_t p = start_child();
    if (!p) {
        pass(&s->other);
        be_traced();
        pthread_mutex_lock(&s->m);
        _exit(0);
    }
    wait_for_stop(p);
    return p;
}

/* An heir stops as soon as it is one. It isn't left a wake for longer than an heir waits awake. */
static void an_heir_is_stopped(void)
{
    start_over();
    if (is_plain(&s->m))
        return;
    pid_t owner = an_owner(0), sleeper[SLEEPERS];
    for (int i = 0; i < SLEEPERS; i++)
        sleeper[i] = a_sleeper();
    pid_t heir = a_traced_locker();
    for (int i = 0; i < 10000 && (pid_t)(bell_of(&s->m) & 0x3fffffff) != heir; i++) {
        one_step(heir);
    }
    EQUAL(bell_of(&s->m) & 0x3fffffff, heir);
    nap(1000);
    atomic_store(&s->go, 1);
    CHECK(until(&s->had, SLEEPERS));
    kill_child(heir);
    for (int i = 0; i < SLEEPERS; i++)
        kill_child(sleeper[i]);
    kill_child(owner);
}

/* An owner that frees the mutex just after the heir came, as far as it can see. */
static pid_t an_owner_that_trusts(void)
{
    pid_t p = start_child();
    if (p) {
        until(&s->ready, 1);
        return p;
    }
    pthread_mutex_lock(&s->m);
    atomic_store(&s->ready, 1);
    until(&s->go, 1);
    struct timespec t;
    clock_gettime(CLOCK_MONOTONIC, &t);
    ((volatile uint32_t *)&s->m)[3] = (uint32_t)(t.tv_sec * 1000000 + t.tv_nsec / 1000);
    pthread_mutex_unlock(&s->m);
    atomic_store(&s->done, 1);
    for (;;)
        pause();
}

enum { GOES_ON, DIES, ANOTHER_UNLOCKS, ENDS };

/* An heir stops as soon as it is one, and is left a wake. The sleeper sleeps until the heir goes on or dies, or another
 * thread unlocks. Returns 0 if the unlock came too late to leave it a wake. */
static int a_stopped_heir_is_left_a_wake(int how)
{
    start_over();
    pid_t owner = an_owner_that_trusts(), sleeper = a_sleeper(), heir = a_traced_locker();
    for (int i = 0; i < MOST_STEPS && (pid_t)(bell_of(&s->m) & 0x3fffffff) != heir; i++)
        one_step(heir);
    atomic_store(&s->go, 1);
    until(&s->done, 1);
    until_it_sleeps(sleeper);
    int left = !atomic_load(&s->had);
    if (how == GOES_ON)
        let_go(heir);
    else if (how == DIES)
        kill_child(heir);
    else
        nap(1000);
    if (how == ANOTHER_UNLOCKS)
        EQUAL(pass(&s->m), 0);
    check_that(until(&s->had, 1), __FILE__, __LINE__, "a stopped heir: case %d: the sleeper sleeps on", how);
    if (how != DIES)
        kill_child(heir);
    kill_child(sleeper);
    kill_child(owner);
    return left;
}
static void stopped_heirs_are_left_a_wake(void)
{
    for (int how = 0; how < ENDS && !is_plain(&s->m); how++) {
        int tries = 0;
        while (tries < 100 && !checks_failed && !a_stopped_heir_is_left_a_wake(how))
            tries++;
        if (tries == 100)
            printf("a stopped heir: case %d: this machine is too busy\n", how);
    }
}

/* A thread that was woken stops before it does anything. The owner takes the mutex again; once it has had it for long,
 * its unlock wakes another one. */
static void a_woken_thread_is_stopped(void)
{
    start_over();
    pid_t owner = an_owner(1), first = a_traced_locker();
    let_sleep(first);
    pid_t second = a_sleeper();
    atomic_store(&s->go, 1);
    until(&s->ready, 2);
    nap(20000);
    atomic_store(&s->go, 2);
    CHECK(until(&s->had, 1));
    kill_child(first);
    kill_child(second);
    kill_child(owner);
}

/* ---- The memory of a mutex is another's as soon as it is released. */

enum { NOBODY_SLEEPS, ONE_SLEEPS, ONE_COMES, AN_HEIR, CASES };

/* Not a thread of the library: it sleeps on the cell, and doesn't touch the memory when it is woken. */
static pid_t a_plain_sleeper(void)
{
    pid_t p = start_child();
    if (p) {
        until_it_sleeps(p);
        return p;
    }
    syscall(SYS_futex, &s->m, 0, (uint32_t)cell_of(&s->m), NULL, NULL, 0);
    for (;;)
        pause();
}

static pid_t an_unlocker(void)
{
    pid_t p = start_child();
    if (!p) {
        pass(&s->other);
        pthread_mutex_lock(&s->m);
        be_traced();
        pthread_mutex_unlock(&s->m);
        atomic_store(&s->done, 1);
        raise(SIGSTOP);
        _exit(0);
    }
    wait_for_stop(p);
    return p;
}

static void prepare(int which, pid_t heir)
{
    struct timespec t;
    clock_gettime(CLOCK_MONOTONIC, &t);
    *(volatile uint64_t *)&s->m |= 1u << 31;
    if (which == ONE_COMES || which == AN_HEIR) {
        ((volatile uint32_t *)&s->m)[3] = (uint32_t)(t.tv_sec * 1000000 + t.tv_nsec / 1000);
        ((volatile uint32_t *)&s->m)[2] = 1u << 31 | (which == AN_HEIR ? (uint32_t)heir : 0);
    }
}

/* Writes a pattern over the mutex `more` instructions after its release. Returns 0 if the unlock had ended before. */
static int use_again_after(int which, int more, unsigned char pattern)
{
    int changed = 0;
    start_over();
    pid_t p = an_unlocker(), sleeper = 0;
    prepare(which, getpid());
    if (which == ONE_SLEEPS)
        sleeper = a_plain_sleeper();
    for (int left = more; left >= 0 && !atomic_load(&s->done);) {
        one_step(p);
        left -= owner_of(&s->m) != p;
    }
    int ended = atomic_load(&s->done);
    memset(s->bytes, pattern, PAGE);
    if (pattern == 1) { /* the bell's COMES alone */
        memset(s->bytes, 0, PAGE);
        s->bytes[11] = 0x80;
    }
    ptrace(PTRACE_CONT, p, 0, 0);
    int stopped = wait_for_stop(p) >= 0;
    for (int i = 0; i < PAGE; i++)
        changed += s->bytes[i] != (pattern == 1 ? (i == 11 ? 0x80 : 0) : pattern);
    check_that(stopped && changed == 0, __FILE__, __LINE__, "case %d: %d instructions after: %d bytes changed", which,
               more, changed);
    kill_child(p);
    if (sleeper)
        kill_child(sleeper);
    return !ended;
}

/* The thread that an unlock trusts is gone when the unlock has released the cell: then the unlock wakes a sleeper. One
 * that sleeps isn't the heir any more. */
static void a_trusted_thread_goes(void)
{
    start_over();
    pid_t p = an_unlocker(), sleeper = a_sleeper();
    EQUAL(bell_of(&s->m), 0);
    if (!is_plain(&s->m)) {
        prepare(ONE_COMES, 0);
        ((volatile uint32_t *)&s->m)[3] += 9000; /* us: trusted for longer */
    }
    for (int n = 0; n < 5000 && owner_of(&s->m) == p; n++) {
        one_step(p);
    }
    ((volatile uint32_t *)&s->m)[2] = 0;
    ptrace(PTRACE_CONT, p, 0, 0);
    wait_for_stop(p);
    CHECK(until(&s->had, 1));
    kill_child(p);
    kill_child(sleeper);
}

static void memory_is_used_again(int each)
{
    static const unsigned char patterns[] = {0, 1, 0xff};
    for (int which = 0; which < CASES; which++)
        for (size_t i = 0; i < sizeof patterns; i++) {
            int failed = checks_failed;
            for (int more = 0; more < 5000 && failed == checks_failed && use_again_after(which, more, patterns[i]);
                 more += each)
                ;
        }
}

/* An unlock that woke nobody takes WAITERS from its own turn of the cell only: not after the mutex was taken and freed,
 * or was made again, taken and freed. Here as if another thread slept since then. */
static int take_turns_after(int more, int again)
{
    start_over();
    pid_t p = an_unlocker();
    prepare(NOBODY_SLEEPS, 0);
    for (int left = more; left >= 0 && !atomic_load(&s->done);) {
        one_step(p);
        left -= owner_of(&s->m) != p;
    }
    int ended = atomic_load(&s->done);
    if (again)
        init_robust(&s->m, PTHREAD_MUTEX_NORMAL);
    pass(&s->m);
    *(volatile uint64_t *)&s->m |= 1ull << 31 | (is_plain(&s->m) ? 0 : 1ull << 33); /* WAITERS, OWED */
    ptrace(PTRACE_CONT, p, 0, 0);
    wait_for_stop(p);
    check_that(cell_of(&s->m) >> 31 & 1, __FILE__, __LINE__, "%d instructions after: WAITERS is gone", more);
    kill_child(p);
    return !ended;
}
static void turns_are_told_apart(int each)
{
    for (int again = 0; again < 2; again++)
        for (int more = 0; more < 5000 && take_turns_after(more, again); more += each)
            ;
}

int main(int argc, char **argv)
{
    begin_checks(900);
    s = shared_memory(sizeof *s);
    an_heir_is_stopped();
    stopped_heirs_are_left_a_wake();
    a_woken_thread_is_stopped();
    a_trusted_thread_goes();
    memory_is_used_again(argc > 1 ? atoi(argv[1]) : 1);
    turns_are_told_apart(argc > 1 ? atoi(argv[1]) : 1);
    return end_checks();
}
