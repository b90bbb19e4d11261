/* Condition variables: who is woken, what a wait returns after deaths, signals and deadlines, and with which mutex. */
#include "../check.h"
#include <pazdrig.h>
#include <stdatomic.h>

enum { WAITERS = 3 };
struct pair {
    pz_mutex mutex, other;
    pz_cond cond;
    _Atomic int waiting, tokens;
};
static struct pair *all;
static pid_t waiter[WAITERS];

static void lock(void) { EQUAL(pz_mutex_lock(&all->mutex), 0); }
static void unlock(void) { EQUAL(pz_mutex_unlock(&all->mutex), 0); }

/* Starts a process that waits once, until `deadline` unless that is NULL, and ends with what the wait returned. */
static pid_t add_waiter(struct timespec *deadline)
{
    int before = all->waiting;
    pid_t p = start_child();
    if (p == 0) {
        if (pz_mutex_lock(&all->mutex))
            _exit(98);
        all->waiting++;
        int r = deadline ? pz_cond_clockwait(&all->cond, &all->mutex, CLOCK_MONOTONIC, deadline)
                         : pz_cond_wait(&all->cond, &all->mutex);
        int owns = pz_mutex_owner(&all->mutex) == getpid();
        if (owns != (r != ENOTRECOVERABLE) || (r == EOWNERDEAD && pz_mutex_consistent(&all->mutex)))
            _exit(97);
        if (owns && pz_mutex_unlock(&all->mutex))
            _exit(96);
        _exit(r);
    }
    while (all->waiting == before)
        nap(20);
    until_asleep(p);
    return p;
}
static void begin(int waiters)
{
    memset(all, 0, sizeof *all);
    for (int i = 0; i < waiters; i++)
        waiter[i] = add_waiter(NULL);
}
static int asleep(int waiters)
{
    int n = 0;
    for (int i = 0; i < waiters; i++)
        n += state_of(waiter[i]) == 'S';
    return n;
}

/* Each signal wakes one, in the order in which they came; without the mutex it is refused. */
static void signals(void)
{
    begin(WAITERS);
    EQUAL(pz_cond_signal(&all->cond, &all->mutex), EPERM);
    EQUAL(pz_cond_broadcast(&all->cond, &all->mutex), EPERM);
    for (int i = 0; i < WAITERS; i++) {
        EQUAL(asleep(WAITERS), WAITERS - i);
        lock();
        EQUAL(pz_cond_signal(&all->cond, &all->mutex), 0);
        unlock();
        EQUAL(status_of(waiter[i]), 0);
    }
}
/* A signal to nobody is forgotten. */
static void signal_to_nobody(void)
{
    begin(0);
    lock();
    EQUAL(pz_cond_signal(&all->cond, &all->mutex), 0);
    EQUAL(pz_cond_broadcast(&all->cond, &all->mutex), 0);
    unlock();
    pid_t p = add_waiter(NULL);
    EQUAL(state_of(p), 'S');
    lock();
    EQUAL(pz_cond_signal(&all->cond, &all->mutex), 0);
    unlock();
    EQUAL(status_of(p), 0);
}
static void broadcast(void)
{
    begin(WAITERS);
    lock();
    EQUAL(pz_cond_broadcast(&all->cond, &all->mutex), 0);
    EQUAL(asleep(WAITERS), WAITERS); /* each needs the mutex, and nobody is woken before that is free */
    unlock();
    for (int i = 0; i < WAITERS; i++)
        EQUAL(status_of(waiter[i]), 0);
}
/* The owner dies after its broadcast: one waiter gets EOWNERDEAD and repairs, the others get the mutex. */
static void owner_dies_after_broadcast(void)
{
    begin(WAITERS);
    pid_t p = start_child();
    if (p == 0)
        _exit(pz_mutex_lock(&all->mutex) || pz_cond_broadcast(&all->cond, &all->mutex));
    EQUAL(status_of(p), 0);
    int dead = 0;
    for (int i = 0; i < WAITERS; i++) {
        int r = status_of(waiter[i]);
        dead += r == EOWNERDEAD;
        CHECK(r == 0 || r == EOWNERDEAD);
    }
    EQUAL(dead, 1);
}
/* The mutex becomes unusable after a broadcast: all waiters learn of it. A waiter that nobody woke sleeps on. */
static void mutex_becomes_unusable(void)
{
    begin(WAITERS);
    pid_t p = start_child();
    if (p == 0)
        _exit(pz_mutex_lock(&all->mutex));
    EQUAL(status_of(p), 0);
    EQUAL(pz_mutex_lock(&all->mutex), EOWNERDEAD);
    EQUAL(pz_cond_signal(&all->cond, &all->mutex), 0); /* one, */
    EQUAL(pz_mutex_unlock(&all->mutex), 0);
    EQUAL(status_of(waiter[0]), ENOTRECOVERABLE);
    EQUAL(asleep(WAITERS), WAITERS - 1);
    EQUAL(pz_mutex_reinit(&all->mutex), 0);
    lock();
    EQUAL(pz_cond_broadcast(&all->cond, &all->mutex), 0); /* and the others */
    unlock();
    for (int i = 1; i < WAITERS; i++)
        EQUAL(status_of(waiter[i]), 0);
}

/* ---- Deadlines. */
static void deadlines(void)
{
    struct timespec t, now;
    static const clockid_t clocks[] = {CLOCK_MONOTONIC, CLOCK_REALTIME};
    begin(0);
    lock();
    for (int i = 0; i < 2; i++) {
        t = after_us(clocks[i], 5000);
        EQUAL(pz_cond_clockwait(&all->cond, &all->mutex, clocks[i], &t), ETIMEDOUT);
        clock_gettime(clocks[i], &now);
        CHECK(now.tv_sec > t.tv_sec || (now.tv_sec == t.tv_sec && now.tv_nsec >= t.tv_nsec)); /* never early */
        EQUAL(pz_mutex_owner(&all->mutex), getpid());
    }
    t = after_us(CLOCK_REALTIME, 1000);
    EQUAL(pz_cond_timedwait(&all->cond, &all->mutex, &t), ETIMEDOUT);
    unlock();
}
/* A waiter that a broadcast moved to the mutex, or that a signal woke, isn't late, although its deadline passes before
 * it gets the mutex. */
static void deadline_after_a_wake(int is_broadcast)
{
    begin(0);
    struct timespec t = after_us(CLOCK_MONOTONIC, 300000);
    pid_t p = add_waiter(&t);
    lock();
    EQUAL((is_broadcast ? pz_cond_broadcast : pz_cond_signal)(&all->cond, &all->mutex), 0);
    struct timespec now = after_us(CLOCK_MONOTONIC, 0);
    int is_before = now.tv_sec < t.tv_sec || (now.tv_sec == t.tv_sec && now.tv_nsec < t.tv_nsec);
    while (clock_nanosleep(CLOCK_MONOTONIC, TIMER_ABSTIME, &t, NULL))
        ;
    nap(2000);
    unlock();
    int r = status_of(p);
    if (is_before)
        EQUAL(r, 0);
    else
        CHECK(r == 0 || r == ETIMEDOUT); /* this machine was too slow to see it */
}

/* ---- The mutex that belongs to it. */
static void another_mutex(void)
{
    struct timespec past = {1, 0};
    begin(1);
    EQUAL(pz_mutex_lock(&all->other), 0);
    EQUAL(pz_cond_timedwait(&all->cond, &all->other, &past), EINVAL);
    EQUAL(pz_cond_signal(&all->cond, &all->other), EINVAL);
    EQUAL(pz_cond_broadcast(&all->cond, &all->other), EINVAL);
    EQUAL(pz_mutex_owner(&all->other), getpid());
    EQUAL(state_of(waiter[0]), 'S');
    lock();
    EQUAL(pz_cond_broadcast(&all->cond, &all->mutex), 0);
    unlock();
    EQUAL(status_of(waiter[0]), 0);
    EQUAL(pz_cond_signal(&all->cond, &all->other), 0); /* nobody waits any more */
    EQUAL(pz_cond_timedwait(&all->cond, &all->other, &past), ETIMEDOUT);
    lock();
    EQUAL(pz_cond_signal(&all->cond, &all->mutex), EINVAL); /* somebody may wait, so far as it knows */
    EQUAL(pz_cond_signal(&all->cond, &all->other), 0);
    EQUAL(pz_cond_signal(&all->cond, &all->mutex), 0);
    unlock();
    EQUAL(pz_mutex_unlock(&all->other), 0);
}
/* The two processes map the file at different addresses. */
static void other_addresses(void)
{
    int fd = memfd_create("conds", 0);
    CHECK(fd >= 0 && ftruncate(fd, 4096) == 0);
    struct pair *before = all, *here = mmap(NULL, 4096, PROT_READ | PROT_WRITE, MAP_SHARED, fd, 0);
    all = mmap(NULL, 4096, PROT_READ | PROT_WRITE, MAP_SHARED, fd, 0);
    CHECK(all != here);
    pid_t p = add_waiter(NULL);
    all = here;
    lock();
    EQUAL(pz_cond_signal(&all->cond, &all->mutex), 0);
    unlock();
    EQUAL(status_of(p), 0);
    all = before;
    close(fd);
}
/* The counter passes its end, 32 bits, with and without waiters: nobody seems to wait then, and nobody is missed. */
static void counter_passes_its_end(void)
{
    begin(0);
    all->cond.words[0] = 0xffffffff;
    lock();
    EQUAL(pz_cond_signal(&all->cond, &all->mutex), 0);
    EQUAL(pz_mutex_lock(&all->other), 0);
    EQUAL(pz_cond_signal(&all->cond, &all->other), 0);
    EQUAL(pz_mutex_unlock(&all->other), 0);
    all->cond.words[0] = 0xffffffff;
    unlock();
    waiter[0] = add_waiter(NULL);
    waiter[1] = add_waiter(NULL);
    for (int i = 0; i < 2; i++) {
        lock();
        EQUAL(pz_cond_signal(&all->cond, &all->mutex), 0);
        unlock();
        EQUAL(status_of(waiter[i]), 0);
    }
}
/* A waiter is killed: the next signal wakes a living one. */
static void waiter_is_killed(void)
{
    begin(WAITERS);
    kill_child(waiter[0]);
    for (int i = 1; i < WAITERS; i++) {
        lock();
        EQUAL(pz_cond_signal(&all->cond, &all->mutex), 0);
        unlock();
        EQUAL(status_of(waiter[i]), 0);
    }
}

int main(void)
{
    begin_checks(300);
    all = shared_memory(sizeof *all);
    signals();
    signal_to_nobody();
    broadcast();
    owner_dies_after_broadcast();
    mutex_becomes_unusable();
    deadlines();
    deadline_after_a_wake(0);
    deadline_after_a_wake(1);
    another_mutex();
    other_addresses();
    counter_passes_its_end();
    waiter_is_killed();
    return end_checks();
}
