/* Locks that have to wait: for an owner that unlocks, dies, or makes the mutex unusable, or until a deadline. */
#include "../check.h"
#include <pazdrig.h>
#include <stdatomic.h>

enum { SLEEPERS = 4 };
static struct {
    pz_mutex mutex;
    _Atomic int owned, go, dies;
} * all;
static pid_t sleeper[SLEEPERS];

static pid_t add_owner(void)
{
    pid_t p = start_child();
    if (p == 0) {
        int r = pz_mutex_lock(&all->mutex);
        all->owned = 1;
        while (!all->go)
            nap(50);
        if (all->dies)
            _exit(r);
        _exit(pz_mutex_unlock(&all->mutex) ? 99 : r);
    }
    while (!all->owned)
        nap(20);
    return p;
}
/* Starts processes that lock once, and end with what that returned. With `keeps`, they end as owners. */
static void add_sleepers(const struct timespec *deadline, int keeps)
{
    for (int i = 0; i < SLEEPERS; i++) {
        if ((sleeper[i] = start_child()) == 0) {
            int r = deadline ? pz_mutex_clocklock(&all->mutex, CLOCK_MONOTONIC, deadline) : pz_mutex_lock(&all->mutex);
            int has = r == 0 || r == EOWNERDEAD;
            if (r == EOWNERDEAD && !keeps && pz_mutex_consistent(&all->mutex))
                _exit(98);
            if (has && !keeps && pz_mutex_unlock(&all->mutex))
                _exit(97);
            _exit(r);
        }
        until_asleep(sleeper[i]);
    }
}
/* Returns how many of the sleepers ended with `reply`. */
static int ended_with(int reply)
{
    int n = 0;
    for (int i = 0; i < SLEEPERS; i++)
        n += status_of(sleeper[i]) == reply;
    return n;
}
static pid_t begin(const struct timespec *deadline, int keeps)
{
    memset(all, 0, sizeof *all);
    pid_t owner = add_owner();
    add_sleepers(deadline, keeps);
    return owner;
}
static void is_free_at_the_end(void)
{
    EQUAL(pz_mutex_trylock(&all->mutex), 0);
    EQUAL(pz_mutex_unlock(&all->mutex), 0);
    EQUAL(pz_mutex_owner(&all->mutex), 0);
}

/* One unlock: all sleepers get the mutex in turn. */
static void unlocked(void)
{
    pid_t owner = begin(NULL, 0);
    all->go = 1;
    EQUAL(status_of(owner), 0);
    EQUAL(ended_with(0), SLEEPERS);
    is_free_at_the_end();
}
/* A word that nobody needs any more costs nothing: after the last sleeper WAITERS is cleared. */
static void waiters_is_cleared(void)
{
    unlocked();
    EQUAL(all->mutex.words[0] & 0xffffffff, 0);
}
/* The owner ends: one sleeper gets EOWNERDEAD, the others 0. */
static void owner_ends(void)
{
    pid_t owner = begin(NULL, 0);
    all->dies = all->go = 1;
    EQUAL(status_of(owner), 0);
    int dead = 0;
    for (int i = 0; i < SLEEPERS; i++)
        dead += status_of(sleeper[i]) == EOWNERDEAD;
    EQUAL(dead, 1);
    is_free_at_the_end();
}
static void owner_is_killed(void)
{
    pid_t owner = begin(NULL, 0);
    EQUAL(kill_child(owner), -SIGKILL);
    int dead = 0;
    for (int i = 0; i < SLEEPERS; i++)
        dead += status_of(sleeper[i]) == EOWNERDEAD;
    EQUAL(dead, 1);
    is_free_at_the_end();
}
/* Each owner ends in turn: each sleeper gets EOWNERDEAD. */
static void all_end_as_owners(void)
{
    pid_t owner = begin(NULL, 1);
    all->dies = all->go = 1;
    EQUAL(status_of(owner), 0);
    EQUAL(ended_with(EOWNERDEAD), SLEEPERS);
    EQUAL(pz_mutex_lock(&all->mutex), EOWNERDEAD);
    EQUAL(pz_mutex_consistent(&all->mutex), 0);
    EQUAL(pz_mutex_unlock(&all->mutex), 0);
}
/* Sleepers of a mutex that becomes unusable all learn of it. */
static void becomes_unusable(void)
{
    memset(all, 0, sizeof *all);
    pid_t p = start_child();
    if (p == 0)
        _exit(pz_mutex_lock(&all->mutex));
    EQUAL(status_of(p), 0);
    pid_t owner = add_owner();
    add_sleepers(NULL, 0);
    all->go = 1;
    EQUAL(status_of(owner), EOWNERDEAD);
    EQUAL(ended_with(ENOTRECOVERABLE), SLEEPERS);
    EQUAL(pz_mutex_reinit(&all->mutex), 0);
    is_free_at_the_end();
}

/* ---- Deadlines. */
static void deadlines(void)
{
    struct timespec t, now;
    static const clockid_t clocks[] = {CLOCK_MONOTONIC, CLOCK_REALTIME};
    memset(all, 0, sizeof *all);
    pid_t owner = add_owner();
    for (int i = 0; i < 6; i++) {
        t = after_us(clocks[i % 2], i < 2 ? 30 : 8000);
        EQUAL(pz_mutex_clocklock(&all->mutex, clocks[i % 2], &t), ETIMEDOUT);
        clock_gettime(clocks[i % 2], &now);
        CHECK(now.tv_sec > t.tv_sec || (now.tv_sec == t.tv_sec && now.tv_nsec >= t.tv_nsec)); /* never early */
    }
    t = after_us(CLOCK_MONOTONIC, 5000);
    add_sleepers(&t, 0);
    EQUAL(ended_with(ETIMEDOUT), SLEEPERS);
    EQUAL(pz_mutex_owner(&all->mutex), owner);
    all->go = 1;
    EQUAL(status_of(owner), 0);
    is_free_at_the_end();
}
/* A deadline that is far away. */
static void far_deadline(void)
{
    struct timespec far = {INT64_MAX, 999999999};
    pid_t owner = begin(&far, 0);
    all->go = 1;
    EQUAL(status_of(owner), 0);
    EQUAL(ended_with(0), SLEEPERS);
    is_free_at_the_end();
}

int main(void)
{
    begin_checks(300);
    all = shared_memory(sizeof *all);
    waiters_is_cleared();
    owner_ends();
    owner_is_killed();
    all_end_as_owners();
    becomes_unusable();
    deadlines();
    far_deadline();
    return end_checks();
}
