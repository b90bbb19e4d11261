/* Threads that stand still: a stopped heir, a stopped sleeper that has got the only wake, and a process that is stopped
 * while it owns. They must not keep a free mutex from all others. */
#include "steps.h"
#include "kernel.h"
#include <stdatomic.h>

enum { SLEEPERS = 8 };
static struct {
    pz_mutex mutex;
    _Atomic int had, owned, go;
} * all;
static pid_t sleeper[SLEEPERS];
static int stops_first; /* for a child that starts now: it stops itself before it locks */

static pid_t add_owner(void)
{
    pid_t p = start_child();
    if (p == 0) {
        pz_mutex_lock(&all->mutex);
        all->owned = 1;
        while (!all->go)
            nap(100);
        pz_mutex_unlock(&all->mutex);
        for (;;)
            pause();
    }
    while (!all->owned)
        nap(20);
    return p;
}
static pid_t add_locker(void)
{
    pid_t p = start_child();
    if (p == 0) {
        if (stops_first)
            raise(SIGSTOP);
        if (pz_mutex_lock(&all->mutex) == 0) {
            all->had++;
            pz_mutex_unlock(&all->mutex);
        }
        _exit(0);
    }
    return p;
}
static void add_sleepers(int n)
{
    for (int i = 0; i < n; i++)
        until_asleep(sleeper[i] = add_locker());
}
static void sleepers_end(int n)
{
    for (int i = 0; i < n; i++)
        EQUAL(status_of(sleeper[i]), 0);
}
/* Starts a thread that waits awake, and stops it there. */
static pid_t stopped_heir(void)
{
    stops_first = 1;
    pid_t p = add_locker();
    stops_first = 0;
    step_until_awake(p, &all->mutex);
    ptrace(PTRACE_DETACH, p, 0, SIGSTOP);
    until_stopped(p);
    return p;
}

/* All sleepers get the mutex while the heir is stopped, and without any other caller. */
static void heir_is_stopped(void)
{
    memset(all, 0, sizeof *all);
    pid_t owner = add_owner(), heir = stopped_heir();
    add_sleepers(SLEEPERS);
    CHECK(has_awake_heir(&all->mutex));
    all->go = 1;
    sleepers_end(SLEEPERS);
    EQUAL(all->had, SLEEPERS);
    kill(heir, SIGCONT);
    EQUAL(status_of(heir), 0);
    EQUAL(all->had, SLEEPERS + 1);
    kill_child(owner);
}
/* The same if it is killed instead of continued: what it leaves is in nobody's way. */
static void heir_is_stopped_and_killed(void)
{
    memset(all, 0, sizeof *all);
    pid_t owner = add_owner(), heir = stopped_heir();
    add_sleepers(2);
    kill_child(heir);
    all->go = 1;
    sleepers_end(2);
    EQUAL(all->had, 2);
    kill_child(owner);
    EQUAL(pz_mutex_lock(&all->mutex), 0);
    EQUAL(pz_mutex_unlock(&all->mutex), 0);
}
/* Makes this thread look like an heir that said `ago` ticks of its clock ago that it is awake. */
static void play_heir(uint64_t ago) { all->mutex.words[2] = (ticks() - ago) << 33 | 1ull << 32 | (uint64_t)getpid(); }

/* An unlock leaves no wake to an heir that said so 0.25 ms ago. */
static void heir_is_late(void)
{
    memset(all, 0, sizeof *all);
    EQUAL(pz_mutex_lock(&all->mutex), 0);
    add_sleepers(1);
    play_heir((250000 >> 9) + 1);
    EQUAL(pz_mutex_unlock(&all->mutex), 0);
    sleepers_end(1);
    EQUAL(all->had, 1);
}
/* There is always an heir, and a sleeper has waited for a second: one of the next unlocks wakes it. */
static void sleeper_is_late(void)
{
    memset(all, 0, sizeof *all);
    EQUAL(pz_mutex_lock(&all->mutex), 0);
    add_sleepers(1);
    uint64_t then = (uint32_t)(now_ns() / 1000 - 1000000);
    int is_called = 0;
    all->mutex.words[1] = then << 32;
    for (int n = 0; n < 1000 && !is_called; n++) {
        play_heir(0);
        EQUAL(pz_mutex_unlock(&all->mutex), 0);
        is_called = all->mutex.words[1] >> 32 != then || all->had;
        if (!is_called)
            EQUAL(pz_mutex_lock(&all->mutex), 0);
    }
    CHECK(is_called);
    all->mutex.words[2] = 0;
    if (!is_called)
        EQUAL(pz_mutex_unlock(&all->mutex), 0);
    sleepers_end(1);
    EQUAL(all->had, 1);
}
/* The first sleeper is woken, and stopped there. The others sleep, the mutex is free; the next unlock wakes one. */
static void woken_sleeper_is_stopped(void)
{
    int status;
    memset(all, 0, sizeof *all);
    pid_t owner = add_owner(), first = add_locker();
    until_asleep(first);
    CHECK(ptrace(PTRACE_SEIZE, first, 0, 0) == 0 && ptrace(PTRACE_INTERRUPT, first, 0, 0) == 0);
    EQUAL(waitpid(first, &status, __WALL), first);
    ptrace(PTRACE_SYSCALL, first, 0, 0); /* into the call again, */
    EQUAL(waitpid(first, &status, __WALL), first);
    ptrace(PTRACE_SYSCALL, first, 0, 0); /* and to its end, which the wake brings */
    until_asleep(first);
    add_sleepers(3);
    all->go = 1;
    EQUAL(waitpid(first, &status, __WALL), first);
    EQUAL(pz_mutex_lock(&all->mutex), 0);
    EQUAL(pz_mutex_unlock(&all->mutex), 0);
    sleepers_end(3);
    ptrace(PTRACE_DETACH, first, 0, 0);
    EQUAL(status_of(first), 0);
    EQUAL(all->had, 4);
    kill_child(owner);
}
/* A stopped owner keeps its mutex: it lives. */
static void owner_is_stopped(void)
{
    memset(all, 0, sizeof *all);
    pid_t owner = add_owner();
    struct timespec t = after_us(CLOCK_MONOTONIC, 20000);
    kill(owner, SIGSTOP);
    until_stopped(owner);
    EQUAL(pz_mutex_clocklock(&all->mutex, CLOCK_MONOTONIC, &t), ETIMEDOUT);
    EQUAL(pz_mutex_owner(&all->mutex), owner);
    add_sleepers(2);
    all->go = 1;
    kill(owner, SIGCONT);
    sleepers_end(2);
    EQUAL(all->had, 2);
    kill_child(owner);
}

int main(void)
{
    begin_checks(300);
    all = shared_memory(sizeof *all);
    heir_is_stopped();
    heir_is_stopped_and_killed();
    heir_is_late();
    sleeper_is_late();
    woken_sleeper_is_stopped();
    owner_is_stopped();
    return end_checks();
}
