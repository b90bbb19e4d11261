/* libpazdrig's calls, recorded: by threads of several processes, in an order that is always the same. Linked with
 * libpazdrig.so. usage: library NAME FILE */
#include "hooks.h"
#include "pazdrig.h"
#include "shared.h"
#include <sys/syscall.h>
#include <time.h>

static pz_mutex *m;
static pz_cond *c;
static _Atomic int *stage; /* how far a child is */
static const struct timespec past = {0};

static void lock(void) { CHECK(pz_mutex_lock(m) == 0); }
static void unlock(void) { CHECK(pz_mutex_unlock(m) == 0); }
static void until_stage(int wanted)
{
    while (atomic_load(stage) != wanted)
        usleep(100);
}
static void until_ended(pid_t it)
{
    int status;
    CHECK(waitpid(it, &status, 0) == it && status == 0);
}
static void own_and_die(void)
{
    pid_t it = a_child();
    if (!it) {
        lock();
        die();
    }
    until_dead(it);
}
static void become_unusable(void)
{
    own_and_die();
    CHECK(pz_mutex_lock(m) == EOWNERDEAD);
    unlock();
}

static void others_calls(void)
{
    CHECK(pz_mutex_trylock(m) == EBUSY && pz_mutex_timedlock(m, &past) == ETIMEDOUT);
    CHECK(pz_mutex_unlock(m) == EPERM && pz_mutex_consistent(m) == EPERM);
    _exit(0);
}
static void calls(void)
{
    lock();
    pid_t it = a_child();
    if (!it)
        others_calls();
    until_ended(it);
    CHECK(pz_mutex_consistent(m) == EINVAL && pz_mutex_lock(m) == EDEADLK && pz_mutex_trylock(m) == EBUSY);
    unlock();
    own_and_die();
    CHECK(pz_mutex_clocklock(m, CLOCK_MONOTONIC, &past) == EOWNERDEAD && pz_mutex_consistent(m) == 0);
    unlock();
}

/* A child waits on c, and returns what the wait returned. */
static pid_t a_waiter(void)
{
    atomic_store(stage, 0);
    pid_t it = a_child();
    if (!it) {
        lock();
        atomic_store(stage, 1);
        int r = pz_cond_wait(c, m);
        CHECK(pz_mutex_unlock(m) == 0);
        _exit(r);
    }
    until_stage(1);
    until_in_call(it, SYS_futex);
    return it;
}
static void waits(void)
{
    lock();
    CHECK(pz_cond_timedwait(c, m, &past) == ETIMEDOUT && pz_cond_clockwait(c, m, CLOCK_MONOTONIC, &past) == ETIMEDOUT);
    CHECK(pz_cond_signal(c, m) == 0);
    unlock();
    CHECK(pz_cond_signal(c, m) == EPERM);
    pid_t it = a_waiter();
    lock();
    CHECK(pz_cond_broadcast(c, m) == 0);
    unlock();
    until_ended(it);
}

static void reinit(void)
{
    lock();
    CHECK(pz_mutex_reinit(m) == EBUSY);
    unlock();
    become_unusable();
    pid_t it = a_child();
    if (!it)
        _exit(pz_mutex_lock(m) != ENOTRECOVERABLE);
    until_ended(it);
    CHECK(pz_mutex_reinit(m) == 0);
    lock();
    unlock();
    CHECK(pz_mutex_reinit(m) == 0);
}

/* The mutex has its new number, and is still unusable: a child tries it then. */
static int is_amid;
void at_numbered(void)
{
    if (!is_amid)
        return;
    atomic_store(stage, 1);
    until_stage(2);
}
static void amid_a_reinit(void)
{
    become_unusable();
    pid_t it = a_child();
    if (!it) {
        until_stage(1);
        CHECK(pz_mutex_trylock(m) == ENOTRECOVERABLE);
        atomic_store(stage, 2);
        _exit(0);
    }
    is_amid = 1;
    CHECK(pz_mutex_reinit(m) == 0);
    until_ended(it);
    lock();
    unlock();
}

/* A wait begins with the mutex, and ends with the one that it became, so both are missing. */
static void waiter_of_before(void)
{
    pid_t it = a_waiter();
    become_unusable();
    CHECK(pz_mutex_reinit(m) == 0);
    lock();
    CHECK(pz_cond_signal(c, m) == 0);
    unlock();
    until_ended(it);
    m++;
    lock();
    unlock();
}

static const struct {
    const char *name;
    void (*go)(void);
} ways[] = {{"calls", calls},
            {"waits", waits},
            {"reinit", reinit},
            {"amid_a_reinit", amid_a_reinit},
            {"waiter_of_before", waiter_of_before}};

int main(int argc, char **argv)
{
    CHECK(argc == 3);
    char *at = mapped(argv[2], 4096, NULL);
    m = (void *)at;
    c = (void *)(at + 1024);
    stage = (void *)(at + 2048);
    for (size_t i = 0; i < sizeof ways / sizeof *ways; i++)
        if (!strcmp(ways[i].name, argv[1])) {
            ways[i].go();
            return 0;
        }
    fail(__FILE__, __LINE__, argv[1]);
}
