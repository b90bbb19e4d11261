/* Locks with a deadline that get the mutex, or find it owned: by their own thread, by one that ends, or by one that has
 * ended. usage: limits NAME FILE */
#include "shared.h"
#include <time.h>

enum { MOST_S = 600 }; /* how long an owner stays if the test doesn't kill it */
static pthread_mutex_t *m;
static const struct timespec past = {0}, none = {.tv_nsec = -1};

static int timedlock(pthread_mutex_t *k) { return pthread_mutex_timedlock(k, &past); }
static int clocklock(pthread_mutex_t *k) { return pthread_mutex_clocklock(k, CLOCK_MONOTONIC, &past); }
static void unlock(pthread_mutex_t *k) { CHECK(pthread_mutex_unlock(k) == 0); }

static void in_time(void)
{
    CHECK(timedlock(m) == 0);
    unlock(m);
    CHECK(clocklock(m) == 0);
    unlock(m);
}

static int after_a_while(void)
{
    struct timespec t;
    clock_gettime(CLOCK_MONOTONIC, &t);
    t.tv_sec += t.tv_nsec >= 990000000;
    t.tv_nsec = (t.tv_nsec + 10000000) % 1000000000;
    return pthread_mutex_clocklock(m, CLOCK_MONOTONIC, &t);
}

/* Whether three locks of another process return this. */
static int others_are_told(int reply)
{
    int status;
    pid_t it = a_child();
    if (!it)
        _exit(timedlock(m) != reply || clocklock(m) != reply || after_a_while() != reply);
    CHECK(waitpid(it, &status, 0) == it);
    return status == 0;
}

static void owner_lives(void)
{
    CHECK(pthread_mutex_lock(m) == 0);
    CHECK(others_are_told(ETIMEDOUT));
    CHECK(pthread_mutex_timedlock(m + 1, &none) == 0);
    unlock(m);
    unlock(m + 1);
}

/* Locks by the owner, which waits for itself, locks again, or is refused, by the mutex's type. */
static void its_own(void)
{
    make(m + 2, PTHREAD_MUTEX_RECURSIVE);
    make(m + 3, PTHREAD_MUTEX_ERRORCHECK);
    for (int i = 1; i < 4; i++)
        CHECK(timedlock(m + i) == 0);
    CHECK(timedlock(m + 1) == ETIMEDOUT && pthread_mutex_timedlock(m + 1, &none) == EINVAL);
    CHECK(clocklock(m + 2) == 0 && clocklock(m + 3) == EDEADLK);
    for (int i = 1; i < 4; i++)
        unlock(m + i);
    unlock(m + 2);
    CHECK(pthread_mutex_unlock(m + 2) == EPERM);
}

/* The owner is stopped while it ends, before the kernel walks over its list. */
static void owner_ends(void)
{
    int status;
    pid_t it = a_child();
    if (!it) {
        ptrace(PTRACE_TRACEME, 0, NULL, NULL);
        raise(SIGSTOP);
        CHECK(pthread_mutex_lock(m) == 0);
        _exit(0);
    }
    CHECK(waitpid(it, &status, 0) == it && WIFSTOPPED(status));
    CHECK(ptrace(PTRACE_SETOPTIONS, it, NULL, PTRACE_O_TRACEEXIT) == 0 && ptrace(PTRACE_CONT, it, NULL, NULL) == 0);
    CHECK(waitpid(it, &status, 0) == it && status >> 8 == (SIGTRAP | PTRACE_EVENT_EXIT << 8));
    CHECK(timedlock(m) == ETIMEDOUT);
    CHECK(ptrace(PTRACE_CONT, it, NULL, NULL) == 0);
    until_dead(it);
    CHECK(timedlock(m) == EOWNERDEAD && pthread_mutex_consistent(m) == 0);
    unlock(m);
}

/* The next thread gets EOWNERDEAD. After that the deadlines of others pass, because a living thread owns the mutex. */
static void owner_has_ended(void)
{
    owner_dies(m);
    CHECK(clocklock(m) == EOWNERDEAD);
    CHECK(others_are_told(ETIMEDOUT));
    unlock(m);
    CHECK(others_are_told(ENOTRECOVERABLE));
}

/* ---- A mutex that was initialised and locked before the recording. */

static void early(void)
{
    _Atomic pid_t *owner = (void *)(m + 4);
    alarm(MOST_S);
    CHECK(pthread_mutex_lock(m) == 0);
    atomic_store(owner, getpid());
    for (;;)
        pause();
}

static void late(void)
{
    struct timespec soon;
    CHECK(others_are_told(ETIMEDOUT));
    CHECK(kill(atomic_load((_Atomic pid_t *)(void *)(m + 4)), SIGKILL) == 0);
    clock_gettime(CLOCK_REALTIME, &soon);
    soon.tv_sec += 1000;
    CHECK(pthread_mutex_timedlock(m, &soon) == EOWNERDEAD && pthread_mutex_consistent(m) == 0);
    CHECK(others_are_told(ETIMEDOUT));
    unlock(m);
}

static const struct {
    const char *name;
    void (*go)(void);
    int is_made; /* before */
} limits[] = {
    {"in_time", in_time, 0}, {"owner_lives", owner_lives, 0},
    {"its_own", its_own, 0}, {"owner_ends", owner_ends, 0},
    {"early", early, 0},     {"owner_has_ended", owner_has_ended, 0},
    {"late", late, 1},
};

int main(int argc, char **argv)
{
    CHECK(argc == 3);
    m = mapped(argv[2], 4096, NULL);
    for (size_t i = 0; i < sizeof limits / sizeof *limits; i++)
        if (!strcmp(limits[i].name, argv[1])) {
            for (int k = 0; k < 2 && !limits[i].is_made; k++)
                make(m + k, PTHREAD_MUTEX_NORMAL);
            limits[i].go();
            return 0;
        }
    fail(__FILE__, __LINE__, argv[1]);
}
