/* The C library's faults. usage: faults NAME FILE [HISTORY] */
#include "shared.h"
#include <sys/syscall.h>
#include <time.h>

enum { MOST = 2049 };
static pthread_mutex_t *m;
static pthread_cond_t *c;
static const char *history;

static void second_trylock(void)
{
    make_unusable(m);
    pthread_mutex_trylock(m);
    pthread_mutex_trylock(m);
}

/* The trylock that returns ENOTRECOVERABLE leaves the mutex locked, so another thread's deadline passes. */
static void timedlock_of_an_unusable(void)
{
    make_unusable(m);
    pthread_mutex_trylock(m);
    pid_t it = a_child();
    if (!it)
        _exit(pthread_mutex_timedlock(m, &(struct timespec){0}));
    until_dead(it);
}

static void consistent_by_another(void)
{
    owner_dies(m);
    pthread_mutex_lock(m);
    pid_t it = a_child();
    if (!it)
        _exit(pthread_mutex_consistent(m));
    until_dead(it);
}

/* The kernel doesn't walk over all of these: each call's end is in the recording anyway. */
static void many_held(void)
{
    for (int i = 1; i < MOST; i++)
        make(m + i, PTHREAD_MUTEX_NORMAL);
    pid_t it = a_child();
    if (!it) {
        for (int i = 0; i < MOST; i++)
            pthread_mutex_lock(m + i);
        die();
    }
    until_dead(it);
    pthread_mutex_trylock(m);
}

/* The wait makes the mutex unusable. */
static void wait_of_an_inconsistent(void)
{
    owner_dies(m);
    pid_t it = a_child();
    if (!it) {
        pthread_mutex_lock(m);
        pthread_cond_wait(c, m);
        pthread_mutex_lock(m); /* if its wait was refused */
        die();
    }
    until_in_call(it, SYS_futex);
    pthread_mutex_trylock(m);
    until_killed(it);
}

/* One sleeper gets ENOTRECOVERABLE, and the others sleep on. */
static void sleepers(void)
{
    char command[4096];
    pid_t it[3];
    owner_dies(m);
    pthread_mutex_lock(m);
    for (int i = 0; i < 3; i++) {
        it[i] = a_child();
        if (!it[i])
            _exit(pthread_mutex_lock(m) != ENOTRECOVERABLE);
        until_in_call(it[i], SYS_futex);
    }
    pthread_mutex_unlock(m);
    CHECK(waitpid(it[0], NULL, 0) == it[0]);
    snprintf(command, sizeof command, "bin/pz-record --history \"$PZ_RECORDING\" >%s", history);
    CHECK(system(command) == 0);
    until_killed(it[1]);
    until_killed(it[2]);
}

/* A thread is killed before each instruction of its lock of an unusable mutex, until another one gets EOWNERDEAD. */
static void lock_again(void) { pthread_mutex_lock(m); }

static void usable_again(void)
{
    int is_told = 0;
    for (int n = 1; !is_told; n++) {
        make(m, PTHREAD_MUTEX_NORMAL);
        make_unusable(m);
        if (!dies_within(lock_again, lock_again, n))
            return;
        is_told = pthread_mutex_lock(m) == EOWNERDEAD;
    }
}

static const struct {
    const char *name;
    void (*show)(void);
} faults[] = {
    {"second_trylock", second_trylock},
    {"timedlock_of_an_unusable", timedlock_of_an_unusable},
    {"consistent_by_another", consistent_by_another},
    {"many_held", many_held},
    {"wait_of_an_inconsistent", wait_of_an_inconsistent},
    {"sleepers", sleepers},
    {"usable_again", usable_again},
};

int main(int argc, char **argv)
{
    CHECK(argc > 2);
    history = argv[3];
    char *at = mapped(argv[2], MOST * sizeof *m + 4096, NULL);
    c = (void *)at;
    m = (void *)(at + 256);
    make(m, PTHREAD_MUTEX_NORMAL);
    make_cond(c);
    for (size_t i = 0; i < sizeof faults / sizeof *faults; i++)
        if (!strcmp(faults[i].name, argv[1]))
            return faults[i].show(), 0;
    fail(__FILE__, __LINE__, argv[1]);
}
