/* What is measured in turn: the C library's robust, process-shared, error-checking mutex, this library, and other
 * builds of it whose names `run` gave a prefix (v1_pz_mutex_lock ..), for tuning. */
#ifndef IMPLEMENTATIONS_H
#define IMPLEMENTATIONS_H
#include "pazdrig.h"
#include <pthread.h>
#include <stdatomic.h>
#include <stdio.h>
#include <stdlib.h>
#include <string.h>
#include <sys/mman.h>
#include <sys/prctl.h>
#include <sys/wait.h>
#include <signal.h>
#include <unistd.h>

#define CHECK(what) ((what) ? (void)0 : fail(__FILE__, __LINE__, #what))
static inline _Noreturn void fail(const char *file, int line, const char *what)
{
    fprintf(stderr, "%s:%d: %s\n", file, line, what);
    exit(1);
}

struct implementation {
    const char *name;
    int (*lock)(void *);
    int (*trylock)(void *);
    int (*clocklock)(void *, clockid_t, const struct timespec *);
    int (*unlock)(void *);
    int (*consistent)(void *);
    int (*wait)(void *, void *);
    int (*clockwait)(void *, void *, clockid_t, const struct timespec *);
    int (*signal)(void *, void *);
    int (*broadcast)(void *, void *);
};

static inline int libc_lock(void *m) { return pthread_mutex_lock(m); }
static inline int libc_trylock(void *m) { return pthread_mutex_trylock(m); }
static inline int libc_clocklock(void *m, clockid_t k, const struct timespec *t)
{
    return pthread_mutex_clocklock(m, k, t);
}
static inline int libc_unlock(void *m) { return pthread_mutex_unlock(m); }
static inline int libc_consistent(void *m) { return pthread_mutex_consistent(m); }
static inline int libc_wait(void *c, void *m) { return pthread_cond_wait(c, m); }
static inline int libc_clockwait(void *c, void *m, clockid_t k, const struct timespec *t)
{
    return pthread_cond_clockwait(c, m, k, t);
}
static inline int libc_signal(void *c, void *m) { return (void)m, pthread_cond_signal(c); }
static inline int libc_broadcast(void *c, void *m) { return (void)m, pthread_cond_broadcast(c); }

#define BUILD(prefix)                                                                                                  \
    int prefix##pz_mutex_lock(void *) __attribute__((weak));                                                           \
    int prefix##pz_mutex_trylock(void *) __attribute__((weak));                                                        \
    int prefix##pz_mutex_clocklock(void *, clockid_t, const struct timespec *) __attribute__((weak));                  \
    int prefix##pz_mutex_unlock(void *) __attribute__((weak));                                                         \
    int prefix##pz_mutex_consistent(void *) __attribute__((weak));                                                     \
    int prefix##pz_cond_wait(void *, void *) __attribute__((weak));                                                    \
    int prefix##pz_cond_clockwait(void *, void *, clockid_t, const struct timespec *) __attribute__((weak));           \
    int prefix##pz_cond_signal(void *, void *) __attribute__((weak));                                                  \
    int prefix##pz_cond_broadcast(void *, void *) __attribute__((weak));
BUILD(this_)
BUILD(v1_) BUILD(v2_) BUILD(v3_)
#undef BUILD
#define BUILD(prefix)                                                                                                  \
    {                                                                                                                  \
#prefix, prefix##pz_mutex_lock, prefix##pz_mutex_trylock, prefix##pz_mutex_clocklock, prefix##pz_mutex_unlock, \
            prefix##pz_mutex_consistent, prefix##pz_cond_wait, prefix##pz_cond_clockwait, prefix##pz_cond_signal,      \
            prefix##pz_cond_broadcast                                                                                  \
    }
    static struct implementation all_implementations[] = {{"libc", libc_lock, libc_trylock, libc_clocklock, libc_unlock,
                                                           libc_consistent, libc_wait, libc_clockwait, libc_signal,
                                                           libc_broadcast},
                                                          BUILD(this_),
                                                          BUILD(v1_),
                                                          BUILD(v2_),
                                                          BUILD(v3_)};
#undef BUILD

enum { MOST_IMPLEMENTATIONS = sizeof all_implementations / sizeof *all_implementations };
static struct implementation implementations[MOST_IMPLEMENTATIONS];
static int implementation_count;

static inline void find_implementations(void)
{
    for (int i = 0; i < (int)MOST_IMPLEMENTATIONS; i++)
        if (all_implementations[i].lock)
            implementations[implementation_count++] = all_implementations[i];
}

/* A mutex and a condition variable of each implementation, in lines of their own. */
struct pair {
    union {
        pthread_mutex_t libc;
        pz_mutex ours;
        char line[128];
    } mutex __attribute__((aligned(128)));
    union {
        pthread_cond_t libc;
        pz_cond ours;
        char line[128];
    } cond;
};

/* Zeros are one of ours. */
static inline void initialise_pair(struct pair *p, int implementation)
{
    if (implementation != 0)
        return;
    pthread_mutexattr_t a;
    pthread_condattr_t c;
    pthread_mutexattr_init(&a);
    pthread_mutexattr_setpshared(&a, PTHREAD_PROCESS_SHARED);
    pthread_mutexattr_setrobust(&a, PTHREAD_MUTEX_ROBUST);
    pthread_mutexattr_settype(&a, PTHREAD_MUTEX_ERRORCHECK);
    pthread_mutex_init(&p->mutex.libc, &a);
    pthread_condattr_init(&c);
    pthread_condattr_setpshared(&c, PTHREAD_PROCESS_SHARED);
    pthread_cond_init(&p->cond.libc, &c);
}

/* ---- Time and processes. */

static inline double now(void)
{
    struct timespec t;
    clock_gettime(CLOCK_MONOTONIC, &t);
    return (double)t.tv_sec + (double)t.tv_nsec * 1e-9;
}
static inline void rest(long us) { nanosleep(&(struct timespec){us / 1000000, us % 1000000 * 1000}, NULL); }

static inline void *shared_memory(size_t size)
{
    void *p = mmap(NULL, size, PROT_READ | PROT_WRITE, MAP_SHARED | MAP_ANONYMOUS, -1, 0);
    CHECK(p != MAP_FAILED);
    return p;
}

/* A child that is killed when this process ends. */
static inline pid_t a_child(void)
{
    pid_t parent = getpid(), child = fork();
    if (!child && (prctl(PR_SET_PDEATHSIG, SIGKILL) || getppid() != parent))
        _exit(1);
    return child;
}
static inline void ends_well(pid_t child)
{
    int status;
    CHECK(waitpid(child, &status, 0) == child && status == 0);
}

static inline int compare_doubles(const void *x, const void *y)
{
    double a = *(const double *)x, b = *(const double *)y;
    return (a > b) - (a < b);
}
static inline double median(double *of, int n)
{
    qsort(of, (size_t)n, sizeof *of, compare_doubles);
    return of[n / 2];
}
#endif
