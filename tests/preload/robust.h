/* What these tests share: robust, process-shared mutexes, and what their bytes say. */
#ifndef ROBUST_H
#define ROBUST_H
#include "../check.h"
#include <pthread.h>
#include <stdatomic.h>

UNUSED static int init_robust(pthread_mutex_t *m, int type)
{
    pthread_mutexattr_t a;
    pthread_mutexattr_init(&a);
    pthread_mutexattr_setpshared(&a, PTHREAD_PROCESS_SHARED);
    pthread_mutexattr_setrobust(&a, PTHREAD_MUTEX_ROBUST);
    pthread_mutexattr_settype(&a, type);
    return pthread_mutex_init(m, &a);
}

/* The library's own view: the cell's 64 bits, the bell, and whether the mutex is one of the library's. */
UNUSED static uint64_t cell_of(const pthread_mutex_t *m) { return *(const volatile uint64_t *)m; }
UNUSED static pid_t owner_of(const pthread_mutex_t *m) { return (pid_t)(cell_of(m) & 0x3fffffff); }
UNUSED static uint32_t bell_of(const pthread_mutex_t *m) { return ((const volatile uint32_t *)m)[2]; }
UNUSED static int is_robust(const pthread_mutex_t *m) { return (m->__data.__kind & ~0x7000) == 0x7a61000c; }
UNUSED static int is_plain(const pthread_mutex_t *m) { return (m->__data.__kind & 0x4000) != 0; }

/* Locks, declares the mutex consistent if an owner died, and unlocks. Returns what lock returned. */
UNUSED static int repair(int r, pthread_mutex_t *m)
{
    if (r == EOWNERDEAD)
        pthread_mutex_consistent(m);
    return r;
}
UNUSED static int pass(pthread_mutex_t *m)
{
    int r = repair(pthread_mutex_lock(m), m);
    if (r == 0 || r == EOWNERDEAD)
        pthread_mutex_unlock(m);
    return r;
}

/* The number of the system call in which a thread is, or -1. */
UNUSED static long system_call_of(pid_t tid)
{
    char path[64], line[32] = "";
    snprintf(path, sizeof path, "/proc/%d/syscall", (int)tid);
    FILE *f = fopen(path, "r");
    if (!f)
        return -1;
    long n = fgets(line, sizeof line, f) && line[0] >= '0' && line[0] <= '9' ? atol(line) : -1;
    fclose(f);
    return n;
}
UNUSED static int is_in_sleep(pid_t tid)
{
    long n = state_of(tid) == 'S' ? system_call_of(tid) : -1;
    return n == SYS_futex || n == SYS_futex_waitv || n == SYS_restart_syscall; /* the last after a stop */
}
/* Waits until a thread sleeps on a mutex or a condition variable, or has ended. */
UNUSED static void until_it_sleeps(pid_t tid)
{
    for (int times = 0; times < 5 && state_of(tid) != 'Z' && state_of(tid) != '?'; nap(100))
        times = is_in_sleep(tid) ? times + 1 : 0;
}

enum { MOST_ENTRIES = 5000 };
/* How many entries this thread's robust list has; negative if it is broken, or something is pending. */
UNUSED static long entries(void)
{
    uint64_t *head = NULL, *before;
    size_t size;
    long n = 0;
    syscall(SYS_get_robust_list, 0, &head, &size);
    before = head;
    for (uint64_t e = head[0]; (uint64_t *)(e & ~1ull) != head; e = *before, n++) {
        if ((((uint64_t *)(e & ~1ull))[-1] & ~1ull) != (uint64_t)before || n > MOST_ENTRIES)
            return -1;
        before = (uint64_t *)(e & ~1ull);
    }
    return head[2] ? -2 : n;
}

#ifndef NO_END_S
#define NO_END_S 60
#endif
/* Waits until *w is at least `wanted`. Returns 0 if it isn't for a minute or more. */
UNUSED static int until(_Atomic int *w, int wanted)
{
    for (long n = 0; atomic_load(w) < wanted; n++) {
        if (n > NO_END_S * 20000L)
            return 0;
        nap(20);
    }
    return 1;
}
#endif
