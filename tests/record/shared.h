/* What the tests of pz-record share: mutexes in a file, children that are killed, and how to see that one sleeps. */
#ifndef SHARED_H
#define SHARED_H
#include <errno.h>
#include <fcntl.h>
#include <pthread.h>
#include <signal.h>
#include <stdatomic.h>
#include <stdio.h>
#include <stdlib.h>
#include <string.h>
#include <sys/mman.h>
#include <sys/prctl.h>
#include <sys/ptrace.h>
#include <sys/syscall.h>
#include <sys/wait.h>
#include <unistd.h>

enum { FUTEX_WAITV = 449 };
#if !__GLIBC_PREREQ(2, 34)
#define _Fork fork
#endif

#define CHECK(what) ((what) ? (void)0 : fail(__FILE__, __LINE__, #what))

static inline _Noreturn void fail(const char *file, int line, const char *what)
{
    fprintf(stderr, "%s:%d: %s\n", file, line, what);
    exit(1);
}

/* Maps a file, at an address or, with NULL, anywhere. */
static inline void *mapped(const char *path, size_t size, void *at)
{
    int fd = open(path, O_RDWR | O_CREAT, 0600);
    CHECK(fd >= 0 && ftruncate(fd, (off_t)size) == 0);
    void *p = mmap(at, size, PROT_READ | PROT_WRITE, MAP_SHARED | (at ? MAP_FIXED : 0), fd, 0);
    CHECK(p != MAP_FAILED);
    close(fd);
    return p;
}

static inline void make(pthread_mutex_t *m, int type)
{
    pthread_mutexattr_t a;
    pthread_mutexattr_init(&a);
    pthread_mutexattr_setpshared(&a, PTHREAD_PROCESS_SHARED);
    pthread_mutexattr_setrobust(&a, PTHREAD_MUTEX_ROBUST);
    pthread_mutexattr_settype(&a, type);
    CHECK(pthread_mutex_init(m, &a) == 0);
}

static inline void make_cond(pthread_cond_t *c)
{
    pthread_condattr_t a;
    pthread_condattr_init(&a);
    pthread_condattr_setpshared(&a, PTHREAD_PROCESS_SHARED);
    CHECK(pthread_cond_init(c, &a) == 0);
}

/* Forks a child that is killed when this process ends, so that a test that fails leaves none. */
static inline pid_t a_child(void)
{
    pid_t parent = getpid(), child = fork();
    CHECK(child >= 0);
    if (!child && (prctl(PR_SET_PDEATHSIG, SIGKILL) || getppid() != parent))
        _exit(1);
    return child;
}

static inline void until_dead(pid_t child) { CHECK(waitpid(child, NULL, 0) == child); }
static inline void until_killed(pid_t child)
{
    kill(child, SIGKILL);
    until_dead(child);
}
static inline void die(void)
{
    kill(getpid(), SIGKILL);
    for (;;)
        pause();
}

/* A child locks m, and is killed. */
static inline void owner_dies(pthread_mutex_t *m)
{
    pid_t it = a_child();
    if (!it) {
        CHECK(pthread_mutex_lock(m) == 0);
        die();
    }
    int status;
    CHECK(waitpid(it, &status, 0) == it && WIFSIGNALED(status));
}

static inline void make_unusable(pthread_mutex_t *m)
{
    owner_dies(m);
    CHECK(pthread_mutex_lock(m) == EOWNERDEAD && pthread_mutex_unlock(m) == 0);
}

/* A child calls first, and is killed after some instructions of again. Returns 0 if again had ended by then. */
static inline int dies_within(void (*first)(void), void (*again)(void), int instructions)
{
    int status, is_within = 1;
    pid_t it = a_child();
    if (!it) {
        first();
        ptrace(PTRACE_TRACEME, 0, NULL, NULL);
        raise(SIGSTOP);
        again();
        raise(SIGSTOP);
    }
    CHECK(waitpid(it, &status, 0) == it && WIFSTOPPED(status));
    for (int i = 0; is_within && i < instructions; i++) {
        CHECK(ptrace(PTRACE_SINGLESTEP, it, NULL, NULL) == 0);
        CHECK(waitpid(it, &status, 0) == it && WIFSTOPPED(status));
        is_within = WSTOPSIG(status) == SIGTRAP;
    }
    until_killed(it);
    return is_within;
}

/* The thread's state of proc(5), or 0 if there is no such thread. */
static inline char state_of(pid_t thread)
{
    char path[64], line[512] = "";
    snprintf(path, sizeof path, "/proc/%d/stat", (int)thread);
    FILE *f = fopen(path, "r");
    if (f) {
        line[fread(line, 1, sizeof line - 1, f)] = 0;
        fclose(f);
    }
    const char *name_ends = strrchr(line, ')');
    return name_ends ? name_ends[2] : 0;
}

/* Whether all processes, except those that say that they rest, sleep or have ended, at each of many looks. */
static inline int none_gets_on(const pid_t *it, int n, int (*rests)(int))
{
    for (int looks = 0; looks < 100; looks++)
        for (int k = 0; k < n; k++)
            if (!rests(k) && !strchr("SZ", state_of(it[k])))
                return 0;
    return 1;
}

/* Waits until a thread sleeps in a system call. futex_waitv counts as futex. */
static inline void until_in_call(pid_t it, long number)
{
    char path[64];
    long is = -1;
    snprintf(path, sizeof path, "/proc/%d/syscall", (int)it);
    while ((is != number && !(number == SYS_futex && is == FUTEX_WAITV)) || state_of(it) != 'S') {
        FILE *f = fopen(path, "r");
        is = -1;
        if (f && fscanf(f, "%ld", &is) != 1)
            is = -1;
        if (f)
            fclose(f);
        usleep(100);
    }
}
#endif
