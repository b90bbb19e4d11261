/* What answers.c prints, and how it makes calls by other processes. */
#ifndef ANSWERS_H
#define ANSWERS_H
#include "storm.h"
#include <fcntl.h>
#include <sys/ptrace.h>
#include <sys/resource.h>

enum { MOST = 3000, HELD = 2048, SLEEPS = 1000, CRASHES = 1001 };

static pthread_mutex_t *m, *many;
static pthread_cond_t *c;
static int type;
static const char *const types[] = {"normal", "recursive", "error-checking"};

static void make_at(pthread_mutex_t *at)
{
    pthread_mutexattr_t a;
    pthread_mutexattr_init(&a);
    pthread_mutexattr_setpshared(&a, PTHREAD_PROCESS_SHARED);
    pthread_mutexattr_setrobust(&a, PTHREAD_MUTEX_ROBUST);
    pthread_mutexattr_settype(&a, type);
    memset(at, 0, sizeof *at);
    MUST(pthread_mutex_init(at, &a) == 0);
}

/* Makes a new mutex, at a place of its own. */
static void make(void)
{
    static int next;
    m = &many[next++];
    MUST(next <= MOST);
    make_at(m);
}

static const char *word(int r)
{
    switch (r) {
    case 0:
        return "0";
    case EPERM:
        return "EPERM";
    case EBUSY:
        return "EBUSY";
    case EINVAL:
        return "EINVAL";
    case EAGAIN:
        return "EAGAIN";
    case EDEADLK:
        return "EDEADLK";
    case ETIMEDOUT:
        return "ETIMEDOUT";
    case EOWNERDEAD:
        return "EOWNERDEAD";
    case ENOTRECOVERABLE:
        return "ENOTRECOVERABLE";
    case SLEEPS:
        return "sleeps";
    case CRASHES:
        return "crashes";
    default:
        return "?";
    }
}

static void row(const char *what, const int *r, int n)
{
    printf("%s: %s:", types[type], what);
    for (int i = 0; i < n; i++)
        printf(" %s", word(r[i]));
    putchar('\n');
}
#define ROW(what, ...) row(what, (int[]){__VA_ARGS__}, (int)(sizeof((int[]){__VA_ARGS__}) / sizeof(int)))

/* Returns whether the call ended. It has not if the kernel says time and again that the process sleeps. */
static int ended_or_asleep(pid_t it, int *status)
{
    for (int quiet = 0; quiet < 40; nap(500)) {
        if (waitpid(it, status, WNOHANG) == it)
            return 1;
        quiet = is_in_sleep(it) ? quiet + 1 : 0;
    }
    return 0;
}

/* A call by another process, which ends after it. */
struct call {
    _Atomic int *answer;
    pid_t by;
};
static struct call begun(int (*call)(void))
{
    _Atomic int *answer = shared_memory(sizeof *answer);
    pid_t it = start_child();
    if (!it) {
        setrlimit(RLIMIT_CORE, &(struct rlimit){0, 0});
        atomic_store(answer, call());
        _exit(0);
    }
    return (struct call){answer, it};
}
static int ended(struct call it)
{
    int r = SLEEPS, status = 0;
    if (ended_or_asleep(it.by, &status))
        r = WIFSIGNALED(status) ? CRASHES : atomic_load(it.answer);
    else
        kill_child(it.by);
    munmap((void *)it.answer, sizeof *it.answer);
    return r;
}
static int other(int (*call)(void)) { return ended(begun(call)); }
#endif
