/* What checks/lib/differences.c and checks/differences_here.c have in common, beside the rows of rows.h: threads are processes, which are begun, looked at and
 * killed; a row of docs/DIFFERENCES.md is a function that runs in a process of its own. What it sees it says. */
#ifndef PROCESSES_H
#define PROCESSES_H
#include <errno.h>
#include <signal.h>
#include <stdarg.h>
#include <stdbool.h>
#include <stdio.h>
#include <stdlib.h>
#include <string.h>
#include <sys/prctl.h>
#include <sys/ptrace.h>
#include <sys/wait.h>
#include <unistd.h>

/* What came of a call that was made in a process of its own, beside what it returned. */
enum { SLEEPS = -1, CRASHES = -2 };

/* What is said of a row, in memory that processes share. */
static char *seen;
enum { MOST_SEEN = 300 };

static inline void say(const char *format, ...)
{
    size_t used = strlen(seen);
    va_list arguments;
    va_start(arguments, format);
    vsnprintf(seen + used, MOST_SEEN - used, format, arguments);
    va_end(arguments);
}

static inline const char *name(int answer)
{
    if (answer == SLEEPS || answer == CRASHES)
        return answer == SLEEPS ? "sleeps on" : "crashes";
    return answer == 0 ? "OK" : strerrorname_np(answer);
}

/* Ends this process, and with it all that it began. */
static inline void fail(const char *what)
{
    perror(what);
    exit(1);
}

/* A process of its own, which is killed where the one that began it ends. */
static inline pid_t begin(int (*call)(void))
{
    pid_t parent = getpid(), child = fork();
    if (child < 0)
        fail("fork");
    if (child == 0) {
        prctl(PR_SET_PDEATHSIG, SIGKILL);
        _exit(getppid() == parent ? call() : 0);
    }
    return child;
}

/* Whether a process sleeps in the kernel, by the state after its name (proc_pid_stat(5)). */
static inline bool is_asleep(pid_t child)
{
    char path[32], state = 0;
    snprintf(path, sizeof path, "/proc/%d/stat", (int)child);
    FILE *stat = fopen(path, "r");
    if (stat == NULL)
        fail(path);
    if (fscanf(stat, "%*d (%*[^)]) %c", &state) != 1)
        state = 0;
    fclose(stat);
    return state == 'S';
}

/* What came of it, or that it sleeps on: that it was asleep whenever it was looked at for a quarter of a second. */
static inline int came_of(pid_t child)
{
    int status;
    for (int asleep = 0; asleep < 25; asleep = is_asleep(child) ? asleep + 1 : 0) {
        if (waitpid(child, &status, WNOHANG) == child)
            return WIFEXITED(status) ? WEXITSTATUS(status) : CRASHES;
        usleep(10000);
    }
    return SLEEPS;
}

/* Until it sleeps, or has ended. */
static inline void settle(pid_t child)
{
    siginfo_t ended = { 0 };
    while (!is_asleep(child) && waitid(P_PID, child, &ended, WEXITED | WNOHANG | WNOWAIT) == 0 && ended.si_pid == 0)
        usleep(1000);
}

/* Has this process stopped, for the one that began it, at each begin and each end of a system call. */
static inline int be_traced(void) { return ptrace(PTRACE_TRACEME, 0, NULL, NULL) || raise(SIGSTOP) ? errno : 0; }

/* Until one that is traced sleeps, and not for a moment: it goes on from each stop. */
static inline void settle_traced(pid_t child)
{
    int status;
    for (int asleep = 0; asleep < 5; asleep = is_asleep(child) ? asleep + 1 : 0) {
        if (waitpid(child, &status, WNOHANG) != child)
            usleep(asleep ? 10000 : 500);
        else if (!WIFSTOPPED(status) || ptrace(PTRACE_SETOPTIONS, child, NULL, PTRACE_O_TRACESYSGOOD) ||
                 ptrace(PTRACE_SYSCALL, child, NULL, NULL))
            fail("ptrace");
    }
}

/* One that is traced stops where its sleep ends, before it does anything: whether it was woken. */
static inline bool is_woken(pid_t child)
{
    struct __ptrace_syscall_info call = { 0 };
    if (waitpid(child, NULL, 0) != child || ptrace(PTRACE_GET_SYSCALL_INFO, child, sizeof call, &call) < 0)
        fail("ptrace");
    return call.op == PTRACE_SYSCALL_INFO_EXIT && !call.exit.is_error;
}

static inline void kill_it(pid_t child)
{
    kill(child, SIGKILL);
    waitpid(child, NULL, 0);
}

/* Runs a row in a process of its own, and leaves no other process. */
static inline void see(void (*row)(void))
{
    int status;
    pid_t parent = getpid(), child = fork();
    if (child < 0)
        fail("fork");
    if (child == 0) {
        prctl(PR_SET_PDEATHSIG, SIGKILL);
        if (getppid() != parent)
            _exit(1);
        alarm(600); /* thousands of kills, on a busy machine */
        row();
        _exit(0);
    }
    waitpid(child, &status, 0);
    if (WIFSIGNALED(status))
        say(WTERMSIG(status) == SIGALRM ? "doesn't end" : "crashes");
    else if (WEXITSTATUS(status))
        say("isn't seen");
    while (waitpid(-1, NULL, 0) > 0)
        ;
}
#endif
