/* A child that its parent traces: it goes on by single instructions, or stops at the end of its sleep. */
#ifndef TRACED_H
#define TRACED_H
#include "robust.h"
#include <sys/ptrace.h>
#include <sys/uio.h>

enum { MOST_STEPS = 20000 };

/* In the child: stops, and is traced from here on. */
UNUSED static void be_traced(void)
{
    ptrace(PTRACE_TRACEME, 0, 0, 0);
    raise(SIGSTOP);
}
/* Waits until a traced child has stopped. Returns the signal by which it did. */
UNUSED static int wait_for_stop(pid_t p)
{
    int status;
    return waitpid(p, &status, 0) == p && WIFSTOPPED(status) ? WSTOPSIG(status) : -1;
}
UNUSED static void one_step(pid_t p)
{
    ptrace(PTRACE_SINGLESTEP, p, 0, 0);
    wait_for_stop(p);
}
UNUSED static void let_go(pid_t p) { ptrace(PTRACE_DETACH, p, 0, 0); }

/* Lets a child that has stopped in be_traced go to sleep. It stops again at the end of that system call. */
UNUSED static void let_sleep(pid_t p)
{
    ptrace(PTRACE_CONT, p, 0, 0);
    until_it_sleeps(p);
    kill(p, SIGSTOP); /* from here on, the tracer learns of each system call */
    wait_for_stop(p);
    ptrace(PTRACE_SYSCALL, p, 0, 0);
    wait_for_stop(p);
    ptrace(PTRACE_SYSCALL, p, 0, 0);
    until_it_sleeps(p);
}

/* What the kernel would look at if the thread died now. */
UNUSED static uint64_t pending_of(pid_t p)
{
    uint64_t head = 0, pending = 0;
    size_t size;
    if (syscall(SYS_get_robust_list, p, &head, &size))
        return 1;
    struct iovec here = {&pending, sizeof pending}, there = {(void *)(uintptr_t)(head + 16), sizeof pending};
    return process_vm_readv(p, &here, 1, &there, 1, 0) == sizeof pending ? pending : 1;
}
UNUSED static uint64_t cell_entry(const pthread_mutex_t *m) { return (uint64_t)m + 32; }
UNUSED static uint64_t bell_entry(const pthread_mutex_t *m) { return (uint64_t)m + 40; }
#endif
