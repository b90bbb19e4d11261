/* Single steps of a child, up to where it waits awake for a mutex. */
#ifndef STEPS_H
#define STEPS_H
#include "../check.h"
#include <pazdrig.h>
#include <sys/ptrace.h>

enum { MOST_STEPS = 4000 };

/* Whether some thread waits awake for the mutex: the flag AWAKE of the slot (lib/mutex.h, lib/heir.c). */
UNUSED static int has_awake_heir(const pz_mutex *m) { return ((const volatile pz_mutex *)m)->words[2] >> 32 & 1; }

/* Makes one step, with a signal unless it is 0. Returns 0 if the child has ended. */
UNUSED static int step(pid_t p, int signal)
{
    int status;
    ptrace(PTRACE_SINGLESTEP, p, 0, signal);
    return waitpid(p, &status, __WALL) == p && WIFSTOPPED(status);
}
/* For a child that stops itself before it locks the mutex: steps until it is the heir. */
UNUSED static void step_until_awake(pid_t p, const pz_mutex *m)
{
    until_stopped(p);
    CHECK(ptrace(PTRACE_SEIZE, p, 0, 0) == 0);
    kill(p, SIGCONT);
    ptrace(PTRACE_INTERRUPT, p, 0, 0);
    for (int k = 0; !has_awake_heir(m) && k < MOST_STEPS; k++)
        step(p, 0);
    CHECK(has_awake_heir(m));
}
#endif
