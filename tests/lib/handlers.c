/* A signal handler that locks another robust mutex while its thread waits in a lock or a wait. It leaves the pending
 * entry empty, so the thread has to set it again: otherwise a death between its take and its link isn't reported. The
 * thread is killed before each instruction that follows. */
#include "steps.h"
#include <stdatomic.h>

static struct {
    pz_mutex mutex, other;
    pz_cond cond;
    _Atomic int ready, handled, is_done;
} * all;

static void handle(int signal)
{
    (void)signal;
    if (!pz_mutex_lock(&all->other) && !pz_mutex_unlock(&all->other))
        all->handled = 1;
}
enum how { ASLEEP_IN_LOCK, AWAKE_IN_LOCK, ASLEEP_IN_WAIT };
static const char *const names[] = {"asleep in a lock", "awake in a lock", "asleep in a wait"};

_Noreturn static void be_victim(enum how how)
{
    struct sigaction a = {.sa_handler = handle, .sa_flags = SA_RESTART};
    sigaction(SIGUSR1, &a, NULL);
    if (how == ASLEEP_IN_WAIT)
        pz_mutex_lock(&all->mutex);
    if (how == AWAKE_IN_LOCK)
        raise(SIGSTOP);
    all->ready = 1;
    if (how == ASLEEP_IN_WAIT)
        pz_cond_wait(&all->cond, &all->mutex);
    else
        pz_mutex_lock(&all->mutex);
    all->is_done = 1;
    for (;;)
        pause();
}
static void until_signal_comes(pid_t p)
{
    int status;
    kill(p, SIGUSR1);
    while (waitpid(p, &status, __WALL) == p && WIFSTOPPED(status) && WSTOPSIG(status) != SIGUSR1)
        ptrace(PTRACE_CONT, p, 0, 0);
}
/* Brings the victim to where it waits, and runs the handler there. The mutex is free then. */
static pid_t after_handler(enum how how)
{
    memset(all, 0, sizeof *all);
    if (how != ASLEEP_IN_WAIT)
        EQUAL(pz_mutex_lock(&all->mutex), 0);
    pid_t p = start_child();
    if (p == 0)
        be_victim(how);
    if (how == AWAKE_IN_LOCK) {
        step_until_awake(p, &all->mutex);
        step(p, SIGUSR1);
    } else {
        while (!all->ready)
            nap(20);
        until_asleep(p);
        CHECK(ptrace(PTRACE_SEIZE, p, 0, 0) == 0);
        until_signal_comes(p);
        step(p, SIGUSR1);
    }
    for (int k = 0; !all->handled && k < MOST_STEPS && step(p, 0); k++)
        ;
    CHECK(all->handled);
    if (how != ASLEEP_IN_WAIT)
        EQUAL(pz_mutex_unlock(&all->mutex), 0);
    return p;
}
/* Returns whether the call had ended after n instructions. */
static int die_after(enum how how, int n, int *deaths_as_owner)
{
    pid_t p = after_handler(how);
    for (int k = 0; k < n && !all->is_done; k++)
        step(p, 0);
    int is_done = all->is_done, owned = pz_mutex_owner(&all->mutex) == p;
    kill_child(p);
    *deaths_as_owner += owned;
    int r = pz_mutex_trylock(&all->mutex);
    check_that(r == (owned ? EOWNERDEAD : 0), __FILE__, __LINE__, "death %d instructions after the handler, %s: %d", n,
               owned ? "as the owner" : "without the mutex", r);
    if (r == EBUSY)
        return 1;
    if (r == EOWNERDEAD)
        EQUAL(pz_mutex_consistent(&all->mutex), 0);
    EQUAL(pz_mutex_unlock(&all->mutex), 0);
    return is_done;
}

int main(int argc, char **argv)
{
    int every = argc > 1 ? atoi(argv[1]) : 1;
    begin_checks(600);
    all = shared_memory(sizeof *all);
    for (int how = ASLEEP_IN_LOCK; how <= ASLEEP_IN_WAIT; how++) {
        int deaths_as_owner = 0, n = 0;
        while (!die_after((enum how)how, n, &deaths_as_owner) && n < MOST_STEPS && checks_failed < 4)
            n += every;
        printf("%s: %d deaths, %d of them as the owner\n", names[how], n / every + 1, deaths_as_owner);
        CHECK(deaths_as_owner > 0 || every > 3);
    }
    return end_checks();
}
