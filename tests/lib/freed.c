/* The next owner of a mutex may be its last user, and free its memory: POSIX allows that as soon as nobody owns it. So
 * an unlock stores nothing after its release, except for the exchange that does nothing if the mutex was taken since.
 * A's unlock stands still after each of its instructions in turn; if it has released the mutex by then, B locks it,
 * unlocks it, and writes over the memory; then A continues. */
#include "../check.h"
#include <pazdrig.h>
#include <stdatomic.h>
#include <sys/ptrace.h>

enum { MOST_STEPS = 3000, FILLED = 0xab };
static struct {
    _Atomic int ready, go, b_is_done, a_is_done;
    char pad[4032];
    union {
        pz_mutex mutex;
        unsigned char bytes[4096];
    };
} * all;

static void none(int signal) { (void)signal; }
static pid_t add_a(void)
{
    pid_t p = start_child();
    if (p == 0) {
        pz_mutex_lock(&all->mutex);
        ptrace(PTRACE_TRACEME, 0, 0, 0);
        all->ready = 1;
        while (!all->go)
            nap(50);
        raise(SIGSTOP);
        pz_mutex_unlock(&all->mutex);
        all->a_is_done = 1;
        for (;;)
            pause();
    }
    while (!all->ready)
        nap(20);
    return p;
}
/* Sleeps on the mutex, so that WAITERS is set. */
static pid_t add_b(void)
{
    pid_t p = start_child();
    if (p == 0) {
        struct sigaction s = {.sa_handler = none};
        sigaction(SIGUSR1, &s, NULL);
        pz_mutex_lock(&all->mutex);
        pz_mutex_unlock(&all->mutex);
        memset(all->bytes, FILLED, sizeof all->bytes);
        all->b_is_done = 1;
        _exit(0);
    }
    until_asleep(p);
    return p;
}
static int changed_bytes(void)
{
    int changed = 0;
    for (size_t i = 0; i < sizeof all->bytes; i++)
        changed += all->bytes[i] != FILLED;
    return changed;
}
/* Returns whether A's unlock had ended after n instructions. */
static int stand_after(long n, int *times)
{
    int status;
    memset(all, 0, sizeof *all);
    pid_t a = add_a(), b = add_b();
    all->go = 1;
    waitpid(a, &status, __WALL);
    for (long k = 0; k < n && !all->a_is_done; k++) {
        ptrace(PTRACE_SINGLESTEP, a, 0, 0);
        waitpid(a, &status, __WALL);
    }
    int is_over = all->a_is_done;
    if (!is_over && pz_mutex_owner(&all->mutex) != a) {
        kill(b, SIGUSR1); /* whatever ends its sleep */
        EQUAL(status_of(b), 0);
        ptrace(PTRACE_CONT, a, 0, 0);
        while (!all->a_is_done)
            nap(50);
        check_that(changed_bytes() == 0, __FILE__, __LINE__, "after %ld instructions: %d bytes were changed later", n,
                   changed_bytes());
        ++*times;
        b = 0;
    }
    kill_child(a);
    if (b)
        kill_child(b);
    return is_over;
}

int main(void)
{
    int times = 0;
    begin_checks(600);
    all = shared_memory(sizeof *all);
    for (long n = 1; n < MOST_STEPS && !stand_after(n, &times); n++)
        ;
    printf("stood still after the release at each of %d instructions\n", times);
    CHECK(times > 5);
    return end_checks();
}
