/* One thread's list with mutexes of this library, and robust ones of the C library with and without priority
 * inheritance. The thread takes and releases them in any order, and waits in between, until it is killed at some
 * moment. It notes what it owns before and after each call. Then each mutex that it owned is a dead owner's, and each
 * other one is free.
 *
 *   mixed KILLS */
#include "../check.h"
#include <pazdrig.h>
#include <pthread.h>

enum { OURS = 8, ROBUST = 5, INHERITING = 4, ALL = OURS + ROBUST + INHERITING };
enum { NOT_OWNED, OWNED, IN_CALL };
static struct {
    pz_mutex mutex[OURS];
    pz_cond cond[OURS];
    pthread_mutex_t libc[ROBUST + INHERITING];
    volatile int state[ALL];
    volatile long calls;
} * all;
static long dead, free_ones, in_call;

static int lock(int i)
{
    if (i >= OURS)
        return pthread_mutex_lock(&all->libc[i - OURS]);
    return chance(500) ? pz_mutex_lock(&all->mutex[i]) : pz_mutex_trylock(&all->mutex[i]);
}
static int unlock(int i)
{
    return i >= OURS ? pthread_mutex_unlock(&all->libc[i - OURS]) : pz_mutex_unlock(&all->mutex[i]);
}
static int trylock(int i)
{
    return i >= OURS ? pthread_mutex_trylock(&all->libc[i - OURS]) : pz_mutex_trylock(&all->mutex[i]);
}
static int consistent(int i)
{
    return i >= OURS ? pthread_mutex_consistent(&all->libc[i - OURS]) : pz_mutex_consistent(&all->mutex[i]);
}
static void one_call(int i)
{
    int owned = all->state[i] == OWNED, r;
    struct timespec now = after_us(CLOCK_MONOTONIC, 0);
    all->state[i] = IN_CALL;
    if (owned && i < OURS && chance(160)) {
        r = pz_cond_clockwait(&all->cond[i], &all->mutex[i], CLOCK_MONOTONIC, &now);
        if (r != ETIMEDOUT)
            _exit(3);
        all->state[i] = OWNED;
    } else {
        if ((r = owned ? unlock(i) : lock(i)))
            _exit(4);
        all->state[i] = owned ? NOT_OWNED : OWNED;
    }
    all->calls++;
}
static void check_one(int i)
{
    int r = trylock(i), state = all->state[i];
    int is_right = state == IN_CALL ? r == 0 || r == EOWNERDEAD : r == (state == OWNED ? EOWNERDEAD : 0);
    check_that(is_right, __FILE__, __LINE__, "mutex %d, state %d: %d", i, state, r);
    *(state == IN_CALL ? &in_call : state == OWNED ? &dead : &free_ones) += 1;
    if (r == EOWNERDEAD)
        EQUAL(consistent(i), 0);
    all->state[i] = NOT_OWNED;
}
static void one_death(void)
{
    all->calls = 0;
    pid_t p = start_child();
    if (p == 0) {
        seed_random(1);
        for (;;)
            one_call((int)a_random(ALL));
    }
    while (all->calls < 3)
        sched_yield();
    spin(a_random(20000));
    EQUAL(kill_child(p), -SIGKILL);
    for (int i = 0; i < ALL; i++)
        check_one(i);
    for (int i = 0; i < ALL; i++)
        EQUAL(unlock(i), 0);
}

int main(int argc, char **argv)
{
    pthread_mutexattr_t a;
    begin_checks(1200);
    seed_random(1);
    all = shared_memory(sizeof *all);
    pthread_mutexattr_init(&a);
    pthread_mutexattr_setpshared(&a, PTHREAD_PROCESS_SHARED);
    pthread_mutexattr_setrobust(&a, PTHREAD_MUTEX_ROBUST);
    for (int i = 0; i < ROBUST + INHERITING; i++) {
        if (i == ROBUST)
            pthread_mutexattr_setprotocol(&a, PTHREAD_PRIO_INHERIT);
        EQUAL(pthread_mutex_init(&all->libc[i], &a), 0);
    }
    for (int k = argc > 1 ? atoi(argv[1]) : 300; k > 0; k--)
        one_death();
    printf("a dead owner's %ld, free %ld, in a call %ld\n", dead, free_ones, in_call);
    return end_checks();
}
