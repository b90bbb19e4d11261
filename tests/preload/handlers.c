/* Signal handlers use robust mutexes during a wait for another one: what the wait has pending is so again after each of
 * their calls, and a thread that is killed in a handler, or stays there, keeps no wake. The library is loaded in front.
 * usage: handlers */
#include "traced.h"

static struct shared {
    pthread_mutex_t m, other, third, fresh, theirs;
    pthread_cond_t c;
    _Atomic int ready, go, done, handled, handled_too, had, wrong, released;
} * s;

static void start_over(void)
{
    memset((void *)s, 0, sizeof *s);
    init_robust(&s->m, PTHREAD_MUTEX_NORMAL);
    init_robust(&s->other, PTHREAD_MUTEX_NORMAL);
    init_robust(&s->third, PTHREAD_MUTEX_NORMAL);
    pthread_mutexattr_t a;
    pthread_mutexattr_init(&a);
    pthread_mutexattr_setrobust(&a, PTHREAD_MUTEX_ROBUST);
    pthread_mutex_init(&s->theirs, &a); /* private, so it is the C library's */
}
static uint64_t wait_entry(const pthread_mutex_t *m) { return is_plain(m) ? cell_entry(m) : bell_entry(m); }

/* ---- What the processes do. */

/* A child that owns a mutex until *go is 1. */
static pid_t an_owner(pthread_mutex_t *m, _Atomic int *go)
{
    atomic_store(&s->ready, 0);
    pid_t p = start_child();
    if (p) {
        until(&s->ready, 1);
        return p;
    }
    pthread_mutex_lock(m);
    atomic_store(&s->ready, 1);
    until(go, 1);
    pthread_mutex_unlock(m);
    atomic_fetch_add(&s->done, 1);
    for (;;)
        pause();
}

/* A child that locks the mutex, with these handlers. A traced one stops first. */
static pid_t a_locker(void (*handler)(int), void (*other_handler)(int), int flags, int traced)
{
    pid_t p = start_child();
    if (!p) {
        sigaction(SIGUSR1, &(struct sigaction){.sa_handler = handler, .sa_flags = flags}, NULL);
        sigaction(SIGUSR2, &(struct sigaction){.sa_handler = other_handler, .sa_flags = flags}, NULL);
        pass(&s->third);
        if (traced)
            be_traced();
        pthread_mutex_lock(&s->m);
        atomic_fetch_add(&s->had, 1);
        pthread_mutex_unlock(&s->m);
        _exit(0);
    }
    if (traced)
        wait_for_stop(p);
    else
        until_it_sleeps(p);
    return p;
}
static void do_nothing(int number) { (void)number; }
static pid_t a_sleeper(void) { return a_locker(do_nothing, do_nothing, 0, 0); }

static void use_other(int number)
{
    (void)number;
    pass(&s->other);
    atomic_fetch_add(&s->handled, 1);
}
static void use_third(int number)
{
    (void)number;
    pass(&s->third);
    atomic_fetch_add(&s->handled_too, 1);
}
static void use_theirs(int number)
{
    (void)number;
    pass(&s->theirs);
    atomic_fetch_add(&s->handled, 1);
}
static void use_theirs_and_stay(int number)
{
    use_theirs(number);
    for (;;)
        pause();
}
static void use_other_and_stay(int number)
{
    use_other(number);
    for (;;)
        pause();
}

/* ---- What is pending after a handler, and after each call in it. */

static void a_handler_comes(void (*handler)(int), int flags)
{
    start_over();
    pid_t owner = an_owner(&s->m, &s->go), p = a_locker(handler, do_nothing, flags, 0);
    EQUAL(pending_of(p), wait_entry(&s->m));
    kill(p, SIGUSR1);
    CHECK(until(&s->handled, 1));
    until_it_sleeps(p);
    EQUAL(pending_of(p), wait_entry(&s->m));
    atomic_store(&s->go, 1);
    CHECK(until(&s->had, 1));
    kill_child(p);
    kill_child(owner);
}

static void check_pending(void)
{
    uint64_t *head = NULL;
    size_t size;
    syscall(SYS_get_robust_list, 0, &head, &size);
    atomic_fetch_add(&s->wrong, head[2] != wait_entry(&s->m));
}
static void make_all_calls(int number)
{
    struct timespec past = {1, 0};
    (void)number;
    for (int i = 0; i < 2; i++) {
        init_robust(&s->fresh, PTHREAD_MUTEX_NORMAL);
        check_pending();
    }
    pthread_mutex_lock(&s->other);
    check_pending();
    pthread_cond_timedwait(&s->c, &s->other, &past);
    check_pending();
    pthread_mutex_timedlock(&s->other, &past);
    check_pending();
    pthread_mutex_unlock(&s->other);
    check_pending();
    pthread_mutex_trylock(&s->other);
    check_pending();
    pthread_mutex_trylock(&s->third); /* owned by another process */
    check_pending();
    pthread_mutex_timedlock(&s->third, &past);
    check_pending();
    init_robust(&s->other, PTHREAD_MUTEX_NORMAL);
    check_pending();
    pthread_mutex_destroy(&s->other);
    check_pending();
    atomic_store(&s->handled, 1);
}
static void each_call_leaves_what_was_pending(void)
{
    start_over();
    pid_t owner = an_owner(&s->m, &s->go), p = a_locker(make_all_calls, do_nothing, 0, 0);
    pid_t owner_of_third = an_owner(&s->third, &s->released);
    kill(p, SIGUSR1);
    CHECK(until(&s->handled, 1));
    EQUAL(s->wrong, 0);
    atomic_store(&s->go, 1);
    CHECK(until(&s->had, 1));
    kill_child(p);
    kill_child(owner_of_third);
    kill_child(owner);
}

/* ---- A thread is woken, and a handler runs before it goes on. */

/* The mutex is freed, and the first of two sleepers woken: it is stopped, and has a signal to handle. */
static pid_t wake_first(void (*handler)(int), void (*other_handler)(int), pid_t *second)
{
    pid_t first = a_locker(handler, other_handler, 0, 1);
    let_sleep(first);
    *second = a_sleeper();
    atomic_store(&s->go, 1);
    CHECK(until(&s->done, 1));
    wait_for_stop(first);
    kill(first, SIGUSR1);
    ptrace(PTRACE_CONT, first, 0, 0);
    EQUAL(wait_for_stop(first), SIGUSR1);
    ptrace(PTRACE_DETACH, first, 0, SIGUSR1);
    return first;
}

static void a_thread_is_killed_in_a_handler(void)
{
    start_over();
    pid_t owner = an_owner(&s->m, &s->go), second, first = wake_first(use_other_and_stay, do_nothing, &second);
    CHECK(until(&s->handled, 1));
    kill_child(first);
    CHECK(until(&s->had, 1));
    kill_child(second);
    kill_child(owner);
}

/* The C library leaves nothing pending. So the wake may be lost, until an unlock that doesn't trust the woken thread
 * any more. */
static void a_thread_is_killed_after_theirs(void)
{
    start_over();
    pid_t owner = an_owner(&s->m, &s->go), second, first = wake_first(use_theirs_and_stay, do_nothing, &second);
    CHECK(until(&s->handled, 1));
    kill_child(first);
    nap(20000);
    EQUAL(pass(&s->m), 0);
    CHECK(until(&s->had, 1));
    kill_child(second);
    kill_child(owner);
}

/* The woken thread sleeps in its handler, for the other mutex, and then a second handler comes. */
static void a_handler_waits(void)
{
    start_over();
    pid_t owner = an_owner(&s->m, &s->go), owner_of_other = an_owner(&s->other, &s->released), second;
    pid_t first = wake_first(use_other, use_third, &second);
    CHECK(until(&s->had, 1));
    until_it_sleeps(first);
    EQUAL(pending_of(first), wait_entry(&s->other));
    kill(first, SIGUSR2);
    CHECK(until(&s->handled_too, 1));
    until_it_sleeps(first);
    EQUAL(pending_of(first), wait_entry(&s->other));
    atomic_store(&s->released, 1);
    CHECK(until(&s->handled, 1));
    CHECK(until(&s->had, 2));
    kill_child(first);
    kill_child(second);
    kill_child(owner_of_other);
    kill_child(owner);
}

/* A thread has taken the mutex, and then made `steps` instructions; its lock hasn't returned yet. In a handler it sleeps
 * for another mutex, and is killed. Returns whether the lock has nothing pending any more. */
static int a_handler_comes_late(int steps)
{
    start_over();
    pid_t owner = an_owner(&s->m, &s->go), owner_of_other = an_owner(&s->other, &s->released);
    pid_t p = a_locker(use_other, do_nothing, 0, 1);
    let_sleep(p);
    atomic_store(&s->go, 1);
    CHECK(until(&s->done, 1));
    wait_for_stop(p);
    for (int n = 0; n < MOST_STEPS && owner_of(&s->m) != p; n++)
        one_step(p);
    for (int n = 0; n < steps; n++)
        one_step(p);
    int is_over = pending_of(p) != cell_entry(&s->m);
    ptrace(PTRACE_DETACH, p, 0, SIGUSR1);
    until_it_sleeps(p);
    kill_child(p);
    struct timespec late = after_us(CLOCK_REALTIME, NO_END_S * 1000000L);
    EQUAL(pthread_mutex_timedlock(&s->m, &late), EOWNERDEAD);
    EQUAL(pthread_mutex_consistent(&s->m), 0);
    EQUAL(pthread_mutex_unlock(&s->m), 0);
    kill_child(owner_of_other);
    kill_child(owner);
    return is_over || checks_failed;
}
static void handlers_come_late(void)
{
    int steps = 0;
    while (steps < MOST_STEPS && !a_handler_comes_late(steps))
        steps++;
    CHECK(steps > 0);
}

/* An heir in a handler isn't one any more: no unlock leaves it a wake. */
static void an_heir_handles(void)
{
    start_over();
    if (is_plain(&s->m))
        return;
    pid_t owner = an_owner(&s->m, &s->go), heir = a_locker(use_other_and_stay, do_nothing, 0, 1);
    for (int i = 0; i < MOST_STEPS && (pid_t)(bell_of(&s->m) & 0x3fffffff) != heir; i++)
        one_step(heir);
    EQUAL(bell_of(&s->m) & 0x3fffffff, heir);
    ptrace(PTRACE_DETACH, heir, 0, SIGUSR1);
    CHECK(until(&s->handled, 1));
    EQUAL(bell_of(&s->m), 0);
    kill_child(heir);
    kill_child(owner);
}

int main(void)
{
    begin_checks(900);
    s = shared_memory(sizeof *s);
    a_handler_comes(use_other, 0);
    a_handler_comes(use_other, SA_RESTART);
    a_handler_comes(use_theirs, 0);
    each_call_leaves_what_was_pending();
    a_thread_is_killed_in_a_handler();
    a_thread_is_killed_after_theirs();
    a_handler_waits();
    handlers_come_late();
    an_heir_handles();
    return end_checks();
}
