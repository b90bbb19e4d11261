/* Condition variables with the library's mutexes: signals, deaths, deadlines, handlers, cancellation, and variables
 * that are initialised again. No wait may end unless it is woken. The library is loaded in front. usage: conds */
#include "robust.h"
#include <sys/time.h>

enum { PROCESSES = 4, ENDED = 9 };
static struct shared {
    pthread_mutex_t m;
    pthread_cond_t c;
    _Atomic int stage[PROCESSES], reply[PROCESSES], handled, cleaned;
} * s;
static pid_t process[PROCESSES];

static void make_cond(clockid_t clock)
{
    pthread_condattr_t a;
    pthread_condattr_init(&a);
    pthread_condattr_setpshared(&a, PTHREAD_PROCESS_SHARED);
    pthread_condattr_setclock(&a, clock);
    EQUAL(pthread_cond_init(&s->c, &a), 0);
}
static void start_over(int type)
{
    memset((void *)s, 0, sizeof *s);
    EQUAL(init_robust(&s->m, type), 0);
    make_cond(CLOCK_REALTIME);
}

static void count_handled(int number)
{
    (void)number;
    atomic_fetch_add(&s->handled, 1);
}

/* A process that waits once, and ends. It sleeps, and nobody owns the mutex. */
static void a_waiter(int i, const struct timespec *deadline)
{
    atomic_store(&s->stage[i], 0);
    process[i] = start_child();
    if (process[i]) {
        until(&s->stage[i], 1);
        pthread_mutex_lock(&s->m); /* so the wait has released the mutex */
        pthread_mutex_unlock(&s->m);
        until_it_sleeps(process[i]);
        return;
    }
    sigaction(SIGUSR1, &(struct sigaction){.sa_handler = count_handled}, NULL); /* without SA_RESTART */
    pthread_mutex_lock(&s->m);
    atomic_store(&s->stage[i], 1);
    int r = deadline ? pthread_cond_timedwait(&s->c, &s->m, deadline) : pthread_cond_wait(&s->c, &s->m);
    atomic_store(&s->reply[i], r);
    repair(r, &s->m);
    if (r != ENOTRECOVERABLE)
        pthread_mutex_unlock(&s->m);
    atomic_store(&s->stage[i], ENDED);
    _exit(0);
}
static int has_ended(int i) { return atomic_load(&s->stage[i]) == ENDED; }
static int reply_of(int i)
{
    int ended = until(&s->stage[i], ENDED);
    kill_child(process[i]);
    return ended ? atomic_load(&s->reply[i]) : -1;
}

static void signals(void)
{
    start_over(PTHREAD_MUTEX_NORMAL);
    EQUAL(pthread_cond_signal(&s->c) + pthread_cond_broadcast(&s->c), 0);
    for (int i = 0; i < 3; i++)
        a_waiter(i, NULL);
    EQUAL(pthread_cond_signal(&s->c), 0);
    while (has_ended(0) + has_ended(1) + has_ended(2) == 0)
        nap(100);
    for (int i = 0; i < 3; i++)
        if (!has_ended(i))
            until_it_sleeps(process[i]);
    EQUAL(has_ended(0) + has_ended(1) + has_ended(2), 1);
    EQUAL(pthread_cond_broadcast(&s->c), 0);
    for (int i = 0; i < 3; i++)
        EQUAL(reply_of(i), 0);
}

/* The owner dies after the deadline of a waiter, which gets EOWNERDEAD. Again with more time, if the owner came too
 * late. */
static void death_after_the_deadline(void)
{
    int came_late = 1;
    for (long us = 100000; came_late; us *= 4) {
        struct timespec soon = after_us(CLOCK_REALTIME, us), now;
        a_waiter(0, &soon);
        pid_t p = start_child();
        if (!p) {
            pthread_mutex_lock(&s->m);
            clock_gettime(CLOCK_REALTIME, &now);
            if (now.tv_sec > soon.tv_sec || (now.tv_sec == soon.tv_sec && now.tv_nsec > soon.tv_nsec))
                _exit(pthread_mutex_unlock(&s->m) ? 1 : 3);
            nap(2 * us);
            kill(getpid(), SIGKILL);
        }
        came_late = status_of(p) == 3;
        int reply = reply_of(0);
        if (!came_late)
            EQUAL(reply, EOWNERDEAD);
    }
}

static void deaths(void)
{
    start_over(PTHREAD_MUTEX_NORMAL);
    a_waiter(0, NULL);
    a_waiter(1, NULL);
    kill_child(process[0]);
    EQUAL(pthread_cond_signal(&s->c), 0);
    EQUAL(reply_of(1), 0);
    for (int i = 0; i < 3; i++) {
        a_waiter(0, NULL);
        EQUAL(pthread_cond_signal(&s->c), 0);
        EQUAL(reply_of(0), 0);
    }
    death_after_the_deadline();
}

static void deadlines(void)
{
    struct timespec past = {1, 0}, before_1970 = {-1, 0}, bad = {1, 1000000000}, soon;
    start_over(PTHREAD_MUTEX_NORMAL);
    EQUAL(pthread_cond_timedwait(&s->c, &s->m, &past), EPERM);
    pthread_mutex_lock(&s->m);
    EQUAL(pthread_cond_timedwait(&s->c, &s->m, &past), ETIMEDOUT);
    EQUAL(pthread_cond_timedwait(&s->c, &s->m, &before_1970), ETIMEDOUT);
    EQUAL(pthread_cond_timedwait(&s->c, &s->m, &bad), EINVAL);
    EQUAL(pthread_cond_clockwait(&s->c, &s->m, CLOCK_PROCESS_CPUTIME_ID, &past), EINVAL);
    for (int i = 0; i < 2; i++) {
        clockid_t clock = i ? CLOCK_MONOTONIC : CLOCK_REALTIME;
        make_cond(clock);
        soon = after_us(clock, 20000);
        EQUAL(pthread_cond_timedwait(&s->c, &s->m, &soon), ETIMEDOUT);
        struct timespec now = after_us(clock, 0);
        CHECK(now.tv_sec > soon.tv_sec || (now.tv_sec == soon.tv_sec && now.tv_nsec >= soon.tv_nsec));
        soon = after_us(CLOCK_MONOTONIC, 20000);
        EQUAL(pthread_cond_clockwait(&s->c, &s->m, CLOCK_MONOTONIC, &soon), ETIMEDOUT);
    }
    EQUAL(pthread_mutex_unlock(&s->m), 0);
}

/* After a signal to nobody, the next one needs no system call. */
static void a_signal_to_nobody(void)
{
    const volatile uint32_t *count = (const volatile uint32_t *)&s->c + 10;
    struct timespec past = {1, 0};
    start_over(PTHREAD_MUTEX_NORMAL);
    pthread_mutex_lock(&s->m);
    EQUAL(pthread_cond_timedwait(&s->c, &s->m, &past), ETIMEDOUT);
    EQUAL(pthread_mutex_unlock(&s->m), 0);
    EQUAL(*count & 1, 1);
    EQUAL(pthread_cond_signal(&s->c), 0);
    EQUAL(*count & 1, 0);
}

static void handlers(void)
{
    start_over(PTHREAD_MUTEX_NORMAL);
    a_waiter(0, NULL);
    for (int i = 1; i <= 5; i++) {
        kill(process[0], SIGUSR1);
        until(&s->handled, i);
        until_it_sleeps(process[0]);
        CHECK(!has_ended(0));
    }
    EQUAL(pthread_cond_signal(&s->c), 0);
    EQUAL(reply_of(0), 0);
}

/* ---- Cancellation: the thread owns the mutex as its handlers run, and hands a signal on that had woken it. */

static _Atomic pid_t waiting;
static void clean_up(void *unused)
{
    (void)unused;
    atomic_store(&s->cleaned, owner_of(&s->m) == (pid_t)syscall(SYS_gettid) ? 1 : 2);
    pthread_mutex_unlock(&s->m);
}
static void *wait_in_thread(void *unused)
{
    pthread_mutex_lock(&s->m);
    pthread_cleanup_push(clean_up, NULL);
    atomic_store(&waiting, (pid_t)syscall(SYS_gettid));
    pthread_cond_wait(&s->c, &s->m);
    pthread_cleanup_pop(0);
    pthread_mutex_unlock(&s->m);
    return unused;
}
static pthread_t a_waiting_thread(void)
{
    pthread_t t;
    atomic_store(&waiting, 0);
    pthread_create(&t, NULL, wait_in_thread, NULL);
    while (!atomic_load(&waiting))
        nap(100);
    until_it_sleeps(atomic_load(&waiting));
    return t;
}

static void cancellation(void)
{
    void *result;
    start_over(PTHREAD_MUTEX_NORMAL);
    pthread_t t = a_waiting_thread();
    pthread_cancel(t);
    pthread_join(t, &result);
    CHECK(result == PTHREAD_CANCELED);
    EQUAL(s->cleaned, 1);
    EQUAL(pass(&s->m), 0);
    t = a_waiting_thread();
    a_waiter(0, NULL);
    pthread_cancel(t);
    pthread_cond_signal(&s->c); /* may have woken the cancelled thread */
    pthread_join(t, NULL);
    EQUAL(reply_of(0), 0);
    t = a_waiting_thread(); /* the lock at the end of a wait is no cancellation point */
    pthread_mutex_lock(&s->m);
    pthread_cond_signal(&s->c);
    nap(20000);
    pthread_cancel(t);
    nap(20000);
    pthread_mutex_unlock(&s->m);
    pthread_join(t, NULL);
    EQUAL(pass(&s->m), 0);
}

/* ---- Other uses. */

static void ended(void)
{
    start_over(PTHREAD_MUTEX_NORMAL);
    a_waiter(0, NULL);
    EQUAL(pthread_cond_destroy(&s->c), 0);
    EQUAL(reply_of(0), 0);
    make_cond(CLOCK_REALTIME);
    a_waiter(0, NULL);
    make_cond(CLOCK_REALTIME);
    EQUAL(reply_of(0), 0);
    a_waiter(0, NULL);
    EQUAL(pthread_cond_signal(&s->c), 0);
    EQUAL(reply_of(0), 0);
}

static void other_mutexes(void)
{
    struct timespec past = {1, 0};
    pthread_mutex_t plain = PTHREAD_MUTEX_INITIALIZER;
    start_over(PTHREAD_MUTEX_RECURSIVE);
    pthread_mutex_lock(&s->m);
    pthread_mutex_lock(&s->m);
    EQUAL(pthread_cond_timedwait(&s->c, &s->m, &past), ETIMEDOUT); /* releases one of two locks */
    EQUAL(pthread_mutex_unlock(&s->m) + pthread_mutex_unlock(&s->m), 0);
    EQUAL(pthread_mutex_unlock(&s->m), EPERM);
    pthread_mutex_lock(&plain);
    EQUAL(pthread_cond_timedwait(&s->c, &plain, &past), ETIMEDOUT);
    pthread_mutex_unlock(&plain);
    make_cond(CLOCK_REALTIME); /* now the C library's waits come first */
    pthread_mutex_lock(&plain);
    EQUAL(pthread_cond_timedwait(&s->c, &plain, &past), ETIMEDOUT);
    pthread_mutex_unlock(&plain);
    pthread_mutex_lock(&s->m);
    EQUAL(pthread_cond_timedwait(&s->c, &s->m, &past), EINVAL);
    EQUAL(pthread_mutex_unlock(&s->m), 0);
}

static void inconsistent(void)
{
    start_over(PTHREAD_MUTEX_NORMAL);
    a_waiter(0, NULL);
    pid_t p = start_child();
    if (!p) {
        pthread_mutex_lock(&s->m);
        kill(getpid(), SIGKILL);
    }
    status_of(p);
    EQUAL(pthread_mutex_lock(&s->m), EOWNERDEAD);
    EQUAL(pthread_cond_wait(&s->c, &s->m), EINVAL);
    EQUAL(pthread_mutex_unlock(&s->m), 0);
    EQUAL(pthread_cond_broadcast(&s->c), 0);
    EQUAL(reply_of(0), ENOTRECOVERABLE);
}

static void errno_stays(void)
{
    struct timespec past = {1, 0};
    start_over(PTHREAD_MUTEX_NORMAL);
    errno = 12345;
    pthread_mutex_lock(&s->m);
    pthread_cond_timedwait(&s->c, &s->m, &past);
    pthread_cond_signal(&s->c);
    pthread_cond_broadcast(&s->c);
    pthread_mutex_unlock(&s->m);
    EQUAL(errno, 12345);
}

int main(void)
{
    begin_checks(900);
    s = shared_memory(sizeof *s);
    signals();
    deaths();
    deadlines();
    a_signal_to_nobody();
    handlers();
    cancellation();
    ended();
    other_mutexes();
    inconsistent();
    errno_stays();
    return end_checks();
}
