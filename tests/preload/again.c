/* A mutex or a condition variable is initialised again, or destroyed, while others sleep there: the caller is killed
 * after each instruction, or stopped there while others look. Nobody may sleep forever, own a mutex together with
 * another thread, or get a reply for which there is no reason. The library is loaded in front. usage: again [EACH
 * [SCENE]] */
#include "traced.h"

enum call { INIT, INIT_OF_THEIRS, DESTROY, COND_INIT, COND_DESTROY, BROADCAST };
enum { MOST = 2 };
static const struct scene {
    const char *name;
    enum call call;
    int owns;     /* the victim owns the mutex */
    int sleepers; /* how many sleep on the mutex, or wait on the variable */
    int comes;    /* another thread has freed the mutex, and the first of them has been woken, and is stopped */
} scenes[] = {
    {"init of a free mutex", INIT, 0, 0, 0},
    {"init of an owned mutex", INIT, 1, 0, 0},
    {"init of an owned mutex, one sleeps", INIT, 1, 1, 0},
    {"init of an owned mutex, two sleep", INIT, 1, 2, 0},
    {"init as one of the C library's, of an owned mutex", INIT_OF_THEIRS, 1, 0, 0},
    {"init as one of the C library's, one sleeps", INIT_OF_THEIRS, 1, 1, 0},
    {"init as one of the C library's, two sleep", INIT_OF_THEIRS, 1, 2, 0},
    {"destroy of a free mutex", DESTROY, 0, 0, 0},
    {"destroy of a free mutex, one comes", DESTROY, 0, 1, 1},
    {"destroy of a free mutex, one comes, another sleeps", DESTROY, 0, 2, 1},
    {"destroy of an owned mutex", DESTROY, 1, 0, 0},
    {"destroy of an owned mutex, one sleeps", DESTROY, 1, 1, 0},
    {"destroy of an owned mutex, two sleep", DESTROY, 1, 2, 0},
    {"init of a condition variable", COND_INIT, 0, 0, 0},
    {"init of a condition variable, one waits", COND_INIT, 0, 1, 0},
    {"init of a condition variable, two wait", COND_INIT, 0, 2, 0},
    {"destroy of a condition variable", COND_DESTROY, 0, 0, 0},
    {"destroy of a condition variable, one waits", COND_DESTROY, 0, 1, 0},
    {"destroy of a condition variable, two wait", COND_DESTROY, 0, 2, 0},
    {"broadcast, then a signal, two wait", BROADCAST, 0, 2, 0},
};
enum { SCENES = sizeof scenes / sizeof *scenes };

static struct shared {
    pthread_mutex_t m, other;
    pthread_cond_t c, other_c;
    _Atomic int done, had, handled, go, destroyed, reply[MOST];
} * s;
static pthread_mutexattr_t robust;
static pthread_condattr_t shared;
static const struct scene *scene;
static pid_t victim, sleeper[MOST];

/* The variable is the library's: it has been waited on. */
static void start_over(void)
{
    struct timespec past = {1, 0};
    memset((void *)s, 0, sizeof *s);
    memset(sleeper, 0, sizeof sleeper);
    pthread_mutex_init(&s->m, &robust);
    pthread_mutex_init(&s->other, &robust);
    pthread_cond_init(&s->c, &shared);
    pthread_cond_init(&s->other_c, &shared);
    pthread_mutex_lock(&s->m);
    pthread_cond_timedwait(&s->c, &s->m, &past);
    pthread_mutex_unlock(&s->m);
}

/* ---- What the processes do. */

/* Has all calls bound, and the thread known to the library. */
static void warm_up(void)
{
    struct timespec past = {1, 0};
    pthread_mutex_lock(&s->other);
    pthread_cond_timedwait(&s->other_c, &s->other, &past);
    pthread_cond_broadcast(&s->other_c);
    pthread_cond_destroy(&s->other_c);
    pthread_cond_init(&s->other_c, &shared);
    pthread_mutex_unlock(&s->other);
    pthread_mutex_destroy(&s->other);
    pthread_mutex_init(&s->other, &robust);
}

static void make_call(void)
{
    if (scene->call == INIT)
        pthread_mutex_init(&s->m, &robust);
    else if (scene->call == INIT_OF_THEIRS)
        pthread_mutex_init(&s->m, NULL);
    else if (scene->call == DESTROY)
        atomic_store(&s->destroyed, 1000 + pthread_mutex_destroy(&s->m));
    else if (scene->call == COND_INIT)
        pthread_cond_init(&s->c, &shared);
    else if (scene->call == COND_DESTROY)
        pthread_cond_destroy(&s->c);
    else
        pthread_cond_broadcast(&s->c);
}

/* Stops before its call. */
static void start_victim(void)
{
    victim = start_child();
    if (victim) {
        wait_for_stop(victim);
        return;
    }
    warm_up();
    if (scene->owns)
        pthread_mutex_lock(&s->m);
    be_traced();
    make_call();
    atomic_store(&s->done, 1);
    for (;;)
        pause();
}

static void count(int number)
{
    (void)number;
    atomic_fetch_add(&s->handled, 1);
}

/* Locks, or also waits once. Owns the mutex until `go`. */
static void be_sleeper(int i, int waits)
{
    int r = pthread_mutex_lock(&s->m);
    if (waits && r == 0)
        r = pthread_cond_wait(&s->c, &s->m);
    atomic_store(&s->reply[i], r);
    repair(r, &s->m);
    atomic_fetch_add(&s->had, 1);
    until(&s->go, 1);
    if (r != EINVAL || waits)
        pthread_mutex_unlock(&s->m);
    _exit(0);
}

static pid_t a_sleeper(int i, int waits, int traced)
{
    pid_t p = start_child();
    if (!p) {
        sigaction(SIGUSR1, &(struct sigaction){.sa_handler = count}, NULL); /* without SA_RESTART */
        pass(&s->other);
        if (traced)
            be_traced();
        be_sleeper(i, waits);
    }
    if (traced)
        wait_for_stop(p);
    else
        until_it_sleeps(p);
    return p;
}

/* A process frees the mutex. The first sleeper is woken, and stops at the end of its sleep. */
static void let_one_come(void)
{
    pthread_mutex_lock(&s->m);
    sleeper[0] = a_sleeper(0, 0, 1);
    let_sleep(sleeper[0]);
    for (int i = 1; i < scene->sleepers; i++)
        sleeper[i] = a_sleeper(i, 0, 0);
    pthread_mutex_unlock(&s->m);
    wait_for_stop(sleeper[0]);
}

static int uses_cond(void) { return scene->call >= COND_INIT; }

static void set_up(void)
{
    start_over();
    for (int i = 0; uses_cond() && i < scene->sleepers; i++)
        sleeper[i] = a_sleeper(i, 1, 0);
    if (scene->comes)
        let_one_come();
    start_victim();
    for (int i = 0; !uses_cond() && !scene->comes && i < scene->sleepers; i++)
        sleeper[i] = a_sleeper(i, 0, 0);
}

/* ---- The victim is killed. */

static uint32_t count_of(void) { return ((const volatile uint32_t *)&s->c)[10]; }

/* What is left of the waits is ended: if the caller of a broadcast was killed, by a signal, else by a broadcast. */
static void end_waits(uint32_t count_before)
{
    if (scene->call == BROADCAST && count_of() != count_before)
        pthread_cond_signal(&s->c);
    else
        pthread_cond_broadcast(&s->c);
}

/* Returns the reply of a lock at the end, which doesn't wait forever. */
static int last_reply(void)
{
    struct timespec late = after_us(CLOCK_REALTIME, NO_END_S * 1000000L);
    int r = repair(pthread_mutex_timedlock(&s->m, &late), &s->m);
    if (r == 0 || r == EOWNERDEAD)
        pthread_mutex_unlock(&s->m);
    return r;
}

/* How many learn of a death. A mutex that isn't one any more, or is one of the C library's, may be refused. */
static int replies(int steps, int may_refuse)
{
    int told = 0, r;
    for (int i = 0; i <= scene->sleepers; i++) {
        r = i < scene->sleepers ? atomic_load(&s->reply[i]) : last_reply();
        told += r == EOWNERDEAD;
        check_that(r == 0 || r == EOWNERDEAD || (may_refuse && r == EINVAL), __FILE__, __LINE__,
                   "%s: death %d: reply %d is %d", scene->name, steps, i, r);
    }
    return told;
}

/* Returns whether the call had ended. */
static int die_after(int steps)
{
    set_up();
    uint32_t count_before = count_of();
    for (int i = 0; i < steps && !atomic_load(&s->done); i++)
        one_step(victim);
    int ended = atomic_load(&s->done), is_owned = owner_of(&s->m) == victim, is_ours = is_robust(&s->m);
    kill_child(victim);
    if (ended && scene->call == DESTROY)
        EQUAL(atomic_load(&s->destroyed), 1000 + (scene->owns ? EBUSY : 0));
    if (scene->comes)
        let_go(sleeper[0]);
    atomic_store(&s->go, 1);
    if (uses_cond())
        end_waits(count_before);
    int all = until(&s->had, scene->sleepers);
    check_that(all, __FILE__, __LINE__, "%s: death %d: only %d end; cell %lx, bell %x", scene->name, steps, s->had,
               cell_of(&s->m), bell_of(&s->m));
    if (all) {
        int told = replies(steps, scene->call != INIT && (!is_ours || uses_cond()));
        check_that(told == (is_owned && is_ours), __FILE__, __LINE__, "%s: death %d: %d learn of it", scene->name,
                   steps, told);
    }
    for (int i = 0; i < scene->sleepers; i++)
        kill_child(sleeper[i]);
    return ended;
}

/* ---- The victim is stopped. */

/* A sleeper's sleep ends by a handler in the middle of the initialisation. It looks, and sleeps again, or has the
 * mutex. Returns whether the call had ended. */
static int look_after(int steps)
{
    set_up();
    for (int i = 0; i < steps && !atomic_load(&s->done); i++)
        one_step(victim);
    int ended = atomic_load(&s->done);
    kill(sleeper[0], SIGUSR1);
    until(&s->handled, 1);
    for (int times = 0; times < 5 && !atomic_load(&s->had); nap(100))
        times = is_in_sleep(sleeper[0]) ? times + 1 : 0;
    let_go(victim);
    until(&s->done, 1);
    CHECK(until(&s->had, 1));
    check_that(atomic_load(&s->reply[0]) == 0 && owner_of(&s->m) == sleeper[0], __FILE__, __LINE__,
               "%s: a look after %d instructions: %d, and the owner is %d", scene->name, steps,
               atomic_load(&s->reply[0]), owner_of(&s->m));
    kill_child(victim);
    kill_child(sleeper[0]);
    return ended;
}

/* A thread is about to look at the cell, and does when the victim doesn't own it any more. */
static void look_at_last(int wanted)
{
    start_over();
    if (is_plain(&s->m))
        return;
    start_victim();
    pid_t p = sleeper[0] = a_sleeper(0, 0, 1);
    for (int n = 0; n < MOST_STEPS && pending_of(p) != bell_entry(&s->m); n++)
        one_step(p);
    EQUAL(pending_of(p), bell_entry(&s->m));
    for (int n = 0; n < MOST_STEPS && owner_of(&s->m) == victim && !atomic_load(&s->done); n++)
        one_step(victim);
    let_go(p);
    CHECK(until(&s->had, 1));
    EQUAL(atomic_load(&s->reply[0]), wanted);
    let_go(victim);
    CHECK(until(&s->done, 1));
    if (!wanted)
        EQUAL(owner_of(&s->m), p);
    kill_child(victim);
    kill_child(p);
}

/* A wait begins in the middle of the destruction of its variable. Returns whether that had ended. */
static int wait_after(int steps)
{
    set_up();
    for (int i = 0; i < steps && !atomic_load(&s->done); i++)
        one_step(victim);
    int ended = atomic_load(&s->done);
    atomic_store(&s->go, 1);
    sleeper[0] = a_sleeper(0, 1, 0);
    let_go(victim);
    until(&s->done, 1);
    check_that(until(&s->had, 1), __FILE__, __LINE__, "a wait after %d instructions of a destroy doesn't end", steps);
    kill_child(victim);
    kill_child(sleeper[0]);
    return ended;
}

/* Each until one has failed. */
static void each_step(int each, int (*after)(int))
{
    int n = 0;
    while (n < MOST_STEPS && !checks_failed && !after(n))
        n += each;
    printf("%s: %d instructions\n", scene->name, n);
}

int main(int argc, char **argv)
{
    int each = argc > 1 ? atoi(argv[1]) : 1, only = argc > 2 ? atoi(argv[2]) : -1;
    begin_checks(3000);
    s = shared_memory(sizeof *s);
    pthread_mutexattr_init(&robust);
    pthread_mutexattr_setpshared(&robust, PTHREAD_PROCESS_SHARED);
    pthread_mutexattr_setrobust(&robust, PTHREAD_MUTEX_ROBUST);
    pthread_condattr_init(&shared);
    pthread_condattr_setpshared(&shared, PTHREAD_PROCESS_SHARED);
    for (int i = 0; i < SCENES; i++) {
        scene = &scenes[i];
        if (only >= 0 && only != i)
            continue;
        each_step(each, die_after);
        if (scene->call == INIT && scene->sleepers == 1) {
            each_step(each, look_after);
            look_at_last(0);
        }
        if (scene->call == INIT_OF_THEIRS && scene->sleepers == 1)
            look_at_last(EINVAL);
        if (scene->call == COND_DESTROY && scene->sleepers == 0)
            each_step(each, wait_after);
    }
    return end_checks();
}
