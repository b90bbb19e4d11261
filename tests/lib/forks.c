/* Threads, forks and executed programs: each thread locks by its own TID, and what it owns when it ends is a dead
 * owner's. Everything runs in a process that hasn't used the library before, and again in one that has; alone, and
 * while another thread locks and unlocks. */
#include "../check.h"
#include <pazdrig.h>
#include <pthread.h>
#include <sched.h>
#include <stdatomic.h>

static struct {
    pz_mutex mutex, busy, parents, many[PZ_MOST_OWNED];
    _Atomic int stop, destroyed;
} * all;
static pthread_key_t key;
extern pid_t _Fork(void);

/* Locks, checks the owner, and keeps the mutex. Returns 0, or where it went wrong. */
static int lock_and_keep(void)
{
    prctl(PR_SET_PDEATHSIG, SIGKILL); /* if the library has a mistake, the child may sleep for ever */
    if (pz_mutex_lock(&all->mutex))
        return 1;
    if (pz_mutex_owner(&all->mutex) != (pid_t)syscall(SYS_gettid))
        return 2;
    return pz_mutex_lock(&all->mutex) == EDEADLK ? 0 : 3;
}
static void expect(int reply)
{
    EQUAL(pz_mutex_lock(&all->mutex), reply);
    EQUAL(pz_mutex_owner(&all->mutex), syscall(SYS_gettid));
    if (reply)
        EQUAL(pz_mutex_consistent(&all->mutex), 0);
    EQUAL(pz_mutex_unlock(&all->mutex), 0);
}
static void child_ends(pid_t p)
{
    EQUAL(status_of(p), 0);
    expect(EOWNERDEAD);
}

/* ---- Children. Each locks and ends. */
static void forked(void)
{
    pid_t p = fork();
    if (p == 0)
        _exit(lock_and_keep());
    child_ends(p);
}
static void forked_without_handlers(void)
{
    pid_t p = _Fork();
    if (p == 0)
        _exit(lock_and_keep());
    child_ends(p);
}
static void forked_twice(void)
{
    pid_t p = fork();
    if (p == 0) {
        pid_t q = fork();
        if (q == 0)
            _exit(lock_and_keep());
        _exit(status_of(q));
    }
    child_ends(p);
}
static int by_clone(void *unused)
{
    (void)unused;
    return lock_and_keep();
}
/* The kernel gives a child by clone(2) no robust list. The library registers the one that its parent's thread had; if
 * that thread has never asked for it, the child can't lock. */
static void cloned(int has_asked)
{
    static char stack[65536] __attribute__((aligned(16)));
    pid_t p = clone(by_clone, stack + sizeof stack, SIGCHLD, NULL); /* the child has a copy of the memory */
    CHECK(p > 0);
    EQUAL(status_of(p), has_asked ? 0 : 1);
    expect(has_asked ? EOWNERDEAD : 0);
}
static void cloned_raw(int has_asked)
{
    pid_t p = (pid_t)syscall(SYS_clone, SIGCHLD, 0, 0, 0, 0);
    if (p == 0)
        _exit(has_asked ? lock_and_keep() : pz_mutex_lock(&all->mutex) == ENOTSUP ? 0 : 9);
    EQUAL(status_of(p), 0);
    expect(has_asked ? EOWNERDEAD : 0);
}
static void vforked(void)
{
    pid_t p = vfork();
    if (p == 0) {
        execl("/bin/true", "true", NULL);
        _exit(1);
    }
    EQUAL(status_of(p), 0);
    expect(0);
}
/* A forked child locks from a new thread first: the forking thread's TID in the child isn't its parent's. */
static void *in_new_thread(void *unused)
{
    (void)unused;
    return (void *)(intptr_t)(pz_mutex_lock(&all->mutex) || pz_mutex_unlock(&all->mutex));
}
static void forked_and_another_thread_first(void)
{
    pid_t p = fork();
    if (p == 0) {
        pthread_t t;
        void *result = &t;
        prctl(PR_SET_PDEATHSIG, SIGKILL);
        if (pthread_create(&t, NULL, in_new_thread, NULL) || pthread_join(t, &result) || result)
            _exit(9);
        _exit(lock_and_keep());
    }
    child_ends(p);
}
/* What the parent's thread owns stays its own. */
static void parent_owns(void)
{
    EQUAL(pz_mutex_lock(&all->parents), 0);
    pid_t p = fork();
    if (p == 0)
        _exit(pz_mutex_trylock(&all->parents) != EBUSY || pz_mutex_unlock(&all->parents) != EPERM ||
              pz_mutex_consistent(&all->parents) != EPERM);
    EQUAL(status_of(p), 0);
    EQUAL(pz_mutex_unlock(&all->parents), 0);
}
/* A child by clone(2) links what it locks to nothing that its parent owns. */
static void parent_owns_and_clones(void)
{
    EQUAL(pz_mutex_lock(&all->parents), 0);
    pz_mutex before = all->parents;
    pid_t p = (pid_t)syscall(SYS_clone, SIGCHLD, 0, 0, 0, 0);
    if (p == 0)
        _exit(lock_and_keep());
    EQUAL(status_of(p), 0);
    CHECK(!memcmp(&before, &all->parents, sizeof before));
    EQUAL(pz_mutex_unlock(&all->parents), 0);
    expect(EOWNERDEAD);
}
/* What the parent owns doesn't count among what its child may own. */
static void parent_owns_as_many_as_it_may(void)
{
    for (int i = 0; i < PZ_MOST_OWNED; i++)
        EQUAL(pz_mutex_lock(&all->many[i]), 0);
    EQUAL(pz_mutex_lock(&all->mutex), EAGAIN);
    pid_t p = fork();
    if (p == 0)
        _exit(lock_and_keep());
    EQUAL(status_of(p), 0);
    for (int i = PZ_MOST_OWNED; i-- > 0;)
        EQUAL(pz_mutex_unlock(&all->many[i]), 0);
    expect(EOWNERDEAD);
}
/* ---- Programs. */
static void executed(void)
{
    pid_t p = fork();
    if (p == 0) {
        if (lock_and_keep())
            _exit(1);
        execl("/bin/true", "true", NULL);
        _exit(2);
    }
    child_ends(p);
}

/* ---- Threads. */
static void *keeps(void *unused)
{
    (void)unused;
    return (void *)(intptr_t)lock_and_keep();
}
static void thread_ends(void)
{
    pthread_t t;
    void *result = &t;
    EQUAL(pthread_create(&t, NULL, keeps, NULL), 0);
    EQUAL(pthread_join(t, &result), 0);
    CHECK(!result);
    expect(EOWNERDEAD);
}
static void destroy(void *unused)
{
    (void)unused;
    if (!pz_mutex_lock(&all->mutex) && !pz_mutex_unlock(&all->mutex) && lock_and_keep() == 0)
        all->destroyed++;
}
static void *has_destructor(void *used)
{
    if (used && (pz_mutex_lock(&all->mutex) || pz_mutex_unlock(&all->mutex)))
        return &key;
    pthread_setspecific(key, &key);
    return NULL;
}
/* A key's destructor locks, in a thread that has used the library, or not before. */
static void destructor_locks(void *used)
{
    pthread_t t;
    void *result = &t;
    int before = all->destroyed;
    EQUAL(pthread_create(&t, NULL, has_destructor, used), 0);
    EQUAL(pthread_join(t, &result), 0);
    CHECK(!result);
    EQUAL(all->destroyed, before + 1);
    expect(EOWNERDEAD);
}
static void *stays_busy(void *unused)
{
    (void)unused;
    while (!all->stop)
        if (pz_mutex_lock(&all->busy) || pz_mutex_unlock(&all->busy))
            return &key;
    return NULL;
}

static void cases(void)
{
    forked();
    forked_without_handlers();
    forked_twice();
    cloned(1);
    cloned_raw(1);
    vforked();
    forked_and_another_thread_first();
    parent_owns();
    parent_owns_and_clones();
    parent_owns_as_many_as_it_may();
    executed();
    thread_ends();
    destructor_locks(NULL);
    destructor_locks(&key);
}
/* Runs a case in a process of its own, which hasn't used the library. */
static void afresh(void (*f)(void))
{
    pid_t p = start_child();
    if (p == 0) {
        f();
        _exit(checks_failed != 0);
    }
    EQUAL(status_of(p), 0);
}
static void cloned_before_use(void) { cloned(0); }
static void cloned_raw_before_use(void) { cloned_raw(0); }
static void beside_another_thread(void)
{
    pthread_t t;
    void *result = &t;
    pthread_create(&t, NULL, stays_busy, NULL);
    for (int i = 0; i < 20; i++)
        cases();
    all->stop = 1;
    pthread_join(t, &result);
    CHECK(!result);
}

int main(void)
{
    static void (*const each[])(void) = {
        forked,  forked_without_handlers,         forked_twice, cloned_before_use, cloned_raw_before_use,
        vforked, forked_and_another_thread_first, executed,     thread_ends};
    begin_checks(300);
    all = shared_memory(sizeof *all);
    pthread_key_create(&key, destroy);
    for (size_t i = 0; i < sizeof each / sizeof *each; i++)
        afresh(each[i]);
    afresh(cases);
    cases();
    cases();
    beside_another_thread();
    return end_checks();
}
