/* What each call returns, a line a case, for three types of robust, process-shared mutexes: what the C library's
 * functions return if the program runs alone, and what this library's return if it is loaded in front. usage: answers
 * FILE */
#include "answers.h"

/* ---- Calls with one argument. */
static int lock(void) { return pthread_mutex_lock(m); }
static int try(void) { return pthread_mutex_trylock(m); }
static int unlock(void) { return pthread_mutex_unlock(m); }
static int consistent(void) { return pthread_mutex_consistent(m); }
static int timed(void) { return pthread_mutex_timedlock(m, &(struct timespec){1, 0}); }
static int timed_badly(void) { return pthread_mutex_timedlock(m, &(struct timespec){1, 1000000000}); }
static int clocked(void) { return pthread_mutex_clocklock(m, CLOCK_MONOTONIC, &(struct timespec){0, 1}); }
static int clocked_badly(void)
{
    return pthread_mutex_clocklock(m, CLOCK_PROCESS_CPUTIME_ID, &(struct timespec){0, 1});
}
static int lock_twice(void)
{
    int r = lock();
    return r ? r : lock();
}
static int again(void)
{
    int r = lock_twice();
    return r ? r : lock();
}
static int lock_then_try(void)
{
    int r = lock();
    return r ? r : try();
}
static int lock_then_timed(void)
{
    int r = lock();
    return r ? r : timed();
}
static int destroy_it(void) { return pthread_mutex_destroy(m); }
static int lock_then_destroy(void)
{
    int r = lock();
    return r ? r : pthread_mutex_destroy(m);
}

/* ---- Calls on condition variables. */
static int wait_on_it(void) { return pthread_cond_wait(c, m); }
static int wait_past(void) { return pthread_cond_timedwait(c, m, &(struct timespec){1, 0}); }
static int wait_badly(void) { return pthread_cond_timedwait(c, m, &(struct timespec){1, 1000000000}); }
static int wait_before_1970(void) { return pthread_cond_timedwait(c, m, &(struct timespec){-1, 0}); }
static int wait_by(clockid_t clock) { return pthread_cond_clockwait(c, m, clock, &(struct timespec){0, 1}); }
static int tell_one(void) { return pthread_cond_signal(c); }
static int tell_all(void) { return pthread_cond_broadcast(c); }
static int destroy_cond(void) { return pthread_cond_destroy(c); }
static int lock_and_wait(void)
{
    int r = lock();
    return r && r != EOWNERDEAD ? r : wait_on_it();
}
static int lock_wait_and_unlock(void)
{
    int r = lock_and_wait();
    return r ? r : unlock();
}
static int lock_twice_and_wait(void)
{
    int r = lock();
    r = r ? r : lock_wait_and_unlock();
    return r ? r : unlock();
}

/* Starts a wait on the condition variable: the process sleeps, and nobody owns the mutex. */
static struct call a_waiter(void)
{
    struct call it = begun(lock_wait_and_unlock);
    until_it_sleeps(it.by);
    MUST(lock() == 0 && unlock() == 0);
    until_it_sleeps(it.by);
    return it;
}

static void *thread_locks(void *unused)
{
    (void)unused;
    lock();
    return NULL;
}

static void a_thread_dies(void)
{
    pthread_t t;
    MUST(!pthread_create(&t, NULL, thread_locks, NULL) && !pthread_join(t, NULL));
}

static void *thread_consistent(void *answer)
{
    *(int *)answer = consistent();
    return NULL;
}

static int consistent_by_another_thread(void)
{
    pthread_t t;
    int r = -1;
    MUST(!pthread_create(&t, NULL, thread_consistent, &r) && !pthread_join(t, NULL));
    return r;
}

static int exec_while_owning(void)
{
    int r = lock();
    execl("/bin/true", "true", (char *)NULL);
    return r;
}

/* ---- The cases. */
static void owned(void)
{
    make();
    ROW("lock, unlock", lock(), unlock());
    ROW("unlock of a free one", unlock());
    ROW("trylock, unlock", try(), unlock());
    ROW("timedlock whose deadline has passed, of a free one", timed(), unlock());
    ROW("clocklock of a free one", clocked(), unlock());
    ROW("clocklock by another clock", clocked_badly());
    MUST(lock() == 0);
    ROW("owned by another: trylock, unlock, consistent", other(try), other(unlock), other(consistent));
    ROW("owned by another: timedlock, clocklock, a bad time", other(timed), other(clocked), other(timed_badly));
    ROW("owned by another: lock", other(lock));
    ROW("consistent by the owner, nothing to repair", consistent());
    ROW("unlock", unlock());
    make();
    ROW("lock by the owner", other(lock_twice));
    make();
    ROW("trylock by the owner", other(lock_then_try));
    make();
    ROW("timedlock by the owner", other(lock_then_timed));
    make();
    ROW("three locks", other(again));
}

static void died(void)
{
    make();
    other(lock);
    ROW("its owner died: lock, consistent, consistent, unlock, lock, unlock", lock(), consistent(), consistent(),
        unlock(), lock(), unlock());
    other(lock);
    ROW("its owner died: trylock, consistent, unlock", try(), consistent(), unlock());
    other(lock);
    ROW("its owner died: timedlock, consistent, unlock", timed(), consistent(), unlock());
    other(lock);
    ROW("its owner died, and so did the next owner", other(lock), lock(), consistent(), unlock());
    a_thread_dies();
    ROW("a thread ended with it", lock(), consistent(), unlock());
    other(exec_while_owning);
    ROW("its owner called exec", lock(), consistent(), unlock());
    other(again);
    ROW("its owner died with several locks: lock, consistent, unlock, trylock by another", lock(), consistent(),
        unlock(), other(try));
    lock();
    ROW("after EOWNERDEAD it locks again: consistent, trylock, unlock", consistent(), try(), unlock());
    make();
    other(lock);
    lock();
    ROW("consistent by another thread", consistent_by_another_thread());
}

static void spoil(void)
{
    make();
    other(lock);
    MUST(lock() == EOWNERDEAD && unlock() == 0);
}

static void unusable(void)
{
    spoil();
    ROW("unusable: lock, lock, unlock, consistent", lock(), lock(), unlock(), consistent());
    spoil();
    ROW("unusable: timedlock, lock", timed(), lock());
    spoil();
    ROW("unusable: trylock", try());
    ROW("unusable: a second trylock, another's trylock", try(), other(try));
    ROW("unusable: another's lock after a trylock", other(lock));
    ROW("unusable: unlock after a trylock", other(unlock));
    spoil();
    ROW("unusable: destroy", pthread_mutex_destroy(m));
    make_at(m);
    ROW("initialised again: lock, unlock", lock(), unlock());
}

static void made(void)
{
    make();
    ROW("destroy of a free one", pthread_mutex_destroy(m));
    ROW("destroyed: lock, trylock, unlock, consistent", lock(), try(), unlock(), consistent());
    make_at(m);
    ROW("destroyed and initialised again: lock, unlock", lock(), unlock());
    make();
    other(lock);
    make_at(m);
    ROW("initialised again over one whose owner died: lock, unlock", lock(), unlock());
    make();
    ROW("destroy by its owner", other(lock_then_destroy));
    make();
    lock();
    ROW("destroy of one that another owns", other(destroy_it));
    make();
    errno = 77;
    lock();
    unlock();
    try();
    unlock();
    unlock();
    printf("%s: errno after calls: %d\n", types[type], errno);
}

static int lock_and_unlock(void)
{
    int r = lock();
    return r ? r : unlock();
}

/* The tracer learns of each start and each end of a system call. */
static int lock_traced(void)
{
    MUST(ptrace(PTRACE_TRACEME, 0, NULL, NULL) == 0 && raise(SIGSTOP) == 0);
    return lock();
}

/* Lets the process go on after each stop, until it sleeps. */
static void until_traced_sleeps(pid_t it)
{
    int status;
    for (int quiet = 0; quiet < 5; quiet = is_in_sleep(it) ? quiet + 1 : 0) {
        nap(quiet ? 10000 : 500);
        if (waitpid(it, &status, WNOHANG) == it)
            MUST(WIFSTOPPED(status) && ptrace(PTRACE_SYSCALL, it, NULL, NULL) == 0);
    }
}

static void killed_as_it_is_woken(void)
{
    int status;
    make();
    lock();
    struct call first = begun(lock_traced);
    until_traced_sleeps(first.by);
    struct call second = begun(lock_and_unlock);
    until_it_sleeps(second.by);
    unlock();
    MUST(waitpid(first.by, &status, 0) == first.by && WIFSTOPPED(status)); /* its sleep has ended */
    lock();
    kill_child(first.by);
    unlock();
    int answer = ended(second);
    ROW("a waiter is killed as it is woken, and the mutex was locked again by then: another's lock, trylock", answer,
        try());
}

static void make_with_cond(void)
{
    pthread_condattr_t a;
    make();
    c = (pthread_cond_t *)(many + MOST + HELD) + 1;
    pthread_condattr_init(&a);
    pthread_condattr_setpshared(&a, PTHREAD_PROCESS_SHARED);
    memset(c, 0, sizeof *c);
    MUST(pthread_cond_init(c, &a) == 0);
}

static void waited(void)
{
    make_with_cond();
    ROW("signal and broadcast to nobody", tell_one(), tell_all());
    ROW("wait by a thread that doesn't own it", wait_on_it());
    MUST(lock() == 0);
    ROW("timed wait: a past deadline, one before 1970, a bad one", wait_past(), wait_before_1970(), wait_badly());
    ROW("wait by either clock, by another", wait_by(CLOCK_MONOTONIC), wait_by(CLOCK_REALTIME),
        wait_by(CLOCK_PROCESS_CPUTIME_ID));
    ROW("its owner, still: unlock", unlock());
    errno = 77;
    lock();
    wait_past();
    tell_one();
    unlock();
    printf("%s: errno after waits: %d\n", types[type], errno);
    struct call it = a_waiter();
    int told = tell_one();
    ROW("signal, one waits", told, ended(it));
    struct call both[2] = {a_waiter(), a_waiter()};
    told = tell_all();
    ROW("broadcast, two wait", told, ended(both[0]), ended(both[1]));
    ROW("destroy of a condition variable", destroy_cond());
    make_with_cond();
    it = begun(type == PTHREAD_MUTEX_RECURSIVE ? lock_twice_and_wait : lock_wait_and_unlock);
    until_it_sleeps(it.by);
    int busy = other(try);
    tell_one();
    ROW("wait of an owner that has locked it as often as it may: trylock of another, its answer", busy, ended(it));
}

static void waited_beside_deaths(void)
{
    make_with_cond();
    struct call it = a_waiter();
    other(lock);
    tell_one();
    ROW("an owner dies during a wait: wait", ended(it));
    ROW("that waiter died too: trylock, consistent, unlock", try(), consistent(), unlock());
    it = a_waiter();
    other(lock);
    MUST(lock() == EOWNERDEAD && unlock() == 0);
    tell_all();
    ROW("it becomes unusable during a wait: wait", ended(it));
    make_with_cond();
    other(lock);
    ROW("wait with an inconsistent one", other(lock_and_wait));
    ROW("after that wait, and its thread's death: trylock", try());
}

static void waited_in_vain(void)
{
    int r[6];
    make_with_cond();
    kill_child(a_waiter().by);
    for (int i = 0; i < 6; i += 2) {
        struct call it = a_waiter();
        r[i] = other(tell_one);
        r[i + 1] = ended(it);
    }
    row("a waiter is killed: signal and wait, three times", r, 6);
    make_with_cond();
    struct call it = a_waiter();
    r[0] = other(destroy_cond);
    r[1] = ended(it);
    row("destroy of a condition variable on which one waits; its wait", r, 2);
}

static int hold_all(void)
{
    for (int i = 0; i < HELD; i++) {
        int r = pthread_mutex_lock(&many[MOST + i]);
        if (r)
            return r;
    }
    return 0;
}

int main(int argc, char **argv)
{
    MUST(argc > 1);
    begin_checks(900);
    int fd = open(argv[1], O_RDWR | O_CREAT | O_TRUNC, 0600);
    size_t size = (MOST + HELD) * sizeof *many + 2 * sizeof *c;
    MUST(fd >= 0 && ftruncate(fd, (off_t)size) == 0);
    many = mmap(NULL, size, PROT_READ | PROT_WRITE, MAP_SHARED, fd, 0);
    MUST(many != MAP_FAILED);
    for (type = 0; type < 3; type++) {
        owned();
        died();
        unusable();
        made();
        killed_as_it_is_woken();
        waited();
        waited_beside_deaths();
        waited_in_vain();
    }
    type = PTHREAD_MUTEX_ERRORCHECK;
    for (int i = 0; i < HELD; i++)
        make_at(&many[MOST + i]);
    ROW("2,048 owned at once", other(hold_all));
    m = &many[MOST];
    ROW("2,048 owned at a death: trylock of the first", try());
    unlink(argv[1]);
    return 0;
}
