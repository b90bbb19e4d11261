/* What each call on a reader-writer lock returns, who is inside next to whom, and what deaths leave. */
#include "../check.h"
#include <pazdrig.h>
#include <pthread.h>
#include <stdatomic.h>

enum { LANES = 3 };
static struct {
    PZ_RWLOCK(LANES) lock, other;
    PZ_RWLOCK(1) single;
    pz_mutex many[PZ_MOST_OWNED];
    _Atomic int goes, replies;
    _Atomic int reply[8];
} *all;
static pz_rwlock *lock;

static void begin(void)
{
    memset(all, 0, sizeof *all);
    EQUAL(pz_rwlock_init(lock, LANES), 0);
}
static int tries_to_read(void)
{
    int r = pz_rwlock_tryrdlock(lock);
    return r ? r : pz_rwlock_unlock(lock);
}
static int tries_to_write(void)
{
    int r = pz_rwlock_trywrlock(lock);
    return r ? r : pz_rwlock_unlock(lock);
}
static int reinits(void) { return pz_rwlock_reinit(lock); }
/* What a call returns in another process. */
static int elsewhere(int (*call)(void))
{
    pid_t p = start_child();
    if (p == 0)
        _exit(call());
    return status_of(p);
}

/* Starts a process that locks, tells its reply, or -1 if it isn't known then to have the lock, and keeps the lock until
 * all->goes is `until`. It then ends with the unlock's reply. */
static pid_t start_holder(int (*call)(pz_rwlock *), int until, _Atomic int *reply)
{
    pid_t p = start_child();
    if (p)
        return p;
    int r = call(lock);
    *reply = 1000 + (r == 0 && pz_rwlock_tryrdlock(lock) != EBUSY ? -1 : r);
    while (all->goes < until)
        nap(50);
    _exit(pz_rwlock_unlock(lock));
}
static int reply_of(_Atomic int *reply)
{
    while (!*reply)
        nap(50);
    return *reply - 1000;
}
static pid_t holder(int (*call)(pz_rwlock *), int until, int number)
{
    pid_t p = start_holder(call, until, &all->reply[number]);
    EQUAL(reply_of(&all->reply[number]), 0);
    return p;
}
/* A reader on the lane that a writer takes first, so that the others stay free. */
static pid_t holder_of_first_lane(int until)
{
    for (;;) {
        all->reply[0] = 0;
        pid_t p = holder(pz_rwlock_rdlock, until, 0);
        if (pz_mutex_owner(&all->lock.parts[2]) == p)
            return p;
        kill_child(p);
    }
}
static void dies_inside(int (*call)(pz_rwlock *), int wanted)
{
    pid_t p = start_child();
    if (p == 0)
        _exit(call(lock));
    EQUAL(status_of(p), wanted);
}

/* ---- Refusals. */

static void init_sets_the_number_once(void)
{
    memset(all, 0, sizeof *all);
    EQUAL(pz_rwlock_rdlock(lock), EINVAL);
    EQUAL(pz_rwlock_trywrlock(lock), EINVAL);
    EQUAL(pz_rwlock_unlock(lock), EINVAL);
    EQUAL(pz_rwlock_consistent(lock), EINVAL);
    EQUAL(pz_rwlock_reinit(lock), EINVAL);
    EQUAL(pz_rwlock_init(lock, 0), EINVAL);
    EQUAL(pz_rwlock_init(lock, PZ_MOST_LANES + 1), EINVAL);
    EQUAL(pz_rwlock_init((pz_rwlock *)((char *)lock + 8), LANES), EINVAL);
    EQUAL(pz_rwlock_init(lock, LANES), 0);
    EQUAL(pz_rwlock_init(lock, LANES), 0);
    EQUAL(pz_rwlock_init(lock, LANES - 1), EINVAL);
    EQUAL(pz_rwlock_rdlock((pz_rwlock *)((char *)lock + 8)), EINVAL);
    EQUAL(sizeof all->lock, PZ_RWLOCK_SIZE(LANES));
}
static void a_holder_is_refused(int (*call)(pz_rwlock *))
{
    struct timespec t = {0, 0};
    begin();
    EQUAL(call(lock), 0);
    EQUAL(pz_rwlock_rdlock(lock), EDEADLK);
    EQUAL(pz_rwlock_wrlock(lock), EDEADLK);
    EQUAL(pz_rwlock_timedrdlock(lock, &t), EDEADLK);
    EQUAL(pz_rwlock_clockwrlock(lock, CLOCK_MONOTONIC, &t), EDEADLK);
    EQUAL(pz_rwlock_tryrdlock(lock), EBUSY);
    EQUAL(pz_rwlock_trywrlock(lock), EBUSY);
    EQUAL(pz_rwlock_reinit(lock), EBUSY);
    EQUAL(pz_rwlock_unlock(lock), 0);
    EQUAL(pz_rwlock_unlock(lock), EPERM);
}
static void refusals(void)
{
    struct timespec past = {0, 0}, bad = {1, 1000000000};
    init_sets_the_number_once();
    a_holder_is_refused(pz_rwlock_rdlock);
    a_holder_is_refused(pz_rwlock_wrlock);
    EQUAL(pz_rwlock_clockrdlock(lock, 77, &past), EINVAL);
    EQUAL(pz_rwlock_clockwrlock(lock, 77, &past), EINVAL);
    EQUAL(pz_rwlock_timedrdlock(lock, &past), 0); /* it can be had at once */
    EQUAL(pz_rwlock_consistent(lock), EPERM);
    EQUAL(pz_rwlock_unlock(lock), 0);
    EQUAL(pz_rwlock_timedwrlock(lock, &past), 0);
    EQUAL(pz_rwlock_consistent(lock), EINVAL);
    EQUAL(pz_rwlock_unlock(lock), 0);
    pid_t p = holder(pz_rwlock_wrlock, 1, 0);
    EQUAL(pz_rwlock_timedrdlock(lock, &past), ETIMEDOUT);
    EQUAL(pz_rwlock_timedwrlock(lock, &past), ETIMEDOUT);
    EQUAL(pz_rwlock_timedrdlock(lock, &bad), EINVAL);
    EQUAL(pz_rwlock_clockwrlock(lock, CLOCK_MONOTONIC, &bad), EINVAL);
    EQUAL(pz_rwlock_unlock(lock), EPERM);
    EQUAL(pz_rwlock_consistent(lock), EPERM);
    all->goes = 1;
    EQUAL(status_of(p), 0);
}
/* Each deadline comes by its own clock, and not early. */
static void is_late(int r, clockid_t clock, const struct timespec *until)
{
    struct timespec now;
    EQUAL(r, ETIMEDOUT);
    clock_gettime(clock, &now);
    CHECK(now.tv_sec > until->tv_sec || (now.tv_sec == until->tv_sec && now.tv_nsec >= until->tv_nsec));
}
static void deadlines(void)
{
    static const clockid_t clocks[] = {CLOCK_REALTIME, CLOCK_MONOTONIC};
    struct timespec t;
    begin();
    pid_t p = holder(pz_rwlock_wrlock, 1, 0);
    for (int i = 0; i < 2; i++) {
        t = after_us(clocks[i], 10000);
        is_late(pz_rwlock_clockrdlock(lock, clocks[i], &t), clocks[i], &t);
        t = after_us(clocks[i], 10000);
        is_late(pz_rwlock_clockwrlock(lock, clocks[i], &t), clocks[i], &t);
    }
    t = after_us(CLOCK_REALTIME, 10000);
    is_late(pz_rwlock_timedrdlock(lock, &t), CLOCK_REALTIME, &t);
    t = after_us(CLOCK_REALTIME, 10000);
    is_late(pz_rwlock_timedwrlock(lock, &t), CLOCK_REALTIME, &t);
    all->goes = 1;
    EQUAL(status_of(p), 0);
}
/* A thread owns as many mutexes as it may; a writer's lanes count, and a refused lock gives them all back. */
static void too_many(void)
{
    begin();
    for (int i = 0; i < PZ_MOST_OWNED - 2; i++)
        if (pz_mutex_lock(&all->many[i]))
            EQUAL(i, -1);
    EQUAL(pz_rwlock_wrlock(lock), EAGAIN);
    EQUAL(elsewhere(tries_to_write), 0);
    EQUAL(pz_rwlock_rdlock(lock), 0);
    EQUAL(pz_rwlock_unlock(lock), 0);
    for (int i = 0; i < PZ_MOST_OWNED - 2; i++)
        pz_mutex_unlock(&all->many[i]);
    EQUAL(pz_rwlock_wrlock(lock), 0);
    EQUAL(pz_rwlock_unlock(lock), 0);
}

/* An unusable lock is that for a thread that may own one more mutex, too; and a writer is refused before it waits. */
static void nearly_too_many(void)
{
    struct timespec past = {0, 0};
    begin();
    dies_inside(pz_rwlock_wrlock, 0);
    EQUAL(pz_rwlock_wrlock(lock), EOWNERDEAD);
    EQUAL(pz_rwlock_unlock(lock), 0);
    for (int i = 0; i < PZ_MOST_OWNED - 1; i++)
        if (pz_mutex_lock(&all->many[i]))
            EQUAL(i, -1);
    EQUAL(pz_rwlock_rdlock(lock), ENOTRECOVERABLE);
    EQUAL(pz_mutex_unlock(&all->many[0]), 0);
    EQUAL(pz_rwlock_wrlock(lock), EAGAIN);
    EQUAL(elsewhere(reinits), 0);
    pid_t reader = holder_of_first_lane(1);
    EQUAL(pz_rwlock_timedwrlock(lock, &past), EAGAIN);
    for (int i = 1; i < PZ_MOST_OWNED - 1; i++)
        pz_mutex_unlock(&all->many[i]);
    all->goes = 1;
    EQUAL(status_of(reader), 0);
}

/* ---- Readers and writers. */

static void lanes_are_for_readers(void)
{
    begin();
    pid_t p[LANES];
    for (int i = 0; i < LANES; i++) {
        EQUAL(elsewhere(tries_to_read), 0);
        p[i] = holder(pz_rwlock_rdlock, 1, i);
        EQUAL(elsewhere(tries_to_write), EBUSY);
    }
    EQUAL(elsewhere(tries_to_read), EBUSY);
    pid_t more = start_holder(pz_rwlock_rdlock, 1, &all->reply[LANES]); /* waits for a lane */
    until_asleep(more);
    EQUAL(all->reply[LANES], 0);
    all->goes = 1;
    for (int i = 0; i < LANES; i++)
        EQUAL(status_of(p[i]), 0);
    EQUAL(status_of(more), 0);
    EQUAL(elsewhere(tries_to_write), 0);
    all->goes = 0;
    p[0] = holder(pz_rwlock_wrlock, 1, 4);
    EQUAL(elsewhere(tries_to_read), EBUSY);
    EQUAL(elsewhere(tries_to_write), EBUSY);
    all->goes = 1;
    EQUAL(status_of(p[0]), 0);
    EQUAL(elsewhere(tries_to_read), 0);
    EQUAL(lock->words[2], 0); /* later readers don't come by the gate */
}
/* A dead writer wanted the lock, so a reader comes by the gate. All lanes are taken: it waits for one without the gate.
 */
static void a_reader_waits_without_the_gate(void)
{
    begin();
    pid_t p[LANES];
    for (int i = 0; i < LANES; i++)
        p[i] = holder(pz_rwlock_rdlock, 1, i);
    lock->words[2] = 1;
    pid_t more = start_holder(pz_rwlock_rdlock, 1, &all->reply[LANES]);
    until_asleep(more);
    EQUAL(pz_mutex_owner(&lock->gate), 0);
    EQUAL(lock->words[2], 0);
    all->goes = 1;
    for (int i = 0; i < LANES; i++)
        EQUAL(status_of(p[i]), 0);
    EQUAL(status_of(more), 0);
}
/* A thread goes to the lane that it had, so readers share no cache line. */
static void a_reader_keeps_its_lane(void)
{
    uint64_t turns[LANES], moved = 0;
    begin();
    EQUAL(tries_to_read(), 0);
    for (int i = 0; i < LANES; i++)
        turns[i] = all->lock.parts[2 + i].words[0];
    for (int n = 0; n < 10; n++)
        EQUAL(tries_to_read(), 0);
    for (int i = 0; i < LANES; i++)
        moved += all->lock.parts[2 + i].words[0] != turns[i];
    EQUAL(moved, 1);
}
static void several_locks_at_a_time(void)
{
    begin();
    EQUAL(pz_rwlock_init(&all->other.rw, LANES), 0);
    EQUAL(pz_rwlock_init(&all->single.rw, 1), 0);
    EQUAL(pz_rwlock_rdlock(lock), 0);
    EQUAL(pz_rwlock_wrlock(&all->other.rw), 0);
    EQUAL(pz_rwlock_rdlock(&all->single.rw), 0);
    EQUAL(pz_rwlock_rdlock(lock), EDEADLK);
    EQUAL(pz_rwlock_wrlock(&all->single.rw), EDEADLK);
    EQUAL(pz_rwlock_unlock(lock), 0);
    EQUAL(pz_rwlock_unlock(lock), EPERM);
    EQUAL(pz_rwlock_unlock(&all->single.rw), 0);
    EQUAL(pz_rwlock_rdlock(lock), 0);
    EQUAL(pz_rwlock_unlock(&all->other.rw), 0);
    EQUAL(pz_rwlock_rdlock(lock), EDEADLK);
    EQUAL(pz_rwlock_unlock(lock), 0);
    EQUAL(tries_to_write(), 0);
}
/* An unlock by another mapping of the lock is refused, and changes nothing. */
static void another_mapping(void)
{
    int file = memfd_create("rwlocks", 0);
    EQUAL(ftruncate(file, PZ_RWLOCK_SIZE(LANES)), 0);
    pz_rwlock *before = lock, *other;
    other = mmap(NULL, PZ_RWLOCK_SIZE(LANES), PROT_READ | PROT_WRITE, MAP_SHARED, file, 0);
    lock = mmap(NULL, PZ_RWLOCK_SIZE(LANES), PROT_READ | PROT_WRITE, MAP_SHARED, file, 0);
    EQUAL(pz_rwlock_init(lock, LANES), 0);
    EQUAL(pz_rwlock_rdlock(lock), 0);
    EQUAL(pz_rwlock_wrlock(other), EDEADLK);
    EQUAL(pz_rwlock_unlock(other), EPERM);
    EQUAL(pz_rwlock_unlock(lock), 0);
    EQUAL(pz_rwlock_wrlock(lock), 0);
    EQUAL(pz_rwlock_unlock(other), EPERM);
    EQUAL(elsewhere(tries_to_read), EBUSY);
    EQUAL(pz_rwlock_unlock(lock), 0);
    EQUAL(elsewhere(tries_to_write), 0);
    dies_inside(pz_rwlock_wrlock, 0);
    EQUAL(pz_rwlock_wrlock(lock), EOWNERDEAD);
    EQUAL(pz_rwlock_unlock(other), EPERM);
    EQUAL(pz_rwlock_consistent(lock), 0);
    EQUAL(pz_rwlock_unlock(lock), 0);
    EQUAL(elsewhere(tries_to_write), 0);
    munmap(lock, PZ_RWLOCK_SIZE(LANES));
    munmap(other, PZ_RWLOCK_SIZE(LANES));
    close(file);
    lock = before;
}
static int child_unlocks(void) { return pz_rwlock_unlock(lock); }
static void a_forked_child_has_nothing(void)
{
    begin();
    EQUAL(pz_rwlock_rdlock(lock), 0);
    EQUAL(elsewhere(child_unlocks), EPERM);
    EQUAL(elsewhere(tries_to_read), 0);
    EQUAL(pz_rwlock_unlock(lock), 0);
}

/* ---- Who comes next. */

/* A writer that waits comes before readers that call later. */
static void a_writer_isnt_starved(void)
{
    begin();
    pid_t reader = holder_of_first_lane(1), writer = start_holder(pz_rwlock_wrlock, 2, &all->reply[1]);
    until_asleep(writer);
    EQUAL(elsewhere(tries_to_read), EBUSY);
    pid_t later = start_holder(pz_rwlock_rdlock, 3, &all->reply[2]);
    until_asleep(later);
    EQUAL(all->reply[2], 0);
    all->goes = 1;
    EQUAL(status_of(reader), 0);
    EQUAL(reply_of(&all->reply[1]), 0);
    until_asleep(later);
    EQUAL(all->reply[2], 0);
    all->goes = 2;
    EQUAL(status_of(writer), 0);
    EQUAL(reply_of(&all->reply[2]), 0);
    EQUAL(elsewhere(tries_to_read), 0);
    all->goes = 3;
    EQUAL(status_of(later), 0);
}
/* A reader that is stopped keeps its lane, and nobody but writers out. */
static void a_stopped_reader(void)
{
    begin();
    pid_t reader = holder(pz_rwlock_rdlock, 1, 0);
    struct timespec soon = after_us(CLOCK_MONOTONIC, 20000);
    kill(reader, SIGSTOP);
    until_stopped(reader);
    EQUAL(elsewhere(tries_to_read), 0);
    EQUAL(pz_rwlock_clockwrlock(lock, CLOCK_MONOTONIC, &soon), ETIMEDOUT);
    EQUAL(elsewhere(tries_to_read), 0); /* the late writer has given everything back */
    EQUAL(elsewhere(tries_to_write), EBUSY);
    EQUAL(elsewhere(tries_to_read), 0);
    all->goes = 1;
    kill(reader, SIGCONT);
    EQUAL(status_of(reader), 0);
    EQUAL(elsewhere(tries_to_write), 0);
}

/* ---- Deaths. */

static void deaths_that_nobody_is_told(void)
{
    begin();
    dies_inside(pz_rwlock_rdlock, 0);
    EQUAL(tries_to_write(), 0);
    pid_t reader = holder(pz_rwlock_rdlock, 1, 0), writer = start_holder(pz_rwlock_wrlock, 2, &all->reply[1]);
    until_asleep(writer);
    EQUAL(kill_child(writer), -SIGKILL); /* it wanted the lock, and had some lanes */
    EQUAL(elsewhere(tries_to_read), 0);
    EQUAL(tries_to_write(), EBUSY);
    all->goes = 1;
    EQUAL(status_of(reader), 0);
    EQUAL(tries_to_write(), 0);
}
/* A reader comes back to its lane, and another one has died there. */
static void a_dead_reader_had_the_same_lane(void)
{
    begin();
    EQUAL(pz_rwlock_rdlock(lock), 0);
    pz_mutex *own = &all->lock.parts[2];
    while (pz_mutex_owner(own) != getpid())
        own++;
    EQUAL(pz_rwlock_unlock(lock), 0);
    pid_t p = start_child();
    if (p == 0)
        _exit(pz_mutex_lock(own));
    EQUAL(status_of(p), 0);
    EQUAL(tries_to_read(), 0);
    EQUAL(tries_to_write(), 0);
}
static int repairs(int (*call)(pz_rwlock *))
{
    int r = call(lock);
    EQUAL(r, EOWNERDEAD);
    EQUAL(elsewhere(tries_to_read), EBUSY); /* whatever was asked for, it is a writer */
    EQUAL(pz_rwlock_consistent(lock), 0);
    EQUAL(pz_rwlock_consistent(lock), EINVAL);
    EQUAL(pz_rwlock_unlock(lock), 0);
    return tries_to_read();
}
static void a_writer_dies_inside(void)
{
    static int (*const calls[])(pz_rwlock *) = {pz_rwlock_rdlock, pz_rwlock_wrlock, pz_rwlock_tryrdlock,
                                                pz_rwlock_trywrlock};
    for (int i = 0; i < 4; i++) {
        begin();
        dies_inside(pz_rwlock_wrlock, 0);
        EQUAL(repairs(calls[i]), 0);
        dies_inside(pz_rwlock_wrlock, 0);
        dies_inside(calls[i], EOWNERDEAD); /* so does the one that was to repair */
        EQUAL(repairs(calls[i]), 0);
    }
}
/* Readers that wait while another one repairs come in as readers. */
static void others_come_in_after_a_repair(void)
{
    begin();
    dies_inside(pz_rwlock_wrlock, 0);
    EQUAL(pz_rwlock_rdlock(lock), EOWNERDEAD);
    pid_t p[2];
    for (int i = 0; i < 2; i++)
        until_asleep(p[i] = start_holder(pz_rwlock_rdlock, 1, &all->reply[i]));
    EQUAL(pz_rwlock_consistent(lock), 0);
    EQUAL(pz_rwlock_unlock(lock), 0);
    for (int i = 0; i < 2; i++)
        EQUAL(reply_of(&all->reply[i]), 0);
    EQUAL(elsewhere(tries_to_read), 0);
    EQUAL(elsewhere(tries_to_write), EBUSY);
    all->goes = 1;
    for (int i = 0; i < 2; i++)
        EQUAL(status_of(p[i]), 0);
}
/* Readers see the trace of a dead writer, and go out to take all lanes. Another thread repairs in the meantime: they
 * come in next to each other. */
static void readers_stay_that_after_anothers_repair(void)
{
    begin();
    dies_inside(pz_rwlock_wrlock, 0);
    EQUAL(pz_mutex_lock(&lock->gate), EOWNERDEAD);
    EQUAL(pz_mutex_consistent(&lock->gate), 0);
    lock->words[2] = 0; /* as if the dead writer had been between its two stores: the reader doesn't come by the gate */
    pid_t readers[2];
    for (int i = 0; i < 2; i++)
        until_asleep(readers[i] = start_holder(pz_rwlock_rdlock, 1, &all->reply[i]));
    lock->words[1] = 0; /* the repair */
    EQUAL(pz_mutex_unlock(&lock->gate), 0);
    for (int i = 0; i < 2; i++)
        EQUAL(reply_of(&all->reply[i]), 0);
    EQUAL(elsewhere(tries_to_read), 0);
    EQUAL(tries_to_write(), EBUSY);
    all->goes = 1;
    for (int i = 0; i < 2; i++)
        EQUAL(status_of(readers[i]), 0);
    EQUAL(tries_to_write(), 0);
}
static void without_consistent(void)
{
    begin();
    dies_inside(pz_rwlock_wrlock, 0);
    EQUAL(pz_rwlock_rdlock(lock), EOWNERDEAD);
    pid_t p[3] = {start_holder(pz_rwlock_rdlock, 0, &all->reply[0]), start_holder(pz_rwlock_wrlock, 0, &all->reply[1]),
                  start_holder(pz_rwlock_rdlock, 0, &all->reply[2])};
    for (int i = 0; i < 3; i++)
        until_asleep(p[i]);
    EQUAL(pz_rwlock_unlock(lock), 0);
    for (int i = 0; i < 3; i++)
        EQUAL(reply_of(&all->reply[i]), ENOTRECOVERABLE), EQUAL(status_of(p[i]), EPERM);
    EQUAL(pz_rwlock_tryrdlock(lock), ENOTRECOVERABLE);
    EQUAL(pz_rwlock_trywrlock(lock), ENOTRECOVERABLE);
    EQUAL(pz_rwlock_wrlock(lock), ENOTRECOVERABLE);
    EQUAL(pz_rwlock_unlock(lock), EPERM);
    EQUAL(pz_rwlock_reinit(lock), 0);
    EQUAL(tries_to_read(), 0);
    dies_inside(pz_rwlock_wrlock, 0);
    EQUAL(pz_rwlock_reinit(lock), 0);
    EQUAL(tries_to_write(), 0);
}

int main(void)
{
    begin_checks(600);
    all = shared_memory(sizeof *all);
    lock = &all->lock.rw;
    refusals();
    deadlines();
    too_many();
    nearly_too_many();
    lanes_are_for_readers();
    a_reader_waits_without_the_gate();
    a_reader_keeps_its_lane();
    several_locks_at_a_time();
    another_mapping();
    a_forked_child_has_nothing();
    a_writer_isnt_starved();
    a_stopped_reader();
    deaths_that_nobody_is_told();
    a_dead_reader_had_the_same_lane();
    a_writer_dies_inside();
    others_come_in_after_a_repair();
    readers_stay_that_after_anothers_repair();
    without_consistent();
    return end_checks();
}
