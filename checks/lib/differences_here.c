/* What libpazdrig does where docs/DIFFERENCES.md says that the C library does something else: the rows of its first
 * table that a caller of libpazdrig can see. It prints what was seen, and what is expected if that differs. For
 * checks/library. */
#define _GNU_SOURCE
#include "rows.h"

#include <pazdrig.h>
#include <sys/mman.h>

enum { LIMIT = PZ_MOST_OWNED };

/* There is one more mutex than a thread can own, and processes share them all. */
static struct {
    pz_mutex mutex[LIMIT + 1];
    pz_cond cond;
    PZ_RWLOCK(4) lock;
} * p;

static int lock(void) { return pz_mutex_lock(&p->mutex[0]); }
static int trylock(void) { return pz_mutex_trylock(&p->mutex[0]); }
static int unlock(void) { return pz_mutex_unlock(&p->mutex[0]); }
static int consistent(void) { return pz_mutex_consistent(&p->mutex[0]); }
static int wait_there(void) { return pz_cond_wait(&p->cond, &p->mutex[0]); }
static int signal_it(void) { return pz_cond_signal(&p->cond, &p->mutex[0]); }
static int read_lock(void) { return pz_rwlock_init(&p->lock.rw, 4) ?: pz_rwlock_rdlock(&p->lock.rw); }
static int write_lock(void) { return pz_rwlock_init(&p->lock.rw, 4) ?: pz_rwlock_wrlock(&p->lock.rw); }
static int signal_as_the_owner(void) { return lock() ?: signal_it() ?: unlock(); }

static void lock_all_but_one(void)
{
    for (unsigned m = 0; m < LIMIT; m++)
        if (pz_mutex_lock(&p->mutex[m]))
            _exit(1);
}

static int lock_all_and_sleep(void)
{
    lock_all_but_one();
    return pz_mutex_lock(&p->mutex[LIMIT]) == EAGAIN ? pause() : 1;
}

static void one_mutex_too_many(void)
{
    pid_t owner = begin(lock_all_and_sleep);
    int died = 0;
    settle(owner);
    say("%s, ", is_asleep(owner) ? "EAGAIN" : "something else");
    kill_it(owner);
    for (unsigned m = 0; m < LIMIT; m++)
        died += pz_mutex_lock(&p->mutex[m]) == EOWNERDEAD && pz_mutex_unlock(&p->mutex[m]) == 0;
    say("%d report the death", died);
}

static void wait_with_an_inconsistent_mutex(void)
{
    inherit();
    say("%s, ", name(wait_there()));
    say("trylock of another %s", name(came_of(begin(trylock))));
}

static void killed_waiter(void) { signals_behind_a_killed_waiter(signal_as_the_owner); }

static int broadcast_it(void) { return pz_cond_broadcast(&p->cond, &p->mutex[0]); }

static void signal_of_another(void)
{
    say("%s, ", name(signal_it()));
    say("broadcast %s", name(broadcast_it()));
}

static void lock_again_at_the_limit(void)
{
    lock_all_but_one();
    say("%s", name(lock()));
}

static const struct row {
    const char *name;
    void (*see)(void);
    const char *seen;
} rows[] = {
    {"a waiter is killed as it is woken, and the mutex was locked again by then", killed_as_it_is_woken,
     "the second's lock OK, trylock OK"},
    {"several threads sleep on a mutex that becomes unusable", sleepers_of_a_spoiled_mutex,
     "3 told ENOTRECOVERABLE, 0 sleep on"},
    {"a second trylock of an unusable mutex", trylock_of_a_spoiled_mutex,
     "ENOTRECOVERABLE, then ENOTRECOVERABLE, of another ENOTRECOVERABLE, its lock ENOTRECOVERABLE, unlock EPERM"},
    {"a thread is killed inside a lock of an unusable mutex", killed_in_a_lock_of_a_spoiled_mutex,
     "lock ENOTRECOVERABLE"},
    {"consistent by a thread that doesn't own the mutex", consistent_of_another, "EPERM, then lock ENOTRECOVERABLE"},
    {"the 2,049th mutex of a thread", one_mutex_too_many, "EAGAIN, 2000 report the death"},
    {"a wait on a condition variable whose mutex is inconsistent", wait_with_an_inconsistent_mutex,
     "EINVAL, trylock of another EBUSY"},
    {"a waiter of a condition variable is killed", killed_waiter,
     "signal OK, waiter OK; signal OK, waiter OK; signal OK, waiter OK"},
    {"a signal by a thread that doesn't own the mutex", signal_of_another, "EPERM, broadcast EPERM"},
    {"trylock by the owner", trylock_of_the_owner, "EBUSY"},
    {"lock by the owner, who holds 2,048 mutexes", lock_again_at_the_limit, "EDEADLK"},
    {"a reader of a reader-writer lock is killed", killed_reader, "a writer's lock OK"},
    {"a writer of a reader-writer lock is killed", killed_writer, "a reader's lock EOWNERDEAD"},
};

/* A row over fresh memory. */
static int differs(const struct row *row)
{
    seen[0] = 0;
    p = mmap(NULL, sizeof *p, PROT_READ | PROT_WRITE, MAP_SHARED | MAP_ANONYMOUS, -1, 0);
    if (p == MAP_FAILED)
        fail("mmap");
    see(row->see);
    printf("%s: %s\n", row->name, seen);
    if (strcmp(seen, row->seen) == 0)
        return 0;
    printf("    wanted: %s\n", row->seen);
    return 1;
}

int main(void)
{
    int differ = 0;
    seen = mmap(NULL, MOST_SEEN, PROT_READ | PROT_WRITE, MAP_SHARED | MAP_ANONYMOUS, -1, 0);
    if (seen == MAP_FAILED)
        fail("mmap");
    /* what a row leaves comes to this process */
    prctl(PR_SET_CHILD_SUBREAPER, 1);
    for (const struct row *row = rows; row < rows + sizeof rows / sizeof *rows; row++) {
        differ += differs(row);
        fflush(stdout);
    }
    return differ > 0;
}
