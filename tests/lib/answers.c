/* Whether each call returns what the documentation says, on a mutex in each state; and leaves errno alone. */
#include "../check.h"
#include <pazdrig.h>

enum state { FREE, OWN, OTHERS, DEAD, INCONSISTENT, UNUSABLE, MISALIGNED, STATES };
static const char *const state_names[] = {"free",         "own",      "another thread's", "dead owner's",
                                          "inconsistent", "unusable", "misaligned"};
enum { BLOCKS = -1, OWNER_TID = -2 };

static char *memory;
static pz_mutex *mutex;
static pz_cond *cond;
static const struct timespec past = {1, 0}, before_1970 = {-5, 0}, bad = {1, 1000000000}, bad_below = {1, -1};
static const struct timespec bad_before_1970 = {-5, -1};

static int lock(void) { return pz_mutex_lock(mutex); }
static int trylock(void) { return pz_mutex_trylock(mutex); }
static int timedlock(void) { return pz_mutex_timedlock(mutex, &past); }
static int timedlock_before_1970(void) { return pz_mutex_timedlock(mutex, &before_1970); }
static int timedlock_bad(void) { return pz_mutex_timedlock(mutex, &bad); }
static int timedlock_bad_below(void) { return pz_mutex_timedlock(mutex, &bad_below); }
static int timedlock_bad_before_1970(void) { return pz_mutex_timedlock(mutex, &bad_before_1970); }
static int clocklock(void) { return pz_mutex_clocklock(mutex, CLOCK_MONOTONIC, &past); }
static int clocklock_bad_clock(void) { return pz_mutex_clocklock(mutex, CLOCK_PROCESS_CPUTIME_ID, &past); }
static int unlock(void) { return pz_mutex_unlock(mutex); }
static int consistent(void) { return pz_mutex_consistent(mutex); }
static int reinit(void) { return pz_mutex_reinit(mutex); }
static int timedwait(void) { return pz_cond_timedwait(cond, mutex, &past); }
static int clockwait_before_1970(void) { return pz_cond_clockwait(cond, mutex, CLOCK_MONOTONIC, &before_1970); }
static int clockwait_bad(void) { return pz_cond_clockwait(cond, mutex, CLOCK_MONOTONIC, &bad); }
static int clockwait_bad_clock(void) { return pz_cond_clockwait(cond, mutex, CLOCK_BOOTTIME, &past); }
static int wait_misaligned(void) { return pz_cond_timedwait((void *)((char *)cond + 8), mutex, &past); }
static int signal_(void) { return pz_cond_signal(cond, mutex); }
static int signal_misaligned(void) { return pz_cond_signal((void *)((char *)cond + 8), mutex); }
static int broadcast(void) { return pz_cond_broadcast(cond, mutex); }
static int broadcast_misaligned(void) { return pz_cond_broadcast((void *)((char *)cond + 8), mutex); }
static int owner(void) { return pz_mutex_owner(mutex); }

static const struct row {
    const char *name;
    int (*call)(void);
    int replies[STATES];
} rows[] = {
    /*                       free, own, another's, dead owner's, inconsistent, unusable, misaligned */
    {"pz_mutex_lock", lock, {0, EDEADLK, BLOCKS, EOWNERDEAD, EDEADLK, ENOTRECOVERABLE, EINVAL}},
    {"pz_mutex_trylock", trylock, {0, EBUSY, EBUSY, EOWNERDEAD, EBUSY, ENOTRECOVERABLE, EINVAL}},
    {"pz_mutex_timedlock", timedlock, {0, EDEADLK, ETIMEDOUT, EOWNERDEAD, EDEADLK, ENOTRECOVERABLE, EINVAL}},
    {"pz_mutex_timedlock",
     timedlock_before_1970,
     {0, EDEADLK, ETIMEDOUT, EOWNERDEAD, EDEADLK, ENOTRECOVERABLE, EINVAL}},
    {"pz_mutex_timedlock", timedlock_bad, {0, EDEADLK, EINVAL, EOWNERDEAD, EDEADLK, ENOTRECOVERABLE, EINVAL}},
    {"pz_mutex_timedlock", timedlock_bad_below, {0, EDEADLK, EINVAL, EOWNERDEAD, EDEADLK, ENOTRECOVERABLE, EINVAL}},
    {"pz_mutex_timedlock",
     timedlock_bad_before_1970,
     {0, EDEADLK, EINVAL, EOWNERDEAD, EDEADLK, ENOTRECOVERABLE, EINVAL}},
    {"pz_mutex_clocklock", clocklock, {0, EDEADLK, ETIMEDOUT, EOWNERDEAD, EDEADLK, ENOTRECOVERABLE, EINVAL}},
    {"pz_mutex_clocklock", clocklock_bad_clock, {EINVAL, EINVAL, EINVAL, EINVAL, EINVAL, EINVAL, EINVAL}},
    {"pz_mutex_unlock", unlock, {EPERM, 0, EPERM, EPERM, 0, EPERM, EPERM}},
    {"pz_mutex_consistent", consistent, {EPERM, EINVAL, EPERM, EPERM, 0, EPERM, EPERM}},
    {"pz_mutex_reinit", reinit, {0, EBUSY, EBUSY, 0, EBUSY, 0, EINVAL}},
    {"pz_cond_timedwait", timedwait, {EPERM, ETIMEDOUT, EPERM, EPERM, EINVAL, EPERM, EPERM}},
    {"pz_cond_clockwait", clockwait_before_1970, {EPERM, ETIMEDOUT, EPERM, EPERM, EINVAL, EPERM, EPERM}},
    {"pz_cond_clockwait", clockwait_bad, {EINVAL, EINVAL, EINVAL, EINVAL, EINVAL, EINVAL, EINVAL}},
    {"pz_cond_clockwait", clockwait_bad_clock, {EINVAL, EINVAL, EINVAL, EINVAL, EINVAL, EINVAL, EINVAL}},
    {"pz_cond_timedwait", wait_misaligned, {EPERM, EINVAL, EPERM, EPERM, EINVAL, EPERM, EPERM}},
    {"pz_cond_signal", signal_, {EPERM, 0, EPERM, EPERM, 0, EPERM, EPERM}},
    {"pz_cond_signal", signal_misaligned, {EPERM, EINVAL, EPERM, EPERM, EINVAL, EPERM, EPERM}},
    {"pz_cond_broadcast", broadcast, {EPERM, 0, EPERM, EPERM, 0, EPERM, EPERM}},
    {"pz_cond_broadcast", broadcast_misaligned, {EPERM, EINVAL, EPERM, EPERM, EINVAL, EPERM, EPERM}},
    {"pz_mutex_owner", owner, {0, OWNER_TID, OWNER_TID, 0, OWNER_TID, 0, 0}},
};

static pid_t holder;

static void let_an_owner_die(int reply)
{
    pid_t p = start_child();
    if (p == 0)
        _exit(pz_mutex_lock(mutex));
    EQUAL(status_of(p), reply);
}
static void let_another_own(void)
{
    holder = start_child();
    if (holder == 0) {
        pz_mutex_lock(mutex);
        for (;;)
            pause();
    }
    while (!pz_mutex_owner(mutex))
        nap(20);
}
static void bring_about(enum state state)
{
    memset(memory, 0, 256);
    mutex = (pz_mutex *)(memory + (state == MISALIGNED ? 8 : 0));
    holder = 0;
    if (state == OWN)
        EQUAL(pz_mutex_lock(mutex), 0);
    if (state == OTHERS)
        let_another_own();
    if (state == DEAD || state == INCONSISTENT || state == UNUSABLE)
        let_an_owner_die(0);
    if (state == INCONSISTENT || state == UNUSABLE)
        EQUAL(pz_mutex_lock(mutex), EOWNERDEAD);
    if (state == UNUSABLE)
        EQUAL(pz_mutex_unlock(mutex), 0);
}
/* Whether the calling thread owns the mutex after a call that returned r. */
static int owns_after(const struct row *row, enum state state, int r)
{
    int is_lock = strstr(row->name, "lock") && row->call != unlock, owned = state == OWN || state == INCONSISTENT;
    if (is_lock && (r == 0 || r == EOWNERDEAD))
        return 1;
    return owned && !(row->call == unlock && r == 0);
}
static void check_row(const struct row *row, enum state state)
{
    int wanted = row->replies[state], me = (int)syscall(SYS_gettid);
    bring_about(state);
    if (wanted == OWNER_TID)
        wanted = state == OTHERS ? holder : me;
    errno = 77;
    int r = row->call();
    check_that(r == wanted, __FILE__, __LINE__, "%s (row %d) on a mutex that is %s: %d, not %d", row->name,
               (int)(row - rows), state_names[state], r, wanted);
    EQUAL(errno, 77);
    EQUAL(pz_mutex_owner(mutex) == me, owns_after(row, state, r));
    if (row->call != owner)
        CHECK(pz_strerror(row->name, r) && *pz_strerror(row->name, r));
    if (holder)
        kill_child(holder);
    if (pz_mutex_owner(mutex) == me)
        EQUAL(pz_mutex_unlock(mutex), 0);
}

/* Whether an unusable mutex stays so until it is reinitialised, and is free then. */
static void check_unusable(void)
{
    bring_about(UNUSABLE);
    EQUAL(pz_mutex_lock(mutex), ENOTRECOVERABLE);
    EQUAL(pz_mutex_lock(mutex), ENOTRECOVERABLE);
    EQUAL(pz_mutex_reinit(mutex), 0);
    EQUAL(pz_mutex_lock(mutex), 0);
    EQUAL(pz_mutex_unlock(mutex), 0);
    EQUAL(pz_mutex_lock(mutex), 0);
    EQUAL(pz_mutex_consistent(mutex), EINVAL);
    EQUAL(pz_mutex_unlock(mutex), 0);
}
/* Whether a mutex that was declared consistent is as before a death. */
static void check_consistent(void)
{
    bring_about(INCONSISTENT);
    EQUAL(pz_mutex_consistent(mutex), 0);
    EQUAL(pz_mutex_consistent(mutex), EINVAL);
    EQUAL(pz_cond_timedwait(cond, mutex, &past), ETIMEDOUT);
    EQUAL(pz_mutex_unlock(mutex), 0);
    EQUAL(pz_mutex_lock(mutex), 0);
    EQUAL(pz_mutex_unlock(mutex), 0);
    bring_about(DEAD); /* and an owner that dies before it declares it leaves it as it was */
    let_an_owner_die(EOWNERDEAD);
    EQUAL(pz_mutex_lock(mutex), EOWNERDEAD);
    EQUAL(pz_mutex_unlock(mutex), 0);
}

int main(void)
{
    begin_checks(300);
    memory = shared_memory(4096);
    cond = (pz_cond *)(memory + 512);
    for (const struct row *row = rows; row < rows + sizeof rows / sizeof *rows; row++)
        for (int state = 0; state < STATES; state++)
            if (row->replies[state] != BLOCKS)
                check_row(row, (enum state)state);
    check_unusable();
    check_consistent();
    return end_checks();
}
