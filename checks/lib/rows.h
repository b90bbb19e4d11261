/* Rows of docs/DIFFERENCES.md that are asked of the C library and of libpazdrig alike. Who includes this brings the calls. */
#ifndef ROWS_H
#define ROWS_H
#include "processes.h"

static int lock(void);
static int trylock(void);
static int unlock(void);
static int consistent(void);
static int wait_there(void);
static int read_lock(void);
static int write_lock(void);

enum { SLEEPERS = 3 };

static int lock_and_sleep(void) { return lock() ?: pause(); }
static int wait_for_a_signal(void) { return lock() ?: wait_there() ?: unlock(); }

/* Another thread dies, and owned the mutex; this one takes it. */
static void inherit(void)
{
    pid_t owner = begin(lock_and_sleep);
    settle(owner);
    kill_it(owner);
    if (lock() != EOWNERDEAD)
        say("lock isn't EOWNERDEAD, ");
}

static void spoil(void)
{
    inherit();
    unlock();
}

/* A reader-writer lock whose reader or writer is killed. */
static int read_and_sleep(void) { return read_lock() ?: pause(); }
static int write_and_sleep(void) { return write_lock() ?: pause(); }
static void killed_inside(int (*does)(void))
{
    pid_t it = begin(does);
    settle(it);
    kill_it(it);
}
static void killed_reader(void)
{
    killed_inside(read_and_sleep);
    say("a writer's lock %s", name(came_of(begin(write_lock))));
}
static void killed_writer(void)
{
    killed_inside(write_and_sleep);
    say("a reader's lock %s", name(came_of(begin(read_lock))));
}

static int lock_traced(void) { return be_traced() ?: lock(); }
static int lock_and_unlock(void) { return lock() ?: unlock(); }

/* Two sleep on the mutex, and an unlock wakes the first, which stands still then. They are started again if it polled before. */
static void wake_the_first(pid_t *first, pid_t *second)
{
    do {
        lock();
        settle_traced(*first = begin(lock_traced));
        settle(*second = begin(lock_and_unlock));
        unlock();
    } while (!is_woken(*first) && (kill_it(*first), came_of(*second)) == 0);
}

/* Another has locked the mutex by then. (None has to stand still for it: where the first was killed right behind such an unlock and
 * lock, the C library's second slept on 95 to 99 times of 100.) */
static void killed_as_it_is_woken(void)
{
    pid_t first, second, third;
    wake_the_first(&first, &second);
    lock();
    kill_it(first);
    unlock();
    int answer = came_of(second);
    say("the second's lock %s, ", name(answer));
    say("trylock %s", name(trylock()));
    if (answer != SLEEPS)
        return;
    settle(third = begin(lock_and_unlock));
    unlock();
    say(", and once a third has slept there %s", name(came_of(second)));
}

static void sleepers_of_a_spoiled_mutex(void)
{
    pid_t sleepers[SLEEPERS];
    int told = 0, asleep = 0;
    inherit();
    for (int i = 0; i < SLEEPERS; i++)
        settle(sleepers[i] = begin(lock));
    unlock();
    for (int i = 0; i < SLEEPERS; i++) {
        int answer = came_of(sleepers[i]);
        told += answer == ENOTRECOVERABLE;
        asleep += answer == SLEEPS;
    }
    say("%d told ENOTRECOVERABLE, %d sleep on", told, asleep);
}

static void trylock_of_a_spoiled_mutex(void)
{
    spoil();
    say("%s, ", name(trylock()));
    say("then %s, ", name(trylock()));
    say("of another %s, ", name(came_of(begin(trylock))));
    say("its lock %s, ", name(came_of(begin(lock))));
    say("unlock ");
    say("%s", name(unlock()));
}

static int lock_again_and_again(void)
{
    while (lock() == ENOTRECOVERABLE)
        ;
    return 1;
}

/* Others are killed while they lock it, until a lock returns something else: within 5,000 kills, or never. */
static void killed_in_a_lock_of_a_spoiled_mutex(void)
{
    int answer = ENOTRECOVERABLE;
    spoil();
    for (int kills = 0; kills < 5000 && answer == ENOTRECOVERABLE; kills++) {
        pid_t locker = begin(lock_again_and_again);
        usleep(100 + kills % 200); /* anywhere in a call, or between two */
        kill_it(locker);
        answer = lock();
    }
    say("lock %s", name(answer));
    if (answer == EOWNERDEAD)
        say(", then repaired and locked again %s", name(consistent() ?: unlock() ?: lock()));
}

/* A waiter of a condition variable is killed; then one after the other waits there and is signalled. */
static void signals_behind_a_killed_waiter(int (*signal_once)(void))
{
    pid_t waiter = begin(wait_for_a_signal);
    settle(waiter);
    kill_it(waiter);
    for (int i = 0; i < 3; i++) {
        waiter = begin(wait_for_a_signal);
        settle(waiter);
        int signal = came_of(begin(signal_once));
        say("%ssignal %s, ", i ? "; " : "", name(signal));
        say("waiter %s", name(came_of(waiter)));
    }
}

static void consistent_of_another(void)
{
    inherit();
    say("%s, ", name(came_of(begin(consistent))));
    unlock();
    say("then lock %s", name(lock()));
}

static void trylock_of_the_owner(void)
{
    lock();
    say("%s", name(trylock()));
}
#endif
