/* A bank in a file that processes share. Tellers move money from one account to another. They are killed, half of them
 * while the money is in no account at all. The next owner of the mutex undoes what a dead owner had begun, so the sum
 * stays the same.
 *
 *     bank FILE DEATHS              ends with status 0: the sum is what it was
 *     bank FILE DEATHS careless     ends with status 1: nobody undoes anything, and every second death loses money
 *
 * To build: make, then cc -pthread -Ilib examples/c/bank.c out/libpazdrig.a -o bank
 */
#define _GNU_SOURCE
#include "pazdrig.h"

#include <errno.h>
#include <signal.h>
#include <stdatomic.h>
#include <stdbool.h>
#include <stdio.h>
#include <stdlib.h>
#include <string.h>
#include <sys/prctl.h>
#include <sys/wait.h>
#include <time.h>
#include <unistd.h>

enum { ACCOUNTS = 64, TELLERS = 4, FIRST_BALANCE = 1000, MOST_MOVED = 100 };

/* What to undo after a death: the accounts that are being changed, and what was in them before. */
struct undo_log {
    bool is_open;
    int from, to;
    long was_from, was_to;
};

/* What the mutex guards. A new file is all zeros, so a bank that isn't open is a new one. */
struct bank {
    bool is_open;
    long cents[ACCOUNTS];
    struct undo_log log;
    long transfers, undone; /* not in the log: a death may leave one uncounted */
};

static bool careless;
static pz_mutex *mutex;

static void end(int error)
{
    fprintf(stderr, "bank: %s\n", strerror(error));
    _exit(2);
}

/* Keeps the compiler from moving stores across this place. The processor needs no fence, since the kernel ends a thread
 * between two instructions. */
static void before_the_next(void) { atomic_signal_fence(memory_order_seq_cst); }

/* ---- Recovery. */

/* Restores what was there, so it can be started again if its thread is killed too. */
static void undo(struct bank *b)
{
    struct undo_log *log = &b->log;
    if (!log->is_open)
        return; /* the owner was killed before its change, or after it */
    b->cents[log->from] = log->was_from;
    b->cents[log->to] = log->was_to;
    before_the_next();
    log->is_open = false;
    b->undone++;
}

/* After EOWNERDEAD this thread owns the mutex, and the data is as the dead owner left it. An unlock without
 * pz_mutex_consistent would make the mutex unusable. */
static void lock(struct bank *b)
{
    int r = pz_mutex_lock(mutex);
    if (r == EOWNERDEAD) {
        if (!careless)
            undo(b);
        r = pz_mutex_consistent(mutex);
    }
    if (r)
        end(r);
}

static void unlock(void)
{
    int r = pz_mutex_unlock(mutex);
    if (r)
        end(r);
}

/* ---- Tellers. */

static void open_log(struct bank *b, int from, int to)
{
    struct undo_log *log = &b->log;
    log->from = from;
    log->to = to;
    log->was_from = b->cents[from];
    log->was_to = b->cents[to];
    before_the_next(); /* the log is whole before it is open, */
    log->is_open = true;
    before_the_next(); /* and nothing is changed before it is open */
}

static void close_log(struct bank *b)
{
    before_the_next();
    b->log.is_open = false;
}

static void transfer(struct bank *b, int from, int to, long cents, bool dies)
{
    open_log(b, from, to);
    b->cents[from] -= cents;
    before_the_next();
    if (dies)
        kill(getpid(), SIGKILL); /* the money is in no account */
    b->cents[to] += cents;
    close_log(b);
    b->transfers++;
}

/* Works until it is killed, or kills itself in the middle of transfer `last` (-1: never). */
static _Noreturn void work(struct bank *b, int last)
{
    srand((unsigned)getpid());
    for (int i = 0;; i++) {
        int from = rand() % ACCOUNTS, to = rand() % ACCOUNTS;
        long cents = 1 + rand() % MOST_MOVED;
        lock(b);
        transfer(b, from, to, cents, i == last);
        unlock();
    }
}

static pid_t hire(struct bank *b, int last)
{
    pid_t bank = getpid(), teller = fork();
    if (teller < 0)
        end(errno);
    if (teller == 0) {
        prctl(PR_SET_PDEATHSIG, SIGKILL); /* it ends with its bank */
        if (getppid() == bank)
            work(b, last);
        _exit(2);
    }
    return teller;
}

static void bury(pid_t teller)
{
    int status;
    if (waitpid(teller, &status, 0) != teller)
        end(errno);
    if (!WIFSIGNALED(status))
        _exit(2); /* it has printed why */
}

static void fire(pid_t teller)
{
    kill(teller, SIGKILL);
    bury(teller);
}

/* ---- The bank. */

/* A process that opens a bank may be killed as well, so the bank is open last. */
static void open_accounts(struct bank *b)
{
    lock(b);
    for (int i = 0; i < ACCOUNTS && !b->is_open; i++)
        b->cents[i] = FIRST_BALANCE;
    before_the_next();
    b->is_open = true;
    unlock();
}

static long sum_of(struct bank *b)
{
    long sum = 0;
    lock(b);
    for (int i = 0; i < ACCOUNTS; i++)
        sum += b->cents[i];
    unlock();
    return sum;
}

/* Tellers 1 and 3 kill themselves, and the bank kills 0 and 2 at any moment. Each is replaced. */
static int last_of(int death) { return death % 2 ? rand() % 50 : -1; }

static void run(struct bank *b, int deaths)
{
    pid_t tellers[TELLERS];
    for (int i = 0; i < TELLERS; i++)
        tellers[i] = hire(b, last_of(i));
    for (int death = 0; death < deaths; death++) {
        pid_t *teller = &tellers[death % TELLERS];
        if (death % 2) {
            bury(*teller);
        } else {
            nanosleep(&(struct timespec){.tv_nsec = rand() % 2000000}, NULL);
            fire(*teller);
        }
        *teller = hire(b, last_of(death));
    }
    for (int i = 0; i < TELLERS; i++)
        fire(tellers[i]);
}

int main(int argc, char **argv)
{
    if (argc < 3) {
        fprintf(stderr, "usage: bank FILE DEATHS [careless]\n");
        return 2;
    }
    careless = argc > 3;
    pz_file *file;
    int r = pz_open(argv[1], 0600, &(struct pz_layout){.mutexes = 1, .data = sizeof(struct bank)}, &file);
    if (r)
        end(r);
    struct bank *b = pz_data(file);
    mutex = pz_mutex_at(file, 0);
    open_accounts(b);
    run(b, atoi(argv[2]));
    long sum = sum_of(b), wanted = (long)ACCOUNTS * FIRST_BALANCE;
    printf("%s deaths, %ld transfers, %ld undone: ", argv[2], b->transfers, b->undone);
    printf("the sum is %ld of %ld\n", sum, wanted);
    pz_close(file);
    return sum != wanted;
}
