/* Settings that many processes read, and a few change. Readers don't wait for each other, and never see half of a
 * change, although writers and readers are killed now and then, anywhere.
 *
 *     settings [KILLS]       ends with status 0: no reader saw half of a change
 *
 * With a pthread_rwlock_t, the first reader that is killed would keep all writers out forever.
 *
 * To build: make, then cc -pthread -Ilib examples/c/settings.c out/libpazdrig.a -o settings
 */
#define _GNU_SOURCE
#include "pazdrig.h"

#include <errno.h>
#include <signal.h>
#include <stdatomic.h>
#include <stdio.h>
#include <stdlib.h>
#include <string.h>
#include <sys/mman.h>
#include <sys/prctl.h>
#include <sys/wait.h>
#include <time.h>
#include <unistd.h>

enum { READERS = 6, WRITERS = 2, PROCESSES = READERS + WRITERS, VALUES = 256, LANES = 8 };

/* All of it is zeros at first. A writer notes the number that it will replace, and changes one value after the other. */
static struct settings {
    PZ_RWLOCK(LANES) lock;
    volatile long values[VALUES]; /* all have the same number, except in the middle of a change */
    volatile long before;
    _Atomic int is_over;
    _Atomic long reads, changes, repairs;
} *settings;

static void must(int error)
{
    if (error) {
        fprintf(stderr, "settings: %s\n", strerror(error));
        _exit(2);
    }
}

static void set_all(long value)
{
    for (int i = 0; i < VALUES; i++)
        settings->values[i] = value;
}

/* A writer was killed inside, so this thread has the lock as a writer, even if it came to read. */
static void repair(void)
{
    set_all(settings->before);
    atomic_fetch_add(&settings->repairs, 1);
    must(pz_rwlock_consistent(&settings->lock.rw));
}

static void read_settings(void)
{
    int error = pz_rwlock_rdlock(&settings->lock.rw);
    if (error == EOWNERDEAD) {
        repair();
        error = 0;
    }
    must(error);
    for (int i = 1; i < VALUES; i++)
        if (settings->values[i] != settings->values[0])
            _exit(1);
    atomic_fetch_add(&settings->reads, 1);
    must(pz_rwlock_unlock(&settings->lock.rw));
}

static void change_settings(void)
{
    int error = pz_rwlock_wrlock(&settings->lock.rw);
    if (error == EOWNERDEAD) {
        repair();
        error = 0;
    }
    must(error);
    settings->before = settings->values[0];
    set_all(settings->before + 1);
    atomic_fetch_add(&settings->changes, 1);
    must(pz_rwlock_unlock(&settings->lock.rw));
}

static pid_t start(int process)
{
    pid_t parent = getpid(), child = fork();
    if (child < 0)
        must(errno);
    if (child)
        return child;
    prctl(PR_SET_PDEATHSIG, SIGKILL);
    while (getppid() == parent && !settings->is_over)
        process < READERS ? read_settings() : change_settings();
    _exit(0);
}

/* Returns whether the child was well until it was killed, or ended. */
static int was_well(pid_t child)
{
    int status;
    waitpid(child, &status, 0);
    return WIFSIGNALED(status) || WEXITSTATUS(status) == 0;
}

int main(int argc, char **argv)
{
    int kills = argc > 1 ? atoi(argv[1]) : 800, all_well = 1;
    pid_t children[PROCESSES];
    settings = mmap(NULL, sizeof *settings, PROT_READ | PROT_WRITE, MAP_SHARED | MAP_ANONYMOUS, -1, 0);
    if (settings == MAP_FAILED)
        must(errno);
    must(pz_rwlock_init(&settings->lock.rw, LANES));
    for (int i = 0; i < PROCESSES; i++)
        children[i] = start(i);
    for (int n = 0; n < kills && all_well; n++) {
        int i = rand() % PROCESSES;
        nanosleep(&(struct timespec){.tv_nsec = rand() % 2000000}, NULL);
        kill(children[i], SIGKILL);
        all_well = was_well(children[i]);
        children[i] = start(i);
    }
    settings->is_over = 1;
    for (int i = 0; i < PROCESSES; i++)
        all_well &= was_well(children[i]);
    printf("%d kills: %ld reads, %ld changes, %ld of them repaired: %s\n", kills, (long)settings->reads,
           (long)settings->changes, (long)settings->repairs,
           all_well ? "no reader saw half of one" : "a reader saw half of one");
    return !all_well;
}
