/* What the two halves of the storm share: storm.c is what the processes do, storms.c what their parent does. */
#ifndef STORM_H
#define STORM_H
#include "../check.h"
#include <pazdrig.h>
#include <pthread.h>
#include <stdatomic.h>

enum { PROCESSES = 64, THREADS = 16, MUTEXES = 8 };

struct guarded {
    volatile int owner;
    volatile long a, b, tokens; /* a and b are equal unless the owner is between its two stores, or died there */
};
struct shared {
    pz_mutex mutex[MUTEXES];
    pz_cond cond[MUTEXES];
    pthread_mutex_t libc[2];
    struct guarded data[MUTEXES];
    _Atomic int stop;
    _Atomic long told, busy, late, unusable, execs, ends, progress[PROCESSES + 1];
};
struct options {
    long kills;
    int processes, threads, mutexes, conds, libcs, interrupts, spoils, ends, stops;
};
extern struct shared *all;
extern struct options opt;

/* What process `number` does; the last number is a producer's, which is never killed. */
_Noreturn void be_process(int number);
/* Maps the file again, at another address, and unmaps `old` unless it is NULL. */
struct shared *map_elsewhere(struct shared *old);
/* Replaces the process by a new one with the same number. */
void execute_again(int number);
#endif
