/* What the storms share: processes in slots that are killed and started again, and of which each has to get on. */
#ifndef PRELOAD_STORM_H
#define PRELOAD_STORM_H
#include "counts.h"
#include "robust.h"
#include <fcntl.h>

enum { SLOTS = 128, QUIET_S = 60 };

/* Ends the test if it isn't so. */
#define MUST(is_true) ((is_true) ? (void)0 : end_storm(__FILE__, __LINE__, #is_true))
UNUSED static _Noreturn void end_storm(const char *file, int line, const char *what)
{
    fprintf(stderr, "%s:%d: %s\n", file, line, what);
    printf("0 passed, 1 failed\n");
    exit(1);
}

struct board {
    _Atomic long got_on[SLOTS];
    _Atomic long errors;
};
static struct board *board;
static struct counts *counts;
static pid_t child[SLOTS];

UNUSED static double now(void)
{
    struct timespec t;
    clock_gettime(CLOCK_MONOTONIC, &t);
    return (double)t.tv_sec + (double)t.tv_nsec * 1e-9;
}

UNUSED static void begin_storm(void)
{
    const char *path = getenv("PAZDRIG_COUNTS");
    int fd = path ? open(path, O_RDWR | O_CREAT, 0600) : -1;
    begin_checks(7200);
    MUST(fd >= 0 && ftruncate(fd, sizeof *counts) == 0);
    counts = mmap(NULL, sizeof *counts, PROT_READ | PROT_WRITE, MAP_SHARED, fd, 0);
    MUST(counts != MAP_FAILED);
    memset((void *)counts, 0, sizeof *counts);
    board = shared_memory(sizeof *board);
}

UNUSED static pid_t start_in(int slot, void (*work)(int))
{
    pid_t p = start_child();
    if (p)
        return p;
    work(slot);
    _exit(0);
}

/* Whether each process got on since it was last looked at; a process that ended on its own failed. */
UNUSED static void look(int n)
{
    static long last[SLOTS];
    static double since[SLOTS];
    for (int i = 0; i < n; i++) {
        MUST(waitpid(child[i], NULL, WNOHANG) == 0);
        long is = atomic_load(&board->got_on[i]);
        if (is != last[i] || since[i] == 0) {
            last[i] = is;
            since[i] = now();
        } else if (now() - since[i] > QUIET_S)
            end_storm(__FILE__, __LINE__, "a process doesn't get on");
    }
}

UNUSED static void until_all_got_on(int n)
{
    for (int i = 0; i < n; i++) {
        long was = atomic_load(&board->got_on[i]);
        double since = now();
        while (atomic_load(&board->got_on[i]) == was) {
            MUST(waitpid(child[i], NULL, WNOHANG) == 0);
            MUST(now() - since < QUIET_S);
            nap(1000);
        }
    }
}

/* Kills `deaths` times one of n processes at work, and starts it again; and all at last, once each has got on. */
UNUSED static void kill_at_random(int deaths, int n, void (*work)(int), int most_us)
{
    for (int i = 0; i < n; i++)
        child[i] = start_in(i, work);
    for (int k = 0; k < deaths; k++) {
        int i = rand() % n;
        nap(rand() % most_us);
        look(n);
        kill_child(child[i]);
        child[i] = start_in(i, work);
    }
    until_all_got_on(n);
    for (int i = 0; i < n; i++)
        kill_child(child[i]);
}

/* Runs another program. Returns 0 if it ended well. */
UNUSED static int run(const char *command)
{
    pid_t p = start_child();
    if (!p) {
        execl("/bin/sh", "sh", "-c", command, (char *)NULL);
        _exit(127);
    }
    return status_of(p);
}

/* No mutex may have become unusable or refused a call; and some calls were on the library's mutexes. */
UNUSED static int end_of_storm(const char *name, int deaths)
{
    printf("%s: %d deaths: EOWNERDEAD %ld, consistent %ld, %ld inits, %ld calls\n", name, deaths,
           atomic_load(&counts->died), atomic_load(&counts->consistent), atomic_load(&counts->inits),
           atomic_load(&counts->calls));
    EQUAL(atomic_load(&board->errors), 0);
    CHECK(atomic_load(&counts->calls) > 0);
    EQUAL(atomic_load(&counts->unusable), 0);
    EQUAL(atomic_load(&counts->refused), 0);
    return end_checks();
}
#endif
