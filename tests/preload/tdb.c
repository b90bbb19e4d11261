/* Samba's tdb, unmodified: processes change records twice, with one chain's lock or the lock of all chains, while they
 * are killed. usage: tdb FILE DEATHS PROCESSES */
#include "storm.h"
#include <stdbool.h>
#include <sys/types.h>
#include <tdb.h>

enum { RECORDS = 40, HASH = 10007 };

static const char *path;

static void bad(int line, const char *what)
{
    fprintf(stderr, "tdb.c:%d: %s\n", line, what);
    atomic_fetch_add(&board->errors, 1);
    _exit(1);
}
#define GOOD(what) ((what) ? (void)0 : bad(__LINE__, #what))

static void print_error(struct tdb_context *tdb, enum tdb_debug_level level, const char *form, ...)
{
    (void)tdb;
    if (level == TDB_DEBUG_FATAL || level == TDB_DEBUG_ERROR)
        fprintf(stderr, "tdb: %s", form);
}

/* One process keeps it open throughout, as the first one that opens it clears it. */
static struct tdb_context *open_it(void)
{
    GOOD(tdb_runtime_check_for_robust_mutexes());
    struct tdb_logging_context log = {print_error, NULL};
    struct tdb_context *tdb =
        tdb_open_ex(path, HASH, TDB_MUTEX_LOCKING | TDB_CLEAR_IF_FIRST | TDB_INCOMPATIBLE_HASH | TDB_NOSYNC,
                    O_RDWR | O_CREAT, 0600, &log, NULL);
    return tdb;
}

static TDB_DATA key_of(unsigned *i) { return (TDB_DATA){.dptr = (unsigned char *)i, .dsize = sizeof *i}; }

struct record {
    long first, second;
    pid_t inside;
};

static struct record fetch(struct tdb_context *tdb, unsigned i)
{
    struct record r = {0, 0, 0};
    TDB_DATA is = tdb_fetch(tdb, key_of(&i));
    if (is.dptr && is.dsize == sizeof r)
        memcpy(&r, is.dptr, sizeof r);
    free(is.dptr);
    return r;
}

static void store(struct tdb_context *tdb, unsigned i, struct record r)
{
    TDB_DATA is = {.dptr = (unsigned char *)&r, .dsize = sizeof r};
    GOOD(tdb_store(tdb, key_of(&i), is, TDB_REPLACE) == 0);
}

/* Returns whether there is no such process, or it runs no more: the kernel frees what a process owned before it is a
 * zombie (PF_EXITING, flag 4 of proc(5)). */
static int has_ended(pid_t it)
{
    char at[64], state = 'Z';
    unsigned flags = 0;
    snprintf(at, sizeof at, "/proc/%d/stat", (int)it);
    FILE *f = fopen(at, "r");
    if (f && fscanf(f, "%*d %*[^)]) %c %*d %*d %*d %*d %*d %u", &state, &flags) != 2)
        state = 'Z';
    if (f)
        fclose(f);
    return state == 'Z' || state == 'X' || (flags & 4);
}

/* A process that was inside and didn't leave is dead. */
static void change(struct tdb_context *tdb, unsigned i)
{
    struct record r = fetch(tdb, i);
    GOOD(!r.inside || r.inside == getpid() || has_ended(r.inside));
    r.inside = getpid();
    r.first++;
    store(tdb, i, r);
    r.second = r.first;
    r.inside = 0;
    store(tdb, i, r);
}

static void work(int slot)
{
    struct tdb_context *tdb = open_it();
    unsigned random = (unsigned)getpid();
    GOOD(tdb);
    for (;;) {
        unsigned i = (unsigned)rand_r(&random) % RECORDS, kind = (unsigned)rand_r(&random) % 16;
        if (kind == 0)
            GOOD(tdb_lockall(tdb) == 0);
        else if (kind < 4) {
            if (tdb_chainlock_nonblock(tdb, key_of(&i)) != 0)
                continue;
        } else
            GOOD(tdb_chainlock(tdb, key_of(&i)) == 0);
        change(tdb, i);
        if (kind == 0)
            GOOD(tdb_unlockall(tdb) == 0);
        else
            GOOD(tdb_chainunlock(tdb, key_of(&i)) == 0);
        atomic_fetch_add(&board->got_on[slot], 1);
    }
}

static void test_mutexes(int unused)
{
    (void)unused;
    GOOD(tdb_runtime_check_for_robust_mutexes());
}

/* Keeps the file open. */
static void keep(int slot)
{
    GOOD(open_it());
    atomic_fetch_add(&board->got_on[slot], 1);
    for (;;)
        pause();
}

int main(int argc, char **argv)
{
    MUST(argc > 3);
    path = argv[1];
    int deaths = atoi(argv[2]), n = atoi(argv[3]);
    MUST(n >= 2 && n < SLOTS - 1);
    begin_storm();
    /* in a child, as tdb keeps the result, and each process has to test for itself */
    int status;
    MUST(waitpid(start_in(n + 1, test_mutexes), &status, 0) > 0 && status == 0);
    pid_t keeper = start_in(n, keep);
    while (!atomic_load(&board->got_on[n]) && !waitpid(keeper, NULL, WNOHANG))
        nap(1000);
    kill_at_random(deaths, n, work, 2000);
    struct tdb_context *tdb = open_it();
    MUST(tdb && tdb_lockall(tdb) == 0 && tdb_unlockall(tdb) == 0);
    int records = tdb_check(tdb, NULL, NULL) == 0 ? tdb_traverse_read(tdb, NULL, NULL) : -1;
    MUST(records > 0);
    kill_child(keeper);
    return end_of_storm("tdb", deaths);
}
