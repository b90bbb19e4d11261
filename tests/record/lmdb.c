/* LMDB, unmodified. Processes change a database, read it, look for dead readers, and are killed. Now and then all are
 * killed at the same time, so that the next process to open the database initialises its two mutexes again.
 * usage: lmdb DIRECTORY KILLS EACH PROCESSES; between two kills, each process makes at most EACH transactions, and the
 * one that is killed some more. */
#include "shared.h"
#include <lmdb.h>
#include <sched.h>
#include <sys/stat.h>

enum { MOST = 32, KEYS = 64, SIZE = 512 << 20, READERS = 1000, FILES_MODE = 0600 };
static const char *directory;
static long each;
static int n;
static pid_t it[MOST];
static struct {
    _Atomic long done, may; /* transactions; a process that has made as many as it may rests */
    _Atomic int rests;
} * of;

static int rests(int i) { return atomic_load(&of[i].rests); }

static void good(int r, int line)
{
    if (r)
        fail(__FILE__, line, mdb_strerror(r));
}
#define GOOD(call) good(call, __LINE__)

static MDB_env *open_it(void)
{
    MDB_env *env;
    GOOD(mdb_env_create(&env));
    GOOD(mdb_env_set_mapsize(env, SIZE));
    GOOD(mdb_env_set_maxreaders(env, READERS));
    GOOD(mdb_env_open(env, directory, MDB_NOSYNC, FILES_MODE));
    return env;
}

/* Frees what killed readers keep. */
static void look_for_dead_readers(MDB_env *env)
{
    int dead;
    GOOD(mdb_reader_check(env, &dead));
}

static void change(MDB_env *env, MDB_dbi db, unsigned key)
{
    MDB_txn *txn;
    MDB_val k = {sizeof key, &key}, value = {sizeof key, &key};
    GOOD(mdb_txn_begin(env, NULL, 0, &txn));
    int r = mdb_put(txn, db, &k, &value, 0);
    if (r == 0 && key % 8)
        r = mdb_txn_commit(txn);
    else
        mdb_txn_abort(txn);
    if (r == MDB_MAP_FULL)
        look_for_dead_readers(env);
    else
        GOOD(r);
}

static void read_it(MDB_env *env, MDB_dbi db, unsigned key)
{
    MDB_txn *txn;
    MDB_val k = {sizeof key, &key}, value;
    GOOD(mdb_txn_begin(env, NULL, MDB_RDONLY, &txn));
    int r = mdb_get(txn, db, &k, &value);
    mdb_txn_abort(txn);
    if (r != MDB_NOTFOUND)
        GOOD(r);
}

static MDB_dbi database(MDB_env *env)
{
    MDB_txn *txn;
    MDB_dbi db;
    GOOD(mdb_txn_begin(env, NULL, 0, &txn));
    GOOD(mdb_dbi_open(txn, NULL, MDB_INTEGERKEY, &db));
    GOOD(mdb_txn_commit(txn));
    return db;
}

static void work(int i, unsigned seed)
{
    MDB_env *env = open_it();
    look_for_dead_readers(env);
    MDB_dbi db = database(env);
    for (;; atomic_fetch_add(&of[i].done, 1)) {
        unsigned what = (unsigned)rand_r(&seed) % 64;
        while (atomic_load(&of[i].done) >= atomic_load(&of[i].may)) {
            atomic_store(&of[i].rests, 1);
            usleep(50);
        }
        atomic_store(&of[i].rests, 0);
        if (what == 0)
            look_for_dead_readers(env);
        else if (what < 8)
            read_it(env, db, (unsigned)rand_r(&seed) % KEYS);
        else
            change(env, db, (unsigned)rand_r(&seed) % KEYS);
    }
}

static pid_t begin(int i)
{
    unsigned seed = (unsigned)rand();
    atomic_store(&of[i].rests, 0);
    pid_t child = a_child();
    if (!child)
        work(i, seed);
    return child;
}

/* Waits until a process has made that many transactions, or sleeps on (storm.c). A process that ends on its own has
 * failed. */
static void until_done(int i, long until)
{
    while (atomic_load(&of[i].done) < until && !none_gets_on(it, n, rests)) {
        CHECK(waitpid(it[i], NULL, WNOHANG) == 0);
        sched_yield();
    }
}

/* Kills one process, or all, during its work. Returns how many. */
static int kill_some(void)
{
    int i = rand() % n, all = rand() % 50 == 0, killed = 0;
    long until = atomic_load(&of[i].done) + rand() % (each / 2);
    for (int k = 0; k < n; k++)
        atomic_store(&of[k].may, atomic_load(&of[k].done) + (k == i ? 5 * each : each));
    until_done(i, until);
    for (int k = 0; k < n; k++)
        if (all || k == i)
            kill(it[k], SIGKILL);
    for (int k = 0; k < n; k++)
        if (all || k == i) {
            int status;
            CHECK(waitpid(it[k], &status, 0) == it[k] && WIFSIGNALED(status));
            killed++;
        }
    for (int k = 0; k < n; k++)
        if (all || k == i)
            it[k] = begin(k);
    return killed;
}

int main(int argc, char **argv)
{
    CHECK(argc == 5);
    directory = argv[1];
    each = atol(argv[3]);
    n = atoi(argv[4]);
    CHECK(each >= 2 && n >= 1 && n <= MOST && mkdir(directory, 0700) == 0);
    of = mmap(NULL, MOST * sizeof *of, PROT_READ | PROT_WRITE, MAP_SHARED | MAP_ANONYMOUS, -1, 0);
    CHECK(of != MAP_FAILED);
    for (int i = 0; i < n; i++)
        it[i] = begin(i);
    int killed = 0;
    for (int kills = atoi(argv[2]); killed < kills;)
        killed += kill_some();
    for (int i = 0; i < n; i++)
        until_killed(it[i]);
    printf("%d killed\n", killed + n);
    return 0;
}
