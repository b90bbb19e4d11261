/* LMDB, unmodified: writers move money between accounts, and a reader adds the accounts up, while they are killed; now
 * and then all are, so that the next process that opens the file initialises both mutexes again. usage: lmdb DIRECTORY
 * DEATHS PROCESSES [alone]: without mdb_stat, mdb_dump and mdb_copy at the same time */
#include "storm.h"
#include <lmdb.h>
#include <sys/stat.h>

enum { ACCOUNTS = 64, EACH = 1000 };

static const char *directory;

static void good(int r, int line)
{
    if (r == 0)
        return;
    fprintf(stderr, "lmdb.c:%d: %s\n", line, mdb_strerror(r));
    atomic_fetch_add(&board->errors, 1);
    _exit(1);
}
#define GOOD(call) good(call, __LINE__)

static MDB_env *open_it(void)
{
    MDB_env *env;
    int dead;
    GOOD(mdb_env_create(&env));
    GOOD(mdb_env_set_mapsize(env, 512 << 20));
    GOOD(mdb_env_set_maxreaders(env, 1000));
    GOOD(mdb_env_open(env, directory, MDB_NOSYNC, 0600));
    GOOD(mdb_reader_check(env, &dead));
    return env;
}

static long get(MDB_txn *txn, MDB_dbi db, unsigned account)
{
    MDB_val key = {sizeof account, &account}, value;
    long sum;
    GOOD(mdb_get(txn, db, &key, &value));
    memcpy(&sum, value.mv_data, sizeof sum);
    return sum;
}

/* Returns 0 if the file is full, as a reader that sleeps or died keeps old pages. */
static int put(MDB_txn *txn, MDB_dbi db, unsigned account, long sum)
{
    MDB_val key = {sizeof account, &account}, value = {sizeof sum, &sum};
    int r = mdb_put(txn, db, &key, &value, 0);
    if (r != MDB_MAP_FULL)
        GOOD(r);
    return r == 0;
}

static void make(int unused)
{
    MDB_env *env = open_it();
    MDB_txn *txn;
    MDB_dbi db;
    (void)unused;
    GOOD(mdb_txn_begin(env, NULL, 0, &txn));
    GOOD(mdb_dbi_open(txn, NULL, MDB_INTEGERKEY, &db));
    for (unsigned a = 0; a < ACCOUNTS; a++)
        MUST(put(txn, db, a, EACH));
    GOOD(mdb_txn_commit(txn));
    mdb_env_close(env);
}

static void add_up(MDB_txn *txn, MDB_dbi db)
{
    long sum = 0;
    for (unsigned a = 0; a < ACCOUNTS; a++)
        sum += get(txn, db, a);
    if (sum != (long)ACCOUNTS * EACH) {
        fprintf(stderr, "the accounts are %ld, not %d\n", sum, ACCOUNTS * EACH);
        atomic_fetch_add(&board->errors, 1);
    }
}

static int move(MDB_txn *txn, MDB_dbi db, unsigned *random)
{
    unsigned from = (unsigned)rand_r(random) % ACCOUNTS, to = (unsigned)rand_r(random) % ACCOUNTS;
    return put(txn, db, from, get(txn, db, from) - 7) && put(txn, db, to, get(txn, db, to) + 7);
}

static void end(MDB_env *env, MDB_txn *txn, int whole)
{
    int dead, r = MDB_MAP_FULL;
    if (whole)
        r = mdb_txn_commit(txn);
    else
        mdb_txn_abort(txn);
    if (r == MDB_MAP_FULL)
        r = mdb_reader_check(env, &dead);
    GOOD(r);
}

static void work(int slot)
{
    MDB_env *env = open_it();
    MDB_txn *txn;
    MDB_dbi db;
    unsigned random = (unsigned)getpid();
    GOOD(mdb_txn_begin(env, NULL, slot ? 0 : MDB_RDONLY, &txn));
    GOOD(mdb_dbi_open(txn, NULL, MDB_INTEGERKEY, &db));
    GOOD(mdb_txn_commit(txn));
    for (;;) {
        GOOD(mdb_txn_begin(env, NULL, slot ? 0 : MDB_RDONLY, &txn));
        if (!slot)
            add_up(txn, db);
        end(env, txn, !slot || move(txn, db, &random));
        atomic_fetch_add(&board->got_on[slot], 1);
    }
}

static void run_program(int k)
{
    char command[1024];
    static const char *const forms[] = {"mdb_stat -e %1$s >%2$s.out", "mdb_dump %1$s >%2$s.out",
                                        "rm -rf %2$s.copy && mkdir %2$s.copy && mdb_copy %1$s %2$s.copy && mdb_stat "
                                        "%2$s.copy >%2$s.out && rm -rf %2$s.copy"};
    snprintf(command, sizeof command, forms[k % 3], directory, directory);
    if (run(command))
        end_storm(__FILE__, __LINE__, command);
}

int main(int argc, char **argv)
{
    MUST(argc > 3);
    directory = argv[1];
    int deaths = atoi(argv[2]), n = atoi(argv[3]), alone = argc > 4;
    MUST(n >= 2 && n <= SLOTS && mkdir(directory, 0700) == 0);
    begin_storm();
    MUST(waitpid(start_in(0, make), NULL, 0) > 0);
    for (int i = 0; i < n; i++)
        child[i] = start_in(i, work);
    for (int k = 0; k < deaths;) {
        nap(rand() % 2000);
        look(n);
        int all = rand() % 50 == 0, one = rand() % n;
        for (int i = 0; i < n; i++)
            if (all || i == one)
                kill(child[i], SIGKILL);
        for (int i = 0; i < n; i++)
            if (all || i == one) {
                MUST(waitpid(child[i], NULL, 0) == child[i]);
                child[i] = start_in(i, work);
                k++;
            }
        if (!alone && rand() % 100 == 0)
            run_program(rand());
    }
    until_all_got_on(n);
    for (int i = 0; i < n; i++)
        kill_child(child[i]);
    return end_of_storm("lmdb", deaths);
}
