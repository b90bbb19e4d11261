/* How many operations a second some processes make together, and the CPU time of each: lock and unlock of a private
 * mutex (private) or of a robust one that processes share (robust), a transaction of LMDB (lmdb), or an increment of a
 * record of tdb (tdb). usage: rates KIND FILE PROCESSES MILLISECONDS; prints operations a second, and nanoseconds of
 * CPU time of each */
#include <fcntl.h>
#include <pthread.h>
#include <signal.h>
#include <stdatomic.h>
#include <stdio.h>
#include <stdlib.h>
#include <string.h>
#include <sys/mman.h>
#include <sys/prctl.h>
#include <sys/resource.h>
#include <sys/stat.h>
#include <sys/wait.h>
#include <time.h>
#include <unistd.h>
#ifdef HAS_LMDB
#include <lmdb.h>
#endif
#ifdef HAS_TDB
#include <tdb.h>
#endif

#define CHECK(what) ((what) ? (void)0 : (fprintf(stderr, "%s:%d: %s\n", __FILE__, __LINE__, #what), exit(1)))

static struct shared {
    _Atomic int ready, go, stop;
    _Atomic long done, cpu_us;
} * shared;
static const char *path;
static pthread_mutex_t *mutex;

/* ---- Mutexes. */

static void open_private(void)
{
    static pthread_mutex_t it = PTHREAD_MUTEX_INITIALIZER;
    mutex = &it;
}
/* Before the fork. */
static void open_robust(void)
{
    pthread_mutexattr_t a;
    int fd = open(path, O_RDWR | O_CREAT | O_TRUNC, 0600);
    CHECK(fd >= 0 && ftruncate(fd, 4096) == 0);
    mutex = mmap(NULL, 4096, PROT_READ | PROT_WRITE, MAP_SHARED, fd, 0);
    CHECK(mutex != MAP_FAILED);
    pthread_mutexattr_init(&a);
    pthread_mutexattr_setpshared(&a, PTHREAD_PROCESS_SHARED);
    pthread_mutexattr_setrobust(&a, PTHREAD_MUTEX_ROBUST);
    CHECK(pthread_mutex_init(mutex, &a) == 0);
}
static void lock_and_unlock(void) { CHECK(pthread_mutex_lock(mutex) == 0 && pthread_mutex_unlock(mutex) == 0); }
static void nothing(void) {}

/* ---- LMDB. */

#ifdef HAS_LMDB
static MDB_env *env;
static MDB_dbi db;
static void open_lmdb(void)
{
    MDB_txn *txn;
    CHECK(mdb_env_create(&env) == 0 && mdb_env_set_mapsize(env, 512 << 20) == 0);
    CHECK(mdb_env_open(env, path, MDB_NOSYNC | MDB_NOSUBDIR, 0600) == 0);
    CHECK(mdb_txn_begin(env, NULL, 0, &txn) == 0 && mdb_dbi_open(txn, NULL, 0, &db) == 0 && mdb_txn_commit(txn) == 0);
}
static void change_lmdb(void)
{
    MDB_txn *txn;
    MDB_val key = {1, "k"}, value;
    long n = 0;
    CHECK(mdb_txn_begin(env, NULL, 0, &txn) == 0);
    if (mdb_get(txn, db, &key, &value) == 0)
        memcpy(&n, value.mv_data, sizeof n);
    n++;
    value = (MDB_val){sizeof n, &n};
    CHECK(mdb_put(txn, db, &key, &value, 0) == 0 && mdb_txn_commit(txn) == 0);
}
#endif

/* ---- tdb. */

#ifdef HAS_TDB
static struct tdb_context *tdb;
static void open_tdb(void)
{
    int flags = TDB_MUTEX_LOCKING | TDB_CLEAR_IF_FIRST | TDB_INCOMPATIBLE_HASH | TDB_NOSYNC;
    tdb = tdb_open(path, 10007, flags, O_RDWR | O_CREAT, 0600);
    CHECK(tdb);
}
static void change_tdb(void)
{
    long n = 0;
    TDB_DATA key = {(unsigned char *)"k", 1}, value = {(unsigned char *)&n, sizeof n};
    CHECK(tdb_chainlock(tdb, key) == 0);
    TDB_DATA is = tdb_fetch(tdb, key);
    if (is.dptr)
        memcpy(&n, is.dptr, sizeof n);
    free(is.dptr);
    n++;
    CHECK(tdb_store(tdb, key, value, TDB_REPLACE) == 0 && tdb_chainunlock(tdb, key) == 0);
}
#endif

static const struct kind {
    const char *name;
    void (*before)(void), (*open)(void), (*once)(void); /* before the fork; in each process; an operation */
} kinds[] = {
    {"private", open_private, nothing, lock_and_unlock},
    {"robust", open_robust, nothing, lock_and_unlock},
#ifdef HAS_LMDB
    {"lmdb", nothing, open_lmdb, change_lmdb},
#endif
#ifdef HAS_TDB
    {"tdb", nothing, open_tdb, change_tdb},
#endif
};

/* ---- Processes. */

static long cpu_us(void)
{
    struct rusage r;
    getrusage(RUSAGE_SELF, &r);
    return (r.ru_utime.tv_sec + r.ru_stime.tv_sec) * 1000000 + r.ru_utime.tv_usec + r.ru_stime.tv_usec;
}
static double now_s(void)
{
    struct timespec t;
    clock_gettime(CLOCK_MONOTONIC, &t);
    return (double)t.tv_sec + (double)t.tv_nsec / 1e9;
}
static _Noreturn void work(const struct kind *k)
{
    long done = 0;
    prctl(PR_SET_PDEATHSIG, SIGKILL);
    k->open();
    k->once();
    atomic_fetch_add(&shared->ready, 1);
    while (!atomic_load(&shared->go))
        usleep(100);
    long before = cpu_us();
    for (; !atomic_load_explicit(&shared->stop, memory_order_relaxed); done++)
        k->once();
    atomic_fetch_add(&shared->cpu_us, cpu_us() - before);
    atomic_fetch_add(&shared->done, done);
    _exit(0);
}
static void measure(const struct kind *k, int processes, unsigned ms)
{
    for (int i = 0; i < processes; i++)
        if (!fork())
            work(k);
    while (atomic_load(&shared->ready) < processes)
        usleep(100);
    double since = now_s();
    atomic_store(&shared->go, 1);
    usleep(ms * 1000);
    atomic_store(&shared->stop, 1);
    for (int status; wait(&status) > 0;)
        CHECK(status == 0);
    double done = (double)atomic_load(&shared->done);
    printf("%.0f %.2f\n", done / (now_s() - since), (double)atomic_load(&shared->cpu_us) * 1000 / done);
}

int main(int argc, char **argv)
{
    CHECK(argc == 5);
    path = argv[2];
    shared = mmap(NULL, sizeof *shared, PROT_READ | PROT_WRITE, MAP_SHARED | MAP_ANONYMOUS, -1, 0);
    CHECK(shared != MAP_FAILED);
    for (size_t i = 0; i < sizeof kinds / sizeof *kinds; i++)
        if (!strcmp(kinds[i].name, argv[1])) {
            kinds[i].before();
            measure(&kinds[i], atoi(argv[3]), (unsigned)atoi(argv[4]));
            return 0;
        }
    fprintf(stderr, "rates: %s: no such kind here\n", argv[1]);
    return 2;
}
