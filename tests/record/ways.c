/* Ways in which threads, processes and mutexes come and go, and calls that histories don't have. usage: ways NAME FILE
 */
#include "shared.h"
#include <dirent.h>
#include <sys/resource.h>
#include <time.h>

static char *words[4];
static char *at;
static pthread_mutex_t *m;
static pthread_cond_t *c;

static void lock(void) { CHECK(pthread_mutex_lock(m) == 0); }
static void unlock(void) { CHECK(pthread_mutex_unlock(m) == 0); }
static void repair(void)
{
    CHECK(pthread_mutex_lock(m) == EOWNERDEAD && pthread_mutex_consistent(m) == 0);
    unlock();
}
/* The owner may not have locked it yet. */
static void until_owner_died(void)
{
    int r;
    while ((r = pthread_mutex_trylock(m)) != EOWNERDEAD)
        CHECK(r == EBUSY || (r == 0 && pthread_mutex_unlock(m) == 0));
}

/* A process executes itself while it owns the mutex. */
static void by_exec(void)
{
    lock();
    words[1] = "after_exec";
    execv("/proc/self/exe", words);
    CHECK(0);
}

/* The owner's parent has ended, so no process of the program waits for the owner. */
static void orphan(void)
{
    pid_t it = a_child();
    if (!it) {
        if (!fork()) {
            lock();
            _exit(0);
        }
        _exit(0);
    }
    until_dead(it);
    until_owner_died();
}

static void *owns(void *unused)
{
    lock();
    return unused;
}

static void joined(void)
{
    pthread_t t;
    CHECK(pthread_create(&t, NULL, owns, NULL) == 0 && pthread_join(t, NULL) == 0);
    repair();
}

static void detached(void)
{
    pthread_t t;
    CHECK(pthread_create(&t, NULL, owns, NULL) == 0 && pthread_detach(t) == 0);
    until_owner_died();
}

/* _Fork(3) runs no fork handlers. */
static void bare_fork(void)
{
    lock();
    unlock();
    pid_t it = _Fork();
    if (!it) {
        lock();
        _exit(0);
    }
    until_dead(it);
    repair();
}

static void recursive(void)
{
    make(m, PTHREAD_MUTEX_RECURSIVE);
    for (int i = 0; i < 3; i++)
        lock();
    CHECK(pthread_mutex_trylock(m) == 0);
    for (int i = 0; i < 4; i++)
        unlock();
    CHECK(pthread_mutex_unlock(m) == EPERM);
}

static void timed_waits(void)
{
    struct timespec past = {0};
    lock();
    CHECK(pthread_cond_timedwait(c, m, &past) == ETIMEDOUT);
    CHECK(pthread_cond_signal(c) == 0);
    unlock();
    CHECK(pthread_cond_broadcast(c) == 0);
}

static void private(void)
{
    static pthread_mutex_t plain = PTHREAD_MUTEX_INITIALIZER;
    pthread_mutex_t robust;
    make(&robust, PTHREAD_MUTEX_NORMAL);
    for (pthread_mutex_t *k = &plain; k; k = k == &plain ? &robust : NULL)
        CHECK(pthread_mutex_lock(k) == 0 && pthread_mutex_unlock(k) == 0);
}

static void *waits(void *unused)
{
    lock();
    pthread_cleanup_push((void (*)(void *))unlock, NULL);
    pthread_cond_wait(c, m);
    pthread_cleanup_pop(0);
    return unused;
}

/* The handler's calls are recorded, but the wait has no reply. */
static void cancelled(void)
{
    pthread_t t;
    CHECK(pthread_create(&t, NULL, waits, NULL) == 0 && pthread_cancel(t) == 0 && pthread_join(t, NULL) == 0);
    m++;
    make(m, PTHREAD_MUTEX_NORMAL);
    lock();
}

/* A history couldn't explain that another thread takes the mutex during the wait. */
static void private_cond(void)
{
    static pthread_cond_t plain = PTHREAD_COND_INITIALIZER;
    struct timespec past = {0};
    lock();
    CHECK(pthread_cond_timedwait(&plain, m, &past) == ETIMEDOUT);
    m++;
    make(m, PTHREAD_MUTEX_NORMAL);
    lock();
}

/* A thread can't find out in what object its first mutex is. Its calls would be missing, so the recording ends. */
static void cannot_look(void)
{
    struct rlimit before;
    pthread_t t;
    lock();
    unlock();
    CHECK(!getrlimit(RLIMIT_NOFILE, &before) && !setrlimit(RLIMIT_NOFILE, &(struct rlimit){0, before.rlim_max}));
    CHECK(pthread_create(&t, NULL, owns, NULL) == 0 && pthread_join(t, NULL) == 0);
    CHECK(setrlimit(RLIMIT_NOFILE, &before) == 0);
    repair();
}

/* Whether the process has more threads than its first, and all of these sleep. */
static int its_others_sleep(pid_t process)
{
    char path[64];
    int others = 0, asleep = 0;
    snprintf(path, sizeof path, "/proc/%d/task", (int)process);
    DIR *tasks = opendir(path);
    CHECK(tasks);
    for (struct dirent *e = readdir(tasks); e; e = readdir(tasks)) {
        pid_t thread = (pid_t)atoi(e->d_name);
        others += thread && thread != process;
        asleep += thread && thread != process && state_of(thread) == 'S';
    }
    closedir(tasks);
    return others && asleep == others;
}
static void until_watcher_sleeps(void)
{
    while (!its_others_sleep(getppid()))
        usleep(100);
}

/* Starts some processes that pz-record watches. */
static void begin_watched(pid_t *it, int n)
{
    _Atomic int *begun = (void *)(at + 2048);
    for (int i = 0; i < n; i++) {
        it[i] = a_child();
        if (!it[i]) {
            make_cond((pthread_cond_t *)(void *)(at + 3072) + i);
            atomic_fetch_add(begun, 1);
            for (;;)
                pause();
        }
    }
    while (atomic_load(begun) < n)
        usleep(100);
    until_watcher_sleeps();
}

/* pz-record has no descriptors left. It can't watch the owner, nor find out whether it lives, nor poll the descriptors
 * that it has. */
static void cannot_watch(void)
{
    enum { WATCHED = 8 };
    _Atomic int *has = (void *)(at + 2048 + sizeof *has);
    pid_t watched[WATCHED];
    begin_watched(watched, WATCHED);
    CHECK(prlimit(getppid(), RLIMIT_NOFILE, &(struct rlimit){0}, NULL) == 0);
    pid_t it = a_child();
    if (!it) {
        lock();
        atomic_store(has, 1);
        for (;;)
            pause();
    }
    while (!atomic_load(has))
        usleep(100);
    until_watcher_sleeps();
    CHECK(pthread_mutex_trylock(m) == EBUSY);
    until_killed(it);
    repair();
    for (int i = 0; i < WATCHED; i++)
        until_killed(watched[i]);
    /* it has learned of their ends, and waits again before ours */
    while (state_of(getppid()) != 'S')
        usleep(100);
}

/* Two files at one address, one after the other. */
static void another_file(void)
{
    char path[4096];
    snprintf(path, sizeof path, "%s.other", words[2]);
    char *other = mapped(path, 4096, NULL);
    make((void *)(other + ((char *)m - at)), PTHREAD_MUTEX_NORMAL);
    lock();
    unlock();
    CHECK(munmap(at, 4096) == 0);
    CHECK(mapped(path, 4096, at) == at);
    lock();
}

static void made_anew(void)
{
    lock();
    make(m, PTHREAD_MUTEX_NORMAL);
    lock();
}

/* Before the recording: what `late` finds. */
static void early(void)
{
    owner_dies(m);
    make(m + 1, PTHREAD_MUTEX_NORMAL);
    CHECK(pthread_mutex_lock(m + 1) == 0 && pthread_mutex_unlock(m + 1) == 0);
}

static void late(void)
{
    CHECK(pthread_mutex_trylock(m + 1) == 0 && pthread_mutex_unlock(m + 1) == 0);
    repair();
    CHECK(pthread_mutex_unlock(m) == EPERM);
}

/* A copy of an initialised mutex, which is robust by its own bytes, and has no init that was recorded. */
static void copied(void)
{
    memcpy(m + 1, m, sizeof *m);
    m++;
    lock();
    unlock();
}

static void after_exec(void) { repair(); }

static const struct {
    const char *name;
    void (*go)(void);
    int is_made; /* before */
} ways[] = {
    {"by_exec", by_exec, 0},
    {"after_exec", after_exec, 1},
    {"orphan", orphan, 0},
    {"joined", joined, 0},
    {"detached", detached, 0},
    {"bare_fork", bare_fork, 0},
    {"recursive", recursive, 0},
    {"timed_waits", timed_waits, 0},
    {"private", private, 0},
    {"cancelled", cancelled, 0},
    {"private_cond", private_cond, 0},
    {"cannot_look", cannot_look, 0},
    {"cannot_watch", cannot_watch, 0},
    {"another_file", another_file, 0},
    {"made_anew", made_anew, 0},
    {"early", early, 0},
    {"late", late, 1},
    {"copied", copied, 0},
};

int main(int argc, char **argv)
{
    CHECK(argc == 3);
    memcpy(words, argv, 3 * sizeof *argv);
    at = mapped(argv[2], 4096, NULL);
    c = (void *)at;
    m = (void *)(at + 256);
    for (size_t i = 0; i < sizeof ways / sizeof *ways; i++)
        if (!strcmp(ways[i].name, argv[1])) {
            if (!ways[i].is_made) {
                make(m, PTHREAD_MUTEX_NORMAL);
                make_cond(c);
            }
            ways[i].go();
            return 0;
        }
    fail(__FILE__, __LINE__, argv[1]);
}
