/* Edges: mutexes that are initialised again, destroyed, copied, overwritten, of another PID namespace or mode;
 * thousands of them; children of all kinds. The library is loaded in front. usage: edges */
#include "filter.h"
#include "robust.h"
#include <dlfcn.h>
#include <fcntl.h>
#include <sched.h>

enum { MANY = 2100 };
static pthread_mutex_t *m;
static char *directory, *program;

static void make(int i) { init_robust(&m[i], PTHREAD_MUTEX_NORMAL); }

static void *lock_it(void *it)
{
    pthread_mutex_lock(it);
    return NULL;
}
static void *pass_it(void *it)
{
    pass(it);
    return NULL;
}
static void in_thread(void *(*call)(void *), pthread_mutex_t *it)
{
    pthread_t t;
    pthread_create(&t, NULL, call, it);
    pthread_join(t, NULL);
}

static void initialised_again(void)
{
    for (int i = 0; i < 3; i++) {
        make(i);
        pthread_mutex_lock(&m[i]);
    }
    make(1);
    EQUAL(entries(), 2);
    EQUAL(pthread_mutex_unlock(&m[0]) + pthread_mutex_unlock(&m[2]), 0);
    EQUAL(pass(&m[1]), 0);
    make(0);
    pthread_mutex_lock(&m[0]);
    pid_t p = start_child();
    if (!p)
        _exit(pass(&m[0]));
    until_it_sleeps(p);
    make(0);
    EQUAL(status_of(p), 0);
    in_thread(lock_it, &m[0]);
    make(0);
    EQUAL(pass(&m[0]), 0);
}

/* A recursive mutex that was locked three times, and is initialised again, has to be unlocked once. */
static void initialised_again_and_counted(void)
{
    init_robust(&m[0], PTHREAD_MUTEX_RECURSIVE);
    for (int i = 0; i < 3; i++)
        EQUAL(pthread_mutex_lock(&m[0]), 0);
    init_robust(&m[0], PTHREAD_MUTEX_RECURSIVE);
    EQUAL(pthread_mutex_lock(&m[0]), 0);
    EQUAL(pthread_mutex_unlock(&m[0]), 0);
    EQUAL(pthread_mutex_unlock(&m[0]), EPERM);
}

/* Threads that sleep there do so by its mode, so that stays if the mutex is owned. */
static void initialised_again_in_its_mode(void)
{
    make(0);
    int plain = is_plain(&m[0]);
    pthread_mutex_lock(&m[0]);
    setenv("PAZDRIG_PLAIN", "1", 1);
    make(0);
    EQUAL(is_plain(&m[0]), plain);
    make(0);
    CHECK(is_plain(&m[0]));
    pthread_mutex_lock(&m[0]);
    unsetenv("PAZDRIG_PLAIN");
    make(0);
    CHECK(is_plain(&m[0]));
    EQUAL(pass(&m[0]), 0);
}

/* A sleeper learns that its mutex has become one of the C library's. */
static void initialised_as_another(void)
{
    make(0);
    pthread_mutex_lock(&m[0]);
    pid_t p = start_child();
    if (!p)
        _exit(pthread_mutex_lock(&m[0]) == EINVAL && entries() == 0 ? 0 : 1);
    until_it_sleeps(p);
    EQUAL(pthread_mutex_init(&m[0], NULL), 0);
    EQUAL(status_of(p), 0);
    EQUAL(pthread_mutex_lock(&m[0]) + pthread_mutex_unlock(&m[0]), 0);
}

/* One that sleeps on a mutex that becomes unusable learns of it. */
static void unusable(void)
{
    pid_t p[2];
    make(0);
    in_thread(lock_it, &m[0]);
    EQUAL(pthread_mutex_lock(&m[0]), EOWNERDEAD);
    for (int i = 0; i < 2; i++) {
        if (!(p[i] = start_child()))
            _exit(pthread_mutex_lock(&m[0]) == ENOTRECOVERABLE && entries() == 0 ? 0 : 1);
        until_it_sleeps(p[i]);
    }
    EQUAL(pthread_mutex_unlock(&m[0]), 0);
    EQUAL(status_of(p[0]) + status_of(p[1]), 0);
}

/* Mutexes that have become unusable, or were initialised again by their owner, don't count among those that a thread
 * owns. */
static void forgotten(void)
{
    for (int i = 0; i < 2000; i++) {
        make(0);
        pthread_mutex_lock(&m[0]);
    }
    for (int i = 0; i < 2000; i++) {
        make(0);
        in_thread(lock_it, &m[0]);
        EQUAL(pthread_mutex_lock(&m[0]), EOWNERDEAD);
        EQUAL(pthread_mutex_unlock(&m[0]), 0);
    }
    make(0);
    EQUAL(pass(&m[0]), 0);
}

/* A second lock by the owner of a normal mutex waits until its deadline, which is a time and no interval. */
static void locked_again(void)
{
    struct timespec until;
    make(0);
    pthread_mutex_lock(&m[0]);
    clock_gettime(CLOCK_REALTIME, &until);
    until.tv_sec += 1;
    EQUAL(pthread_mutex_timedlock(&m[0], &until), ETIMEDOUT);
    CHECK(time(NULL) >= until.tv_sec);
    EQUAL(pthread_mutex_unlock(&m[0]), 0);
}

static void locked_often(void)
{
    int refused = 0;
    init_robust(&m[0], PTHREAD_MUTEX_RECURSIVE);
    for (int i = 0; i < 65536; i++)
        refused += pthread_mutex_lock(&m[0]) != 0;
    EQUAL(refused, 0);
    EQUAL(pthread_mutex_lock(&m[0]), EAGAIN);
    EQUAL(pthread_mutex_trylock(&m[0]), EAGAIN);
    for (int i = 0; i < 65536; i++)
        refused += pthread_mutex_unlock(&m[0]) != 0;
    EQUAL(refused, 0);
    EQUAL(pthread_mutex_unlock(&m[0]), EPERM);
}

static void destroyed(void)
{
    make(0);
    pthread_mutex_lock(&m[0]);
    EQUAL(pthread_mutex_destroy(&m[0]), EBUSY);
    pthread_mutex_unlock(&m[0]);
    EQUAL(pthread_mutex_destroy(&m[0]), 0);
    EQUAL(pthread_mutex_lock(&m[0]), EINVAL);
    EQUAL(pthread_mutex_unlock(&m[0]), EINVAL);
}

/* A copy isn't the mutex; and links that others have written over are followed by no store. */
static void copied(void)
{
    static volatile uint64_t private[3] = {1, 2, 3};
    make(0);
    memcpy(&m[1], &m[0], sizeof *m);
    EQUAL(pass(&m[1]), 0);
    make(2);
    pid_t p = start_child();
    if (!p) {
        pthread_mutex_lock(&m[2]);
        memcpy(&m[3], &m[2], sizeof *m);
        _exit(pthread_mutex_unlock(&m[3]));
    }
    EQUAL(status_of(p), EPERM);
    EQUAL(pass(&m[2]), EOWNERDEAD);
    make(4);
    pthread_mutex_lock(&m[4]);
    uint64_t *links = (uint64_t *)&m[4] + 3, were[2] = {links[0], links[1]};
    links[0] = (uint64_t) & private[1];
    EQUAL(pthread_mutex_unlock(&m[4]), EPERM);
    EQUAL(private[1], 2);
    links[0] = were[0];
    links[1] = (uint64_t) & private[1];
    EQUAL(pthread_mutex_unlock(&m[4]), EPERM);
    EQUAL(private[0], 1);
    links[1] = were[1];
    EQUAL(pthread_mutex_unlock(&m[4]), 0);
}

static void two_thousand(void)
{
    pid_t p = start_child();
    if (!p) {
        int refused = 0;
        for (int i = 0; i <= 2000; i++)
            make(i);
        for (int i = 0; i < 2000; i++)
            refused += pthread_mutex_lock(&m[i]) != 0;
        _exit(refused                                                                               ? 1
              : pthread_mutex_lock(&m[2000]) == EAGAIN && pthread_mutex_trylock(&m[2000]) == EAGAIN ? 0
                                                                                                    : 2);
    }
    EQUAL(status_of(p), 0);
    long told = 0;
    for (int i = 0; i < 2000; i++)
        told += pass(&m[i]) == EOWNERDEAD;
    EQUAL(told, 2000);
}

/* ---- Children, whichever thread of theirs calls first, learn their own ids. */
enum how { FORK, UNDERSCORE_FORK, CLONE, GRANDCHILD, OTHER_THREAD_FIRST, HOWS };

static void be_owner(enum how how)
{
    if (how == GRANDCHILD) {
        pid_t p = fork();
        if (p)
            _exit(status_of(p) == -SIGKILL ? 0 : 1);
    }
    if (how == OTHER_THREAD_FIRST)
        in_thread(pass_it, &m[6]);
    if (pthread_mutex_lock(&m[0]) || entries() != 1)
        _exit(100);
    kill(getpid(), SIGKILL);
}

static void children(void)
{
    for (enum how how = 0; how < HOWS; how++) {
        make(0);
        make(5);
        make(6);
        pass(&m[0]);
        pthread_mutex_lock(&m[5]); /* the parent owns another one at the same time */
        pid_t p = how == UNDERSCORE_FORK || how == OTHER_THREAD_FIRST ? _Fork()
                  : how == CLONE                                      ? (pid_t)syscall(SYS_clone, SIGCHLD, 0, 0, 0, 0)
                                                                      : fork();
        if (!p)
            be_owner(how);
        EQUAL(status_of(p), how == GRANDCHILD ? 0 : -SIGKILL);
        EQUAL(pthread_mutex_unlock(&m[5]), 0);
        EQUAL(pass(&m[0]), EOWNERDEAD);
    }
}

static void other_ends(void)
{
    make(0);
    pid_t p = start_child();
    if (!p) {
        pthread_mutex_lock(&m[0]);
        execl("/bin/true", "true", (char *)NULL);
        _exit(9);
    }
    EQUAL(status_of(p), 0);
    EQUAL(pass(&m[0]), EOWNERDEAD);
    in_thread(lock_it, &m[0]);
    EQUAL(pthread_mutex_lock(&m[0]), EOWNERDEAD);
    int (*old_name)(pthread_mutex_t *) = (int (*)(pthread_mutex_t *))dlsym(RTLD_DEFAULT, "pthread_mutex_consistent_np");
    CHECK(old_name && old_name(&m[0]) == 0);
    EQUAL(pthread_mutex_unlock(&m[0]), 0);
    EQUAL(pass(&m[0]), 0);
}

/* ---- What a process can't serve it refuses, and reports once. */

/* Runs a call in a child whose standard error is a pipe, and puts what it wrote there into `text`. */
static int reported(void (*call)(void), char *text, size_t size)
{
    int fd[2];
    if (pipe(fd))
        return 999;
    pid_t p = start_child();
    if (!p) {
        dup2(fd[1], 2);
        call();
        _exit(99);
    }
    close(fd[1]);
    ssize_t n = 0, more;
    while ((more = read(fd[0], text + n, size - 1 - (size_t)n)) > 0)
        n += more;
    text[n] = 0;
    close(fd[0]);
    return status_of(p);
}
static int lines(const char *text)
{
    int n = 0;
    for (; *text; text++)
        n += *text == '\n';
    return n;
}

static void in_other_namespace(void)
{
    if (unshare(CLONE_NEWUSER | CLONE_NEWPID) && unshare(CLONE_NEWPID))
        _exit(77);
    pid_t p = fork();
    if (!p)
        _exit(pthread_mutex_lock(&m[0]) == EINVAL && pthread_mutex_lock(&m[0]) == EINVAL ? 0 : 1);
    _exit(status_of(p));
}

static void in_filter(void)
{
    char path[4200], at[32];
    int fd = open("/dev/shm", O_TMPFILE | O_RDWR, 0600);
    if (fd < 0 || ftruncate(fd, 4096))
        _exit(98);
    pthread_mutex_t *it = mmap(NULL, 4096, PROT_READ | PROT_WRITE, MAP_SHARED, fd, 0);
    init_robust(it, PTHREAD_MUTEX_NORMAL);
    snprintf(path, sizeof path, "%s/filter", directory);
    snprintf(at, sizeof at, "%d", fd);
    execl(path, "filter", program, at, (char *)NULL);
    _exit(97);
}
static void be_filtered(int fd)
{
    pthread_mutex_t own, *it = mmap(NULL, 4096, PROT_READ | PROT_WRITE, MAP_SHARED, fd, 0);
    int r = pthread_mutex_lock(it), again = pthread_mutex_trylock(it);
    init_robust(&own, PTHREAD_MUTEX_NORMAL);
    _exit(r == ENOTSUP && again == ENOTSUP && is_plain(&own) && pass(&own) == 0 ? 0 : 1);
}

/* The filter comes after the process has used robust mutexes, and the mutex is owned by its parent. */
static void in_late_filter(void)
{
    pass(&m[1]);
    if (refuse_futex_waitv())
        _exit(77);
    _exit(pthread_mutex_lock(&m[0]) == ENOTSUP && pthread_mutex_lock(&m[1]) == ENOTSUP ? 0 : 1);
}

static void refused(void)
{
    char text[4096];
    make(0);
    unsetenv("PAZDRIG_QUIET");
    int r = reported(in_other_namespace, text, sizeof text);
    if (r == 77)
        puts("another PID namespace: not tried");
    else {
        EQUAL(r, 0);
        EQUAL(lines(text), 1);
        CHECK(strstr(text, "PID namespace") != NULL);
    }
    if (is_plain(&m[0])) /* already under the filter */
        return;
    r = reported(in_filter, text, sizeof text);
    if (r == 77)
        puts("a process that can't sleep on two words: not tried");
    else {
        EQUAL(r, 0);
        EQUAL(lines(text), 1);
        CHECK(strstr(text, "PAZDRIG_PLAIN") != NULL);
    }
    make(1);
    pthread_mutex_lock(&m[0]);
    r = reported(in_late_filter, text, sizeof text);
    pthread_mutex_unlock(&m[0]);
    if (r != 77) {
        EQUAL(r, 0);
        EQUAL(lines(text), 1);
    }
    setenv("PAZDRIG_QUIET", "1", 1);
    EQUAL(reported(in_filter, text, sizeof text), 0);
    EQUAL(text[0], 0);
    setenv("PAZDRIG_PLAIN", "1", 1);
    make(1);
    unsetenv("PAZDRIG_PLAIN");
    CHECK(is_plain(&m[1]));
    EQUAL(pass(&m[1]), 0);
}

/* A process without the library can do nothing with such a mutex. */
static void without_library(void)
{
    char at[32];
    int fd = open("/dev/shm", O_TMPFILE | O_RDWR, 0600);
    if (!CHECK(fd >= 0 && ftruncate(fd, 4096) == 0))
        return;
    init_robust(mmap(NULL, 4096, PROT_READ | PROT_WRITE, MAP_SHARED, fd, 0), PTHREAD_MUTEX_RECURSIVE);
    snprintf(at, sizeof at, "%d", fd);
    pid_t p = start_child();
    if (!p) {
        unsetenv("LD_PRELOAD");
        execl(program, "edges", at, "without", (char *)NULL);
        _exit(97);
    }
    EQUAL(status_of(p), 0);
}
static void be_without(int fd)
{
    struct timespec past = {1, 0};
    pthread_mutex_t *it = mmap(NULL, 4096, PROT_READ | PROT_WRITE, MAP_SHARED, fd, 0);
    int refused = pthread_mutex_lock(it) == EINVAL && pthread_mutex_trylock(it) == EINVAL;
    refused = refused && pthread_mutex_timedlock(it, &past) == EINVAL && pthread_mutex_unlock(it) == EINVAL;
    _exit(refused && pthread_mutex_consistent(it) == EINVAL && pthread_mutex_destroy(it) == EBUSY ? 0 : 1);
}

static void errno_stays(void)
{
    struct timespec past = {1, 0}, before_1970 = {-1, 0};
    make(0);
    pthread_mutex_lock(&m[0]);
    pid_t p = start_child();
    if (!p) {
        errno = 12345;
        int a = pthread_mutex_timedlock(&m[0], &past), none = entries() == 0;
        int b = pthread_mutex_trylock(&m[0]), c = (none &= entries() == 0, pthread_mutex_timedlock(&m[0], &before_1970));
        _exit(none && a == ETIMEDOUT && b == EBUSY && c == ETIMEDOUT && errno == 12345 ? 0 : 1);
    }
    EQUAL(status_of(p), 0);
    pthread_mutex_unlock(&m[0]);
}

int main(int argc, char **argv)
{
    begin_checks(900);
    if (argc > 2)
        be_without(atoi(argv[1]));
    if (argc > 1)
        be_filtered(atoi(argv[1]));
    m = shared_memory(MANY * sizeof *m);
    program = argv[0];
    directory = strdup(argv[0]);
    *strrchr(directory, '/') = 0;
    initialised_again();
    initialised_again_and_counted();
    initialised_again_in_its_mode();
    initialised_as_another();
    unusable();
    forgotten();
    locked_again();
    locked_often();
    destroyed();
    copied();
    two_thousand();
    children();
    other_ends();
    refused();
    without_library();
    errno_stays();
    return end_checks();
}
