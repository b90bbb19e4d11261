/* What the test programs share: checks that count, children, and how to see that one sleeps. A test never depends on
 * time to pass; a test that hangs is ended by begin_checks. */
#ifndef CHECK_H
#define CHECK_H
#include <errno.h>
#include <signal.h>
#include <stdarg.h>
#include <stdint.h>
#include <stdio.h>
#include <stdlib.h>
#include <string.h>
#include <sys/mman.h>
#include <sys/prctl.h>
#include <sys/syscall.h>
#include <sys/wait.h>
#include <time.h>
#include <unistd.h>

#ifndef SYS_futex_waitv
#define SYS_futex_waitv 449
#endif
#if !__GLIBC_PREREQ(2, 34)
#define _Fork fork
#endif

#define UNUSED __attribute__((unused))

static int checks_passed, checks_failed;

/* Counts a check, and prints it if it failed. Returns whether it passed. */
#define CHECK(is_true)       check_that(!!(is_true), __FILE__, __LINE__, "%s", #is_true)
#define EQUAL(found, wanted) check_equal((long)(found), (long)(wanted), __FILE__, __LINE__, #found)

UNUSED static int check_that(int is_true, const char *file, int line, const char *format, ...)
{
    va_list args;
    if (is_true) {
        checks_passed++;
        return 1;
    }
    checks_failed++;
    va_start(args, format);
    fprintf(stderr, "%s:%d: ", file, line);
    vfprintf(stderr, format, args);
    fputc('\n', stderr);
    va_end(args);
    return 0;
}
UNUSED static int check_equal(long found, long wanted, const char *file, int line, const char *what)
{
    return check_that(found == wanted, file, line, "%s is %ld, not %ld", what, found, wanted);
}

UNUSED static void no_end(int signal)
{
    static const char text[] = "no end in time: 1 failed\n";
    (void)signal;
    (void)!write(STDERR_FILENO, text, sizeof text - 1);
    _exit(1);
}
/* How long to wait for what has to happen, in seconds: far longer than it takes on a slow machine. PZ_PATIENCE is for
 * libraries with a mistake, in which it doesn't happen. */
UNUSED static unsigned patience(void)
{
    const char *given = getenv("PZ_PATIENCE");
    return given ? (unsigned)atoi(given) : 60;
}
/* Ends the program if it takes longer than `seconds`. */
UNUSED static void begin_checks(unsigned seconds)
{
    if (getenv("PZ_PATIENCE"))
        seconds = 2 * patience();
    signal(SIGALRM, no_end);
    setvbuf(stdout, NULL, _IOLBF, 0);
    alarm(seconds);
}
UNUSED static int end_checks(void)
{
    printf("%d passed, %d failed\n", checks_passed, checks_failed);
    return checks_failed != 0;
}

/* Memory that forked children share, all zeros. */
UNUSED static void *shared_memory(size_t bytes)
{
    void *p = mmap(NULL, bytes, PROT_READ | PROT_WRITE, MAP_SHARED | MAP_ANONYMOUS, -1, 0);
    if (p == MAP_FAILED) {
        perror("mmap");
        exit(1);
    }
    return p;
}

/* Forks a child that is killed if the test ends. Returns 0 in the child. */
UNUSED static pid_t start_child(void)
{
    pid_t parent = getpid(), p = fork();
    if (p < 0) {
        perror("fork");
        exit(1);
    }
    if (p == 0) {
        prctl(PR_SET_PDEATHSIG, SIGKILL);
        checks_passed = checks_failed = 0;
        if (getppid() != parent)
            _exit(99);
    }
    return p;
}
/* Waits for a child's end. Returns its exit status, or the signal that killed it, negated. */
UNUSED static int status_of(pid_t p)
{
    int status;
    while (waitpid(p, &status, __WALL) != p)
        if (errno != EINTR)
            return 999;
    return WIFSIGNALED(status) ? -WTERMSIG(status) : WEXITSTATUS(status);
}
UNUSED static int kill_child(pid_t p)
{
    kill(p, SIGKILL);
    return status_of(p);
}

UNUSED static void nap(long us) { usleep((useconds_t)us); }

/* What /proc says of a thread: R, S, T, t, Z .. */
UNUSED static char state_of(pid_t tid)
{
    char path[64], state = '?';
    snprintf(path, sizeof path, "/proc/%d/stat", (int)tid);
    FILE *f = fopen(path, "r");
    if (!f)
        return state;
    if (fscanf(f, "%*d (%*[^)]) %c", &state) != 1)
        state = '?';
    fclose(f);
    return state;
}
UNUSED static int is_in_futex(pid_t tid)
{
    char path[64], line[128] = "";
    snprintf(path, sizeof path, "/proc/%d/syscall", (int)tid);
    FILE *f = fopen(path, "r");
    if (!f)
        return 1; /* this kernel doesn't say */
    if (!fgets(line, sizeof line, f))
        line[0] = 0;
    fclose(f);
    int call = atoi(line); /* a sleep with a deadline goes on as restart_syscall(2) after a stop */
    return call == SYS_futex || call == SYS_futex_waitv || call == SYS_restart_syscall || line[0] == 0;
}
/* Waits until a thread sleeps in futex(2). A thread that ends is as good. */
UNUSED static void until_asleep(pid_t tid)
{
    for (int times = 0; times < 3 && state_of(tid) != 'Z' && state_of(tid) != '?';) {
        times = state_of(tid) == 'S' && is_in_futex(tid) ? times + 1 : 0;
        nap(100);
    }
}
UNUSED static void until_stopped(pid_t tid)
{
    while (state_of(tid) != 'T' && state_of(tid) != 't')
        nap(100);
}

UNUSED static struct timespec after_us(clockid_t clock, long us)
{
    struct timespec t;
    clock_gettime(clock, &t);
    t.tv_sec += us / 1000000;
    t.tv_nsec += us % 1000000 * 1000;
    if (t.tv_nsec < 0)
        t.tv_nsec += 1000000000, t.tv_sec--;
    if (t.tv_nsec >= 1000000000)
        t.tv_nsec -= 1000000000, t.tv_sec++;
    return t;
}

/* Waits until these children have ended, each with status 0; a PID of 0 is no child, and becomes that of one that has
 * ended. Returns 0 if one of them doesn't end. */
UNUSED static int all_end(pid_t *p, int n)
{
    struct timespec end = after_us(CLOCK_MONOTONIC, patience() * 1000000l), now;
    for (int left = 1, status; left;) {
        left = 0;
        for (int i = 0; i < n; i++) {
            if (p[i] && waitpid(p[i], &status, WNOHANG) == p[i])
                p[i] = 0, EQUAL(status, 0);
            left += p[i] != 0;
        }
        clock_gettime(CLOCK_MONOTONIC, &now);
        if (left && now.tv_sec > end.tv_sec)
            return 0;
        nap(left ? 50 : 0);
    }
    return 1;
}

/* Random numbers, of each thread its own. */
static _Thread_local uint64_t random_state UNUSED;
UNUSED static void seed_random(uint64_t seed)
{
    struct timespec t;
    clock_gettime(CLOCK_MONOTONIC, &t);
    random_state = (seed * 0x9e3779b97f4a7c15ull) ^ (uint64_t)t.tv_nsec << 20 ^ (uint64_t)syscall(SYS_gettid) << 40;
    random_state |= 1;
}
UNUSED static unsigned a_random(unsigned below)
{
    random_state ^= random_state << 13;
    random_state ^= random_state >> 7;
    random_state ^= random_state << 17;
    return (unsigned)(random_state >> 11) % below;
}
/* Makes a call in `n` of a thousand times. */
UNUSED static int chance(unsigned n) { return a_random(1000) < n; }
UNUSED static void spin(unsigned loops)
{
    for (; loops > 0; loops--)
        __asm__ volatile("" ::: "memory");
}
#endif
