/* What the programs of this directory share: cases, each in a process of its own, and checks. */
#ifndef CASES_H
#define CASES_H
#include "file.h"
#include <errno.h>
#include <fcntl.h>
#include <pthread.h>
#include <signal.h>
#include <stdio.h>
#include <stdlib.h>
#include <string.h>
#include <sys/mman.h>
#include <sys/prctl.h>
#include <sys/stat.h>
#include <sys/wait.h>
#include <unistd.h>

#define CHECK(what) ((what) ? (void)0 : fail(__FILE__, __LINE__, #what, errno))
#define SAME(is, ought)                                                                                                \
    do {                                                                                                               \
        long long is_ = (long long)(is), ought_ = (long long)(ought);                                                  \
        if (is_ != ought_)                                                                                             \
            differs(__FILE__, __LINE__, #is, is_, ought_);                                                             \
    } while (0)

enum { NOT_TRIED = 77 };

/* The seconds after which a case that hangs is ended. A shorter time is for mistakes that have to be seen. */
static inline unsigned limit(void) { return getenv("CASE_LIMIT") ? (unsigned)atoi(getenv("CASE_LIMIT")) : 300; }

static inline _Noreturn void fail(const char *file, int line, const char *what, int error)
{
    fprintf(stderr, "%s:%d: not so: %s (errno: %s)\n", file, line, what, strerror(error));
    _exit(1);
}
static inline _Noreturn void differs(const char *file, int line, const char *what, long long is, long long ought)
{
    fprintf(stderr, "%s:%d: %s is %lld, not %lld\n", file, line, what, is, ought);
    _exit(1);
}

/* The case says why, and ends. */
static inline _Noreturn void not_tried(const char *why)
{
    printf("not tried: %s\n", why);
    fflush(stdout);
    _exit(NOT_TRIED);
}

/* ---- Processes. */

/* Forks. The child dies with its parent, so that a test that fails leaves none. */
static inline pid_t start_child(void)
{
    pid_t parent = getpid(), child;
    fflush(NULL);
    child = fork();
    CHECK(child >= 0);
    if (child == 0) {
        prctl(PR_SET_PDEATHSIG, SIGKILL);
        if (getppid() != parent)
            _exit(1);
    }
    return child;
}
static inline void ends_well(pid_t child)
{
    int status;
    CHECK(waitpid(child, &status, 0) == child);
    SAME(status, 0);
}
static inline void kill_child(pid_t child)
{
    int status;
    CHECK(kill(child, SIGKILL) == 0 && waitpid(child, &status, 0) == child);
}

/* Memory that is shared with children, in zeros. */
static inline void *shared(size_t size)
{
    void *at = mmap(NULL, size, PROT_READ | PROT_WRITE, MAP_SHARED | MAP_ANONYMOUS, -1, 0);
    CHECK(at != MAP_FAILED);
    return at;
}
static inline void wait_for(_Atomic int *it, int value)
{
    while (*it != value)
        usleep(100);
}

/* Whether the thread sleeps, as the kernel says 20 times in succession. */
static inline void until_asleep(pid_t tid)
{
    for (int quiet = 0; quiet < 20; usleep(500)) {
        char path[64], state = 0;
        snprintf(path, sizeof path, "/proc/%d/stat", tid);
        FILE *f = fopen(path, "r");
        CHECK(f && fscanf(f, "%*d (%*[^)]) %c", &state) == 1 && state != 'Z');
        fclose(f);
        quiet = state == 'S' ? quiet + 1 : 0;
    }
}

/* ---- Files. Each case has a directory of its own, in which it runs. */

static inline void write_file(const char *path, const void *bytes, size_t size)
{
    int fd = open(path, O_WRONLY | O_CREAT | O_TRUNC, 0600);
    CHECK(fd >= 0 && write(fd, bytes, size) == (ssize_t)size && close(fd) == 0);
}
static inline size_t read_file(const char *path, void *bytes, size_t most)
{
    int fd = open(path, O_RDONLY);
    CHECK(fd >= 0);
    ssize_t n = read(fd, bytes, most);
    CHECK(n >= 0 && close(fd) == 0);
    return (size_t)n;
}
static inline off_t size_of(const char *path)
{
    struct stat st;
    CHECK(stat(path, &st) == 0);
    return st.st_size;
}
static inline int open_with(const char *path, struct pz_layout layout, pz_file **f)
{
    return pz_open(path, 0600, &layout, f);
}

/* ---- Running cases. */

struct one_case {
    const char *name;
    void (*run)(void);
};

static inline int run_case(const struct one_case *c, const char *directory)
{
    int status;
    fflush(NULL);
    pid_t child = fork();
    CHECK(child >= 0);
    if (child == 0) {
        alarm(limit());
        CHECK(mkdir(directory, 0755) == 0 && chdir(directory) == 0);
        c->run();
        fflush(NULL);
        _exit(0);
    }
    CHECK(waitpid(child, &status, 0) == child);
    if (WIFSIGNALED(status))
        printf("%s: ended by signal %d\n", c->name, WTERMSIG(status));
    if (WIFEXITED(status) && WEXITSTATUS(status) == NOT_TRIED)
        return 0;
    printf("%s %s\n", status ? "FAILED" : "ok", c->name);
    return status ? -1 : 1;
}

/* With names as arguments, runs only those. The first argument is a directory for files. */
static inline int run_cases(int argc, char **argv, const struct one_case *cases, size_t n)
{
    int passed = 0, failed = 0;
    CHECK(argc > 1 && chdir(argv[1]) == 0);
    for (size_t i = 0; i < n; i++) {
        int is_asked = argc == 2;
        for (int a = 2; a < argc; a++)
            is_asked |= !strcmp(argv[a], cases[i].name);
        int r = is_asked ? run_case(&cases[i], cases[i].name) : 0;
        passed += r > 0;
        failed += r < 0;
    }
    printf("%d passed, %d failed\n", passed, failed);
    return failed != 0;
}
#define RUN_CASES(argc, argv, cases) run_cases(argc, argv, cases, sizeof cases / sizeof cases[0])
#endif
