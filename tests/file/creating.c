/* Files are created by one process at a time, which may be killed, interrupted or stopped at any system call, fork, or
 * find no space. */
#include "hooks.h"
#include <sys/mount.h>
#include <sys/resource.h>
#include <sched.h>

/* More than two of the parts that are allocated at a time. */
static const struct pz_layout LAYOUT = {.mutexes = 2, .conds = 1, .data = (2 << 20) + 8};

static void works(pz_file *f)
{
    SAME(pz_mutex_lock(pz_mutex_at(f, 1)), 0);
    const char *data = pz_data(f);
    CHECK(data[0] == 0 && data[LAYOUT.data - 1] == 0);
    SAME(pz_mutex_unlock(pz_mutex_at(f, 1)), 0);
}
static void can_be_opened(const char *path)
{
    pz_file *f;
    SAME(open_with(path, LAYOUT, &f), 0);
    works(f);
    pz_close(f);
}

/* ---- Kills. */

static int last_call;
static void die(int number, const char *name)
{
    (void)name;
    if (number == last_call)
        raise(SIGKILL);
}

/* A process is killed before its nth call, for each n, as it creates the file. Another one is refused, or opens it. */
static void killed_creators(void)
{
    int status = SIGKILL;
    for (last_call = 1; WIFSIGNALED(status); last_call++) {
        pid_t child = start_child();
        if (!child) {
            pz_file *f;
            on_call = die;
            _exit(open_with("f", LAYOUT, &f));
        }
        CHECK(waitpid(child, &status, 0) == child);
        can_be_opened("f");
        CHECK(unlink("f") == 0);
    }
    SAME(status, 0);
    CHECK(last_call > 12); /* it was killed at its open, its locks, its allocations and its end */
}

/* Processes are killed at random as they create one file, again and again. */
static void killed_at_random(void)
{
    for (int round = 0; round < 60; round++) {
        pid_t children[4];
        for (int i = 0; i < 4; i++)
            if (!(children[i] = start_child())) {
                pz_file *f;
                _exit(open_with("f", LAYOUT, &f));
            }
        usleep((unsigned)(rand() % 2000));
        for (int i = 0; i < 4; i++)
            if (rand() % 2)
                kill(children[i], SIGKILL);
        can_be_opened("f");
        for (int i = 0; i < 4; i++)
            CHECK(waitpid(children[i], NULL, 0) == children[i]);
        CHECK(unlink("f") == 0);
    }
}

/* ---- Several creators. */

enum { CREATORS = 8, PAIRS = 500 };
static void all_at_once(void)
{
    for (int round = 0; round < 10; round++) {
        _Atomic int *begin = shared(sizeof *begin);
        pid_t children[CREATORS];
        pz_file *f;
        for (int i = 0; i < CREATORS; i++)
            if (!(children[i] = start_child())) {
                while (!*begin)
                    continue;
                SAME(open_with("f", LAYOUT, &f), 0);
                for (int n = 0; n < PAIRS; n++) {
                    SAME(pz_mutex_lock(pz_mutex_at(f, 0)), 0);
                    ++*(volatile long *)pz_data(f);
                    SAME(pz_mutex_unlock(pz_mutex_at(f, 0)), 0);
                }
                _exit(0);
            }
        *begin = 1;
        for (int i = 0; i < CREATORS; i++)
            ends_well(children[i]);
        SAME(open_with("f", LAYOUT, &f), 0);
        SAME(*(long *)pz_data(f), CREATORS * PAIRS);
        pz_close(f);
        CHECK(unlink("f") == 0);
    }
}

/* A creator is stopped amid its allocations: all others wait for it, also those that are to be refused. */
static _Atomic int *is_stopped;
static void stop(int number, const char *name)
{
    (void)number;
    if (strcmp(name, "posix_fallocate") || *is_stopped)
        return;
    *is_stopped = 1;
    while (*is_stopped != 2)
        usleep(100);
}
static void others_wait(void)
{
    static const int of[] = {0, EEXIST};
    pid_t others[2];
    is_stopped = shared(sizeof *is_stopped);
    pid_t creator = start_child();
    if (!creator) {
        pz_file *f;
        on_call = stop;
        _exit(open_with("f", LAYOUT, &f));
    }
    wait_for(is_stopped, 1);
    for (int i = 0; i < 2; i++)
        if (!(others[i] = start_child())) {
            struct pz_layout l = LAYOUT;
            pz_file *f;
            l.data += (size_t)i;
            _exit(open_with("f", l, &f) != of[i]);
        }
    for (int i = 0; i < 2; i++)
        until_asleep(others[i]);
    *is_stopped = 2;
    ends_well(creator);
    for (int i = 0; i < 2; i++)
        ends_well(others[i]);
}

/* ---- Forks. */

static void *opens(void *f)
{
    SAME(open_with("f", LAYOUT, f), 0);
    return NULL;
}

/* A thread is stopped as it creates the file, and another one forks. Then the process is killed, and its child lives.
 */
static void a_child_of_a_creator(void)
{
    _Atomic int *child_lives = shared(sizeof *child_lives);
    is_stopped = shared(sizeof *is_stopped);
    pid_t creator = start_child();
    if (!creator) {
        pz_file *f;
        pthread_t thread;
        on_call = stop;
        CHECK(!pthread_create(&thread, NULL, opens, &f));
        wait_for(is_stopped, 1);
        on_call = NULL;
        if (!fork()) {
            *child_lives = getpid();
            alarm(limit());
            for (;;)
                pause();
        }
        for (;;)
            pause();
    }
    while (!*child_lives)
        usleep(100);
    kill_child(creator);
    can_be_opened("f");
    CHECK(kill(*child_lives, SIGKILL) == 0);
}

/* A handler comes before the nth call of an open, for each n, and forks. */
static _Atomic int forks;
static void fork_now(int signal)
{
    (void)signal;
    pid_t child = fork();
    if (!child)
        _exit(0);
    SAME(waitpid(child, NULL, 0), child);
    forks++;
}
static void interrupt_at_last(int number, const char *name)
{
    (void)name;
    if (number == last_call)
        raise(SIGUSR1);
}
static void a_handler_that_forks(void)
{
    CHECK(sigaction(SIGUSR1, &(struct sigaction){.sa_handler = fork_now}, NULL) == 0);
    for (last_call = 1; last_call == forks + 1; last_call++) {
        pz_file *f;
        calls = 0;
        on_call = interrupt_at_last;
        SAME(open_with("f", LAYOUT, &f), 0);
        on_call = NULL;
        works(f);
        pz_close(f);
        CHECK(unlink("f") == 0);
    }
    CHECK(forks > 10);
}

/* ---- Signals and cancellation. */

static void handled(int signal) { (void)signal; }

/* A handler without SA_RESTART comes to a process that waits for the creator: it continues to wait. */
static void an_interrupted_wait(void)
{
    CHECK(sigaction(SIGUSR1, &(struct sigaction){.sa_handler = handled}, NULL) == 0);
    is_stopped = shared(sizeof *is_stopped);
    pid_t creator = start_child(), other;
    if (!creator) {
        pz_file *f;
        on_call = stop;
        _exit(open_with("f", LAYOUT, &f));
    }
    wait_for(is_stopped, 1);
    if (!(other = start_child())) {
        pz_file *f;
        _exit(open_with("f", LAYOUT, &f));
    }
    for (int i = 0; i < 5; i++) {
        until_asleep(other);
        CHECK(kill(other, SIGUSR1) == 0);
    }
    *is_stopped = 2;
    ends_well(creator);
    ends_well(other);
}

static void interrupted_allocations(void)
{
    interrupted_parts = 5;
    can_be_opened("f");
    SAME(interrupted_parts, 0);
}

/* A cancellation is pending, and no call of the library acts on it. */
static void *has_a_cancellation(void *f)
{
    int state;
    pthread_cancel(pthread_self());
    SAME(open_with("f", LAYOUT, f), 0);
    SAME(pz_mutex_lock(pz_mutex_at(*(pz_file **)f, 0)), 0);
    SAME(pz_mutex_unlock(pz_mutex_at(*(pz_file **)f, 0)), 0);
    pz_close(*(pz_file **)f);
    pthread_setcancelstate(PTHREAD_CANCEL_DISABLE, &state);
    SAME(state, PTHREAD_CANCEL_ENABLE);
    return f;
}
static void no_cancellation(void)
{
    pthread_t thread;
    pz_file *f;
    void *end;
    CHECK(!pthread_create(&thread, NULL, has_a_cancellation, &f) && !pthread_join(thread, &end));
    CHECK(end == &f);
}

/* ---- Space. */

static void larger_than_allowed(void)
{
    struct rlimit most = {4096, RLIM_INFINITY};
    pz_file *f;
    signal(SIGXFSZ, SIG_IGN);
    CHECK(setrlimit(RLIMIT_FSIZE, &most) == 0);
    SAME(open_with("f", LAYOUT, &f), EFBIG);
    SAME(size_of("f"), 0);
    most.rlim_cur = RLIM_INFINITY;
    CHECK(setrlimit(RLIMIT_FSIZE, &most) == 0);
    can_be_opened("f");
}

static void a_full_disk(void)
{
    if (unshare(CLONE_NEWNS) < 0 || mount(NULL, "/", NULL, MS_REC | MS_PRIVATE, NULL) < 0)
        not_tried("a full disk, as unshare(2) is refused");
    CHECK(mkdir("small", 0700) == 0);
    if (mount("none", "small", "tmpfs", 0, "size=1m") < 0)
        not_tried("a full disk, as mount(2) is refused");
    pz_file *f;
    SAME(open_with("small/f", LAYOUT, &f), ENOSPC);
    SAME(size_of("small/f"), 0);
    SAME(open_with("small/f", (struct pz_layout){1, 0, 900000, 0, 0, 0}, &f), 0);
    memset(pz_data(f), 1, 900000);
}

int main(int argc, char **argv)
{
    static const struct one_case cases[] = {
        {"killed_creators", killed_creators},
        {"killed_at_random", killed_at_random},
        {"all_at_once", all_at_once},
        {"others_wait", others_wait},
        {"a_child_of_a_creator", a_child_of_a_creator},
        {"a_handler_that_forks", a_handler_that_forks},
        {"an_interrupted_wait", an_interrupted_wait},
        {"interrupted_allocations", interrupted_allocations},
        {"no_cancellation", no_cancellation},
        {"larger_than_allowed", larger_than_allowed},
        {"a_full_disk", a_full_disk},
    };
    return RUN_CASES(argc, argv, cases);
}
