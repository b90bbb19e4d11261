/* Runs the program, recorded, until it and everything that it started have ended. */
#include "program.h"
#include <errno.h>
#include <limits.h>
#include <poll.h>
#include <signal.h>
#include <stdlib.h>
#include <string.h>
#include <sys/prctl.h>
#include <sys/signalfd.h>
#include <sys/wait.h>
#include <unistd.h>

static pid_t child;
static int status, is_here = 1; /* the program's wait status; whether it hasn't ended */
static struct sigaction chld;   /* the caller's: if it ignores SIGCHLD, the kernel reports no child's end */

/* Finds the preloaded part: next to this program, in the directory of libraries next to its own, installed or in a
 * source tree, or where ld.so(8) looks. */
static void recorder(char path[PATH_MAX])
{
    static const char *const places[] = {"/libpz_record.so", "/../lib/libpz_record.so", "/../out/libpz_record.so"};
    char here[PATH_MAX - 64];
    ssize_t n = readlink("/proc/self/exe", here, sizeof here - 1);
    here[n > 0 ? n : 0] = 0;
    char *slash = strrchr(here, '/');
    if (slash)
        *slash = 0;
    for (int i = 0; i < 3; i++) {
        snprintf(path, PATH_MAX, "%s%s", here, places[i]);
        if (!access(path, R_OK))
            return;
    }
    strcpy(path, "libpz_record.so");
}

/* The recorder comes before everything else that is preloaded. */
static void set_environment(const struct asked *a)
{
    char first[PATH_MAX], file[PATH_MAX], over[PATH_MAX], *all;
    const char *before = getenv("LD_PRELOAD"), *second = a->over;
    recorder(first);
    if (second && strchr(second, '/') && !(second = realpath(second, over)))
        rec_fail(a->over, strerror(errno));
    if (!realpath(a->file, file) || asprintf(&all, "%s%s%s%s%s", first, second ? ":" : "", second ? second : "",
                                             before ? ":" : "", before ? before : "") < 0)
        rec_fail(a->file, strerror(errno));
    setenv("LD_PRELOAD", all, 1);
    setenv("PZ_RECORDING", file, 1);
    free(all);
}

static void begin(const struct asked *a, const sigset_t *before)
{
    child = fork();
    if (child < 0)
        rec_fail(a->program[0], strerror(errno));
    if (child) {
        rec_unused_file = NULL;
        return;
    }
    sigaction(SIGCHLD, &chld, NULL);
    sigprocmask(SIG_SETMASK, before, NULL);
    set_environment(a);
    execvp(a->program[0], a->program);
    rec_fail_with(CANT_RUN, a->program[0], strerror(errno));
}

/* Waits for children that have ended. Orphans are this process's children too, because it is a subreaper. Returns 0 if
 * no child is left. */
static int take_children(void)
{
    pid_t it;
    int is;
    while ((it = waitpid(-1, &is, WNOHANG)) > 0)
        if (it == child) {
            status = is;
            is_here = 0;
        }
    return it == 0;
}

/* A terminal's signal goes to the program too, so only a signal that was sent to this process is handed on. If the
 * program has ended, the signal ends the watch. Returns whether the watch continues. */
static int hand_on(const struct signalfd_siginfo *s)
{
    int is_sent = s->ssi_code <= 0;
    if (s->ssi_signo == SIGCHLD)
        return take_children();
    if (is_here && is_sent)
        kill(child, (int)s->ssi_signo);
    return is_here;
}

static int next_signal(int signals)
{
    struct signalfd_siginfo s;
    return read(signals, &s, sizeof s) != sizeof s || hand_on(&s);
}

/* If poll(2) is refused, for example because a limit was lowered later, it waits for signals alone. */
static void until_all_ended(int deaths, int signals)
{
    struct pollfd p[] = {{.fd = deaths, .events = POLLIN}, {.fd = signals, .events = POLLIN}};
    int has_signal;
    do {
        has_signal = poll(p, 2, -1) < 0 || p[1].revents;
        rec_take_deaths();
    } while (!has_signal || next_signal(signals));
}

/* A shell that executes its last command leaves its own children to this process, although the program didn't start
 * them. Then a child of this process does the work, because it has no children yet. Returns whether that was so. */
static int is_done_by_a_child(int signals)
{
    siginfo_t is;
    if (waitid(P_ALL, 0, &is, WEXITED | WNOHANG | WNOWAIT))
        return 0;
    child = fork();
    if (child < 0)
        rec_fail("can't wait", strerror(errno));
    while (child && is_here)
        next_signal(signals);
    return child > 0;
}

static int end_of_program(void) { return WIFEXITED(status) ? WEXITSTATUS(status) : 128 + WTERMSIG(status); }

static void report(const struct asked *a, struct recording *file)
{
    int is_left = access(a->file, F_OK) == 0; /* a program that can't be run leaves no recording */
    if (atomic_load(&file->head.ended))
        fprintf(stderr, "pz-record: %s is full: what came later isn't recorded\n", a->file);
    else if (is_left && rec_is_empty(file))
        fprintf(stderr, "pz-record: %s: " REC_EMPTY "\n", a->file);
}

int rec_run(const struct asked *a, struct recording *file)
{
    sigset_t ours, before;
    sigemptyset(&ours);
    for (const int *s = (const int[]){SIGCHLD, SIGINT, SIGQUIT, SIGTERM, SIGHUP, 0}; *s; s++)
        sigaddset(&ours, *s);
    sigprocmask(SIG_BLOCK, &ours, &before);
    sigaction(SIGCHLD, &(struct sigaction){.sa_handler = SIG_DFL}, &chld);
    int signals = signalfd(-1, &ours, SFD_CLOEXEC);
    if (signals < 0)
        rec_fail("can't wait", strerror(errno));
    if (is_done_by_a_child(signals))
        return end_of_program();
    if (prctl(PR_SET_CHILD_SUBREAPER, 1))
        rec_fail("can't wait", strerror(errno));
    begin(a, &before);
    until_all_ended(rec_watch(file), signals);
    rec_end_watch();
    report(a, file);
    return end_of_program();
}
