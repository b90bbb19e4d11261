/* Stamps the deaths that a recorded process sees. When wait4(2) or a similar call returns, or pthread_join, the
 * kernel's walk over the dead thread's robust list has ended. pz-record stamps the other deaths. */
#include "recorder.h"
#include <errno.h>
#include <unistd.h>

/* ---- Processes. No other process gets the id before this one was waited for. */

static void is_gone(pid_t pid)
{
    if (rec_file)
        rec_process_is_gone((uint32_t)pid);
}

SHOWN pid_t wait4(pid_t pid, int *status, int options, struct rusage *usage)
{
    int is = 0;
    pid_t r = rec_real()->wait4(pid, &is, options, usage);
    if (r > 0 && (WIFEXITED(is) || WIFSIGNALED(is)))
        is_gone(r);
    if (r > 0 && status)
        *status = is;
    return r;
}

SHOWN pid_t waitpid(pid_t pid, int *status, int options) { return wait4(pid, status, options, NULL); }
SHOWN pid_t wait(int *status) { return wait4(-1, status, 0, NULL); }
SHOWN pid_t wait3(int *status, int options, struct rusage *usage) { return wait4(-1, status, options, usage); }

SHOWN int waitid(idtype_t type, id_t id, siginfo_t *info, int options)
{
    siginfo_t is = {0};
    int r = rec_real()->waitid(type, id, &is, options);
    if (r == 0 && is.si_pid && (is.si_code == CLD_EXITED || is.si_code == CLD_KILLED || is.si_code == CLD_DUMPED))
        is_gone(is.si_pid);
    if (r == 0 && info)
        *info = is;
    return r;
}

/* ---- Threads. A new thread may have the pthread_t of the joined one, but hasn't ended yet. */

static int joined(int r, pthread_t thread)
{
    if (r || !rec_file || !rec_mine.process)
        return r;
    uint32_t n = rows(&rec_file->head.lives, LIVES);
    for (struct life *l = rec_file->life; l < rec_file->life + n; l++)
        if (atomic_load(&l->is_shown) && l->process == rec_mine.process - 1 && l->self == (uint64_t)thread &&
            atomic_load(&l->has_ended))
            stamp_gone(&rec_file->head, &l->gone);
    return r;
}

SHOWN int pthread_join(pthread_t thread, void **value)
{
    return joined(rec_real()->pthread_join(thread, value), thread);
}
SHOWN int pthread_tryjoin_np(pthread_t thread, void **value)
{
    return joined(rec_real()->pthread_tryjoin_np(thread, value), thread);
}
SHOWN int pthread_timedjoin_np(pthread_t thread, void **value, const struct timespec *until)
{
    return joined(rec_real()->pthread_timedjoin_np(thread, value, until), thread);
}
