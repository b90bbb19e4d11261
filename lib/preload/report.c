/* Why a mutex can't be used: reported once on standard error, since a program that gets an error which the C library
 * would never return mostly doesn't say more than that. */
#include "mutex.h"
#include <fcntl.h>
#include <poll.h>
#include <signal.h>
#include <stdlib.h>
#include <string.h>
#include <sys/socket.h>
#include <sys/stat.h>

/* Writes to a pipe. If nobody reads it any more, the signal for that is taken away again, unless it was pending before.
 */
static void write_to_pipe(const char *line, size_t n)
{
    sigset_t pipe, before, pending;
    sigemptyset(&pipe);
    sigaddset(&pipe, SIGPIPE);
    sigpending(&pending);
    pthread_sigmask(SIG_BLOCK, &pipe, &before);
    if (write(STDERR_FILENO, line, n) < 0 && errno == EPIPE && !sigismember(&pending, SIGPIPE))
        sigtimedwait(&pipe, NULL, &(struct timespec){0});
    pthread_sigmask(SIG_SETMASK, &before, NULL);
}

/* Writes without waiting, and only if descriptor 2 looks like standard error, not like a file of the program's. */
static void write_to_stderr(const char *line, size_t n)
{
    struct stat st;
    struct pollfd ready = {.fd = STDERR_FILENO, .events = POLLOUT};
    if (fstat(STDERR_FILENO, &st) < 0 || poll(&ready, 1, 0) < 1)
        return;
    if (S_ISSOCK(st.st_mode))
        send(STDERR_FILENO, line, n, MSG_NOSIGNAL | MSG_DONTWAIT);
    else if (S_ISFIFO(st.st_mode) || isatty(STDERR_FILENO) || (fcntl(STDERR_FILENO, F_GETFL) & O_APPEND))
        write_to_pipe(line, n);
}

void pre_report(const char *what)
{
    static atomic_int reported;
    int saved = errno;
    if (!secure_getenv("PAZDRIG_QUIET") && !atomic_exchange(&reported, 1))
        write_to_stderr(what, strlen(what));
    errno = saved;
}
