/* The descriptors of files that are about to be opened: no forked child keeps one. And the locks on them. */
#ifndef _GNU_SOURCE
#define _GNU_SOURCE 1 /* F_OFD_SETLK */
#endif
#include "file.h"
#include <errno.h>
#include <fcntl.h>
#include <pthread.h>
#include <signal.h>
#include <stdio.h>
#include <sys/mman.h>
#include <unistd.h>

static pthread_mutex_t table = PTHREAD_MUTEX_INITIALIZER;
static struct pz_opening *openings;
static int no_forks; /* the error of pthread_atfork(3), or 0 */
static sigset_t forks_signals;

/* Signals are blocked while a thread has the table, because a handler might fork. */
static void lock_table(sigset_t *signals)
{
    sigset_t all, before;
    sigfillset(&all);
    pthread_sigmask(SIG_SETMASK, &all, &before);
    pthread_mutex_lock(&table);
    *signals = before;
}
static void unlock_table(const sigset_t *signals)
{
    sigset_t before = *signals;
    pthread_mutex_unlock(&table);
    pthread_sigmask(SIG_SETMASK, &before, NULL);
}

/* ---- Forks. */

static void before_fork(void) { lock_table(&forks_signals); }
static void in_parent(void) { unlock_table(&forks_signals); }
static void in_child(void)
{
    for (; openings; openings = openings->next) {
        if (openings->mapped)
            munmap(openings->mapped, openings->size);
        close(openings->fd);
    }
    unlock_table(&forks_signals);
}

/* Registers the handlers as the library is loaded, so that those of the program run after in_child. A pthread_once(3)
 * in the first open could register them twice, if a thread forks meanwhile. */
static __attribute__((constructor)) void follow_forks(void)
{
    no_forks = pthread_atfork(before_fork, in_parent, in_child);
}

/* ---- Descriptors. */

/* Opens the file however often a handler interrupts that, which may take long: another process may have a lease. */
static int open_uninterrupted(const char *path, int flags, mode_t mode)
{
    int fd;
    while ((fd = open(path, flags | O_RDWR | O_CLOEXEC, mode)) < 0 && errno == EINTR)
        continue;
    return fd;
}

/* Tries first without O_CREAT, with which Linux refuses another user's file in a directory like /dev/shm
 * (fs.protected_regular). */
static int open_or_create(const char *path, mode_t mode)
{
    int fd = open_uninterrupted(path, 0, 0);
    if (fd >= 0 || errno != ENOENT)
        return fd;
    fd = open_uninterrupted(path, O_CREAT, mode);
    if (fd < 0 && errno == EACCES) { /* another user may just have created it */
        fd = open_uninterrupted(path, 0, 0);
        errno = fd < 0 && errno == ENOENT ? EACCES : errno;
    }
    return fd;
}

/* Returns another description of the file, and closes fd; or returns fd if the caller may not open the file again. */
static int opened_again(int fd)
{
    char path[40];
    snprintf(path, sizeof path, "/proc/thread-self/fd/%d", fd);
    int again = open_uninterrupted(path, 0, 0);
    if (again >= 0)
        close(fd);
    return again < 0 ? fd : again;
}

/* The first open may take long, so others can fork in the meantime. The description that gets the locks is opened
 * afterwards, while this thread has the table, so no child has it unknowingly. */
int pz_begin_opening(struct pz_opening *o, const char *path, mode_t mode)
{
    sigset_t signals;
    if (no_forks)
        return no_forks;
    int fd = open_or_create(path, mode);
    if (fd < 0)
        return errno;
    lock_table(&signals);
    *o = (struct pz_opening){.fd = opened_again(fd), .next = openings};
    openings = o;
    unlock_table(&signals);
    return 0;
}

int pz_map(struct pz_opening *o, size_t size)
{
    sigset_t signals;
    lock_table(&signals);
    void *at = mmap(NULL, size, PROT_READ | PROT_WRITE, MAP_SHARED, o->fd, 0);
    int error = at == MAP_FAILED ? errno : 0;
    if (!error) {
        o->mapped = at;
        o->size = size;
    }
    unlock_table(&signals);
    return error;
}

void pz_end_opening(struct pz_opening *o, int is_opened)
{
    struct pz_opening **at = &openings;
    sigset_t signals;
    lock_table(&signals);
    while (*at && *at != o)
        at = &(*at)->next;
    if (!*at) { /* a handler has forked, and this is the child, which has let go of all openings */
        unlock_table(&signals);
        return;
    }
    *at = o->next;
    if (o->mapped && !is_opened)
        munmap(o->mapped, o->size);
    close(o->fd);
    unlock_table(&signals);
}

/* ---- Locks. */

int pz_set_lock(int fd, enum pz_lock lock, enum pz_lock_kind kind, int waits)
{
    static const short types[] = {[PZ_NONE] = F_UNLCK, [PZ_SHARED] = F_RDLCK, [PZ_ALONE] = F_WRLCK};
    struct flock f = {.l_type = types[kind], .l_whence = SEEK_SET, .l_start = (off_t)lock, .l_len = 1};
    while (fcntl(fd, waits ? F_OFD_SETLKW : F_OFD_SETLK, &f) < 0)
        if (errno != EINTR)
            return errno == EACCES ? EAGAIN : errno;
    return 0;
}
