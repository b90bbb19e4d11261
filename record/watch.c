/* Stamps the deaths that no recorded process sees. A pidfd of each thread, or of its process before Linux 6.9, becomes
 * ready when it has ended, after the kernel's walk over the robust list. */
#include "program.h"
#include <errno.h>
#include <fcntl.h>
#include <limits.h>
#include <linux/futex.h>
#include <pthread.h>
#include <string.h>
#include <sys/epoll.h>
#include <sys/resource.h>
#include <sys/syscall.h>
#include <unistd.h>

#ifndef PIDFD_THREAD
#define PIDFD_THREAD O_EXCL
#endif

static struct recording *file;
static int deaths, fd_of[LIVES];
static char is_known[LIVES]; /* the thread is watched, or dead, or can't be watched */
static pthread_t looker;
static _Atomic int is_over;

static int open_pidfd(const struct life *l)
{
    int fd = (int)syscall(SYS_pidfd_open, l->thread, PIDFD_THREAD);
    return fd < 0 && errno == EINVAL ? (int)syscall(SYS_pidfd_open, file->process[l->process].pid, 0) : fd;
}

/* Watches a thread. One that ended before, or can't be watched, is dead if no thread has its id. */
static void watch(uint32_t row)
{
    struct life *l = &file->life[row];
    is_known[row] = 1;
    if (atomic_load(&l->gone) || !rec_is_in_sight(&file->process[l->process]))
        return;
    int fd = open_pidfd(l);
    if (!rec_lives(l)) {
        stamp_gone(&file->head, &l->gone);
        close(fd);
    } else if (fd >= 0) {
        fd_of[row] = fd;
        epoll_ctl(deaths, EPOLL_CTL_ADD, fd, &(struct epoll_event){.events = EPOLLIN, .data.u32 = row});
    }
}

/* Watches all new lives. A row that isn't shown is being filled, or its thread was killed before it was. */
static void look(void)
{
    static uint32_t first;
    uint32_t n = rows(&file->head.lives, LIVES);
    for (uint32_t row = first; row < n; row++)
        if (!is_known[row] && atomic_load(&file->life[row].is_shown))
            watch(row);
    while (first < n && is_known[first])
        first++;
}

/* The end counts as news too, so this thread never sleeps through it. */
static void *look_for_news(void *unused)
{
    for (;;) {
        uint32_t seen = atomic_load(&file->head.news);
        PZ_AT(looking);
        if (atomic_load(&is_over))
            return unused;
        look();
        syscall(SYS_futex, &file->head.news, FUTEX_WAIT, seen, NULL, NULL, 0);
    }
}

/* ---- What run.c calls. */

/* Returns a descriptor that is ready once a watched thread has died. */
int rec_watch(struct recording *r)
{
    struct rlimit most;
    file = r;
    deaths = epoll_create1(EPOLL_CLOEXEC);
    if (!getrlimit(RLIMIT_NOFILE, &most)) {
        most.rlim_cur = most.rlim_max;
        setrlimit(RLIMIT_NOFILE, &most);
    }
    int why = deaths < 0 ? errno : pthread_create(&looker, NULL, look_for_news, NULL);
    if (why)
        rec_fail("can't watch", strerror(why));
    return deaths;
}

void rec_take_deaths(void)
{
    struct epoll_event e[64];
    int n;
    while ((n = epoll_wait(deaths, e, 64, 0)) > 0)
        for (int i = 0; i < n; i++) {
            stamp_gone(&file->head, &file->life[e[i].data.u32].gone);
            close(fd_of[e[i].data.u32]);
        }
}

/* Threads that couldn't be watched, because there were no descriptors left. */
static void look_once_more(void)
{
    uint32_t n = rows(&file->head.lives, LIVES);
    for (struct life *l = file->life; l < file->life + n; l++)
        if (atomic_load(&l->is_shown) && !atomic_load(&l->gone) && rec_is_in_sight(&file->process[l->process]) &&
            !rec_lives(l))
            stamp_gone(&file->head, &l->gone);
}

/* Stamps everything until now. */
void rec_end_watch(void)
{
    atomic_store(&is_over, 1);
    atomic_fetch_add(&file->head.news, 1);
    syscall(SYS_futex, &file->head.news, FUTEX_WAKE, INT_MAX, NULL, NULL, 0);
    pthread_join(looker, NULL);
    look();
    rec_take_deaths();
    look_once_more();
}
