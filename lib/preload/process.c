/* The calling thread, the PID namespace of its process, and whether the process may sleep on two words at a time. */
#include "mutex.h"
#include <stdlib.h>
#include <sys/stat.h>

#define PROGRAM "libpazdrig_pthread.so: "

_Atomic uint16_t pre_space;
static _Atomic uint16_t space;        /* this PID namespace; 0: not known */
static atomic_int has_two_word_sleep; /* futex_waitv(2): Linux 5.16, unless a seccomp filter refuses it */
static pz_word known_for;             /* the life of the process in which the rest was found out */

static uint16_t read_namespace(void)
{
    struct stat s;
    if (stat("/proc/self/ns/pid", &s))
        return 0;
    uint16_t mark = (uint16_t)(s.st_ino ^ s.st_ino >> 16);
    return mark ? mark : 1;
}

/* Another process may have been the child of unshare(2), so each life of the process asks. */
static void look_around(uint64_t life)
{
    uint16_t mark = read_namespace();
    int refused = syscall(SYS_futex_waitv, NULL, 0, 0, NULL, 0) == 0 || errno != EINVAL;
    atomic_store(&has_two_word_sleep, !refused);
    atomic_store(&space, mark);
    atomic_store(&pre_space, refused ? 0 : mark);
    store_release(&known_for, life);
}

uint16_t pre_namespace(void) { return atomic_load(&space); }
int pre_has_two_word_sleep(void) { return atomic_load(&has_two_word_sleep) && !secure_getenv("PAZDRIG_PLAIN"); }

/* Returns the calling thread after it has asked Linux for what it has to know, or NULL. */
__attribute__((cold)) struct caller *pre_ask(void)
{
    int saved = errno;
    struct caller *s = pz_ask();
    if (s && load_acquire(&known_for) != s->life)
        look_around(s->life);
    errno = saved;
    return s;
}

/* Returns why the calling thread, NULL if nothing is known of it, can't lock m; or 0. */
__attribute__((cold)) int pre_refuse(struct mutex *m, struct caller *s)
{
    uint16_t own = atomic_load(&space);
    if (!s) {
        pre_report(PROGRAM "robust mutexes can't be used: Linux 4.14 or later, and the GNU C library, are needed\n");
        return ENOTSUP;
    }
    if (m->space && own && m->space != own) {
        pre_report(PROGRAM "a robust mutex can't be used: it was initialised in another PID namespace\n");
        return EINVAL;
    }
    if (!is_plain(m) && !atomic_load(&has_two_word_sleep)) {
        pre_report(PROGRAM
                   "a robust mutex can't be used: futex_waitv(2) is refused here, and was available to the process"
                   " that initialised the mutex; set PAZDRIG_PLAIN=1 for that process\n");
        return ENOTSUP;
    }
    return s->owned >= PZ_MOST_OWNED && !is_owner(m, s) ? EAGAIN : 0;
}

/* A filter that came later refused futex_waitv(2). Returns what a lock returns. */
__attribute__((cold)) int pre_lose_two_word_sleep(struct mutex *m, struct caller *s)
{
    atomic_store(&has_two_word_sleep, 0);
    atomic_store(&pre_space, 0);
    return pre_refuse(m, s);
}
