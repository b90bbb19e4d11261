/* Loaded in front of libpazdrig_pthread.so it counts, in the file that PAZDRIG_COUNTS names, what the library's mutexes
 * return to programs. So it shows that these are what the programs lock. */
#include "counts.h"
#include <dlfcn.h>
#include <errno.h>
#include <fcntl.h>
#include <pthread.h>
#include <stdlib.h>
#include <sys/mman.h>
#include <unistd.h>

static struct counts none, *counts = &none;

static __attribute__((constructor)) void begin(void)
{
    const char *path = getenv("PAZDRIG_COUNTS");
    int fd = path ? open(path, O_RDWR | O_CREAT | O_CLOEXEC, 0600) : -1;
    if (fd < 0 || ftruncate(fd, sizeof *counts) < 0)
        return;
    void *p = mmap(NULL, sizeof *counts, PROT_READ | PROT_WRITE, MAP_SHARED, fd, 0);
    if (p != MAP_FAILED)
        counts = p;
    close(fd);
}

static int is_robust(const pthread_mutex_t *m) { return (m->__data.__kind & ~0x7000) == 0x7a61000c; }

static int counted(const pthread_mutex_t *m, int r)
{
    if (is_robust(m)) {
        atomic_fetch_add_explicit(&counts->calls, 1, memory_order_relaxed);
        if (r == EOWNERDEAD)
            atomic_fetch_add(&counts->died, 1);
        if (r == ENOTRECOVERABLE)
            atomic_fetch_add(&counts->unusable, 1);
        if (r == EINVAL)
            atomic_fetch_add(&counts->refused, 1);
    }
    return r;
}

typedef int one(pthread_mutex_t *);
static int call(const char *name, one **real, pthread_mutex_t *m)
{
    if (!*real)
        *(void **)real = dlsym(RTLD_NEXT, name);
    return (*real)(m);
}

int pthread_mutex_lock(pthread_mutex_t *m)
{
    static one *real;
    return counted(m, call("pthread_mutex_lock", &real, m));
}

int pthread_mutex_trylock(pthread_mutex_t *m)
{
    static one *real;
    return counted(m, call("pthread_mutex_trylock", &real, m));
}

int pthread_mutex_timedlock(pthread_mutex_t *m, const struct timespec *until)
{
    static int (*real)(pthread_mutex_t *, const struct timespec *);
    if (!real)
        *(void **)&real = dlsym(RTLD_NEXT, "pthread_mutex_timedlock");
    return counted(m, real(m, until));
}

int pthread_mutex_consistent(pthread_mutex_t *m)
{
    static one *real;
    int r = call("pthread_mutex_consistent", &real, m);
    if (is_robust(m) && r == 0)
        atomic_fetch_add(&counts->consistent, 1);
    return r;
}

int pthread_mutex_init(pthread_mutex_t *m, const pthread_mutexattr_t *a)
{
    static int (*real)(pthread_mutex_t *, const pthread_mutexattr_t *);
    if (!real)
        *(void **)&real = dlsym(RTLD_NEXT, "pthread_mutex_init");
    int r = real(m, a);
    if (r == 0 && is_robust(m))
        atomic_fetch_add(&counts->inits, 1);
    return r;
}
