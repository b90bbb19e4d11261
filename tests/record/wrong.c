/* A library between the recorder and the C library that is wrong in the way that PZ_WRONG names. */
#include <dlfcn.h>
#include <errno.h>
#include <pthread.h>
#include <stdlib.h>
#include <string.h>
#include <time.h>

typedef int one(pthread_mutex_t *);
typedef int one_until(pthread_mutex_t *, const struct timespec *);
static one *lock, *trylock, *unlock, *consistent;
static one_until *timedlock;
static const char *wrong = "";

__attribute__((constructor)) static void find(void)
{
    *(void **)&lock = dlsym(RTLD_NEXT, "pthread_mutex_lock");
    *(void **)&trylock = dlsym(RTLD_NEXT, "pthread_mutex_trylock");
    *(void **)&unlock = dlsym(RTLD_NEXT, "pthread_mutex_unlock");
    *(void **)&consistent = dlsym(RTLD_NEXT, "pthread_mutex_consistent");
    *(void **)&timedlock = dlsym(RTLD_NEXT, "pthread_mutex_timedlock");
    if (getenv("PZ_WRONG"))
        wrong = getenv("PZ_WRONG");
}

static int is(const char *name) { return !strcmp(wrong, name); }

int pthread_mutex_lock(pthread_mutex_t *m)
{
    if (is("lock_takes_nothing"))
        return 0;
    int r = lock(m);
    if (r == EOWNERDEAD && is("death_is_not_told"))
        return consistent(m), 0;
    if (r == EOWNERDEAD && is("lock_gives_up"))
        return unlock(m), ENOTRECOVERABLE;
    if (r == 0 && is("lock_has_a_limit"))
        return unlock(m), ETIMEDOUT;
    return r == 0 && is("death_is_told_of_nobody") ? EOWNERDEAD : r;
}

int pthread_mutex_timedlock(pthread_mutex_t *m, const struct timespec *until)
{
    static int is_later;
    if (is("limit_comes_beside_the_dead") && !is_later++)
        return ETIMEDOUT;
    int r = timedlock(m, until);
    if (r == 0 && is("limit_comes_though_it_is_free"))
        return unlock(m), ETIMEDOUT;
    return r == ETIMEDOUT && is("limit_is_no_matter") ? 0 : r;
}

int pthread_mutex_trylock(pthread_mutex_t *m) { return is("trylock_does_not_look") ? EBUSY : trylock(m); }

/* An unlock that releases the mutex, takes it again and releases it can't be seen by threads that get no reply
 * in between. */
int pthread_mutex_unlock(pthread_mutex_t *m)
{
    if (is("unlock_keeps"))
        return 0;
    if (is("unlock_comes_back")) {
        unlock(m);
        lock(m);
    }
    int r = unlock(m);
    return is("lock_takes_nothing") ? 0 : r;
}

int pthread_mutex_consistent(pthread_mutex_t *m) { return is("consistent_does_nothing") ? 0 : consistent(m); }
