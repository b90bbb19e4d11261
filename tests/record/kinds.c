/* A library between the recorder and the C library that keeps a mutex's kind in its own way: the C library's bits are
 * there only during a call. For one thread at a time. */
#include <dlfcn.h>
#include <pthread.h>
#include <stdint.h>

enum { OWN_KIND = 0x5a5a0000, OWN_BITS = 0x7fff0000 };
typedef int one(pthread_mutex_t *);

static int with_their_kind(pthread_mutex_t *m, const char *name)
{
    one *call;
    *(void **)&call = dlsym(RTLD_NEXT, name);
    int is_own = (m->__data.__kind & OWN_BITS) == OWN_KIND;
    if (is_own)
        m->__data.__kind ^= OWN_KIND;
    int r = call(m);
    if (is_own && m->__data.__kind != -1)
        m->__data.__kind ^= OWN_KIND;
    return r;
}

int pthread_mutex_init(pthread_mutex_t *m, const pthread_mutexattr_t *a)
{
    int (*init)(pthread_mutex_t *, const pthread_mutexattr_t *), robust = 0, shared = 0;
    *(void **)&init = dlsym(RTLD_NEXT, "pthread_mutex_init");
    int r = init(m, a);
    if (a)
        pthread_mutexattr_getrobust(a, &robust), pthread_mutexattr_getpshared(a, &shared);
    if (r == 0 && (robust == PTHREAD_MUTEX_ROBUST || shared == PTHREAD_PROCESS_SHARED))
        m->__data.__kind ^= OWN_KIND;
    return r;
}
int pthread_mutex_destroy(pthread_mutex_t *m) { return with_their_kind(m, "pthread_mutex_destroy"); }
int pthread_mutex_lock(pthread_mutex_t *m) { return with_their_kind(m, "pthread_mutex_lock"); }
int pthread_mutex_trylock(pthread_mutex_t *m) { return with_their_kind(m, "pthread_mutex_trylock"); }
int pthread_mutex_unlock(pthread_mutex_t *m) { return with_their_kind(m, "pthread_mutex_unlock"); }
int pthread_mutex_consistent(pthread_mutex_t *m) { return with_their_kind(m, "pthread_mutex_consistent"); }
