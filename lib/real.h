/* The functions of the C library that a library loaded in front of it replaces, as one table. Each row is F(result,
 * name, parameters, arguments); a row whose arguments can't be passed on has none. */
#ifndef PZ_REAL_H
#define PZ_REAL_H
#include <dlfcn.h>

#define PZ_MUTEX_FUNCTIONS(F)                                                                                          \
    F(int, pthread_mutex_init, (pthread_mutex_t * m, const pthread_mutexattr_t *a), (m, a))                            \
    F(int, pthread_mutex_destroy, (pthread_mutex_t * m), (m))                                                          \
    F(int, pthread_mutex_lock, (pthread_mutex_t * m), (m))                                                             \
    F(int, pthread_mutex_trylock, (pthread_mutex_t * m), (m))                                                          \
    F(int, pthread_mutex_unlock, (pthread_mutex_t * m), (m))                                                           \
    F(int, pthread_mutex_consistent, (pthread_mutex_t * m), (m))                                                       \
    F(int, pthread_mutex_timedlock, (pthread_mutex_t * m, const struct timespec *t), (m, t))                           \
    F(int, pthread_mutex_clocklock, (pthread_mutex_t * m, clockid_t k, const struct timespec *t), (m, k, t))           \
    F(int, pthread_cond_init, (pthread_cond_t * c, const pthread_condattr_t *a), (c, a))                               \
    F(int, pthread_cond_destroy, (pthread_cond_t * c), (c))                                                            \
    F(int, pthread_cond_signal, (pthread_cond_t * c), (c))                                                             \
    F(int, pthread_cond_broadcast, (pthread_cond_t * c), (c))                                                          \
    F(int, pthread_cond_wait, (pthread_cond_t * c, pthread_mutex_t * m), (c, m))                                       \
    F(int, pthread_cond_timedwait, (pthread_cond_t * c, pthread_mutex_t * m, const struct timespec *t), (c, m, t))     \
    F(int, pthread_cond_clockwait, (pthread_cond_t * c, pthread_mutex_t * m, clockid_t k, const struct timespec *t),   \
      (c, m, k, t))

/* The recorder's: ends of processes and threads, and what is mapped. */
#define PZ_OTHER_FUNCTIONS(F)                                                                                          \
    F(pid_t, wait4, (pid_t p, int *status, int options, struct rusage *u), (p, status, options, u))                    \
    F(int, waitid, (idtype_t type, id_t id, siginfo_t * i, int options), (type, id, i, options))                       \
    F(int, pthread_join, (pthread_t t, void **result), (t, result))                                                    \
    F(int, pthread_tryjoin_np, (pthread_t t, void **result), (t, result))                                              \
    F(int, pthread_timedjoin_np, (pthread_t t, void **result, const struct timespec *until), (t, result, until))       \
    F(int, munmap, (void *at, size_t n), (at, n))                                                                      \
    F(int, shmdt, (const void *at), (at))                                                                              \
    F(void *, mmap, (void *at, size_t n, int protection, int flags, int fd, off_t offset),                             \
      (at, n, protection, flags, fd, offset))                                                                          \
    F(void *, mremap, (void *at, size_t n, size_t size, int flags, ...), )                                             \
    F(void *, shmat, (int id, const void *at, int flags), (id, at, flags))

#define PZ_REAL_POINTER(result, name, parameters, arguments) result(*name) parameters;

/* Returns the next library's function of this name. */
#if __GLIBC_PREREQ(2, 34)
#define PZ_NEXT(name) dlsym(RTLD_NEXT, name)
#else
/* An older C library has two forms of a condition variable's functions, and dlsym(3) finds the oldest. */
#define PZ_NEXT(name) pz_next(name)
static inline void *pz_next(const char *name)
{
    void *it = dlsym(RTLD_NEXT, name), *newer = dlvsym(RTLD_NEXT, name, "GLIBC_2.3.2");
    Dl_info of_it, of_newer;
    int is_same =
        it && newer && dladdr(it, &of_it) && dladdr(newer, &of_newer) && of_it.dli_fbase == of_newer.dli_fbase;
    dlerror();
    return is_same ? newer : it;
}
#endif
#endif
