/* Robust, error-checking mutexes, condition variables and reader-writer locks in memory that processes share.
 *
 * A pz_mutex is 64 bytes and a pz_cond 16; zeros are ready to use. A thread may die at any instruction, also by
 * SIGKILL: the kernel then hands the mutexes that it owned to the threads that lock them next, and these get
 * EOWNERDEAD. There is no daemon, no file that has to exist, and no limit on threads, processes or mutexes.
 *
 * docs/C.md has each call with all that it returns; docs/RECOVERY.md says how to repair what a dead owner left. */
#ifndef PAZDRIG_H
#define PAZDRIG_H
#include <stddef.h>
#include <stdint.h>
#include <sys/types.h>
#include <time.h>

#if !defined __LP64__ || __BYTE_ORDER__ != __ORDER_LITTLE_ENDIAN__
#error "libpazdrig needs a little-endian processor and pointers of 64 bits"
#endif

#ifdef __cplusplus
#define PZ_ALIGNED(bytes) alignas(bytes)
extern "C" {
#else
#define PZ_ALIGNED(bytes) _Alignas(bytes)
#endif
#pragma GCC visibility push(default)

#define PZ_VERSION "0.2"

/* How many mutexes a thread can own at a time. */
#define PZ_MOST_OWNED 2000

typedef struct {
    PZ_ALIGNED(64) uint64_t words[8];
} pz_mutex;

typedef struct {
    PZ_ALIGNED(16) uint64_t words[2];
} pz_cond;

/* These return 0 or an errno, and leave errno itself alone. Each may also return ENOTSUP: the kernel or the C library
 * lacks something that the library needs, so nothing was done.
 *
 * EOWNERDEAD means that the caller owns the mutex, and that an earlier owner died: repair the data, then call
 * pz_mutex_consistent. A mutex that is unlocked without that call is unusable: locks get ENOTRECOVERABLE. */
int pz_mutex_lock(pz_mutex *);    /* EOWNERDEAD, ENOTRECOVERABLE, EDEADLK, EAGAIN, EINVAL */
int pz_mutex_trylock(pz_mutex *); /* EOWNERDEAD, ENOTRECOVERABLE, EBUSY, EAGAIN, EINVAL */
int pz_mutex_timedlock(pz_mutex *, const struct timespec *until); /* as lock, and ETIMEDOUT; by CLOCK_REALTIME */
int pz_mutex_clocklock(pz_mutex *, clockid_t, const struct timespec *until);
int pz_mutex_unlock(pz_mutex *);        /* EPERM */
int pz_mutex_consistent(pz_mutex *);    /* EPERM, EINVAL: no owner has died */
int pz_mutex_reinit(pz_mutex *);        /* makes an unusable mutex free; EBUSY: it is owned */
pid_t pz_mutex_owner(const pz_mutex *); /* the owner's TID, or 0 */

int pz_cond_wait(pz_cond *, pz_mutex *); /* EOWNERDEAD, ENOTRECOVERABLE, EPERM, EINVAL */
int pz_cond_timedwait(pz_cond *, pz_mutex *, const struct timespec *until); /* as wait, and ETIMEDOUT */
int pz_cond_clockwait(pz_cond *, pz_mutex *, clockid_t, const struct timespec *until);
int pz_cond_signal(pz_cond *, pz_mutex *);    /* EPERM, EINVAL: threads wait with another mutex */
int pz_cond_broadcast(pz_cond *, pz_mutex *); /* the same */

/* A reader-writer lock with a number of lanes, each a mutex. A reader owns one of them and a writer all, so at most that
 * many readers are inside at a time. It has PZ_RWLOCK_SIZE(lanes) bytes, at a multiple of 64: zeros, and
 * pz_rwlock_init. PZ_RWLOCK(8) is a type of that size, and its member `rw` the lock. */
typedef struct {
    pz_mutex gate;
    PZ_ALIGNED(64) uint64_t words[8];
} pz_rwlock;
#define PZ_MOST_LANES         256
#define PZ_RWLOCK_SIZE(lanes) (sizeof(pz_rwlock) + (lanes) * sizeof(pz_mutex))
#define PZ_RWLOCK(lanes)            \
    union {                         \
        pz_rwlock rw;               \
        pz_mutex parts[2 + (lanes)]; \
    }

/* EOWNERDEAD means that the caller has the lock as a writer, whichever lock it asked for, and that a writer died inside:
 * repair the data, then call pz_rwlock_consistent. A lock that is unlocked without that call is unusable. The death of
 * a reader isn't reported. */
int pz_rwlock_init(pz_rwlock *, unsigned lanes); /* EINVAL: it has another number of lanes */
int pz_rwlock_rdlock(pz_rwlock *);               /* EOWNERDEAD, ENOTRECOVERABLE, EDEADLK, EAGAIN, EINVAL */
int pz_rwlock_tryrdlock(pz_rwlock *);            /* EOWNERDEAD, ENOTRECOVERABLE, EBUSY, EAGAIN, EINVAL */
int pz_rwlock_timedrdlock(pz_rwlock *, const struct timespec *until); /* as rdlock, and ETIMEDOUT; by CLOCK_REALTIME */
int pz_rwlock_clockrdlock(pz_rwlock *, clockid_t, const struct timespec *until);
int pz_rwlock_wrlock(pz_rwlock *);    /* as rdlock */
int pz_rwlock_trywrlock(pz_rwlock *); /* as tryrdlock */
int pz_rwlock_timedwrlock(pz_rwlock *, const struct timespec *until);
int pz_rwlock_clockwrlock(pz_rwlock *, clockid_t, const struct timespec *until);
int pz_rwlock_unlock(pz_rwlock *);     /* a reader's or a writer's; EPERM, EINVAL */
int pz_rwlock_consistent(pz_rwlock *); /* EPERM, EINVAL: no writer has died */
int pz_rwlock_reinit(pz_rwlock *);     /* makes an unusable lock free; EBUSY: somebody has it */

/* A file of mutexes, condition variables, reader-writer locks and data, for programs that want the library to create
 * and open one. */
typedef struct pz_file pz_file;
struct pz_layout {
    unsigned mutexes, conds;
    size_t data;      /* bytes of the program's own */
    uint32_t version; /* of what the program keeps there */
    unsigned rwlocks, lanes; /* each reader-writer lock has that many lanes */
};
int pz_open(const char *path, mode_t mode, const struct pz_layout *, pz_file **);
pz_mutex *pz_mutex_at(pz_file *, unsigned number); /* NULL: there is no such mutex */
pz_cond *pz_cond_at(pz_file *, unsigned number);
pz_rwlock *pz_rwlock_at(pz_file *, unsigned number);
void *pz_data(pz_file *);
void pz_close(pz_file *);

/* What a return value of a call means: pz_strerror("pz_cond_wait", EINVAL). */
const char *pz_strerror(const char *call, int error);
const char *pz_version(void); /* the library's; PZ_VERSION is the header's */

#pragma GCC visibility pop
#ifdef __cplusplus
}
#endif
#endif
