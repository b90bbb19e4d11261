/* What the modules of libpz_record.so share. It is loaded in front of the library whose calls it records, and maps the
 * recording. */
#ifndef RECORDER_H
#define RECORDER_H
#include "pazdrig.h"
#include "real.h"
#include "recording.h"
#include <pthread.h>
#include <signal.h>
#include <sys/resource.h>
#include <sys/types.h>
#include <sys/wait.h>
#include <time.h>

#define SHOWN __attribute__((visibility("default")))
#define RARE  __attribute__((noinline, cold))

/* ---- real.c: the functions beneath. */

/* libpazdrig's calls on mutexes and condition variables, for a program that is linked with its shared library. */
#define PZ_LIBRARY_FUNCTIONS(F)                                                                                        \
    F(int, pz_mutex_lock, (pz_mutex * m), (m))                                                                         \
    F(int, pz_mutex_trylock, (pz_mutex * m), (m))                                                                      \
    F(int, pz_mutex_timedlock, (pz_mutex * m, const struct timespec *t), (m, t))                                       \
    F(int, pz_mutex_clocklock, (pz_mutex * m, clockid_t k, const struct timespec *t), (m, k, t))                       \
    F(int, pz_mutex_unlock, (pz_mutex * m), (m))                                                                       \
    F(int, pz_mutex_consistent, (pz_mutex * m), (m))                                                                   \
    F(int, pz_mutex_reinit, (pz_mutex * m), (m))                                                                       \
    F(int, pz_cond_wait, (pz_cond * c, pz_mutex * m), (c, m))                                                          \
    F(int, pz_cond_timedwait, (pz_cond * c, pz_mutex * m, const struct timespec *t), (c, m, t))                        \
    F(int, pz_cond_clockwait, (pz_cond * c, pz_mutex * m, clockid_t k, const struct timespec *t), (c, m, k, t))        \
    F(int, pz_cond_signal, (pz_cond * c, pz_mutex * m), (c, m))                                                        \
    F(int, pz_cond_broadcast, (pz_cond * c, pz_mutex * m), (c, m))

struct real {
    PZ_MUTEX_FUNCTIONS(PZ_REAL_POINTER)
    PZ_OTHER_FUNCTIONS(PZ_REAL_POINTER)
    PZ_LIBRARY_FUNCTIONS(PZ_REAL_POINTER)
};
const struct real *rec_resolve(void);
extern _Atomic(const struct real *) rec_found;
static inline const struct real *rec_real(void)
{
    const struct real *it = atomic_load_explicit(&rec_found, memory_order_acquire);
    return __builtin_expect(it != NULL, 1) ? it : rec_resolve();
}
/* The same, with libpazdrig's functions. */
const struct real *rec_resolve_library(void);
static inline const struct real *rec_library(void)
{
    const struct real *it = rec_real();
    return __builtin_expect(it->pz_mutex_lock != NULL, 1) ? it : rec_resolve_library();
}

/* ---- lives.c: this process, this thread, and where its next call goes. */
extern struct recording *rec_file; /* NULL: nothing is recorded */
extern __thread struct mine {
    struct record *next, *end;
    struct chunk *chunk;
    uint32_t life, process;
    int is_inside; /* in a call of the library beneath, whose own calls aren't recorded */
} rec_mine __attribute__((tls_model("initial-exec")));
struct record *rec_begin(enum call_kind call, uint32_t mutex, uint32_t cond, int flags);
void rec_stop(void);
void rec_process_is_gone(uint32_t pid);

static inline int rec_is_on(void) { return rec_file && !rec_mine.is_inside; }

/* Ends a call, which isn't recorded if r is NULL. Returns the reply. */
static inline int rec_end(struct record *r, int reply)
{
    if (!r)
        return reply;
    r->reply = reply;
    atomic_signal_fence(memory_order_seq_cst);
    atomic_store_explicit(&r->end, stamp_after(&rec_file->head), memory_order_release);
    rec_mine.is_inside = 0;
    return reply;
}

/* ---- names.c: what mutexes and condition variables are called, in all processes. */
enum what { A_MUTEX, A_COND };
struct name *rec_place(const void *at, enum what what);
struct name *rec_find(const void *at, enum what what);
uint32_t rec_make(struct name *place, uint32_t before);
void rec_forget_mappings(void);

static inline uint32_t rec_number(struct name *place)
{
    uint32_t last = atomic_load_explicit(&place->last, memory_order_relaxed);
    return last ? last : (uint32_t)(place - rec_file->name) + 1;
}

/* ---- calls.c: the place of a mutex whose calls are recorded, or NULL. */
struct name *rec_mutex(pthread_mutex_t *m);
#endif
