/* What makes a mutex one of this library's, and what ends it. */
#include "mutex.h"
#include <string.h>

#define SHOWN __attribute__((visibility("default")))

/* Takes a mutex that the calling thread owns from the thread's list. Returns 0 if it isn't there. */
static int leave(struct mutex *m, struct caller *s)
{
    if (!is_owner(m, s))
        return 0;
    uint64_t entry = load_relaxed(s->list);
    for (int n = 0; linked(entry) != s->list && n < 2 * PZ_MOST_OWNED; n++, entry = load_relaxed(linked(entry)))
        if (entry == (uint64_t)cell_entry(m) && take_off_list(s, cell_entry(m)))
            return s->owned--, 1;
    return 0;
}

#ifdef PZ_TEST_ANY_MUTEX /* for suites whose mutexes are private */
enum { TAKES_ANY = 1 };
#else
enum { TAKES_ANY = 0 };
#endif

/* Whether a mutex with these attributes is this library's. */
static int is_wanted(const pthread_mutexattr_t *a, int *type)
{
    int robust, protocol, shared;
    *type = PTHREAD_MUTEX_DEFAULT;
    if (!a)
        return TAKES_ANY;
    return !pthread_mutexattr_getrobust(a, &robust) && (TAKES_ANY || robust == PTHREAD_MUTEX_ROBUST) &&
           !pthread_mutexattr_getprotocol(a, &protocol) && protocol == PTHREAD_PRIO_NONE &&
           !pthread_mutexattr_getpshared(a, &shared) && (TAKES_ANY || shared == PTHREAD_PROCESS_SHARED) &&
           !pthread_mutexattr_gettype(a, type);
}

/* Stores the cell, without an owner. WAITERS stays, as this thread may be killed before it has woken all that sleep
 * there: then Linux wakes one, whose unlock has to wake the next. The turn begins anywhere, so that an unlock of a
 * mutex that was here before doesn't take this one for it. */
static void set_cell(struct mutex *m, uint64_t flags)
{
    uint64_t turn = now_ns() * 0x9e3779b97f4a7c15ull & ~(TAKE - 1), v = load_acquire(&m->cell);
    while (!compare_exchange(&m->cell, &v, turn | flags | (v & WAITERS)))
        ;
}

/* Makes m a free mutex. One that the thread owned stays that until its cell changes, which is last: until then no
 * thread takes it, or finds that it isn't a mutex. `since` isn't 0, so that the C library's destroy takes it for one in
 * use. */
static void fill(struct mutex *m, int type, int is_to_be_plain)
{
    if (!is_ours(m))
        memset((void *)m, 0, sizeof *m);
    m->again = 0;
    atomic_store(&m->bell, 0);
    atomic_store(&m->since, now_us() | 1);
    m->space = pre_namespace();
    atomic_store(&m->kind, MARK | (uint32_t)type << TYPE_AT | (is_to_be_plain ? PLAIN : 0));
    set_cell(m, 0);
}

/* Ends m before the C library has its own there. No thread takes the cell any more. */
static void retire(struct mutex *m)
{
    atomic_store(&m->kind, DESTROYED);
    set_cell(m, UNUSABLE);
}

/* `was` is the mutex if it was one of this library's. It is pending until all that sleep there have been woken, and
 * look again. If the thread owned it, they sleep by its mode, so this stays. */
static int init(pthread_mutex_t *mutex, const pthread_mutexattr_t *a, struct mutex *was, struct caller *s)
{
    int type, reply = 0, is_owned = 0, wanted = is_wanted(a, &type);
    if (was && s) {
        set_pending(s, cell_entry(was));
        is_owned = leave(was, s);
    }
    if (wanted && s) {
        fill((struct mutex *)mutex, type, is_owned ? is_plain(was) : !pre_has_two_word_sleep());
    } else if (wanted) {
        return pre_refuse((struct mutex *)mutex, NULL);
    } else {
        if (was)
            retire(was);
        reply = pre_real.pthread_mutex_init(mutex, a);
    }
    if (was)
        wake(&was->cell, INT_MAX);
    return reply;
}

SHOWN int pthread_mutex_init(pthread_mutex_t *mutex, const pthread_mutexattr_t *a)
{
    struct mutex *was = ours(mutex);
    int type, saved = errno;
    struct caller *s = was || is_wanted(a, &type) ? here() : NULL;
    struct interrupted before = s ? pre_interrupt(s) : (struct interrupted){0};
    int reply = init(mutex, a, was, s);
    if (s)
        pre_resume(s, before);
    errno = saved;
    return reply;
}

SHOWN int pthread_mutex_destroy(pthread_mutex_t *mutex)
{
    struct mutex *m = ours(mutex);
    if (!m)
        return pre_real.pthread_mutex_destroy(mutex);
    if (load_acquire(&m->cell) & OWNER)
        return EBUSY;
    atomic_store(&m->kind, DESTROYED);
    return 0;
}
