/* Links are in memory that other processes can write. An unlock stores through them only if both neighbours point back:
 * otherwise it returns EPERM, and nothing is stored. */
#include "../check.h"
#include <pazdrig.h>

enum { PREVIOUS = 3, NEXT = 4, ENTRY = 4 };
static pz_mutex *mutex;
static struct {
    uint64_t before, secret, after;
} own = {1, 2, 3}; /* this process's own memory */

/* Another process writes two words of a mutex. */
static void overwrite(pz_mutex *m, uint64_t previous, uint64_t next)
{
    pid_t p = start_child();
    if (p == 0) {
        m->words[PREVIOUS] = previous;
        m->words[NEXT] = next;
        _exit(0);
    }
    EQUAL(status_of(p), 0);
}
static void check_own_memory(void) { CHECK(own.before == 1 && own.secret == 2 && own.after == 3); }

/* Links that lead into the process's own memory, where nothing points back; one of them, or both. */
static void foreign_links(int which)
{
    memset(mutex, 0, 4096);
    EQUAL(pz_mutex_lock(&mutex[0]), 0);
    EQUAL(pz_mutex_lock(&mutex[1]), 0);
    EQUAL(pz_mutex_lock(&mutex[2]), 0);
    uint64_t previous = mutex[1].words[PREVIOUS], next = mutex[1].words[NEXT];
    overwrite(&mutex[1], which & 1 ? (uint64_t)&own.secret : previous, which & 2 ? (uint64_t)&own.secret : next);
    pz_mutex before[3];
    memcpy(before, mutex, sizeof before);
    EQUAL(pz_mutex_unlock(&mutex[1]), EPERM);
    check_own_memory();
    CHECK(!memcmp(before, mutex, sizeof before)); /* nor anything else */
    overwrite(&mutex[1], previous, next);
    EQUAL(pz_mutex_unlock(&mutex[1]), 0);
    EQUAL(pz_mutex_unlock(&mutex[0]), 0);
    EQUAL(pz_mutex_unlock(&mutex[2]), 0);
}
/* The same for a wait, which releases too, and for an unlock that makes the mutex unusable. */
static void foreign_links_of_a_wait(void)
{
    struct timespec past = {1, 0};
    pz_cond *cond = (pz_cond *)&mutex[8];
    memset(mutex, 0, 4096);
    EQUAL(pz_mutex_lock(mutex), 0);
    uint64_t previous = mutex->words[PREVIOUS], next = mutex->words[NEXT];
    overwrite(mutex, (uint64_t)&own.secret, (uint64_t)&own.secret);
    EQUAL(pz_cond_timedwait(cond, mutex, &past), EPERM);
    EQUAL(pz_mutex_owner(mutex), syscall(SYS_gettid));
    check_own_memory();
    overwrite(mutex, previous, next);
    EQUAL(pz_cond_timedwait(cond, mutex, &past), ETIMEDOUT);
    EQUAL(pz_mutex_unlock(mutex), 0);
}
static void foreign_links_of_an_inconsistent_mutex(void)
{
    memset(mutex, 0, 4096);
    pid_t p = start_child();
    if (p == 0)
        _exit(pz_mutex_lock(mutex));
    EQUAL(status_of(p), 0);
    EQUAL(pz_mutex_lock(mutex), EOWNERDEAD);
    uint64_t previous = mutex->words[PREVIOUS], next = mutex->words[NEXT];
    overwrite(mutex, (uint64_t)&own.secret, (uint64_t)&own.secret);
    EQUAL(pz_mutex_unlock(mutex), EPERM);
    check_own_memory();
    overwrite(mutex, previous, next);
    EQUAL(pz_mutex_unlock(mutex), 0);
    EQUAL(pz_mutex_lock(mutex), ENOTRECOVERABLE);
}
/* A link to the head's word of the pending entry, which holds this entry's address during the unlock. */
static void link_to_pending(void)
{
    memset(mutex, 0, 4096);
    EQUAL(pz_mutex_lock(mutex), 0);
    uint64_t head = mutex->words[PREVIOUS], next = mutex->words[NEXT];
    overwrite(mutex, head + 16, next);
    EQUAL(pz_mutex_unlock(mutex), EPERM);
    overwrite(mutex, head, next);
    EQUAL(pz_mutex_unlock(mutex), 0);
}

/* ---- A copy of a held mutex isn't on the list: its unlock must not take the original off. */
static void copy(void)
{
    memset(mutex, 0, 4096);
    pid_t p = start_child();
    if (p == 0) {
        if (pz_mutex_lock(&mutex[0]) || pz_mutex_lock(&mutex[1]) || pz_mutex_lock(&mutex[2]))
            _exit(1);
        memcpy(&mutex[3], &mutex[1], sizeof *mutex);
        _exit(pz_mutex_unlock(&mutex[3]) == EPERM ? 0 : 2);
    }
    EQUAL(status_of(p), 0);
    for (int i = 0; i < 3; i++)
        EQUAL(pz_mutex_trylock(&mutex[i]), EOWNERDEAD);
    for (int i = 0; i < 3; i++)
        EQUAL(pz_mutex_unlock(&mutex[i]), 0);
}
/* A mutex that is mapped twice is unlocked by the address that locked it. */
static void mapped_twice(void)
{
    int fd = memfd_create("twice", 0);
    CHECK(fd >= 0 && ftruncate(fd, 4096) == 0);
    pz_mutex *a = mmap(NULL, 4096, PROT_READ | PROT_WRITE, MAP_SHARED, fd, 0);
    pz_mutex *b = mmap(NULL, 4096, PROT_READ | PROT_WRITE, MAP_SHARED, fd, 0);
    EQUAL(pz_mutex_lock(&a[0]), 0);
    EQUAL(pz_mutex_lock(&a[1]), 0);
    EQUAL(pz_mutex_lock(&b[1]), EDEADLK);
    EQUAL(pz_mutex_trylock(&b[1]), EBUSY);
    EQUAL(pz_mutex_unlock(&b[1]), EPERM);
    EQUAL(pz_mutex_unlock(&b[0]), EPERM);
    EQUAL(pz_mutex_owner(&b[0]), syscall(SYS_gettid));
    EQUAL(pz_mutex_unlock(&a[1]), 0);
    EQUAL(pz_mutex_unlock(&a[0]), 0);
    EQUAL(pz_mutex_lock(&b[0]), 0);
    EQUAL(pz_mutex_unlock(&b[0]), 0);
    close(fd);
}

/* ---- How many a thread can own. */
static void limit(void)
{
    pz_mutex *many = shared_memory((PZ_MOST_OWNED + 2) * sizeof *many);
    pz_cond cond = {{0}};
    struct timespec past = {1, 0};
    for (int i = 0; i < PZ_MOST_OWNED; i++)
        if (pz_mutex_lock(&many[i]))
            CHECK(!"the mutex is free");
    EQUAL(pz_mutex_lock(&many[PZ_MOST_OWNED]), EAGAIN);
    EQUAL(pz_mutex_trylock(&many[PZ_MOST_OWNED]), EAGAIN);
    EQUAL(pz_mutex_timedlock(&many[PZ_MOST_OWNED], &past), EAGAIN);
    EQUAL(pz_mutex_owner(&many[PZ_MOST_OWNED]), 0);
    EQUAL(pz_mutex_lock(&many[7]), EDEADLK);
    EQUAL(pz_cond_timedwait(&cond, &many[7], &past), ETIMEDOUT);
    EQUAL(pz_mutex_lock(&many[PZ_MOST_OWNED]), EAGAIN);
    EQUAL(pz_mutex_unlock(&many[7]), 0);
    EQUAL(pz_mutex_lock(&many[PZ_MOST_OWNED]), 0);
    EQUAL(pz_mutex_lock(&many[7]), EAGAIN);
    for (int i = 0; i <= PZ_MOST_OWNED; i++)
        if (i != 7 && pz_mutex_unlock(&many[i]))
            CHECK(!"the mutex is own");
    EQUAL(pz_mutex_lock(&many[7]), 0);
    EQUAL(pz_mutex_unlock(&many[7]), 0);
    munmap(many, (PZ_MOST_OWNED + 2) * sizeof *many);
}
/* All that a thread can own is a dead owner's after its death, also if it waited as the heir of another one then. */
static void death_of_an_owner_of_all(void)
{
    pz_mutex *many = shared_memory((PZ_MOST_OWNED + 2) * sizeof *many);
    pid_t p = start_child();
    if (p == 0) {
        for (int i = 0; i < PZ_MOST_OWNED; i++)
            if (pz_mutex_lock(&many[i]))
                _exit(1);
        _exit(0);
    }
    EQUAL(status_of(p), 0);
    int wrong = 0;
    for (int i = 0; i < PZ_MOST_OWNED; i++) {
        wrong += pz_mutex_trylock(&many[i]) != EOWNERDEAD;
        pz_mutex_consistent(&many[i]);
        pz_mutex_unlock(&many[i]);
    }
    EQUAL(wrong, 0);
    munmap(many, (PZ_MOST_OWNED + 2) * sizeof *many);
}

int main(void)
{
    begin_checks(300);
    mutex = shared_memory(4096);
    for (int which = 1; which <= 3; which++)
        foreign_links(which);
    foreign_links_of_a_wait();
    foreign_links_of_an_inconsistent_mutex();
    link_to_pending();
    copy();
    mapped_twice();
    limit();
    death_of_an_owner_of_all();
    return end_checks();
}
