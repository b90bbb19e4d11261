/* A death before each instruction of what a reader or a writer does: a lock, a look at the data or a change of it, and
 * an unlock. A victim makes N instructions of that by single steps, and is killed, for N from 0 to its end, with 0 to 2
 * others asleep. Then all others have to get the lock, and nobody may find torn data without EOWNERDEAD.
 *
 *   rwdeaths EVERY [WORK [SLEEPERS]]
 *
 * kills before each EVERY-th instruction. */
#include "../check.h"
#include <pazdrig.h>
#include <stdatomic.h>
#include <sys/ptrace.h>

enum { MOST_STEPS = 12000, MOST_OTHERS = 4, LANES = 2 };
static struct {
    PZ_RWLOCK(LANES) lock;
    PZ_RWLOCK(1) other;
    _Atomic int goes, holds, is_done, told;
    volatile long a, b; /* equal, but while a writer is inside */
} *all;
static pz_rwlock *lock;

/* READER, WRITER: one has the lock at first, until the victim sleeps. DEAD: a writer died inside. LOSES: the victim
 * repairs nothing, and so makes the lock unusable. */
enum { READER = 1, WRITER = 2, DEAD = 4, LOSES = 8 };
static const struct work {
    const char *name;
    int writes, needs, most; /* sleepers; a reader and a writer */
} works[] = {
    {"read", 0, 0, 0},          {"write", 1, 0, 0},          {"read-waits", 0, WRITER, 2}, {"write-waits", 1, READER, 2},
    {"read-repairs", 0, DEAD, 0}, {"write-repairs", 1, DEAD, 0}, {"read-loses", 0, DEAD | LOSES, 0},
};
static const struct work *work;
static pid_t holder, victim, other[MOST_OTHERS];
static int others;

/* Whatever a thread has to do with the lock. Returns what its unlock did, or why it has none. */
static int use(int writes)
{
    int r = writes ? pz_rwlock_wrlock(lock) : pz_rwlock_rdlock(lock);
    if (r == EOWNERDEAD) {
        all->told = 1;
        all->a = all->b;
        r = pz_rwlock_consistent(lock);
        writes = 1;
    }
    if (r)
        return r;
    if (all->a != all->b)
        return 200;
    if (writes)
        all->a++, all->b++;
    return pz_rwlock_unlock(lock);
}
static void add_other(int writes)
{
    pid_t p = start_child();
    if (p == 0) {
        int r = use(writes);
        _exit(r == ENOTRECOVERABLE && (work->needs & LOSES) ? 0 : r);
    }
    other[others++] = p;
}
static void add_holder(void)
{
    holder = start_child();
    if (holder == 0) {
        int r = work->needs & WRITER ? pz_rwlock_wrlock(lock) : pz_rwlock_rdlock(lock);
        all->holds = 1;
        while (!all->goes)
            nap(50);
        _exit(r ? r : pz_rwlock_unlock(lock));
    }
    while (!all->holds)
        nap(20);
}
static void add_dead_writer(void)
{
    pid_t p = start_child();
    if (p == 0) {
        pz_rwlock_wrlock(lock);
        all->a++;
        _exit(0);
    }
    status_of(p);
}
static void add_victim(void)
{
    int status;
    victim = start_child();
    if (victim == 0) {
        pz_rwlock_wrlock(&all->other.rw); /* what only a first call does is not of interest */
        pz_rwlock_unlock(&all->other.rw);
        ptrace(PTRACE_TRACEME, 0, 0, 0);
        syscall(SYS_kill, getpid(), SIGSTOP);
        if (!(work->needs & LOSES))
            use(work->writes);
        else if (pz_rwlock_rdlock(lock) == EOWNERDEAD)
            pz_rwlock_unlock(lock);
        all->is_done = 1;
        for (;;)
            pause();
    }
    waitpid(victim, &status, 0);
}

/* Makes a step. The holder frees the lock as soon as the victim sleeps. Returns 0 if the victim has done its work. */
static int one_step(void)
{
    int status;
    ptrace(PTRACE_SINGLESTEP, victim, 0, 0);
    for (long waits = 0; waitpid(victim, &status, WNOHANG) != victim; waits++) {
        if (waits > 40)
            nap(100);
        if (waits > 60 && state_of(victim) == 'S' && is_in_futex(victim))
            all->goes = 1;
        if (waits > patience() * 10000l)
            return CHECK(!"a step ends");
    }
    return WIFSTOPPED(status) && !all->is_done;
}
/* Nobody is inside any more, nor on the way there. */
static void check_lock(void)
{
    int r = pz_rwlock_trywrlock(lock);
    if (r == ENOTRECOVERABLE && (work->needs & LOSES))
        r = pz_rwlock_reinit(lock) ? -1 : pz_rwlock_trywrlock(lock);
    if (r == EOWNERDEAD) {
        all->told = 1;
        all->a = all->b;
        r = pz_rwlock_consistent(lock);
    }
    EQUAL(r, 0);
    CHECK(all->a == all->b || (work->needs & LOSES));
    EQUAL(pz_rwlock_unlock(lock), 0);
    EQUAL(pz_rwlock_tryrdlock(lock), 0);
    EQUAL(pz_rwlock_unlock(lock), 0);
    if (!work->writes && !(work->needs & DEAD))
        EQUAL(all->told, 0); /* a reader's death is nobody's business */
}
/* Returns whether the work ends before instruction n. */
static int die_before(long n, int sleepers)
{
    int failed = checks_failed, is_over = 0;
    memset(all, 0, sizeof *all);
    others = 0, holder = 0;
    pz_rwlock_init(lock, LANES);
    pz_rwlock_init(&all->other.rw, 1);
    if (work->needs & DEAD)
        add_dead_writer();
    if (work->needs & (READER | WRITER))
        add_holder();
    add_victim();
    for (int i = 0; i < sleepers; i++)
        add_other(i), until_asleep(other[i]);
    for (long k = 0; k < n && !is_over; k++)
        is_over = !one_step();
    kill_child(victim);
    all->goes = 1;
    add_other(0);
    add_other(1);
    if (holder)
        other[others++] = holder;
    if (CHECK(all_end(other, others)))
        check_lock();
    for (int i = 0; i < others; i++)
        if (other[i])
            kill_child(other[i]);
    if (checks_failed > failed)
        fprintf(stderr, "%s, %d asleep, death before instruction %ld: state %llx wanted %llx gate %llx lanes %llx %llx\n",
                work->name, sleepers, n, (unsigned long long)lock->words[1], (unsigned long long)lock->words[2],
                (unsigned long long)lock->gate.words[0], (unsigned long long)all->lock.parts[2].words[0],
                (unsigned long long)all->lock.parts[3].words[0]);
    return is_over || checks_failed > 3;
}

int main(int argc, char **argv)
{
    long every = argc > 1 ? atol(argv[1]) : 1;
    setvbuf(stdout, NULL, _IOLBF, 0);
    seed_random(1);
    all = shared_memory(sizeof *all);
    lock = &all->lock.rw;
    for (work = works; work < works + sizeof works / sizeof *works; work++)
        for (int s = 0; s <= work->most; s++) {
            long n = every > 1 ? (long)a_random((unsigned)every) : 0, deaths = 0;
            if ((argc > 2 && strcmp(argv[2], work->name)) || (argc > 3 && atoi(argv[3]) != s))
                continue;
            while (++deaths, !die_before(n, s) && n < MOST_STEPS)
                n += every;
            printf("%-13s %d asleep: %ld deaths, up to instruction %ld\n", work->name, s, deaths, n);
        }
    return end_checks();
}
