/* A file outlives the system that its owners ran on: a reboot, which the variable PZ_BOOT simulates, and PID
 * namespaces. Locks tell whether a file is in use. */
#include "cell.h"
#include "hooks.h"
#include <sched.h>

static const struct pz_layout LAYOUT = {.mutexes = 4, .conds = 2, .data = 8, .rwlocks = 2, .lanes = 2};
enum { READ, WRITTEN };
enum { FREE, OWNED, LEFT, LOST };

static void boot(const char *id) { CHECK(setenv("PZ_BOOT", id, 1) == 0); }

static void copy(const char *from, const char *to)
{
    static char bytes[4096];
    write_file(to, bytes, read_file(from, bytes, sizeof bytes));
}
static pz_file *opened(const char *path)
{
    pz_file *f;
    SAME(open_with(path, LAYOUT, &f), 0);
    return f;
}
static pz_mutex *mutex(pz_file *f, unsigned m) { return pz_mutex_at(f, m); }

/* A child with the file open that has done something there, and pauses. */
static pid_t start(const char *path, void (*does)(pz_file *))
{
    _Atomic int *has_done = shared(sizeof *has_done);
    pid_t child = start_child();
    if (!child) {
        pz_file *f = opened(path);
        does(f);
        *has_done = 1;
        for (;;)
            pause();
    }
    wait_for(has_done, 1);
    return child;
}
static void does_nothing(pz_file *f) { (void)f; }
static void owns(pz_file *f)
{
    SAME(pz_mutex_lock(mutex(f, OWNED)), 0);
    SAME(pz_rwlock_rdlock(pz_rwlock_at(f, READ)), 0);
    SAME(pz_rwlock_wrlock(pz_rwlock_at(f, WRITTEN)), 0);
}
static void dies_owning(pz_file *f)
{
    for (unsigned m = LEFT; m <= LOST; m++)
        SAME(pz_mutex_lock(mutex(f, m)), 0);
    _exit(0);
}

/* A thread that sleeps in a call. */
static pid_t sleeper(const char *path, int waits)
{
    pid_t child = start_child();
    if (!child) {
        pz_file *f = opened(path);
        pz_mutex *m = mutex(f, waits ? FREE : OWNED);
        if (waits)
            SAME(pz_mutex_lock(m), 0);
        _exit(waits ? pz_cond_wait(pz_cond_at(f, 0), m) : pz_mutex_lock(m));
    }
    until_asleep(child);
    return child;
}

/* Leaves a file as a power failure would: one mutex is owned, with sleepers; the owner of one is dead, one is unusable,
 * and a thread waits. */
static void crash(const char *path)
{
    boot("the first boot");
    pz_file *f = opened("crashes");
    pid_t dead = start_child(), children[5];
    if (!dead)
        dies_owning(opened("crashes"));
    ends_well(dead);
    SAME(pz_mutex_lock(mutex(f, LOST)), EOWNERDEAD);
    SAME(pz_mutex_unlock(mutex(f, LOST)), 0);
    *(long *)pz_data(f) = 42;
    children[0] = start("crashes", owns);
    for (int i = 1; i < 5; i++)
        children[i] = sleeper("crashes", i == 4);
    copy("crashes", path);
    for (int i = 0; i < 5; i++)
        kill_child(children[i]);
    pz_close(f);
}

static void a_reboot(void)
{
    crash("f");
    boot("the second boot");
    pz_file *f = opened("f");
    SAME(*(long *)pz_data(f), 42);
    for (unsigned m = 0; m < 4; m++)
        SAME(pz_mutex_owner(mutex(f, m)), 0);
    SAME(pz_mutex_trylock(mutex(f, FREE)), 0);
    SAME(pz_mutex_trylock(mutex(f, OWNED)), EOWNERDEAD);
    SAME(pz_mutex_trylock(mutex(f, LEFT)), EOWNERDEAD);
    SAME(pz_mutex_trylock(mutex(f, LOST)), ENOTRECOVERABLE);
    SAME(pz_rwlock_trywrlock(pz_rwlock_at(f, READ)), 0);
    SAME(pz_rwlock_tryrdlock(pz_rwlock_at(f, WRITTEN)), EOWNERDEAD);
    SAME(pz_cond_signal(pz_cond_at(f, 0), mutex(f, OWNED)), 0); /* nobody waits there with another mutex */
    pz_close(opened("f"));                                      /* the next to open it leaves owners alone */
    SAME(pz_mutex_trylock(mutex(f, FREE)), EBUSY);
    SAME(pz_mutex_consistent(mutex(f, OWNED)), 0);
    SAME(pz_mutex_unlock(mutex(f, OWNED)), 0);
    SAME(pz_mutex_lock(mutex(f, OWNED)), 0);
    SAME(pz_mutex_reinit(mutex(f, LOST)), 0);
}

/* The words of a mutex that was owned, wanted by sleepers and by an heir. Only its turn and that its owner died is
 * left. */
static void its_words(void)
{
    static const uint64_t turn = 12345 * TURN;
    boot("the first boot");
    pz_file *f = opened("f");
    uint64_t *owned = mutex(f, OWNED)->words, *lost = mutex(f, LOST)->words, *free = mutex(f, FREE)->words;
    owned[0] = turn | WAITERS | 99;
    owned[1] = 7;
    owned[2] = ~0ull;
    lost[0] = turn | UNUSABLE | WAITERS;
    free[0] = turn | WAITERS;
    copy("f", "g");
    boot("the second boot");
    f = opened("g");
    SAME(mutex(f, OWNED)->words[0], turn | OWNER_DIED);
    SAME(mutex(f, OWNED)->words[1], 0);
    SAME(mutex(f, OWNED)->words[2], 0);
    SAME(mutex(f, LOST)->words[0], turn | UNUSABLE);
    SAME(mutex(f, FREE)->words[0], turn);
}

/* As long as a process of another boot uses the file, or a child that it forked, nobody takes it over. A process that
 * opens it in vain doesn't use it. */
static void in_use(void)
{
    pz_file *f;
    boot("the first boot");
    pid_t user = start("f", does_nothing);
    boot("the second boot");
    for (int i = 0; i < 2; i++)
        SAME(open_with("f", LAYOUT, &f), EBUSY);
    boot("the first boot");
    f = opened("f");
    kill_child(user);
    pid_t child = start_child();
    if (!child)
        for (;;)
            pause();
    pz_close(f);
    boot("the second boot");
    SAME(open_with("f", LAYOUT, &f), EBUSY);
    kill_child(child);
    pz_close(opened("f"));
    boot("the third boot");
    opened("f");
}

/* A process is killed before its nth call as it takes the file over, for each n. The next one still finds each owner
 * dead. */
static int last_call;
static void die(int number, const char *name)
{
    (void)name;
    if (number == last_call)
        raise(SIGKILL);
}
static void killed_takers(void)
{
    int status = SIGKILL;
    crash("crashed");
    boot("the second boot");
    for (last_call = 1; WIFSIGNALED(status); last_call++) {
        copy("crashed", "f");
        pid_t child = start_child();
        if (!child) {
            pz_file *f;
            on_call = die;
            _exit(open_with("f", LAYOUT, &f));
        }
        CHECK(waitpid(child, &status, 0) == child);
        pz_file *f = opened("f");
        SAME(pz_mutex_trylock(mutex(f, OWNED)), EOWNERDEAD);
        pz_close(f);
    }
    SAME(status, 0);
    CHECK(last_call > 8);
}

/* Many open a file of another boot at once: each succeeds, and none takes the others' mutexes. */
static void many_takers(void)
{
    enum { TAKERS = 8, ROUNDS = 10 };
    crash("crashed");
    boot("the second boot");
    for (int round = 0; round < ROUNDS; round++) {
        _Atomic int *begin = shared(sizeof *begin);
        pid_t children[TAKERS];
        copy("crashed", "f");
        for (int i = 0; i < TAKERS; i++)
            if (!(children[i] = start_child())) {
                while (!*begin)
                    continue;
                pz_file *f = opened("f");
                for (int n = 0; n < 200; n++) {
                    int r = pz_mutex_lock(mutex(f, OWNED));
                    if (r)
                        SAME(r, EOWNERDEAD);
                    *(volatile long *)pz_data(f) += r ? 1000000 : 1;
                    SAME(r ? pz_mutex_consistent(mutex(f, OWNED)) : 0, 0);
                    SAME(pz_mutex_unlock(mutex(f, OWNED)), 0);
                }
                _exit(0);
            }
        *begin = 1;
        for (int i = 0; i < TAKERS; i++)
            ends_well(children[i]);
        pz_file *f = opened("f");
        SAME(*(long *)pz_data(f), 42 + 1000000 + TAKERS * 200 - 1);
        pz_close(f);
    }
}

/* A process that may only read the file has its locks. A file that is ready is opened anyway. */
static void a_reader_with_the_locks(void)
{
    pz_close(opened("f"));
    int fd = open("f", O_RDONLY);
    struct flock all = {.l_type = F_RDLCK, .l_whence = SEEK_SET};
    CHECK(fd >= 0 && fcntl(fd, F_OFD_SETLK, &all) == 0);
    pz_file *f = opened("f");
    SAME(pz_mutex_lock(mutex(f, FREE)), 0);
}

/* ---- PID namespaces. */

static _Atomic int *step;

/* The first process of another PID namespace. */
static _Noreturn void in_other_namespace(void)
{
    pz_file *f, *left;
    prctl(PR_SET_PDEATHSIG, SIGKILL); /* getppid(2) is 0 here */
    alarm(limit());
    SAME(open_with("f", LAYOUT, &f), EBUSY);
    *step = 1;
    wait_for(step, 2); /* nobody else uses the files any more */
    f = opened("f");
    SAME(pz_mutex_lock(mutex(f, OWNED)), EOWNERDEAD);
    left = opened("left");
    SAME(pz_mutex_trylock(mutex(left, OWNED)), EOWNERDEAD);
    *step = 3;
    wait_for(step, 4);
    _exit(0);
}

/* A file is refused as long as a process of another namespace has it open. Afterwards each owner is dead. */
static void a_pid_namespace(void)
{
    pz_file *f;
    step = shared(sizeof *step);
    pid_t user = start("f", owns), other;
    copy("f", "left"); /* as if Linux hadn't marked it */
    if (unshare(CLONE_NEWPID) < 0)
        not_tried("PID namespaces, as unshare(2) is refused");
    fflush(NULL);
    CHECK((other = fork()) >= 0);
    if (other == 0)
        in_other_namespace();
    while (*step != 1 && !waitpid(other, NULL, WNOHANG))
        usleep(100);
    SAME(*step, 1);
    kill_child(user);
    *step = 2;
    while (*step != 3 && !waitpid(other, NULL, WNOHANG))
        usleep(100);
    SAME(*step, 3);
    SAME(open_with("f", LAYOUT, &f), EBUSY);
    *step = 4;
    ends_well(other);
    opened("f");
}

int main(int argc, char **argv)
{
    static const struct one_case cases[] = {
        {"a_reboot", a_reboot},
        {"its_words", its_words},
        {"in_use", in_use},
        {"killed_takers", killed_takers},
        {"many_takers", many_takers},
        {"a_reader_with_the_locks", a_reader_with_the_locks},
        {"a_pid_namespace", a_pid_namespace},
    };
    return RUN_CASES(argc, argv, cases);
}
