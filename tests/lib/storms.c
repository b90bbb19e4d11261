/* The parent of a storm's processes: starts, stops, continues and kills them, and sees whether they still move. storm.c
 * says what they do, and what the arguments are. */
#include "storm.h"

enum { FILE_DESCRIPTOR = 100 };
static char **arguments;
static pid_t pid[PROCESSES + 1];

struct shared *map_elsewhere(struct shared *old)
{
    size_t size = sizeof(struct shared), pad = (1 + a_random(64)) * 4096;
    void *hole = mmap(NULL, pad, PROT_NONE, MAP_PRIVATE | MAP_ANONYMOUS, -1, 0);
    void *p = mmap(NULL, size, PROT_READ | PROT_WRITE, MAP_SHARED, FILE_DESCRIPTOR, 0);
    if (p == MAP_FAILED || hole == MAP_FAILED)
        _exit(8);
    munmap(hole, pad);
    if (old)
        munmap(old, size);
    return p;
}
void execute_again(int number)
{
    char text[16];
    signal(SIGALRM, SIG_IGN); /* the timer goes on, but not the handler */
    snprintf(text, sizeof text, "%d", number);
    setenv("STORM_PROCESS", text, 1);
    execv("/proc/self/exe", arguments);
    _exit(8);
}
static void read_options(int argc, char **argv)
{
    const char *flags = argc > 5 ? argv[5] : "";
    opt.kills = atol(argv[1]), opt.processes = atoi(argv[2]), opt.threads = atoi(argv[3]), opt.mutexes = atoi(argv[4]);
    opt.conds = !!strchr(flags, 'c'), opt.libcs = !!strchr(flags, 'l'), opt.interrupts = !!strchr(flags, 's');
    opt.spoils = !!strchr(flags, 'u'), opt.ends = !!strchr(flags, 'e'), opt.stops = !!strchr(flags, 't');
    if (opt.processes > PROCESSES || opt.threads > THREADS || opt.mutexes > MUTEXES || opt.threads < 1)
        exit(2);
}
static void make_file(void)
{
    pthread_mutexattr_t a;
    int fd = memfd_create("storm", 0);
    if (fd < 0 || ftruncate(fd, sizeof(struct shared)) || dup2(fd, FILE_DESCRIPTOR) < 0)
        exit(8);
    close(fd);
    all = map_elsewhere(NULL);
    pthread_mutexattr_init(&a);
    pthread_mutexattr_setpshared(&a, PTHREAD_PROCESS_SHARED);
    pthread_mutexattr_setrobust(&a, PTHREAD_MUTEX_ROBUST);
    for (int k = 0; k < 2; k++)
        pthread_mutex_init(&all->libc[k], &a);
}

/* ---- Progress. */

static long progress(void)
{
    long sum = 0;
    for (int i = 0; i <= opt.processes; i++)
        sum += all->progress[i];
    return sum;
}
static void show(void)
{
    for (int i = 0; i < opt.mutexes; i++)
        fprintf(stderr, "mutex %d: cell %llx hints %llx slot %llx, count %llx, owner %d, tokens %ld\n", i,
                (unsigned long long)all->mutex[i].words[0], (unsigned long long)all->mutex[i].words[1],
                (unsigned long long)all->mutex[i].words[2], (unsigned long long)all->cond[i].words[0],
                all->data[i].owner, all->data[i].tokens);
}
static void stands_still(const char *when)
{
    fprintf(stderr, "nothing moves %s\n", when);
    show();
    if (getenv("STORM_STAYS"))
        pause();
    for (int i = 0; i <= opt.processes; i++)
        if (pid[i])
            kill(pid[i], SIGKILL);
    exit(3);
}
static void see_progress(void)
{
    static long last = -1;
    static time_t since;
    struct timespec now;
    clock_gettime(CLOCK_MONOTONIC, &now);
    long sum = progress();
    if (sum != last)
        last = sum, since = now.tv_sec;
    else if (now.tv_sec - since > (time_t)patience())
        stands_still("amid the storm");
}

/* ---- Processes. */

static void start(int i)
{
    pid[i] = start_child();
    if (pid[i] == 0)
        be_process(i);
}
static void ended(int i, int status)
{
    if (WIFEXITED(status) && WEXITSTATUS(status) == 0) {
        atomic_fetch_add(&all->ends, 1);
    } else if (!WIFSIGNALED(status) || WTERMSIG(status) != SIGKILL) {
        fprintf(stderr, "process %d ended with %x\n", i, status);
        show();
        exit(1);
    }
    pid[i] = 0;
}
/* Looks for processes that ended, and starts them again. */
static void replace(void)
{
    int status;
    for (int i = 0; i <= opt.processes; i++)
        if (pid[i] && waitpid(pid[i], &status, WNOHANG) == pid[i]) {
            ended(i, status);
            start(i);
        }
}
static void kill_one(void)
{
    int i = (int)a_random((unsigned)opt.processes), status;
    if (chance(250))
        nap(a_random(300));
    else
        spin(a_random(30000));
    if (opt.stops && chance(100)) {
        int other = (int)a_random((unsigned)opt.processes);
        kill(pid[other], SIGSTOP);
        nap(a_random(2000));
        kill(pid[other], SIGCONT);
    }
    kill(pid[i], SIGKILL);
    if (waitpid(pid[i], &status, 0) != pid[i])
        exit(8);
    ended(i, status);
    start(i);
}
/* All threads have to come to their end. Broadcasts end the waits for tokens. */
static void end_storm(void)
{
    atomic_store(&all->stop, 1);
    for (int waited = 0, left = 1; left; waited++) {
        left = 0;
        for (int i = 0; opt.conds && i < opt.mutexes; i++) {
            int r = pz_mutex_trylock(&all->mutex[i]);
            if (r == EOWNERDEAD)
                r = pz_mutex_consistent(&all->mutex[i]), all->data[i].a = all->data[i].b, all->data[i].owner = 0;
            if (r == 0)
                pz_cond_broadcast(&all->cond[i], &all->mutex[i]), pz_mutex_unlock(&all->mutex[i]);
            else if (r == ENOTRECOVERABLE)
                pz_mutex_reinit(&all->mutex[i]);
        }
        for (int i = 0, status; i <= opt.processes; i++) {
            if (pid[i] && waitpid(pid[i], &status, WNOHANG) == pid[i])
                ended(i, status);
            left += pid[i] != 0;
        }
        if (waited > (int)patience() * 200)
            stands_still("at the end");
        nap(left ? 5000 : 0);
    }
}
static void check_end(void)
{
    for (int i = 0; i < opt.mutexes; i++) {
        int r = pz_mutex_trylock(&all->mutex[i]);
        if (r == ENOTRECOVERABLE && opt.spoils)
            r = pz_mutex_reinit(&all->mutex[i]) ? -1 : pz_mutex_trylock(&all->mutex[i]);
        if (r == EOWNERDEAD)
            r = pz_mutex_consistent(&all->mutex[i]);
        EQUAL(r, 0);
        EQUAL(pz_mutex_unlock(&all->mutex[i]), 0);
        EQUAL(pz_mutex_owner(&all->mutex[i]), 0);
        uint64_t slot = all->mutex[i].words[2];
        EQUAL(slot & 0x3fffffff, 0);                  /* nobody has the slot, */
        CHECK(!(slot >> 32 & 1) || (slot >> 30 & 1)); /* and nobody but a dead heir has left AWAKE there */
    }
}

int main(int argc, char **argv)
{
    if (argc < 5)
        return 2;
    arguments = argv;
    seed_random(1);
    read_options(argc, argv);
    if (getenv("STORM_PROCESS")) {
        prctl(PR_SET_PDEATHSIG, SIGKILL);
        be_process(atoi(getenv("STORM_PROCESS")));
    }
    make_file();
    for (int i = 0; i <= opt.processes; i++)
        start(i);
    for (long k = 0; k < opt.kills; k++) {
        kill_one();
        if (opt.ends || k % 64 == 0)
            replace();
        if (k % 64 == 0)
            see_progress();
    }
    end_storm();
    check_end();
    printf(
        "%ld kills, %d processes of %d threads, %d mutexes %s: %ld rounds, EOWNERDEAD %ld, EBUSY %ld, ETIMEDOUT %ld, "
        "ENOTRECOVERABLE %ld, %ld ended, %ld executed\n",
        opt.kills, opt.processes, opt.threads, opt.mutexes, argc > 5 ? argv[5] : "", progress(), (long)all->told,
        (long)all->busy, (long)all->late, (long)all->unusable, (long)all->ends, (long)all->execs);
    return end_checks();
}
