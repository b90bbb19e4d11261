/* One list for the library's mutexes, the C library's robust ones, and those with priority inheritance: processes lock
 * and unlock them at random, and end in three ways. The library is loaded in front. usage: lists [ROUNDS] */
#include "robust.h"

enum { EACH = 32 };
static struct shared {
    pthread_mutex_t m[EACH], private[EACH], inheriting[EACH];
    int held[3][EACH];
} * s;

static pthread_mutex_t *of_kind(int kind, int i)
{
    return kind == 0 ? &s->m[i] : kind == 1 ? &s->private[i] : &s->inheriting[i];
}

static void use_at_random(unsigned seed, int how)
{
    long wanted = 0;
    srand(seed);
    for (int n = rand() % 300; n > 0; n--) {
        int kind = rand() % 3, i = rand() % EACH, held = s->held[kind][i];
        int r = held ? pthread_mutex_unlock(of_kind(kind, i)) : pthread_mutex_lock(of_kind(kind, i));
        s->held[kind][i] = !held;
        wanted += held ? -1 : 1;
        if (r || entries() != wanted)
            _exit(1);
    }
    if (how == 0)
        kill(getpid(), SIGKILL);
    if (how == 1)
        execl("/bin/true", "true", (char *)NULL);
    _exit(0);
}

static void mixed(int rounds)
{
    pthread_mutexattr_t a;
    pthread_mutexattr_init(&a);
    pthread_mutexattr_setrobust(&a, PTHREAD_MUTEX_ROBUST);
    for (int i = 0; i < EACH; i++) {
        init_robust(&s->m[i], PTHREAD_MUTEX_NORMAL);
        pthread_mutex_init(&s->private[i], &a); /* robust and not process-shared: the C library's */
    }
    pthread_mutexattr_setpshared(&a, PTHREAD_PROCESS_SHARED);
    pthread_mutexattr_setprotocol(&a, PTHREAD_PRIO_INHERIT);
    for (int i = 0; i < EACH; i++)
        pthread_mutex_init(&s->inheriting[i], &a);
    CHECK(is_robust(&s->m[0]) && !is_robust(&s->private[0]) && !is_robust(&s->inheriting[0]));
    srand(5);
    for (int round = 0; round < rounds; round++) {
        unsigned seed = (unsigned)rand();
        memset(s->held, 0, sizeof s->held);
        pid_t p = start_child();
        if (!p)
            use_at_random(seed, round % 3);
        EQUAL(status_of(p), round % 3 == 0 ? -SIGKILL : 0);
        for (int k = 0; k < 3 * EACH; k++)
            EQUAL(pass(of_kind(k / EACH, k % EACH)), s->held[k / EACH][k % EACH] ? EOWNERDEAD : 0);
    }
}

int main(int argc, char **argv)
{
    begin_checks(900);
    s = shared_memory(sizeof *s);
    mixed(argc > 1 ? atoi(argv[1]) : 1000);
    return end_checks();
}
