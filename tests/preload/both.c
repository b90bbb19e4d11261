/* One thread with libpazdrig's own mutexes and robust pthread_mutex_t of the library in front: both are in one list,
 * and a death marks both. usage: both [ROUNDS] */
#include "robust.h"
#include <pazdrig.h>

enum { EACH = 16 };
static struct shared {
    pz_mutex own[EACH];
    pthread_mutex_t robust[EACH];
    int held[2][EACH];
} * s;

static int lock(int kind, int i) { return kind ? pthread_mutex_lock(&s->robust[i]) : pz_mutex_lock(&s->own[i]); }
static int unlock(int kind, int i) { return kind ? pthread_mutex_unlock(&s->robust[i]) : pz_mutex_unlock(&s->own[i]); }
static int consistent(int kind, int i)
{
    return kind ? pthread_mutex_consistent(&s->robust[i]) : pz_mutex_consistent(&s->own[i]);
}

static _Noreturn void use_at_random(unsigned seed)
{
    long wanted = 0;
    srand(seed);
    for (int n = rand() % 200; n > 0; n--) {
        int kind = rand() % 2, i = rand() % EACH, held = s->held[kind][i];
        int r = held ? unlock(kind, i) : lock(kind, i);
        s->held[kind][i] = !held;
        wanted += held ? -1 : 1;
        if (r || entries() != wanted)
            _exit(1);
    }
    kill(getpid(), SIGKILL);
    _exit(2);
}

int main(int argc, char **argv)
{
    begin_checks(900);
    s = shared_memory(sizeof *s);
    for (int i = 0; i < EACH; i++)
        EQUAL(init_robust(&s->robust[i], PTHREAD_MUTEX_NORMAL), 0);
    CHECK(is_robust(&s->robust[0]));
    for (int round = argc > 1 ? atoi(argv[1]) : 500; round > 0; round--) {
        memset(s->held, 0, sizeof s->held);
        pid_t p = start_child();
        if (!p)
            use_at_random((unsigned)round);
        EQUAL(status_of(p), -SIGKILL);
        for (int k = 0; k < 2 * EACH; k++) {
            int kind = k / EACH, i = k % EACH, r = lock(kind, i);
            EQUAL(r, s->held[kind][i] ? EOWNERDEAD : 0);
            if (r == EOWNERDEAD)
                EQUAL(consistent(kind, i), 0);
            EQUAL(unlock(kind, i), 0);
        }
    }
    return end_checks();
}
