/* Calls one after the other, by processes in turn. The reply of one of them shows what a wrong library (wrong.c) does
 * wrong. usage: turns FILE */
#include "shared.h"
#include <time.h>

static pthread_mutex_t *m;
static const struct timespec past = {0};

static void another_tries(int has_limit, int then_dies)
{
    pid_t it = a_child();
    if (!it) {
        has_limit ? pthread_mutex_timedlock(m, &past) : pthread_mutex_trylock(m);
        if (then_dies)
            die();
        _exit(0);
    }
    until_dead(it);
}

int main(int argc, char **argv)
{
    CHECK(argc == 2);
    m = mapped(argv[1], 4096, NULL);
    make(m, PTHREAD_MUTEX_ERRORCHECK);
    pthread_mutex_lock(m);
    another_tries(0, 0);
    pthread_mutex_unlock(m);
    another_tries(0, 1);
    pthread_mutex_lock(m);
    pthread_mutex_consistent(m);
    pthread_mutex_unlock(m);
    pthread_mutex_lock(m);
    another_tries(1, 0);
    pthread_mutex_unlock(m);
    another_tries(0, 1);
    pthread_mutex_timedlock(m, &past);
    pthread_mutex_consistent(m);
    pthread_mutex_unlock(m);
    pthread_mutex_timedlock(m, &past);
    pthread_mutex_unlock(m);
    return 0;
}
