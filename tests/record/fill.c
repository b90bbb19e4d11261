/* Two processes that lock and unlock until long after a small recording is full. usage: fill FILE PAIRS */
#include "shared.h"

int main(int argc, char **argv)
{
    CHECK(argc == 3);
    pthread_mutex_t *m = mapped(argv[1], 4096, NULL);
    long pairs = atol(argv[2]);
    make(m, PTHREAD_MUTEX_NORMAL);
    pid_t it = a_child();
    for (long i = 0; i < pairs; i++)
        CHECK(pthread_mutex_lock(m) == 0 && pthread_mutex_unlock(m) == 0);
    if (!it)
        die();
    until_dead(it);
    return 0;
}
