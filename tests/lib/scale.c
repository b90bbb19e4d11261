/* Many processes on one mutex: each gets it some times, and half of them are killed meanwhile.
 *
 *   scale PROCESSES TIMES */
#include "../check.h"
#include <pazdrig.h>
#include <stdatomic.h>

static struct {
    pz_mutex mutex;
    _Atomic int ready, go;
    volatile long a, b;
} * all;

_Noreturn static void be_process(int times)
{
    atomic_fetch_add(&all->ready, 1);
    while (!all->go)
        nap(2000);
    for (int k = 0; k < times; k++) {
        int r = pz_mutex_lock(&all->mutex);
        if (r == EOWNERDEAD)
            all->a = all->b, r = pz_mutex_consistent(&all->mutex);
        if (r || all->a != all->b)
            _exit(1);
        all->a++;
        all->b++;
        if (pz_mutex_unlock(&all->mutex))
            _exit(2);
    }
    _exit(0);
}

int main(int argc, char **argv)
{
    int processes = argc > 1 ? atoi(argv[1]) : 1000, times = argc > 2 ? atoi(argv[2]) : 20;
    pid_t *pid = calloc((size_t)processes, sizeof *pid);
    long killed = 0;
    begin_checks(600);
    all = shared_memory(sizeof *all);
    seed_random(1);
    for (int i = 0; i < processes; i++)
        if ((pid[i] = start_child()) == 0)
            be_process(times);
    while (all->ready < processes)
        nap(1000);
    all->go = 1;
    for (int i = 0; i < processes; i += 2) {
        spin(a_random(3000));
        kill(pid[i], SIGKILL);
    }
    for (int i = 0; i < processes; i++) {
        int status = status_of(pid[i]);
        killed += status == -SIGKILL;
        CHECK(status == 0 || (status == -SIGKILL && i % 2 == 0));
    }
    CHECK(all->a >= (long)(processes / 2) * times);
    printf("%d processes: %ld killed, %ld times locked\n", processes, killed, all->a);
    return end_checks();
}
