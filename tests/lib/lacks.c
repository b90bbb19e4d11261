/* Whether each call returns ENOTSUP, does nothing, and leaves errno alone, if the kernel or the C library lacks
 * something: here a seccomp filter refuses a system call. */
#include "../check.h"
#include <linux/filter.h>
#include <linux/futex.h>
#include <linux/seccomp.h>
#include <pazdrig.h>
#include <stddef.h>
#include <stdlib.h>

static struct {
    pz_mutex mutex;
    pz_cond cond;
} * all;

/* From now on, `call` returns EINVAL if its third argument is `third`, or whatever that is. */
static int refuse(unsigned call, int any, unsigned third)
{
    struct sock_filter code[] = {
        BPF_STMT(BPF_LD | BPF_W | BPF_ABS, offsetof(struct seccomp_data, nr)),
        BPF_JUMP(BPF_JMP | BPF_JEQ | BPF_K, call, 0, any ? 1 : 3),
        BPF_STMT(BPF_LD | BPF_W | BPF_ABS, offsetof(struct seccomp_data, args[2])),
        BPF_JUMP(BPF_JMP | BPF_JEQ | BPF_K, third, 0, 1),
        BPF_STMT(BPF_RET | BPF_K, SECCOMP_RET_ERRNO | EINVAL),
        BPF_STMT(BPF_RET | BPF_K, SECCOMP_RET_ALLOW),
    };
    if (any) {
        code[1] = (struct sock_filter)BPF_JUMP(BPF_JMP | BPF_JEQ | BPF_K, call, 0, 1);
        code[2] = code[4];
        code[3] = code[5];
    }
    struct sock_fprog program = {any ? 4 : 6, code};
    return prctl(PR_SET_NO_NEW_PRIVS, 1, 0, 0, 0) || prctl(PR_SET_SECCOMP, SECCOMP_MODE_FILTER, &program);
}
static int all_calls_refuse(void)
{
    struct timespec past = {1, 0};
    int replies[] = {
        pz_mutex_lock(&all->mutex),
        pz_mutex_trylock(&all->mutex),
        pz_mutex_timedlock(&all->mutex, &past),
        pz_mutex_clocklock(&all->mutex, CLOCK_MONOTONIC, &past),
        pz_mutex_unlock(&all->mutex),
        pz_mutex_consistent(&all->mutex),
        pz_mutex_reinit(&all->mutex),
        pz_cond_wait(&all->cond, &all->mutex),
        pz_cond_timedwait(&all->cond, &all->mutex, &past),
        pz_cond_clockwait(&all->cond, &all->mutex, CLOCK_MONOTONIC, &past),
        pz_cond_signal(&all->cond, &all->mutex),
        pz_cond_broadcast(&all->cond, &all->mutex),
    };
    for (size_t i = 0; i < sizeof replies / sizeof *replies; i++)
        if (replies[i] != ENOTSUP)
            return (int)i + 1;
    return 0;
}
static void refused(unsigned call, int any, unsigned third)
{
    pid_t p = start_child();
    if (p == 0) {
        if (refuse(call, any, third))
            _exit(90); /* no seccomp here */
        errno = 77;
        int r = all_calls_refuse();
        _exit(r ? r : errno == 77 ? 0 : 91);
    }
    int status = status_of(p);
    if (status == 90)
        printf("this system allows no seccomp filters: not tried\n");
    else
        EQUAL(status, 0);
    EQUAL(all->mutex.words[0] | all->mutex.words[1] | all->mutex.words[2] | all->cond.words[0], 0);
}

/* A C library that registers a list with another futex offset, as musl does. */
static void another_offset(void)
{
    pid_t p = start_child();
    if (p == 0) {
        static struct robust_list_head head;
        head.list.next = &head.list;
        head.futex_offset = -28;
        syscall(SYS_set_robust_list, &head, sizeof head);
        _exit(all_calls_refuse());
    }
    EQUAL(status_of(p), 0);
}

int main(void)
{
    begin_checks(100);
    all = shared_memory(sizeof *all);
    refused(SYS_get_robust_list, 1, 0);
    refused(SYS_madvise, 0, MADV_WIPEONFORK);
    another_offset();
    EQUAL(pz_mutex_lock(&all->mutex), 0); /* in this process nothing is refused */
    EQUAL(pz_mutex_unlock(&all->mutex), 0);
    return end_checks();
}
