/* Whether this kernel does what the library needs of it: the walk of a dead thread wakes a sleeper at a pending entry
 * whose word has no owner, but WAITERS. Kernels have that since the end of 2022, and stable series got it too. The
 * change is called "futex: Resend potentially swallowed owner death notification". Without it, threads sleep on if an
 * owner is killed between its unlock's release and its wake. */
#include "../check.h"
#include <linux/futex.h>
#include <stdatomic.h>

static struct {
    _Atomic uint32_t word;
    _Atomic int ready;
    uint64_t entry[2];
} * all;

static pid_t add_sleeper(void)
{
    pid_t p = start_child();
    if (p == 0) {
        long r = syscall(SYS_futex, &all->word, FUTEX_WAIT, FUTEX_WAITERS, NULL, NULL, 0);
        _exit(r == 0 ? 0 : 1);
    }
    until_asleep(p);
    return p;
}
/* Dies with the word's entry pending, as an unlock does after its release. */
static void die_with_it_pending(void)
{
    pid_t p = start_child();
    if (p == 0) {
        static struct robust_list_head head;
        head.list.next = &head.list;
        head.futex_offset = (long)((char *)&all->word - (char *)all->entry);
        head.list_op_pending = (struct robust_list *)all->entry;
        _exit(syscall(SYS_set_robust_list, &head, sizeof head) != 0);
    }
    EQUAL(status_of(p), 0);
}

int main(void)
{
    begin_checks(300);
    all = shared_memory(sizeof *all);
    all->word = FUTEX_WAITERS;
    pid_t sleeper = add_sleeper();
    die_with_it_pending(); /* its walk is over before its parent learns of its end */
    long woken = syscall(SYS_futex, &all->word, FUTEX_WAKE, 1, NULL, NULL, 0);
    if (woken) {
        fprintf(
            stderr,
            "This kernel lacks a change of the end of 2022, \"futex: Resend potentially swallowed owner death\n"
            "notification\" (6.1.2, 5.15.86, 5.10.163 and later have it): when a thread is killed while it unlocks\n"
            "a mutex, the threads that sleep on it may sleep on until somebody else locks it. Use another kernel.\n");
        CHECK(!"the walk wakes a sleeper at a pending word without an owner");
    }
    EQUAL(status_of(sleeper), 0);
    return end_checks();
}
