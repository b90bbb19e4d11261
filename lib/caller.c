#include "caller.h"
#include "cell.h"
#include <linux/futex.h>
#include <stddef.h>
#include <sys/mman.h>

enum { FIRST_PAUSE = 20000 };

_Thread_local struct caller pz_caller = {.life = NEW_THREAD};
static pz_word no_life = NO_LIFE;
pz_word *_Atomic pz_life = &no_life;

/* Returns the page with this process's life, or NULL: the kernel has no MADV_WIPEONFORK, or no memory. */
static pz_word *life_page(void)
{
    pz_word *known = atomic_load(&pz_life);
    if (known != &no_life)
        return known;
    void *page = mmap(NULL, 4096, PROT_READ | PROT_WRITE, MAP_PRIVATE | MAP_ANONYMOUS, -1, 0);
    if (page == MAP_FAILED)
        return NULL;
    if (madvise(page, 4096, MADV_WIPEONFORK) == 0 && atomic_compare_exchange_strong(&pz_life, &known, page))
        return page;
    munmap(page, 4096);
    return known != &no_life ? known : NULL;
}

/* Returns the head of the list that the kernel will walk when this thread ends, or NULL. A child of a raw clone(2) has
 * none; its copy of the parent's memory still names the head, so it is registered again, empty. */
static pz_word *list_head(pz_word *known)
{
    struct robust_list_head *head = NULL;
    size_t size = 0;
    if (syscall(SYS_get_robust_list, 0, &head, &size))
        return NULL;
    if (!head && known) {
        head = (struct robust_list_head *)known;
        head->list.next = &head->list;
        head->list_op_pending = NULL;
        if (syscall(SYS_set_robust_list, head, sizeof *head))
            return NULL;
    }
    return head && head->futex_offset == FUTEX_OFFSET ? (pz_word *)head : NULL;
}

__attribute__((cold)) struct caller *pz_ask(void)
{
    struct caller *s = &pz_caller;
    int saved = errno;
    pz_word *page = life_page(), *head = page ? list_head(s->list) : NULL;
    if (head) {
        uint64_t tid = (uint64_t)syscall(SYS_gettid), none = 0, life = (now_ns() ^ tid << 40) + NO_LIFE + 1;
        if (!compare_exchange(page, &none, life))
            life = none;
        *s = (struct caller){
            .life = life, .tid = tid, .list = head, .pause = FIRST_PAUSE, .lane = (uint32_t)tid};
    }
    errno = saved;
    return head ? s : NULL;
}
