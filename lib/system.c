/* Which system this is: a boot, and a PID namespace. What its end leaves of mutexes. */
#include "cell.h"
#include "file.h"
#include <errno.h>
#include <fcntl.h>
#include <string.h>
#include <sys/stat.h>
#include <unistd.h>
#ifdef PZ_TEST_BOOT
#include <stdlib.h>
#endif

/* Reads the id of this boot. If it can't be read, the file isn't opened: taking the boot for a new one would declare
 * living owners dead. */
static int read_boot(char id[40])
{
#ifdef PZ_TEST_BOOT
    if (getenv("PZ_BOOT")) {
        strncpy(id, getenv("PZ_BOOT"), 39);
        return 0;
    }
#endif
    int fd = open("/proc/sys/kernel/random/boot_id", O_RDONLY | O_CLOEXEC);
    if (fd < 0)
        return errno;
    ssize_t n = read(fd, id, 36);
    int error = n == 36 ? 0 : n < 0 ? errno : EIO;
    close(fd);
    return error;
}

int pz_this_system(struct pz_system *s)
{
    struct stat st;
    memset(s, 0, sizeof *s);
    if (stat("/proc/self/ns/pid", &st) < 0)
        return errno;
    s->pid_namespace[0] = st.st_dev;
    s->pid_namespace[1] = st.st_ino;
    return read_boot(s->boot);
}

/* Keeps the turn, since an unlock compares turns. An unusable mutex stays unusable. */
static void mark_dead(pz_mutex *m)
{
    pz_word *words = (pz_word *)m->words;
    uint64_t cell = load_relaxed(words);
    if (cell & OWNER)
        cell |= OWNER_DIED;
    store_release(words, cell & ~(OWNER | WAITERS));
    for (int hints_and_slot = 1; hints_and_slot <= 2; hints_and_slot++)
        store_release(words + hints_and_slot, 0);
}

/* A reader-writer lock's gate, and its lanes, which follow its own words. */
static void mark_all_lanes_dead(pz_rwlock *l, unsigned lanes)
{
    mark_dead(&l->gate);
    for (unsigned i = 0; i < lanes; i++)
        mark_dead((pz_mutex *)(l + 1) + i);
}

void pz_mark_all_dead(char *mapped, const struct pz_parts *p, const struct pz_layout *l)
{
    pz_mutex *m = (pz_mutex *)(mapped + PZ_MUTEXES_AT);
    pz_cond *c = (pz_cond *)(mapped + p->conds);
    for (unsigned i = 0; i < l->mutexes; i++)
        mark_dead(&m[i]);
    for (size_t i = 0; i < l->rwlocks; i++)
        mark_all_lanes_dead((pz_rwlock *)(mapped + p->rwlocks + i * PZ_RWLOCK_SIZE(l->lanes)), l->lanes);
    for (unsigned i = 0; i < l->conds; i++)
        c[i].words[0] = (uint32_t)c[i].words[0]; /* the counter, without the bit that says that somebody may wait */
}
