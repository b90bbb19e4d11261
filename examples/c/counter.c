/* counter.c: a count and its copy in memory that processes share */
#include <errno.h>
#include <fcntl.h>
#include <pazdrig.h>
#include <stdio.h>
#include <sys/mman.h>
#include <unistd.h>
struct counter { pz_mutex lock; volatile long count, copy; };   /* zeros are ready to use; volatile: stored in order */

int main(int argc, char **argv)
{
    int r, fd = open(argc > 1 ? argv[1] : "/dev/shm/counter", O_RDWR | O_CREAT, 0600);
    if (ftruncate(fd, sizeof(struct counter))) return perror("counter"), 1;
    struct counter *c = mmap(NULL, sizeof *c, PROT_READ | PROT_WRITE, MAP_SHARED, fd, 0);
    if ((r = pz_mutex_lock(&c->lock)) == EOWNERDEAD) {  /* its owner was killed: repair, */
        c->copy = c->count;
        r = pz_mutex_consistent(&c->lock);              /* and say so before you unlock */
    }
    if (r) return fprintf(stderr, "counter: %s\n", pz_strerror("pz_mutex_lock", r)), 1;
    c->count++;
    if (argc > 2) pause();                              /* be killed here */
    c->copy++;
    printf("%ld and %ld\n", c->count, c->copy);
    return pz_mutex_unlock(&c->lock);
}
