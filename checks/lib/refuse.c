/* A library for LD_PRELOAD that refuses one call of a program: its Nth allocation, read, write or start of a thread.

   REFUSE_IN     the program's file name: others, as the one that starts it, are left alone
   REFUSE_WHAT   allocation, read, write or thread
   REFUSE_NTH    which one, from 1 on
   REFUSE_TOLD   a file that is made once the call was refused: where it isn't made, the program has no Nth such call */
#define _GNU_SOURCE
#include <dlfcn.h>
#include <errno.h>
#include <fcntl.h>
#include <pthread.h>
#include <stdatomic.h>
#include <stdlib.h>
#include <string.h>
#include <sys/syscall.h>
#include <sys/uio.h>
#include <unistd.h>

enum what { NOTHING, ALLOCATION, READ, WRITE, THREAD };

static const char *const names[] = {"", "allocation", "read", "write", "thread"};
static enum what refused;
static atomic_long left;
static const char *told;

extern void *__libc_malloc(size_t);
extern void *__libc_calloc(size_t, size_t);
extern void *__libc_realloc(void *, size_t);

__attribute__((constructor)) static void begin(void)
{
    const char *program = getenv("REFUSE_IN"), *word = getenv("REFUSE_WHAT"), *nth = getenv("REFUSE_NTH");
    if (!program || !word || !nth || strcmp(program, program_invocation_short_name) != 0)
        return;
    told = getenv("REFUSE_TOLD");
    atomic_store(&left, atol(nth));
    for (enum what it = ALLOCATION; it <= THREAD; it++)
        if (strcmp(word, names[it]) == 0)
            refused = it;
}

static int is_refused(enum what it, int error)
{
    if (it != refused || atomic_fetch_sub(&left, 1) != 1)
        return 0;
    if (told) {
        long file = syscall(SYS_openat, AT_FDCWD, told, O_CREAT | O_WRONLY, 0600);
        syscall(SYS_close, file);
    }
    errno = error;
    return 1;
}

void *malloc(size_t size) { return is_refused(ALLOCATION, ENOMEM) ? NULL : __libc_malloc(size); }

void *calloc(size_t count, size_t size) { return is_refused(ALLOCATION, ENOMEM) ? NULL : __libc_calloc(count, size); }

void *realloc(void *kept, size_t size) { return is_refused(ALLOCATION, ENOMEM) ? NULL : __libc_realloc(kept, size); }

ssize_t read(int file, void *to, size_t size) { return is_refused(READ, EIO) ? -1 : syscall(SYS_read, file, to, size); }

ssize_t write(int file, const void *from, size_t size)
{
    return is_refused(WRITE, EIO) ? -1 : syscall(SYS_write, file, from, size);
}

ssize_t writev(int file, const struct iovec *parts, int count)
{
    return is_refused(WRITE, EIO) ? -1 : syscall(SYS_writev, file, parts, count);
}

int pthread_create(pthread_t *thread, const pthread_attr_t *how, void *(*start)(void *), void *with)
{
    static int (*real)(pthread_t *, const pthread_attr_t *, void *(*)(void *), void *);
    if (!real)
        real =
            (int (*)(pthread_t *, const pthread_attr_t *, void *(*)(void *), void *))dlsym(RTLD_NEXT, "pthread_create");
    return is_refused(THREAD, EAGAIN) ? EAGAIN : real(thread, how, start, with);
}
