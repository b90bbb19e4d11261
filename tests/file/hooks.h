/* The system calls of an open, as the library finds them in this program: before each one, a process can be killed,
 * stopped or interrupted. */
#ifndef HOOKS_H
#define HOOKS_H
#include "cases.h"
#include <stdarg.h>
#include <sys/syscall.h>

/* Called before each system call; NULL: nothing happens. Calls are counted from 1. */
static void (*on_call)(int number, const char *name);
static int calls;

static inline void hook(const char *name)
{
    if (on_call)
        on_call(++calls, name);
}

/* A handler interrupts this many allocations, each of which the kernel undoes. */
static int interrupted_parts;

int posix_fallocate(int fd, off_t at, off_t size)
{
    hook(__func__);
    if (interrupted_parts && interrupted_parts--)
        return EINTR;
    return fallocate(fd, 0, at, size) < 0 ? errno : 0;
}
int ftruncate(int fd, off_t size)
{
    hook(__func__);
    return (int)syscall(SYS_ftruncate, fd, size);
}
ssize_t pwrite(int fd, const void *from, size_t n, off_t at)
{
    hook(__func__);
    return syscall(SYS_pwrite64, fd, from, n, at);
}
ssize_t pread(int fd, void *to, size_t n, off_t at)
{
    hook(__func__);
    return syscall(SYS_pread64, fd, to, n, at);
}
void *mmap(void *at, size_t size, int protection, int flags, int fd, off_t offset)
{
    if (fd >= 0)
        hook(__func__);
    return (void *)syscall(SYS_mmap, at, size, protection, flags, fd, offset);
}
int fcntl(int fd, int command, ...)
{
    va_list rest;
    va_start(rest, command);
    void *with = va_arg(rest, void *);
    va_end(rest);
    hook(__func__);
    return (int)syscall(SYS_fcntl, fd, command, with);
}
int close(int fd)
{
    hook(__func__);
    return (int)syscall(SYS_close, fd);
}
#endif
