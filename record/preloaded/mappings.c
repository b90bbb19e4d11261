/* The calls that change what is mapped at an address. After them, what threads have looked up isn't valid. */
#include "recorder.h"
#include <stdarg.h>
#include <sys/mman.h>
#include <sys/shm.h>

SHOWN int munmap(void *at, size_t size)
{
    rec_forget_mappings();
    return rec_real()->munmap(at, size);
}

/* The C library maps private memory by itself, which isn't seen here and does no harm. */
SHOWN void *mmap(void *at, size_t size, int protection, int flags, int fd, off_t offset)
{
    int matters = (flags & MAP_TYPE) != MAP_PRIVATE || flags & MAP_FIXED;
    if (matters)
        rec_forget_mappings();
    void *r = rec_real()->mmap(at, size, protection, flags, fd, offset);
    if (matters)
        rec_forget_mappings();
    return r;
}
SHOWN void *mmap64(void *at, size_t size, int protection, int flags, int fd, off_t offset)
    __attribute__((alias("mmap")));

SHOWN void *mremap(void *at, size_t size, size_t new_size, int flags, ...)
{
    va_list more;
    va_start(more, flags);
    void *to = flags & MREMAP_FIXED ? va_arg(more, void *) : NULL;
    va_end(more);
    rec_forget_mappings();
    void *r = rec_real()->mremap(at, size, new_size, flags, to);
    rec_forget_mappings();
    return r;
}

SHOWN void *shmat(int id, const void *at, int flags)
{
    rec_forget_mappings();
    void *r = rec_real()->shmat(id, at, flags);
    rec_forget_mappings();
    return r;
}

SHOWN int shmdt(const void *at)
{
    rec_forget_mappings();
    return rec_real()->shmdt(at);
}
