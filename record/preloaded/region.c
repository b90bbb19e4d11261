/* The region of memory that an address is in, by what the process has mapped there: proc(5). */
#include "region.h"
#include <errno.h>
#include <fcntl.h>
#include <stdio.h>
#include <stdlib.h>
#include <string.h>
#include <sys/ioctl.h>
#include <unistd.h>

/* struct procmap_query of linux/fs.h, which older headers haven't. */
struct query {
    uint64_t size, flags, at;
    uint64_t begin, end, vma_flags, page_size, offset, inode;
    uint32_t dev_major, dev_minor, name_size, build_id_size;
    uint64_t name, build_id;
};
#define QUERY        _IOWR('f', 17, struct query)
#define QUERY_SHARED 8

/* One question to the kernel, since Linux 6.11. */
static int asked(int fd, uint64_t at, struct region *r)
{
    struct query q = {.size = sizeof q, .at = at, .name = (uintptr_t)r->path, .name_size = sizeof r->path};
    r->path[0] = 0;
    if (ioctl(fd, QUERY, &q) < 0)
        return errno == ENOENT ? ENOENT : ENOTTY;
    r->begin = q.begin;
    r->end = q.end;
    r->offset = q.offset;
    r->ino = q.inode;
    r->dev_major = q.dev_major;
    r->dev_minor = q.dev_minor;
    r->shared = (q.vma_flags & QUERY_SHARED) != 0;
    return 0;
}

static int read_line(const char *line, struct region *r)
{
    unsigned long begin, end, offset, ino;
    char mode[8];
    int path = 0;
    if (sscanf(line, "%lx-%lx %7s %lx %x:%x %lu %n", &begin, &end, mode, &offset, &r->dev_major, &r->dev_minor, &ino,
               &path) != 7)
        return 0;
    r->begin = begin;
    r->end = end;
    r->offset = offset;
    r->ino = ino;
    r->shared = mode[3] == 's';
    snprintf(r->path, sizeof r->path, "%.*s", (int)strcspn(line + path, "\n"), line + path);
    return 1;
}

/* The region that `fits` says, among all. ENOENT: there is none; EIO: they can't be read. */
static int among_all(int (*fits)(const struct region *, const void *), const void *what, struct region *r)
{
    FILE *f = fopen("/proc/thread-self/maps", "re");
    char *line = NULL;
    size_t room = 0;
    int found = 0;
    if (!f)
        return EIO;
    while (!found && getline(&line, &room, f) > 0)
        found = read_line(line, r) && fits(r, what);
    int whole = !ferror(f) && (found || feof(f));
    free(line);
    fclose(f);
    return found ? 0 : whole ? ENOENT : EIO;
}

static int has_address(const struct region *r, const void *at)
{
    return (uintptr_t)at >= r->begin && (uintptr_t)at < r->end;
}

int rec_region_of(const void *at, struct region *r)
{
    int answer = ENOTTY, fd = open("/proc/thread-self/maps", O_RDONLY | O_CLOEXEC);
    if (fd >= 0) {
        answer = asked(fd, (uintptr_t)at, r);
        close(fd);
    }
    return answer == ENOTTY ? among_all(has_address, at, r) : answer;
}
