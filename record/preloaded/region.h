/* What a process has mapped. */
#ifndef REGION_H
#define REGION_H
#include <limits.h>
#include <stdint.h>

struct region {
    uint64_t begin, end, offset, ino;
    unsigned dev_major, dev_minor;
    int shared;
    char path[PATH_MAX + 16];
};

/* Returns 0 and the region of an address; ENOENT: there is none; EIO: the regions can't be read. */
int rec_region_of(const void *at, struct region *r);
#endif
