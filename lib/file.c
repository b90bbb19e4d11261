/* Files of mutexes, condition variables, reader-writer locks and data. */
#include "file.h"
#include "caller.h"
#include "cell.h"
#include <errno.h>
#include <fcntl.h>
#include <pthread.h>
#include <stdlib.h>
#include <string.h>
#include <sys/mman.h>
#include <sys/stat.h>
#include <unistd.h>

/* A file begins with seven letters and the digit of its format. A process that creates the file writes the digit 0
 * until the file is whole; if it is killed, the next process creates the file again. */
#define LETTERS  0x676972647a6170ull /* "pazdrig" */
#define CREATING (LETTERS | (uint64_t)'0' << 56)
#define WHOLE    (LETTERS | (uint64_t)'5' << 56)

struct pz_file {
    char *mapped;
    struct pz_parts parts;
    struct pz_layout layout;
};

/* What an opener asks for. */
struct asked {
    const struct pz_layout *layout;
    struct pz_parts parts;
};

static size_t round_up(size_t n, size_t to) { return (n + to - 1) / to * to; }

/* Returns 0, or EINVAL: a file can't be that large, or its locks can't have that many lanes. */
static int lay_out(const struct pz_layout *l, struct pz_parts *p)
{
    if (l->rwlocks && (l->lanes == 0 || l->lanes > PZ_MOST_LANES))
        return EINVAL;
    p->rwlocks = PZ_MUTEXES_AT + (size_t)l->mutexes * sizeof(pz_mutex);
    p->conds = p->rwlocks + (size_t)l->rwlocks * PZ_RWLOCK_SIZE((size_t)l->lanes);
    p->data = round_up(p->conds + (size_t)l->conds * sizeof(pz_cond), 64);
    if (l->data > (size_t)PTRDIFF_MAX - p->data)
        return EINVAL;
    p->size = p->data + l->data;
    return 0;
}

static pz_rwlock *rwlock_at(char *mapped, const struct pz_parts *p, const struct pz_layout *l, unsigned number)
{
    return (pz_rwlock *)(mapped + p->rwlocks + number * PZ_RWLOCK_SIZE((size_t)l->lanes));
}

/* ---- What is there. */

/* Returns 0 if the file is as asked, or the reason to refuse it. */
static int compare(const struct pz_header *h, const struct asked *a, off_t size)
{
    uint64_t magic = load_relaxed(&h->magic);
    if ((magic ^ LETTERS) << 8 || size < (off_t)sizeof *h)
        return EMEDIUMTYPE;
    if (magic != WHOLE || h->futex_offset != FUTEX_OFFSET)
        return EPROTO;
    if (h->version != a->layout->version)
        return ESTALE;
    if (h->mutexes != a->layout->mutexes || h->conds != a->layout->conds || h->data != a->layout->data)
        return EEXIST;
    if (h->rwlocks != a->layout->rwlocks || (h->rwlocks && h->lanes != a->layout->lanes))
        return EEXIST;
    return (size_t)size == a->parts.size ? 0 : EMEDIUMTYPE;
}

/* Reads the header, and sets *is_whole: otherwise the file is to be created. Returns the reason to refuse it, or 0. */
static int look_at(int fd, const struct asked *a, struct pz_header *h, int *is_whole)
{
    struct stat st;
    memset(h, 0, sizeof *h);
    if (fstat(fd, &st) < 0)
        return errno;
    if (!S_ISREG(st.st_mode))
        return EMEDIUMTYPE;
    if (pread(fd, h, sizeof *h, 0) < 0)
        return errno;
    *is_whole = st.st_size != 0 && load_relaxed(&h->magic) != CREATING;
    return *is_whole ? compare(h, a, st.st_size) : 0;
}

static int is_of(const struct pz_header *h, const struct pz_system *s) { return !memcmp(&h->system, s, sizeof *s); }

/* ---- Creating it. */

/* Allocates one part of the file. Parts are small because some kernels undo one that a handler interrupts. */
static int allocate(int fd, size_t at, size_t size)
{
    int error;
    while ((error = posix_fallocate(fd, (off_t)at, (off_t)size)) == EINTR)
        continue;
    return error;
}

/* Allocates all of the file, so that no store finds the disk full. */
static int allocate_all(int fd, size_t size)
{
    const size_t part = 1 << 20;
    const uint64_t creating = CREATING;
    if (ftruncate(fd, 0) < 0)
        return errno;
    ssize_t n = pwrite(fd, &creating, sizeof creating, 0);
    int error = n == (ssize_t)sizeof creating ? 0 : n < 0 ? errno : ENOSPC;
    for (size_t at = 0; at < size && !error; at += part)
        error = allocate(fd, at, size - at < part ? size - at : part);
    return error;
}

static int create(struct pz_opening *o, const struct asked *a, const struct pz_system *s)
{
    int error = allocate_all(o->fd, a->parts.size);
    if (!error)
        error = pz_map(o, a->parts.size);
    if (error)
        return ftruncate(o->fd, 0) < 0 ? error : error;
    struct pz_header *h = (struct pz_header *)o->mapped;
    h->futex_offset = FUTEX_OFFSET;
    h->version = a->layout->version;
    h->mutexes = a->layout->mutexes;
    h->conds = a->layout->conds;
    h->data = a->layout->data;
    h->rwlocks = a->layout->rwlocks;
    h->lanes = a->layout->lanes;
    h->system = *s;
    for (unsigned i = 0; i < a->layout->rwlocks; i++)
        pz_rwlock_init(rwlock_at(o->mapped, &a->parts, a->layout, i), a->layout->lanes);
    store_release(&h->magic, WHOLE);
    return 0;
}

/* ---- Opening it. */

/* Opens a whole file of another boot or PID namespace. Nobody of that system is left, or the file is in use there and
 * refused. A process that is killed here hasn't written its own system yet, so the next one marks again. */
static int take_over(struct pz_opening *o, const struct asked *a, const struct pz_system *s, int is_alone)
{
    if (!is_alone)
        return EBUSY;
    int error = pz_map(o, a->parts.size);
    if (error)
        return error;
    pz_mark_all_dead(o->mapped, &a->parts, a->layout);
    fence();
    ((struct pz_header *)o->mapped)->system = *s;
    return 0;
}

/* The caller has the maker's lock. */
static int create_or_open(struct pz_opening *o, const struct asked *a, const struct pz_system *s)
{
    struct pz_header h;
    int is_whole = 0, locked = pz_set_lock(o->fd, PZ_USERS, PZ_ALONE, 0);
    int error = locked && locked != EAGAIN ? locked : look_at(o->fd, a, &h, &is_whole);
    if (!error && !is_whole)
        error = create(o, a, s);
    else if (!error && is_of(&h, s))
        error = pz_map(o, a->parts.size);
    else if (!error)
        error = take_over(o, a, s, !locked);
    locked = pz_set_lock(o->fd, PZ_USERS, error ? PZ_NONE : PZ_SHARED, 0);
    return error ? error : locked;
}

static int is_ready(int fd, const struct asked *a, const struct pz_system *s)
{
    struct pz_header h;
    int is_whole = 0;
    return !look_at(fd, a, &h, &is_whole) && is_whole && is_of(&h, s);
}

/* Opens a file that is whole, as asked and of this system without the maker's lock, which somebody who may only read
 * the file could hold. Returns whether it did. It looks before it locks, too, so that an opener of another system
 * doesn't seem to use the file. */
static int open_ready(struct pz_opening *o, const struct asked *a, const struct pz_system *s)
{
    if (!is_ready(o->fd, a, s) || pz_set_lock(o->fd, PZ_USERS, PZ_SHARED, 0))
        return 0;
    if (is_ready(o->fd, a, s) && !pz_map(o, a->parts.size))
        return 1;
    pz_set_lock(o->fd, PZ_USERS, PZ_NONE, 0);
    return 0;
}

static int open_locked(struct pz_opening *o, const struct asked *a)
{
    struct pz_system s;
    int error = pz_this_system(&s);
    if (error || open_ready(o, a, &s))
        return error;
    error = pz_set_lock(o->fd, PZ_MAKER, PZ_ALONE, 1);
    if (error)
        return error;
    error = create_or_open(o, a, &s);
    pz_set_lock(o->fd, PZ_MAKER, PZ_NONE, 0);
    return error;
}

static int open_file(const char *path, mode_t mode, const struct pz_layout *layout, struct pz_file *f)
{
    struct asked a = {.layout = layout};
    struct pz_opening o;
    if (!caller())
        return ENOTSUP;
    int error = lay_out(layout, &a.parts);
    if (!error)
        error = pz_begin_opening(&o, path, mode);
    if (error)
        return error;
    error = open_locked(&o, &a);
    pz_end_opening(&o, !error);
    if (!error)
        *f = (struct pz_file){o.mapped, a.parts, *layout};
    return error;
}

/* ---- The calls. */

int pz_open(const char *path, mode_t mode, const struct pz_layout *layout, pz_file **out)
{
    int cancels, saved = errno;
    pz_file *f = malloc(sizeof *f);
    if (!f) {
        errno = saved;
        return ENOMEM;
    }
    pthread_setcancelstate(PTHREAD_CANCEL_DISABLE, &cancels);
    int error = open_file(path, mode, layout, f);
    pthread_setcancelstate(cancels, NULL);
    if (error)
        free(f);
    else
        *out = f;
    errno = saved;
    return error;
}

pz_mutex *pz_mutex_at(pz_file *f, unsigned number)
{
    return number < f->layout.mutexes ? (pz_mutex *)(f->mapped + PZ_MUTEXES_AT) + number : NULL;
}

pz_cond *pz_cond_at(pz_file *f, unsigned number)
{
    return number < f->layout.conds ? (pz_cond *)(f->mapped + f->parts.conds) + number : NULL;
}

pz_rwlock *pz_rwlock_at(pz_file *f, unsigned number)
{
    return number < f->layout.rwlocks ? rwlock_at(f->mapped, &f->parts, &f->layout, number) : NULL;
}

void *pz_data(pz_file *f) { return f->mapped + f->parts.data; }

void pz_close(pz_file *f)
{
    int saved = errno;
    munmap(f->mapped, f->parts.size);
    free(f);
    errno = saved;
}
