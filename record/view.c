/* Opens a recording, as it is now: the program may still be running. */
#include "view.h"
#include <errno.h>
#include <fcntl.h>
#include <stdlib.h>
#include <string.h>
#include <sys/stat.h>
#include <unistd.h>

void *rec_room(size_t count, size_t size)
{
    void *it = calloc(count ? count : 1, size);
    if (!it)
        rec_fail("memory", strerror(errno));
    return it;
}

static const struct recording *map(const char *path)
{
    struct stat st;
    int fd = open(path, O_RDONLY | O_CLOEXEC);
    if (fd < 0 || fstat(fd, &st))
        rec_fail(path, strerror(errno));
    const struct recording *r = MAP_FAILED;
    if ((size_t)st.st_size >= sizeof *r)
        r = mmap(NULL, (size_t)st.st_size, PROT_READ, MAP_SHARED, fd, 0);
    close(fd);
    if (r == MAP_FAILED || r->head.magic != MAGIC || r->head.size != (uint64_t)st.st_size)
        rec_fail(path, "not a recording of pz-record");
    return r;
}

static const struct chunk *chunk_at(const struct view *v, uint64_t at)
{
    return at ? (const void *)((const char *)v->file + at) : NULL;
}

/* ---- Rings are copied, since their records are overwritten, the oldest first. */

static uint64_t begin_of(const struct record *r) { return atomic_load_explicit(&r->begin, memory_order_acquire); }

static void copy_record(struct record *to, const struct record *r)
{
    uint64_t begin = begin_of(r);
    memcpy(to, r, sizeof *to);
    atomic_thread_fence(memory_order_acquire);
    if (begin != begin_of(r) || begin != begin_of(to))
        memset(to, 0, sizeof *to);
}

static int by_begin(const void *a, const void *b)
{
    uint64_t x = begin_of(a), y = begin_of(b);
    return x < y ? -1 : x > y;
}

/* Reads a ring. Nothing of this thread is missing since the first call that is still there. */
static void read_ring(struct view *v, struct view_life *l, const struct chunk *c)
{
    struct record *copy = rec_room(c->records, sizeof *copy);
    uint32_t none = 0;
    for (uint32_t i = 0; i < c->records; i++)
        copy_record(copy + i, c->record + i);
    qsort(copy, c->records, sizeof *copy, by_begin);
    while (none < c->records && !begin_of(copy + none))
        none++;
    l->piece[l->pieces++] = (struct piece){copy + none, c->records - none};
    int is_full = c->record[c->records - 1].call != 0;
    if (is_full && none < c->records && begin_of(copy + none) > v->from)
        v->from = begin_of(copy + none);
}

/* ---- Lives. */

static void read_chunk(struct view *v, struct view_life *l, const struct chunk *c)
{
    uint32_t n = 0;
    if (v->file->head.last) {
        read_ring(v, l, c);
        return;
    }
    while (n < c->records && begin_of(c->record + n))
        n++;
    l->piece[l->pieces++] = (struct piece){c->record, n};
}

static uint64_t sooner(uint64_t a, uint64_t b) { return !a || (b && b < a) ? b : a; }

static void read_life(struct view *v, uint32_t row, int is_here)
{
    const struct life *l = &v->file->life[row];
    struct view_life *to = &v->life[row];
    const struct process *p = &v->file->process[l->process];
    size_t chunks = 0;
    if (!atomic_load(&l->is_shown))
        return;
    for (const struct chunk *c = chunk_at(v, atomic_load(&l->chunk)); c; c = chunk_at(v, atomic_load(&c->next)))
        chunks++;
    to->piece = rec_room(chunks, sizeof *to->piece);
    for (const struct chunk *c = chunk_at(v, atomic_load(&l->chunk)); to->pieces < chunks;
         c = chunk_at(v, atomic_load(&c->next)))
        read_chunk(v, to, c);
    for (uint32_t i = to->pieces; i-- > 0;)
        if (to->piece[i].count) {
            to->is_open = !atomic_load(&to->piece[i].record[to->piece[i].count - 1].end);
            break;
        }
    to->is_alive = is_here && rec_is_in_sight(p) && rec_lives(l);
    to->gone = sooner(atomic_load(&l->gone), atomic_load(&p->gone));
}

/* The stamp after which calls may be missing. */
static uint64_t end_of(const struct head *h, int is_here)
{
    struct head clock = {.clock = h->clock};
    uint64_t now = !is_here ? UINT64_MAX : h->clock == BY_COUNTER ? atomic_load(&h->count) : stamp_after(&clock);
    uint64_t ended = atomic_load(&h->ended);
    return ended && ended < now ? ended - 1 : now;
}

void rec_open_view(struct view *v, const char *path)
{
    char boot[40];
    *v = (struct view){.file = map(path)};
    struct recording *r = (void *)(uintptr_t)v->file;
    rec_read_boot(boot);
    int is_here = !memcmp(boot, r->head.boot, sizeof boot);
    v->to = end_of(&r->head, is_here);
    v->lives = rows(&r->head.lives, LIVES);
    v->life = rec_room(v->lives, sizeof *v->life);
    for (uint32_t i = 0; i < v->lives; i++)
        read_life(v, i, is_here);
    v->names = rows(&r->head.names, NAMES); /* read after the calls, so that all their names are there */
    v->name = rec_room(v->names + 1, sizeof *v->name);
}

/* Returns 0 if the life has no more calls. */
int rec_next_call(struct reader *r, struct seen *c)
{
    const struct view_life *l = r->life;
    while (r->piece < l->pieces && r->at == l->piece[r->piece].count) {
        r->piece++;
        r->at = 0;
    }
    if (r->piece == l->pieces)
        return 0;
    const struct record *it = &l->piece[r->piece].record[r->at++];
    int is_last = r->piece + 1 == l->pieces && r->at == l->piece[r->piece].count;
    uint64_t end = is_last && l->is_open ? 0 : atomic_load_explicit(&it->end, memory_order_acquire);
    *c = (struct seen){begin_of(it), end, it->mutex, it->cond, it->call, it->flags, it->reply};
    return 1;
}
