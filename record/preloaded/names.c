/* The names of mutexes and condition variables, in all processes: the object in whose memory they are, and the offset
 * there. In private memory they have no name. */
#include "region.h"
#include "recorder.h"
#include <errno.h>
#include <stdio.h>
#include <sys/sysmacros.h>

/* What a thread has looked up. It is valid until something is unmapped. */
enum { CACHED_BITS = 7, REGIONS = 8 };
struct cached {
    uintptr_t key;
    uint32_t mappings;
    struct name *place;
};
struct known {
    uintptr_t begin, end;
    uint64_t offset;
    uint32_t object; /* a number; 0: it is private */
    uint32_t mappings;
};
static __thread struct {
    struct cached cached[1 << CACHED_BITS];
    struct known region[REGIONS];
    unsigned next;
} mine __attribute__((tls_model("initial-exec")));
static _Atomic uint32_t mappings = 1;

/* Comes before the change, so that a concurrent look-up of the old mapping isn't used. */
void rec_forget_mappings(void) { atomic_fetch_add(&mappings, 1); }

static uint64_t mixed(uint64_t a, uint64_t b)
{
    uint64_t h = (a * 0x9e3779b97f4a7c15 ^ b) * 0xd6e8feb86659fd93;
    return (h ^ h >> 32) * 0xd6e8feb86659fd93 >> 20;
}

/* ---- Objects. A row is filled before a slot names it. A thread that is killed between leaves an unused row. */

static uint32_t new_object(const struct region *r, uint64_t dev)
{
    uint32_t row = atomic_fetch_add(&rec_file->head.objects, 1);
    if (row >= OBJECTS)
        return 0;
    struct object *o = &rec_file->object[row];
    o->dev = dev;
    o->ino = r->ino;
    snprintf(o->path, sizeof o->path, "%.*s", (int)sizeof o->path - 1, r->path);
    return row + 1;
}

/* Returns the object's number, or 0 if there is no space for it. */
static uint32_t object_of(const struct region *r)
{
    uint64_t dev = makedev(r->dev_major, r->dev_minor);
    uint32_t fresh = 0;
    for (uint64_t i = mixed(dev, r->ino);; i++) {
        _Atomic uint32_t *slot = &rec_file->object_slot[i % OBJECT_SLOTS];
        uint32_t is = atomic_load(slot);
        if (!is && !fresh && !(fresh = new_object(r, dev)))
            return 0;
        if (!is && atomic_compare_exchange_strong(slot, &is, fresh))
            return fresh;
        const struct object *o = &rec_file->object[is - 1];
        if (o->dev == dev && o->ino == r->ino)
            return is;
    }
}

/* ---- Names. */

static uint32_t new_name(uint32_t object, uint64_t offset, enum what what)
{
    uint32_t row = atomic_fetch_add(&rec_file->head.names, 1);
    if (row >= NAMES)
        return rec_stop(), 0;
    struct name *n = &rec_file->name[row];
    n->object = object;
    n->offset = offset;
    n->is_cond = what == A_COND;
    PZ_AT(filled_name);
    return row + 1;
}

/* Returns the place's first row, which it adds if is_new_too. */
static struct name *place_of(uint32_t object, uint64_t offset, enum what what, int is_new_too)
{
    uint32_t fresh = 0;
    for (uint64_t i = mixed(object, offset * 2 + what);; i++) {
        _Atomic uint32_t *slot = &rec_file->name_slot[i % NAME_SLOTS];
        uint32_t is = atomic_load(slot);
        if (!is && !fresh && (!is_new_too || !(fresh = new_name(object, offset, what))))
            return NULL;
        if (!is && atomic_compare_exchange_strong(slot, &is, fresh))
            is = fresh;
        struct name *n = &rec_file->name[is - 1];
        if (n->object == object && n->offset == offset && n->is_cond == (what == A_COND))
            return n;
    }
}

/* Gives a place a new number, because it is initialised: or reinitialised, and then `before` is the old one. Returns 0
 * if there is no space. */
uint32_t rec_make(struct name *place, uint32_t before)
{
    uint32_t number = new_name(place->object, place->offset, place->is_cond ? A_COND : A_MUTEX);
    if (!number)
        return 0;
    atomic_store(&rec_file->name[number - 1].before, before);
    atomic_store(&place->last, number);
    return number;
}

/* ---- Addresses. */

static RARE struct known *look_up(uintptr_t at, uint32_t now)
{
    struct region r;
    struct known *k = &mine.region[mine.next++ % REGIONS];
    *k = (struct known){0};
    int why = rec_region_of((void *)at, &r);
    if (why) { /* nothing is mapped there, or it can't be found out */
        if (why != ENOENT)
            rec_stop();
        return NULL;
    }
    uint32_t object = r.shared ? object_of(&r) : 0;
    if (r.shared && !object)
        return rec_stop(), NULL;
    *k = (struct known){r.begin, r.end, r.offset, object, now};
    return k;
}

static const struct known *region_at(uintptr_t at, uint32_t now)
{
    for (struct known *k = mine.region; k < mine.region + REGIONS; k++)
        if (k->mappings == now && at >= k->begin && at < k->end)
            return k;
    return look_up(at, now);
}

/* The calls that are recorded are no cancellation points, but what is called here is. */
static RARE struct name *find_place(uintptr_t at, enum what what, struct cached *c, int is_new_too)
{
    int saved = errno, state;
    pthread_setcancelstate(PTHREAD_CANCEL_DISABLE, &state);
    uint32_t now = atomic_load(&mappings);
    rec_mine.is_inside = 1;
    const struct known *k = region_at(at, now);
    struct name *place = k && k->object ? place_of(k->object, k->offset + (at - k->begin), what, is_new_too) : NULL;
    rec_mine.is_inside = 0;
    if (place || is_new_too || (k && !k->object)) /* another process may add a shared one */
        *c = (struct cached){at + what, now, place};
    pthread_setcancelstate(state, NULL);
    errno = saved;
    return place;
}

static inline struct name *place_at(const void *at, enum what what, int is_new_too)
{
    uintptr_t key = (uintptr_t)at + what;
    struct cached *c = &mine.cached[(uint32_t)(key >> 3) * 0x9e3779b1u >> (32 - CACHED_BITS)];
    if (__builtin_expect(c->key == key && c->mappings == atomic_load_explicit(&mappings, memory_order_acquire), 1))
        return c->place;
    return find_place((uintptr_t)at, what, c, is_new_too);
}

/* Return the place's first row. NULL: it has none. (The addresses are even, so a key has space for `what`.) */
struct name *rec_place(const void *at, enum what what) { return place_at(at, what, 1); }
struct name *rec_find(const void *at, enum what what) { return place_at(at, what, 0); }
