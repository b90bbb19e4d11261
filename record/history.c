/* Prints a recording as a history: the lines of all lives, in the order of the clock. */
#include "view.h"
#include <errno.h>
#include <inttypes.h>
#include <stdlib.h>
#include <string.h>

static const char *const call_word[] = {
    [LOCK] = "lock", [TRYLOCK] = "trylock", [TIMEDLOCK] = "timedlock", [UNLOCK] = "unlock", [CONSISTENT] = "consistent",
    [WAIT] = "wait", [SIGNAL] = "signal",   [BROADCAST] = "broadcast",
};

/* ---- Which life's line comes next: a heap of cursors. */

struct heap {
    struct cursor **at;
    size_t count;
};

static int is_sooner(struct cursor *a, struct cursor *b)
{
    const struct line *x = rec_line(a), *y = rec_line(b);
    return x->stamp != y->stamp ? x->stamp < y->stamp : x->kind != y->kind ? x->kind < y->kind : a->life < b->life;
}

static void sink(struct heap *h, size_t i)
{
    for (size_t next = 2 * i + 1; next < h->count; i = next, next = 2 * i + 1) {
        if (next + 1 < h->count && is_sooner(h->at[next + 1], h->at[next]))
            next++;
        if (!is_sooner(h->at[next], h->at[i]))
            return;
        struct cursor *c = h->at[i];
        h->at[i] = h->at[next];
        h->at[next] = c;
    }
}

static void fill(struct heap *h, struct view *v, struct cursor *all)
{
    for (uint32_t i = 0; i < v->lives; i++)
        if (v->life[i].first) {
            rec_begin_lines(&all[i], v, i);
            h->at[h->count++] = &all[i];
        }
    for (size_t i = h->count; i-- > 0;)
        sink(h, i);
}

static void go_on(struct heap *h)
{
    rec_next_line(h->at[0]);
    if (!rec_line(h->at[0])) {
        rec_end_lines(h->at[0]);
        h->at[0] = h->at[--h->count];
    }
    sink(h, 0);
}

/* ---- Lines. */

static uint64_t event;
static void say(const char *what, uint32_t id) { printf("%" PRIu64 " %s t%" PRIu32 "\n", ++event, what, id); }
static void say_reply(uint32_t id, const char *reply)
{
    printf("%" PRIu64 " return t%" PRIu32 " %s\n", ++event, id, reply);
}

static void say_begin(const struct view *v, uint32_t id, const struct line *l)
{
    uint32_t m = v->name[l->mutex].number;
    if (l->cond)
        printf("%" PRIu64 " begin t%" PRIu32 " %s c%" PRIu32 " m%" PRIu32 "\n", ++event, id, call_word[l->call],
               v->name[l->cond].number, m);
    else
        printf("%" PRIu64 " begin t%" PRIu32 " %s m%" PRIu32 "\n", ++event, id, call_word[l->call], m);
}

/* An unknown thread takes the mutex and is killed. */
static void say_ghost(const struct view *v, const struct line *l)
{
    static int is_reaped;
    struct line lock = *l;
    uint32_t id = v->ids + 1;
    lock.call = LOCK;
    lock.cond = 0;
    if (is_reaped)
        say("renew", id);
    say_begin(v, id, &lock);
    say_reply(id, "OK");
    say("kill", id);
    say("reaped", id);
    is_reaped = 1;
}

static void say_line(const struct view *v, struct view_life *life, const struct line *l)
{
    if (life->is_renewed)
        say("renew", life->id);
    life->is_renewed = 0;
    switch (l->kind) {
    case BEGINS:
        say_begin(v, life->id, l);
        break;
    case RETURNS:
        say_reply(life->id, l->reply);
        break;
    case GHOST:
        say_ghost(v, l);
        break;
    default:
        say(l->kind == DOOMED ? "doom" : "reaped", life->id);
    }
}

/* ---- What is missing from the history, on standard error. */

static void say_what_is_missing(const struct view *v)
{
    uint32_t left_out = 0, late = 0;
    for (uint32_t n = 1; n <= v->names; n++) {
        const struct view_name *m = &v->name[n];
        left_out += m->is_called && (m->is_left_out || (!m->is_made && !m->start));
        late += m->is_called && !m->is_left_out && !m->is_made && m->start;
    }
    struct recording *file = (void *)(uintptr_t)v->file;
    if (!event && !left_out && !v->unknown)
        fputs("pz-record: " REC_EMPTY "\n", stderr);
    if (atomic_load(&file->head.ended))
        fputs("pz-record: the recording was full: the history is its beginning\n", stderr);
    if (late)
        fprintf(stderr, "pz-record: mutexes that begin only when a thread took them first: %" PRIu32 "\n", late);
    if (left_out)
        fprintf(stderr, "pz-record: mutexes that are missing from the history: %" PRIu32 "\n", left_out);
    if (v->unknown)
        fprintf(stderr, "pz-record: calls that are missing because histories don't have their replies: %" PRIu64 "\n",
                v->unknown);
}

static void read_all(struct view *v, const char *path)
{
    rec_open_view(v, path);
    rec_find_facts(v);
    rec_give_ids(v);
}

static int is_written(void)
{
    if (!fflush(stdout) && !ferror(stdout))
        return 0;
    rec_fail("standard output", strerror(errno));
}

int rec_print_history(const char *path)
{
    struct view v;
    struct heap h = {0};
    read_all(&v, path);
    struct cursor *all = rec_room(v.lives, sizeof *all);
    h.at = rec_room(v.lives, sizeof *h.at);
    uint32_t ids = v.ids + (uint32_t)v.has_ghost;
    printf("history %" PRIu32 " %" PRIu32 " %" PRIu32 "\n", ids ? ids : 1, v.mutexes ? v.mutexes : 1, v.conds);
    for (fill(&h, &v, all); h.count; go_on(&h))
        say_line(&v, h.at[0]->life, rec_line(h.at[0]));
    printf("end %" PRIu64 "\n", event);
    say_what_is_missing(&v);
    return is_written();
}

/* ---- Which mutexes and threads the history's numbers mean. */

static void say_name(const struct view *v, uint32_t n)
{
    const struct name *it = &v->file->name[n - 1];
    const struct object *o = &v->file->object[it->object - 1];
    printf("%c%" PRIu32 " %" PRIu64 " %" PRIu64 ":%" PRIu64 " %s\n", it->is_cond ? 'c' : 'm', v->name[n].number,
           it->offset, o->dev, o->ino, o->path);
}

int rec_print_names(const char *path)
{
    struct view v;
    read_all(&v, path);
    for (uint32_t n = 1; n <= v.names; n++)
        if (v.name[n].is_used)
            say_name(&v, n);
    for (uint32_t i = 0; i < v.lives; i++)
        if (v.life[i].first) {
            const struct life *l = &v.file->life[i];
            printf("t%" PRIu32 " %" PRIu32 " %" PRIu32 "\n", v.life[i].id, v.file->process[l->process].pid, l->thread);
        }
    return is_written();
}
