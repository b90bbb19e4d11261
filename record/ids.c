/* The numbers of threads (at most 64 at a time), mutexes and condition variables in a history. */
#include "view.h"
#include <stdlib.h>

enum { IDS = 64, MUTEXES = 65536 };

static void note_line(struct view *v, struct view_life *l, const struct line *it)
{
    l->first = l->first ? l->first : it->stamp;
    l->last = it->stamp;
    v->has_ghost |= it->kind == GHOST;
    v->name[it->mutex].is_used = 1;
    v->name[it->cond].is_used = 1;
}

/* Reads all lines of a life, and notes what is known after the last one. */
static void go_through(struct view *v, uint32_t life)
{
    struct view_life *l = &v->life[life];
    struct cursor c;
    const struct line *it;
    int is_reaped = 0;
    for (rec_begin_lines(&c, v, life); (it = rec_line(&c)); rec_next_line(&c)) {
        note_line(v, l, it);
        is_reaped |= it->kind == REAPED;
    }
    int may_go_on = c.open || c.helds || c.is_cut;
    l->idle_from = may_go_on && !is_reaped ? UINT64_MAX : l->last;
    l->is_reaped = is_reaped;
    rec_end_lines(&c);
}

static int by_first(const void *a, const void *b)
{
    uint64_t x = (*(struct view_life *const *)a)->first, y = (*(struct view_life *const *)b)->first;
    return x < y ? -1 : x > y;
}
static struct view_life **in_order(struct view *v, size_t *count)
{
    struct view_life **all = rec_room(v->lives, sizeof *all);
    *count = 0;
    for (uint32_t i = 0; i < v->lives; i++)
        if (v->life[i].first)
            all[(*count)++] = &v->life[i];
    qsort(all, *count, sizeof *all, by_first);
    return all;
}

/* Gives a life the first id that is free, or a new one. */
static void give_id(struct view *v, struct view_life *l, struct view_life *last[IDS])
{
    uint32_t id = 0, most = IDS - (uint32_t)v->has_ghost;
    while (id < v->ids && last[id]->idle_from >= l->first)
        id++;
    if (id == most)
        rec_fail("no history", "more than 64 threads had calls at a time");
    if (id == v->ids)
        v->ids++;
    l->id = id + 1;
    l->is_renewed = last[id] && last[id]->is_reaped;
    last[id] = l;
}

static void give_numbers(struct view *v)
{
    for (uint32_t n = 1; n <= v->names; n++)
        if (v->name[n].is_used)
            v->name[n].number = v->file->name[n - 1].is_cond ? v->conds++ : v->mutexes++;
    if (v->mutexes > MUTEXES || v->conds > MUTEXES)
        rec_fail("no history", "it would have more than 65,536 mutexes or condition variables");
}

void rec_give_ids(struct view *v)
{
    struct view_life *last[IDS] = {0};
    size_t count;
    for (uint32_t i = 0; i < v->lives; i++)
        go_through(v, i);
    v->unknown = 0; /* counted again when the lines are printed */
    struct view_life **all = in_order(v, &count);
    for (size_t i = 0; i < count; i++)
        give_id(v, all[i], last);
    free(all);
    give_numbers(v);
}
