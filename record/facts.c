/* Finds out about each mutex what its lines depend on. */
#include "view.h"
#include <errno.h>

int rec_may_take(int call) { return call == LOCK || call == TRYLOCK || call == TIMEDLOCK || call == WAIT; }

/* Whether the thread has the mutex after the call. */
int rec_takes(const struct seen *c)
{
    int is_taken = c->reply == 0 || c->reply == EOWNERDEAD || (c->call == WAIT && c->reply == ETIMEDOUT);
    return c->end && is_taken && rec_may_take(c->call);
}

static int is_within(const struct view *v, uint64_t stamp) { return stamp >= v->from && stamp <= v->to; }

static void note_taken(struct view_name *m, uint32_t life, const struct seen *c)
{
    if (m->start && m->start <= c->end)
        return;
    m->start = c->end;
    m->starter = life;
    m->reply = c->reply;
}

/* Notes what a call says about its mutex. The mutex is left out if the call has no reply, because it was left by a
 * longjmp or cancelled, or if a wait's condition variable has no name, because it is in private memory. */
static void note(struct view *v, uint32_t life, const struct seen *c, int is_last)
{
    struct view_name *m = &v->name[c->mutex];
    m->is_called |= c->call <= WAIT;
    if (c->call == INIT && c->end && c->reply == 0 && is_within(v, c->begin) && is_within(v, c->end))
        m->is_made = 1;
    int is_unusual_wait = c->call == WAIT && (!c->cond || (c->end && c->reply == CANCELLED));
    if (is_unusual_wait || (!c->end && !is_last))
        m->is_left_out = 1;
    if (rec_takes(c) && is_within(v, c->end))
        note_taken(m, life, c);
    if (c->call == WAIT && c->cond && !v->name[c->cond].mutex)
        v->name[c->cond].mutex = c->mutex;
}

/* Nobody knows how often the owner has locked a recursive mutex that wasn't initialised in the recording. */
static void leave_out_recursive(struct view *v, const struct seen *c)
{
    if (c->flags & RECURSIVE && !v->name[c->mutex].is_made)
        v->name[c->mutex].is_left_out = 1;
}

void rec_find_facts(struct view *v)
{
    struct seen c, next;
    for (uint32_t i = 0; i < v->lives; i++) {
        struct reader r = {.life = &v->life[i]};
        for (int more = rec_next_call(&r, &c); more; c = next) {
            more = rec_next_call(&r, &next);
            note(v, i, &c, !more);
        }
    }
    for (uint32_t i = 0; i < v->lives; i++)
        for (struct reader r = {.life = &v->life[i]}; rec_next_call(&r, &c);)
            leave_out_recursive(v, &c);
    for (uint32_t n = 1; n <= v->names; n++)
        if (v->name[n].is_made)
            v->name[n].start = 0;
}
