/* The lines of one life, in their order: a begin and a return of each call, and finally a doom and a reaping. The
 * replies of a thread's calls say which mutexes it owns, and how often it has locked a recursive one, which isn't in
 * histories. */
#include "view.h"
#include <errno.h>
#include <stdlib.h>
#include <string.h>

/* ---- What the thread owns. */

static struct held *held_in(struct cursor *c, uint32_t mutex)
{
    for (size_t i = c->helds; i-- > 0;)
        if (c->held[i].mutex == mutex)
            return &c->held[i];
    return NULL;
}

static void hold(struct cursor *c, uint32_t mutex, int is_inconsistent)
{
    if (held_in(c, mutex))
        return;
    if (c->helds == c->room) {
        c->room = c->room ? 2 * c->room : 8;
        c->held = realloc(c->held, c->room * sizeof *c->held);
        if (!c->held)
            rec_fail("memory", strerror(errno));
    }
    c->held[c->helds++] = (struct held){mutex, 1, is_inconsistent};
}

static void lose(struct cursor *c, uint32_t mutex)
{
    struct held *h = held_in(c, mutex);
    if (h)
        *h = c->held[--c->helds];
}

/* ---- Replies, as histories spell them. NULL: the call changed nothing and has no line. */

static const struct {
    int number;
    const char *name;
} replies[] = {
    {0, "OK"},
    {EPERM, "EPERM"},
    {ESRCH, "ESRCH"},
    {EAGAIN, "X_HELD"}, /* libpazdrig's: the thread owns as many as it may */
    {ENOMEM, "X_NOMEM"},
    {EFAULT, "EFAULT"},
    {EBUSY, "EBUSY"},
    {EINVAL, "EINVAL"},
    {EDEADLK, "EDEADLK"},
    {ETIMEDOUT, "ETIMEDOUT"},
    {EOWNERDEAD, "EOWNERDEAD"},
    {ENOTRECOVERABLE, "ENOTRECOVERABLE"},
};

static const char *name_of(struct cursor *c, int reply)
{
    for (size_t i = 0; i < sizeof replies / sizeof *replies; i++)
        if (replies[i].number == reply)
            return replies[i].name;
    c->view->unknown++;
    return NULL;
}

/* Whether a reply is about the deadline alone: it is no time, or it passed while the owner of a normal mutex waited for
 * itself. */
static int is_of_the_deadline(struct cursor *c, const struct seen *s)
{
    return s->call == TIMEDLOCK && (s->reply == EINVAL || (s->reply == ETIMEDOUT && held_in(c, s->mutex)));
}

/* The owner of a recursive mutex locks it again, or gets EAGAIN at the limit. */
static const char *reply_to_lock(struct cursor *c, const struct seen *s)
{
    struct held *h = held_in(c, s->mutex);
    if (is_of_the_deadline(c, s))
        return NULL;
    if (s->flags & RECURSIVE && h && (s->reply == 0 || s->reply == EAGAIN)) {
        h->depth += s->reply == 0;
        return NULL;
    }
    if (rec_takes(s))
        hold(c, s->mutex, s->reply == EOWNERDEAD);
    return s->call == TRYLOCK && h && s->reply == EDEADLK ? "EBUSY" : name_of(c, s->reply);
}

static const char *reply_to_unlock(struct cursor *c, const struct seen *s)
{
    struct held *h = held_in(c, s->mutex);
    if (h && h->depth > 1 && s->reply == 0) {
        h->depth--;
        return NULL;
    }
    if (s->reply == 0)
        lose(c, s->mutex);
    return name_of(c, s->reply);
}

/* POSIX returns EINVAL both to a thread that doesn't own the mutex and for a consistent mutex. */
static const char *reply_to_consistent(struct cursor *c, const struct seen *s)
{
    struct held *h = held_in(c, s->mutex);
    if (h && s->reply == 0)
        h->is_inconsistent = 0;
    return !h && s->reply == EINVAL ? "EPERM" : name_of(c, s->reply);
}

/* A wait with a mutex that its thread has locked twice releases nothing. A refused wait has no line unless the mutex is
 * inconsistent. */
static const char *reply_to_wait(struct cursor *c, const struct seen *s)
{
    struct held *h = held_in(c, s->mutex);
    if (h && h->depth > 1)
        return NULL;
    if (s->reply == EINVAL)
        return h && h->is_inconsistent ? "X_STATE" : NULL;
    if (s->reply == ENOTRECOVERABLE)
        lose(c, s->mutex);
    if (h && s->reply == EOWNERDEAD)
        h->is_inconsistent = 1;
    return s->reply == ETIMEDOUT ? "OK" : name_of(c, s->reply);
}

static const char *reply_to(struct cursor *c, const struct seen *s)
{
    switch (s->call) {
    case LOCK:
    case TRYLOCK:
    case TIMEDLOCK:
        return reply_to_lock(c, s);
    case UNLOCK:
        return reply_to_unlock(c, s);
    case CONSISTENT:
        return reply_to_consistent(c, s);
    case WAIT:
        return reply_to_wait(c, s);
    default: /* a signal: in histories, unlike in POSIX, its thread owns the mutex */
        return held_in(c, s->mutex) && s->reply == 0 ? "OK" : NULL;
    }
}

/* ---- Which calls have lines. */

static int is_signal(int call) { return call == SIGNAL || call == BROADCAST; }

/* Whether histories have the call. A signal of the C library gets the mutex with which threads wait on its variable. */
static int is_of_a_history(const struct view *v, struct seen *s)
{
    if (is_signal(s->call) && !s->mutex)
        s->mutex = v->name[s->cond].mutex;
    if (!s->mutex || s->call > BROADCAST || (s->call == WAIT && !s->cond))
        return 0;
    const struct view_name *m = &v->name[s->mutex];
    return !m->is_left_out && (m->is_made || m->start);
}

static int is_start(const struct cursor *c, const struct seen *s)
{
    const struct view_name *m = &c->view->name[s->mutex];
    return !m->is_made && s->end == m->start && m->starter == (uint32_t)(c->life - c->view->life);
}

/* Whether a call is late enough. A mutex that wasn't initialised in the recording begins when the starter takes it. A
 * call that began before and returned after that has lines only if it took the mutex then, or may have taken it. */
static int is_in_time(const struct cursor *c, const struct seen *s)
{
    const struct view_name *m = &c->view->name[s->mutex];
    if (m->is_made || s->begin > m->start || is_start(c, s))
        return 1;
    return (!s->end || s->end > m->start) && rec_may_take(s->call) && (!s->end || rec_takes(s));
}

/* ---- Lines. */

static void put(struct cursor *c, uint64_t stamp, enum kind kind, const struct seen *s, const char *reply)
{
    struct line l = {.stamp = stamp, .kind = kind, .reply = reply};
    if (s) {
        l.call = s->call;
        l.mutex = s->mutex;
        l.cond = s->call == WAIT || is_signal(s->call) ? s->cond : 0;
    }
    c->line[c->lines++] = l;
}

/* A wait that began before the starter took its mutex had released the mutex by then, so a lock comes before it. */
static void put_begin(struct cursor *c, const struct seen *s)
{
    const struct view_name *m = &c->view->name[s->mutex];
    if (!m->is_made && s->call == WAIT && s->begin <= m->start) {
        struct seen lock = *s;
        lock.call = LOCK;
        put(c, s->begin, BEGINS, &lock, NULL);
        put(c, s->begin, RETURNS, &lock, "OK");
        hold(c, s->mutex, 0);
    }
    put(c, s->begin, BEGINS, s, NULL);
}

/* If a mutex is inconsistent at its start, an unknown thread took it and died. */
static void put_return(struct cursor *c, const struct seen *s, const char *reply)
{
    if (is_start(c, s) && s->reply == EOWNERDEAD)
        put(c, s->end, GHOST, s, NULL);
    put(c, s->end, RETURNS, s, reply);
}

static void put_open(struct cursor *c, const struct seen *s)
{
    const struct held *h = held_in(c, s->mutex);
    int again = s->flags & RECURSIVE && h && ((rec_may_take(s->call) && s->call != WAIT) || h->depth > 1);
    if (is_signal(s->call) || again)
        return;
    put_begin(c, s);
    c->open = s->mutex;
}

static void put_call(struct cursor *c, struct seen *s)
{
    struct view *v = c->view;
    c->is_cut = s->begin > v->to || s->end > v->to;
    if (s->end > v->to)
        s->end = 0;
    if (s->begin > v->to)
        return;
    c->last = s->end ? s->end : s->begin;
    if ((s->end && s->end < v->from) || !is_of_a_history(v, s) || !is_in_time(c, s))
        return;
    if (!s->end) {
        put_open(c, s);
        return;
    }
    unsigned before = c->lines;
    const struct seen whole = *s;
    put_begin(c, &whole);
    const char *reply = reply_to(c, &whole);
    if (reply)
        put_return(c, &whole, reply);
    else
        c->lines = before;
}

/* A doom, if the thread died in a call or while it owned a mutex: at some moment after its last line. A thread that
 * can't be seen to live may be dead. */
static void put_end(struct cursor *c)
{
    const struct view_life *l = c->life;
    c->is_over = 1;
    if (c->is_cut || l->is_alive || (!c->open && !c->helds))
        return;
    c->is_doomed = 1;
    put(c, c->last, DOOMED, NULL, NULL);
    if (l->gone && l->gone <= c->view->to)
        put(c, l->gone, REAPED, NULL, NULL);
}

static void fill(struct cursor *c)
{
    struct seen s;
    c->lines = c->next = 0;
    while (!c->lines && !c->is_over)
        if (!c->is_cut && rec_next_call(&c->reader, &s))
            put_call(c, &s);
        else
            put_end(c);
}

void rec_begin_lines(struct cursor *c, struct view *v, uint32_t life)
{
    *c = (struct cursor){.view = v, .life = &v->life[life], .reader = {.life = &v->life[life]}};
    fill(c);
}

/* The next line. NULL: there are no more. */
const struct line *rec_line(struct cursor *c) { return c->next < c->lines ? &c->line[c->next] : NULL; }

void rec_next_line(struct cursor *c)
{
    if (++c->next >= c->lines)
        fill(c);
}

void rec_end_lines(struct cursor *c) { free(c->held); }
