/* What the modules of `pz-record --history` share: a recording, what is known about its mutexes, and the lines of each
 * thread's life. */
#ifndef VIEW_H
#define VIEW_H
#include "program.h"

/* A call, as it was when the recording was opened. */
struct seen {
    uint64_t begin, end; /* end 0: it didn't return */
    uint32_t mutex, cond;
    int call, flags, reply;
};

/* Some of a life's calls, next to each other. */
struct piece {
    const struct record *record;
    uint32_t count;
};
struct view_life {
    struct piece *piece;
    uint32_t pieces;
    int is_open;          /* its last call hadn't returned */
    int is_alive;         /* when the recording was opened */
    uint64_t gone;        /* 0: its end wasn't seen */
    uint64_t first, last; /* stamps of its lines; first 0: it has none */
    uint64_t idle_from;   /* after this its id is free; UINT64_MAX: never */
    uint32_t id;          /* in the history, from 1 */
    int is_reaped;        /* by its last line: the next life with its id begins with a renew */
    int is_renewed;
};

/* A mutex from one init to the next, or a condition variable. The state of a mutex that wasn't initialised in the
 * recording is unknown, so its lines begin at `start`, when a thread has just taken it. */
struct view_name {
    uint64_t start; /* 0: it wasn't taken */
    uint32_t starter;
    int reply; /* to the starter */
    int is_made, is_left_out, is_called, is_used;
    uint32_t mutex; /* a condition variable's: the one that a waiter named; 0: none */
    uint32_t number;
};

struct view {
    const struct recording *file;
    uint64_t from, to; /* the stamps between which no call is missing */
    uint32_t lives, names;
    struct view_life *life;
    struct view_name *name; /* by number, from 1 */
    uint32_t ids, mutexes, conds;
    int has_ghost;    /* an unknown thread died owning a mutex (cursor.c) */
    uint64_t unknown; /* calls whose reply histories don't have */
};

/* ---- view.c */
void rec_open_view(struct view *v, const char *path);
struct reader {
    const struct view_life *life;
    uint32_t piece, at;
};
int rec_next_call(struct reader *r, struct seen *call);
void *rec_room(size_t count, size_t size);

/* ---- facts.c */
void rec_find_facts(struct view *v);
int rec_may_take(int call);
int rec_takes(const struct seen *c);

/* ---- cursor.c: the lines of one life. */
enum kind { BEGINS, DOOMED, RETURNS, REAPED, GHOST }; /* at the same stamp, in this order: then most calls overlap */
struct line {
    uint64_t stamp;
    enum kind kind;
    int call;
    uint32_t mutex, cond;
    const char *reply;
};
struct held {
    uint32_t mutex, depth;
    int is_inconsistent;
};
struct cursor {
    struct view *view;
    struct view_life *life;
    struct reader reader;
    struct line line[8]; /* the next ones */
    unsigned lines, next;
    struct held *held;
    size_t helds, room;
    uint64_t last;
    uint32_t open;       /* the mutex of a call that hasn't returned; 0: there is none */
    int is_cut, is_over; /* it continues after the view's end; its last lines were returned */
    int is_doomed;
};
void rec_begin_lines(struct cursor *c, struct view *v, uint32_t life);
const struct line *rec_line(struct cursor *c);
void rec_next_line(struct cursor *c);
void rec_end_lines(struct cursor *c);

/* ---- ids.c */
void rec_give_ids(struct view *v);
#endif
