/* The step programs in C: the tables of docs/CALLS.md row by row, which are those of crates/mutex, condvar and exitwalk
 * (specs/Lock.antt and its neighbours; specs/Codings.antt has the numbers). checks/equal shows that each function
 * returns and writes what the proved one does, for every input. */
#include "pz_steps.h"
#include "rows.h"
#include <errno.h>

/* Ids of threads; how many entries of a list a walk loads, how many exchanges a trylock makes, how many are woken as
 * all. */
enum { THREADS = PZ_MOST_THREADS, HELD = 2048, RACES = 4, ALL = THREADS };

/* The cell: an owner, and three marks. */
static const uint64_t OWNER = 0x3fffffff, OWNER_DIED = 0x40000000, WAITERS = 0x80000000, UNUSABLE = 0x100000000;

/* Where a walk stands. */
enum {
    WALK_LOAD_FIRST = 1,
    WALK_LOAD_OFFSET,
    WALK_LOAD_PENDING,
    WALK_LOAD_NEXT,
    WALK_LOAD_WORD,
    WALK_MARK,
    WALK_WAKE_ONE
};

static int is_thread(unsigned t) { return t >= 1 && t <= THREADS; }
static uint64_t owner(uint64_t cell) { return cell & OWNER; }
static int is_free(uint64_t cell) { return !(cell & (OWNER | UNUSABLE)); }

/* An answer; one with more woken than are counted is a fault. */
struct answer {
    uint32_t kind;
    uint64_t value;
};
static struct answer answer_of(uint32_t kind, uint64_t value)
{
    return (struct answer){kind == PZ_COUNT && value > UINT32_MAX ? PZ_FAULT : kind, value};
}

/* ---- Accesses. The words of a thread's head are the first entry, the offset and the pending entry; those of an entry
 * are the next and the previous one. */

static struct pz_access asks(unsigned kind, uint64_t at, uint64_t a, uint64_t b, unsigned most)
{
    return (struct pz_access){.at = at, .a = a, .b = b, .kind = kind, .most = most, .point = PZ_NO_POINT};
}
static struct pz_access load(uint64_t at) { return asks(PZ_LOAD, at, 0, 0, 0); }
static struct pz_access store(uint64_t at, uint64_t value) { return asks(PZ_STORE, at, value, 0, 0); }
static struct pz_access exchange(uint64_t at, uint64_t seen, uint64_t by) { return asks(PZ_EXCHANGE, at, seen, by, 0); }
static struct pz_access sleep_on(uint64_t at, uint32_t low) { return asks(PZ_WAIT, at, low, 0, 0); }
static struct pz_access wake(uint64_t at, unsigned most) { return asks(PZ_WAKE, at, 0, 0, most); }
static struct pz_access announce(const struct pz_call *c) { return store(c->head + 2, c->entry); }

static struct pz_access unlink_access(const struct pz_call *c, unsigned row, uint64_t next, uint64_t previous)
{
    switch (row) {
    case UNLINK_LOAD_NEXT:
        return load(c->entry);
    case UNLINK_LOAD_PREVIOUS:
        return load(c->entry + 1);
    case UNLINK_STORE_NEXT:
        return store(previous, next);
    default: /* UNLINK_STORE_PREVIOUS */
        return store(next + 1, previous);
    }
}

/* Before a call is at the cell, and after it. */
static struct pz_access access_around(const struct pz_call *c)
{
    const struct pz_phase *p = &c->phase.lock;
    switch (p->kind) {
    case CLEARING:
        return store(c->head + 2, 0);
    case LINK_LOAD_FIRST:
        return load(c->head);
    case LINK_STORE_NEXT:
        return store(c->entry, p->x);
    case LINK_STORE_PREVIOUS:
        return store(c->entry + 1, c->head);
    case LINK_STORE_BEHIND:
        return store(p->x + 1, c->entry);
    case LINK_STORE_FIRST:
        return store(c->head, c->entry);
    default:
        return unlink_access(c, p->kind, p->x, p->y);
    }
}

static struct pz_access access_at_cell(const struct pz_call *c)
{
    const struct pz_phase *p = &c->phase.lock;
    switch (p->kind) {
    case LOCK_TAKE:
    case TRY_TAKE:
        return exchange(c->cell, p->x, p->x | c->thread);
    case LOCK_SET_WAITERS:
        return exchange(c->cell, p->x, p->x | WAITERS);
    case LOCK_SLEEP:
        return sleep_on(c->cell, (uint32_t)p->x);
    case LOCK_WAKE_ALL:
        return wake(c->cell, ALL);
    case UNLOCK_RELEASE: /* a thread that learned of a death and declared nothing leaves the mutex unusable */
        return asks(PZ_XOR, c->cell, p->flag ? c->thread | OWNER_DIED | UNUSABLE : c->thread, 0, 0);
    case UNLOCK_WAKE:
        return wake(c->cell, p->flag ? ALL : 1);
    case UNLOCK_TRIM:
        return asks(PZ_TRIM, c->cell, 0, 0, 0);
    case CONSISTENT_DECLARE:
        return asks(PZ_AND, c->cell, ~OWNER_DIED, 0, 0);
    default: /* LOCK_LOAD, TRY_LOAD, UNLOCK_LOAD, CONSISTENT_LOAD */
        return load(c->cell);
    }
}

static struct pz_access access_on_mutex(const struct pz_call *c)
{
    unsigned kind = c->phase.lock.kind;
    return kind >= ANNOUNCING ? announce(c) : kind >= LOCK_LOAD ? access_at_cell(c) : access_around(c);
}

static struct pz_access access_at_words(const struct pz_call *c)
{
    switch (c->phase.kind) {
    case WAIT_LOAD_COUNTER:
    case SIGNAL_LOAD_COUNTER:
    case BROADCAST_LOAD_COUNTER:
        return load(c->counter);
    case WAIT_RELEASE:
        return asks(PZ_XOR, c->cell, c->thread, 0, 0);
    case WAIT_WAKE:
        return wake(c->cell, 1);
    case WAIT_SLEEP:
        return sleep_on(c->counter, c->phase.seen);
    case SIGNAL_COUNT:
    case BROADCAST_COUNT:
        return asks(PZ_ADD, c->counter, 1, 0, 0);
    case SIGNAL_WAKE:
        return wake(c->counter, 1);
    case BROADCAST_SET_WAITERS:
        return asks(PZ_OR, c->cell, WAITERS, 0, 0);
    case BROADCAST_MOVE: /* nobody is woken; the counter is one more than was seen */
        return asks(PZ_CMP_REQUEUE, c->counter, (uint32_t)(c->phase.seen + 1), c->cell, ALL);
    default: /* WAIT_LOAD_CELL, SIGNAL_LOAD_CELL, BROADCAST_LOAD_CELL */
        return load(c->cell);
    }
}

static struct pz_access access_on_condition(const struct pz_call *c)
{
    const struct pz_phase *p = &c->phase.lock;
    unsigned kind = c->phase.kind;
    if (kind < WAIT_ANNOUNCING)
        return access_at_words(c);
    if (kind == WAIT_ANNOUNCING)
        return announce(c);
    return kind == WAIT_LOCKING ? access_on_mutex(c)
                                : unlink_access(c, kind - WAIT_UNLINKING + UNLINK_LOAD_NEXT, p->x, p->y);
}

static struct pz_access walk_access(const struct pz_walk *w)
{
    const struct pz_row *r = &w->row;
    switch (r->kind) {
    case WALK_LOAD_OFFSET:
        return load(w->head + 1);
    case WALK_LOAD_PENDING:
        return load(w->head + 2);
    case WALK_LOAD_NEXT:
        return load(r->entry);
    case WALK_LOAD_WORD:
        return load(r->at);
    case WALK_MARK: /* no owner, OWNER_DIED, and the rest as it was */
        return exchange(r->at, r->seen, (r->seen & ~OWNER) | OWNER_DIED);
    case WALK_WAKE_ONE:
        return wake(r->at, 1);
    default: /* WALK_LOAD_FIRST */
        return load(w->head);
    }
}

/* ---- Where an answer leads a call on a mutex. */

/* Whose call it is. The lock that ends a wait is a call by itself. */
struct caller {
    uint64_t head;
    uint8_t thread, operation;
};

/* Where the call stands then, and the reply and the operation of the point, if that answer decided one. */
struct led {
    struct pz_cond_phase at;
    uint16_t point;
    uint8_t operation;
};

static struct led goes(unsigned kind, unsigned flag, uint64_t x, uint64_t y)
{
    struct pz_phase p = {.x = x, .y = y, .kind = (uint8_t)kind, .flag = (uint8_t)flag};
    return (struct led){.at = {.lock = p}, .point = PZ_NO_POINT};
}
static struct led replies(unsigned kind, unsigned reply, uint64_t x)
{
    struct led led = goes(kind, 0, x, 0);
    led.at.lock.reply = (uint16_t)reply;
    return led;
}
static struct led faults(void) { return replies(ENDED, EFAULT, 0); }

static struct led decides(struct led led, unsigned operation, unsigned reply)
{
    led.point = (uint16_t)reply;
    led.operation = (uint8_t)operation;
    return led;
}

/* Away from the cell: a mutex that was taken is put on the list, and what is pending is cleared. */
static struct led leaves(struct caller who, unsigned reply)
{
    int takes = who.operation == PZ_OP_LOCK || who.operation == PZ_OP_TRYLOCK;
    if (takes && (reply == 0 || reply == EOWNERDEAD))
        return replies(LINK_LOAD_FIRST, reply, 0);
    if (takes || (who.operation == PZ_OP_UNLOCK && reply == 0))
        return replies(CLEARING, reply, 0);
    return replies(ENDED, reply, 0);
}
static struct led ends(struct caller who, unsigned reply) { return decides(leaves(who, reply), who.operation, reply); }
static struct led takes(struct caller who, uint64_t cell) { return ends(who, cell & OWNER_DIED ? EOWNERDEAD : 0); }

static struct led lock_decides(struct caller who, uint64_t cell)
{
    if ((cell & UNUSABLE) && (cell & WAITERS)) /* whoever sleeps there is to be told too */
        return decides(goes(LOCK_WAKE_ALL, 0, 0, 0), who.operation, ENOTRECOVERABLE);
    if (cell & UNUSABLE)
        return ends(who, ENOTRECOVERABLE);
    if (owner(cell) == who.thread)
        return ends(who, EDEADLK);
    if (!owner(cell))
        return goes(LOCK_TAKE, 0, cell, 0);
    return goes(cell & WAITERS ? LOCK_SLEEP : LOCK_SET_WAITERS, 0, cell, 0);
}

static struct led after_lock(struct caller who, const struct pz_phase *p, struct answer a)
{
    switch (p->kind) {
    case LOCK_LOAD:
        return a.kind == PZ_VALUE ? lock_decides(who, a.value) : faults();
    case LOCK_TAKE:
        if (a.kind == PZ_EXCHANGED)
            return takes(who, p->x);
        return a.kind == PZ_CHANGED ? lock_decides(who, a.value) : faults();
    case LOCK_SET_WAITERS:
        if (a.kind == PZ_EXCHANGED)
            return goes(LOCK_SLEEP, 0, p->x | WAITERS, 0);
        return a.kind == PZ_CHANGED ? lock_decides(who, a.value) : faults();
    case LOCK_SLEEP:
        return a.kind == PZ_AGAIN || a.kind == PZ_WOKEN ? goes(LOCK_LOAD, 0, 0, 0) : faults();
    default: /* LOCK_WAKE_ALL */
        return a.kind == PZ_COUNT ? leaves(who, ENOTRECOVERABLE) : faults();
    }
}

static struct led try_decides(struct caller who, uint64_t cell, uint64_t failed)
{
    if (cell & UNUSABLE)
        return ends(who, ENOTRECOVERABLE);
    if (owner(cell))
        return ends(who, EBUSY);
    return failed == RACES ? ends(who, PZ_X_RACED) : goes(TRY_TAKE, 0, cell, failed);
}

static struct led after_trylock(struct caller who, const struct pz_phase *p, struct answer a)
{
    if (p->kind == TRY_LOAD)
        return a.kind == PZ_VALUE ? try_decides(who, a.value, 0) : faults();
    if (a.kind == PZ_EXCHANGED) /* TRY_TAKE */
        return takes(who, p->x);
    return a.kind == PZ_CHANGED ? try_decides(who, a.value, p->y + 1) : faults();
}

static struct led after_unlock(struct caller who, const struct pz_phase *p, struct answer a)
{
    switch (p->kind) {
    case UNLOCK_LOAD:
        if (a.kind != PZ_VALUE)
            return faults();
        if (owner(a.value) != who.thread)
            return ends(who, EPERM);
        return goes(ANNOUNCING + UNLOCK_RELEASE, (a.value & OWNER_DIED) != 0, 0, 0);
    case UNLOCK_RELEASE:
        if (a.kind != PZ_VALUE)
            return faults();
        return a.value & WAITERS ? decides(goes(UNLOCK_WAKE, p->flag, 0, 0), who.operation, 0) : ends(who, 0);
    case UNLOCK_WAKE: /* where one was to be woken, and nobody slept */
        if (a.kind == PZ_COUNT && !p->flag && a.value == 0)
            return goes(UNLOCK_TRIM, 0, 0, 0);
        return a.kind == PZ_COUNT ? leaves(who, 0) : faults();
    default: /* UNLOCK_TRIM */
        return a.kind == PZ_TRIMMED ? leaves(who, 0) : faults();
    }
}

static struct led after_consistent(struct caller who, const struct pz_phase *p, struct answer a)
{
    if (a.kind != PZ_VALUE)
        return faults();
    if (p->kind == CONSISTENT_DECLARE)
        return ends(who, 0);
    if (owner(a.value) != who.thread) /* CONSISTENT_LOAD */
        return ends(who, EPERM);
    return a.value & OWNER_DIED ? goes(CONSISTENT_DECLARE, 0, 0, 0) : ends(who, EINVAL);
}

/* The entry is put in front of the list. */
static struct led after_link(struct caller who, const struct pz_phase *p, struct answer a)
{
    if (a.kind != (p->kind == LINK_LOAD_FIRST ? PZ_VALUE : PZ_STORED))
        return faults();
    switch (p->kind) {
    case LINK_LOAD_FIRST:
        return replies(LINK_STORE_NEXT, p->reply, a.value);
    case LINK_STORE_NEXT:
        return replies(LINK_STORE_PREVIOUS, p->reply, p->x);
    case LINK_STORE_PREVIOUS: /* in an empty list nobody was first */
        return p->x == who.head ? replies(LINK_STORE_FIRST, p->reply, 0) : replies(LINK_STORE_BEHIND, p->reply, p->x);
    case LINK_STORE_BEHIND:
        return replies(LINK_STORE_FIRST, p->reply, 0);
    default: /* LINK_STORE_FIRST */
        return replies(CLEARING, p->reply, 0);
    }
}

/* The entry is taken out of the list, and the mutex released then. */
static struct led after_unlink(struct caller who, const struct pz_phase *p, struct answer a)
{
    if (a.kind != (p->kind <= UNLINK_LOAD_PREVIOUS ? PZ_VALUE : PZ_STORED))
        return faults();
    switch (p->kind) {
    case UNLINK_LOAD_NEXT:
        return goes(UNLINK_LOAD_PREVIOUS, p->flag, a.value, 0);
    case UNLINK_LOAD_PREVIOUS:
        return goes(UNLINK_STORE_NEXT, p->flag, p->x, a.value);
    case UNLINK_STORE_NEXT: /* after the last entry comes the head, which has no previous one */
        if (p->x != who.head)
            return goes(UNLINK_STORE_PREVIOUS, p->flag, p->x, p->y);
        return goes(UNLOCK_RELEASE, p->flag, 0, 0);
    default: /* UNLINK_STORE_PREVIOUS */
        return goes(UNLOCK_RELEASE, p->flag, 0, 0);
    }
}

/* The entry is pending: to the cell, but before a release out of the list first. */
static struct led announced(const struct pz_phase *p, struct answer a)
{
    unsigned row = p->kind - ANNOUNCING;
    if (a.kind != PZ_STORED)
        return faults();
    return row == UNLOCK_RELEASE ? goes(UNLINK_LOAD_NEXT, p->flag, 0, 0) : goes(row, p->flag, p->x, p->y);
}

static struct led after_on_mutex(struct caller who, const struct pz_phase *p, struct answer a)
{
    if (p->kind >= ANNOUNCING)
        return announced(p, a);
    if (p->kind >= CONSISTENT_LOAD)
        return after_consistent(who, p, a);
    if (p->kind >= UNLOCK_LOAD)
        return after_unlock(who, p, a);
    if (p->kind >= TRY_LOAD)
        return after_trylock(who, p, a);
    if (p->kind >= LOCK_LOAD)
        return after_lock(who, p, a);
    if (p->kind >= UNLINK_LOAD_NEXT)
        return after_unlink(who, p, a);
    if (p->kind >= LINK_LOAD_FIRST)
        return after_link(who, p, a);
    return a.kind == PZ_STORED ? replies(ENDED, p->reply, 0) : faults(); /* CLEARING */
}

/* ---- Where an answer leads a call on a condition variable. */

static struct led goes_on(unsigned kind, uint32_t seen, uint64_t x, uint64_t y)
{
    struct led led = goes(0, 0, x, y);
    led.at.seen = seen;
    led.at.kind = (uint8_t)kind;
    return led;
}
static struct led refuses(unsigned operation, unsigned reply)
{
    return decides(replies(ENDED, reply, 0), operation, reply);
}

/* As an unlock's, and released then. */
static struct led after_wait_unlink(struct caller who, const struct pz_cond_phase *p, struct answer a)
{
    struct pz_phase row = p->lock;
    row.kind = (uint8_t)(p->kind - WAIT_UNLINKING + UNLINK_LOAD_NEXT);
    struct pz_phase next = after_unlink(who, &row, a).at.lock;
    if (next.kind == ENDED)
        return faults();
    if (next.kind == UNLOCK_RELEASE)
        return goes_on(WAIT_RELEASE, p->seen, 0, 0);
    return goes_on(next.kind - UNLINK_LOAD_NEXT + WAIT_UNLINKING, p->seen, next.x, next.y);
}

static struct led after_locking(struct caller who, const struct pz_cond_phase *p, struct answer a)
{
    who.operation = PZ_OP_LOCK;
    struct led led = after_on_mutex(who, &p->lock, a);
    led.at.kind = led.at.lock.kind == ENDED ? ENDED : WAIT_LOCKING;
    return led;
}

static struct led after_sleep(struct answer a)
{
    if (a.kind != PZ_AGAIN && a.kind != PZ_WOKEN)
        return faults();
    struct led led = goes(LOCK_LOAD, 0, 0, 0);
    led.at.kind = WAIT_LOCKING;
    return led;
}

static struct led after_wait(struct caller who, const struct pz_cond_phase *p, struct answer a)
{
    switch (p->kind) {
    case WAIT_LOAD_CELL: /* its owner waits, and only where nothing is to be repaired */
        if (a.kind != PZ_VALUE)
            return faults();
        if (owner(a.value) != who.thread)
            return refuses(PZ_OP_WAIT, EPERM);
        return a.value & OWNER_DIED ? refuses(PZ_OP_WAIT, PZ_X_STATE) : goes_on(WAIT_LOAD_COUNTER, 0, 0, 0);
    case WAIT_LOAD_COUNTER:
        return a.kind == PZ_VALUE ? goes_on(WAIT_ANNOUNCING, (uint32_t)a.value, 0, 0) : faults();
    case WAIT_ANNOUNCING:
        return a.kind == PZ_STORED ? goes_on(WAIT_UNLINKING, p->seen, 0, 0) : faults();
    case WAIT_RELEASE:
        if (a.kind != PZ_VALUE)
            return faults();
        return decides(goes_on(a.value & WAITERS ? WAIT_WAKE : WAIT_SLEEP, p->seen, 0, 0), PZ_OP_UNLOCK, 0);
    case WAIT_WAKE:
        return a.kind == PZ_COUNT ? goes_on(WAIT_SLEEP, p->seen, 0, 0) : faults();
    case WAIT_SLEEP:
        return after_sleep(a);
    case WAIT_LOCKING:
        return after_locking(who, p, a);
    default: /* WAIT_UNLINKING */
        return after_wait_unlink(who, p, a);
    }
}

static struct led after_signal(struct caller who, const struct pz_cond_phase *p, struct answer a)
{
    if (a.kind != (p->kind == SIGNAL_WAKE ? PZ_COUNT : PZ_VALUE))
        return faults();
    switch (p->kind) {
    case SIGNAL_LOAD_CELL:
        return owner(a.value) == who.thread ? goes_on(SIGNAL_LOAD_COUNTER, 0, 0, 0) : refuses(PZ_OP_SIGNAL, EPERM);
    case SIGNAL_LOAD_COUNTER:
        return a.value != UINT32_MAX ? goes_on(SIGNAL_COUNT, 0, 0, 0) : refuses(PZ_OP_SIGNAL, PZ_X_FULL);
    case SIGNAL_COUNT:
        return decides(goes_on(SIGNAL_WAKE, 0, 0, 0), PZ_OP_SIGNAL, 0);
    default: /* SIGNAL_WAKE */
        return replies(ENDED, 0, 0);
    }
}

static struct led after_broadcast(struct caller who, const struct pz_cond_phase *p, struct answer a)
{
    if (p->kind == BROADCAST_MOVE)
        return a.kind == PZ_COUNTS || a.kind == PZ_AGAIN ? replies(ENDED, 0, 0) : faults();
    if (a.kind != PZ_VALUE)
        return faults();
    switch (p->kind) {
    case BROADCAST_LOAD_CELL:
        return owner(a.value) == who.thread ? goes_on(BROADCAST_LOAD_COUNTER, 0, 0, 0)
                                            : refuses(PZ_OP_BROADCAST, EPERM);
    case BROADCAST_LOAD_COUNTER:
        return a.value != UINT32_MAX ? goes_on(BROADCAST_COUNT, (uint32_t)a.value, 0, 0)
                                     : refuses(PZ_OP_BROADCAST, PZ_X_FULL);
    case BROADCAST_COUNT:
        return decides(goes_on(BROADCAST_SET_WAITERS, p->seen, 0, 0), PZ_OP_BROADCAST, 0);
    default: /* BROADCAST_SET_WAITERS */
        return goes_on(BROADCAST_MOVE, p->seen, 0, 0);
    }
}

static struct led after_on_condition(struct caller who, const struct pz_cond_phase *p, struct answer a)
{
    if (p->kind >= SIGNAL_LOAD_CELL && p->kind <= SIGNAL_WAKE)
        return after_signal(who, p, a);
    if (p->kind >= BROADCAST_LOAD_CELL && p->kind <= BROADCAST_MOVE)
        return after_broadcast(who, p, a);
    return after_wait(who, p, a);
}

/* ---- Where an answer leads a walk. */

static const struct pz_row walk_ended;

/* The next entry; at the list's end, and after as many as a thread holds at most, the pending one. */
static struct pz_row forward(uint64_t head, const struct pz_row *r)
{
    if (r->entry != head && r->loaded != HELD)
        return (struct pz_row){
            .entry = r->entry, .offset = r->offset, .pending = r->pending, .loaded = r->loaded, .kind = WALK_LOAD_NEXT};
    if (!r->pending)
        return walk_ended;
    return (struct pz_row){.at = r->pending + r->offset, .kind = WALK_LOAD_WORD, .of_pending = 1};
}

/* Through with a word. */
static struct pz_row on(uint64_t head, const struct pz_row *r) { return r->of_pending ? walk_ended : forward(head, r); }

static struct pz_row at_word(const struct pz_row *r, unsigned kind, uint64_t seen, unsigned again)
{
    struct pz_row next = *r;
    next.kind = (uint8_t)kind;
    next.seen = seen;
    next.again = (uint8_t)again;
    return next;
}

/* A word that the dead thread owns is marked. The pending one's that nobody owns may have been released by it, so it
 * wakes for it. */
static struct pz_row looks(const struct pz_walk *w, uint64_t word, unsigned again)
{
    const struct pz_row *r = &w->row;
    if (r->of_pending && !owner(word))
        return at_word(r, WALK_WAKE_ONE, 0, 0);
    return owner(word) == w->thread ? at_word(r, WALK_MARK, word, again) : on(w->head, r);
}

/* Its next is known, before its mutex is looked at; that of the pending entry comes last. */
static struct pz_row after_next(uint64_t head, const struct pz_row *r, uint64_t next)
{
    struct pz_row further = *r;
    further.entry = next;
    further.loaded++;
    if (r->entry == r->pending)
        return forward(head, &further);
    further.at = r->entry + r->offset;
    further.kind = WALK_LOAD_WORD;
    return further;
}

static struct pz_row after_mark(const struct pz_walk *w, struct answer a)
{
    const struct pz_row *r = &w->row;
    if (a.kind == PZ_EXCHANGED)
        return r->seen & WAITERS ? at_word(r, WALK_WAKE_ONE, 0, 0) : on(w->head, r);
    if (a.kind != PZ_CHANGED)
        return walk_ended;
    return r->again ? on(w->head, r) : looks(w, a.value, 1);
}

static struct pz_row walk_after(const struct pz_walk *w, struct answer a)
{
    const struct pz_row *r = &w->row;
    struct pz_row next = *r;
    if (r->kind == WALK_MARK)
        return after_mark(w, a);
    if (a.kind != (r->kind == WALK_WAKE_ONE ? PZ_COUNT : PZ_VALUE))
        return walk_ended;
    switch (r->kind) {
    case WALK_LOAD_FIRST:
        next.entry = a.value;
        next.kind = WALK_LOAD_OFFSET;
        return next;
    case WALK_LOAD_OFFSET:
        next.offset = a.value;
        next.kind = WALK_LOAD_PENDING;
        return next;
    case WALK_LOAD_PENDING:
        next.pending = a.value;
        return forward(w->head, &next);
    case WALK_LOAD_NEXT:
        return after_next(w->head, r, a.value);
    case WALK_LOAD_WORD:
        return looks(w, a.value, 0);
    default: /* WALK_WAKE_ONE */
        return on(w->head, r);
    }
}

/* ---- Which numbers are those of a call, or of a walk, in progress: what a row doesn't carry is 0. */

enum { STANDS = 1, REPLY = 2, FLAG = 4, X = 8, Y = 16, SEEN = 32 };

static const uint8_t carried_on_mutex[] = {
    [CLEARING] = STANDS | REPLY,
    [LINK_LOAD_FIRST] = STANDS | REPLY,
    [LINK_STORE_NEXT] = STANDS | REPLY | X, /* x: the first entry */
    [LINK_STORE_PREVIOUS] = STANDS | REPLY | X,
    [LINK_STORE_BEHIND] = STANDS | REPLY | X,
    [LINK_STORE_FIRST] = STANDS | REPLY,
    [UNLINK_LOAD_NEXT] = STANDS | FLAG,          /* flag: OWNER_DIED as it was noted */
    [UNLINK_LOAD_PREVIOUS] = STANDS | FLAG | X,  /* x: the next entry */
    [UNLINK_STORE_NEXT] = STANDS | FLAG | X | Y, /* y: the previous one */
    [UNLINK_STORE_PREVIOUS] = STANDS | FLAG | X | Y,
    [LOCK_LOAD] = STANDS,
    [LOCK_TAKE] = STANDS | X, /* x: the cell as it was seen */
    [LOCK_SET_WAITERS] = STANDS | X,
    [LOCK_SLEEP] = STANDS | X,
    [LOCK_WAKE_ALL] = STANDS,
    [TRY_LOAD] = STANDS,
    [TRY_TAKE] = STANDS | X | Y, /* y: exchanges that failed */
    [UNLOCK_LOAD] = STANDS,
    [UNLOCK_RELEASE] = STANDS | FLAG,
    [UNLOCK_WAKE] = STANDS | FLAG, /* flag: all are woken */
    [UNLOCK_TRIM] = STANDS,
    [CONSISTENT_LOAD] = STANDS,
    [CONSISTENT_DECLARE] = STANDS,
};

static const uint8_t carried_on_condition[] = {
    [WAIT_LOAD_CELL] = STANDS,
    [WAIT_LOAD_COUNTER] = STANDS,
    [WAIT_RELEASE] = STANDS | SEEN, /* seen: the counter's low half */
    [WAIT_WAKE] = STANDS | SEEN,
    [WAIT_SLEEP] = STANDS | SEEN,
    [SIGNAL_LOAD_CELL] = STANDS,
    [SIGNAL_LOAD_COUNTER] = STANDS,
    [SIGNAL_COUNT] = STANDS,
    [SIGNAL_WAKE] = STANDS,
    [BROADCAST_LOAD_CELL] = STANDS,
    [BROADCAST_LOAD_COUNTER] = STANDS,
    [BROADCAST_COUNT] = STANDS | SEEN,
    [BROADCAST_SET_WAITERS] = STANDS | SEEN,
    [BROADCAST_MOVE] = STANDS | SEEN,
    [WAIT_ANNOUNCING] = STANDS | SEEN,
    [WAIT_UNLINKING] = STANDS | SEEN,
    [WAIT_UNLINKING + 1] = STANDS | SEEN | X,
    [WAIT_UNLINKING + 2] = STANDS | SEEN | X | Y,
    [WAIT_UNLINKING + 3] = STANDS | SEEN | X | Y,
};

static int is_reply(unsigned reply)
{
    static const uint16_t replies[] = {0,          EPERM,     ESRCH,     EAGAIN,     EFAULT,          EBUSY,
                                       EINVAL,     EDEADLK,   ETIMEDOUT, EOWNERDEAD, ENOTRECOVERABLE, PZ_X_NOMEM,
                                       PZ_X_RACED, PZ_X_HELD, PZ_X_FULL, PZ_X_STATE};
    for (unsigned i = 0; i < sizeof replies / sizeof *replies; i++)
        if (replies[i] == reply)
            return 1;
    return 0;
}

/* Whether a row may have seen this cell. */
static int may_see(unsigned row, uint64_t cell)
{
    switch (row) {
    case LOCK_TAKE:
    case TRY_TAKE:
        return is_free(cell);
    case LOCK_SET_WAITERS:
        return owner(cell) != 0;
    case LOCK_SLEEP:
        return owner(cell) != 0 && (cell & WAITERS);
    default:
        return 1;
    }
}

static int is_on_mutex(const struct pz_phase *p)
{
    unsigned row = p->kind >= ANNOUNCING + LOCK_LOAD ? p->kind - ANNOUNCING : p->kind;
    unsigned carried = row < sizeof carried_on_mutex ? carried_on_mutex[row] : 0;
    if (!carried || (row == TRY_TAKE && p->y >= RACES))
        return 0;
    return (carried & REPLY ? is_reply(p->reply) : !p->reply) && (carried & FLAG ? p->flag <= 1 : !p->flag) &&
           (carried & X ? may_see(row, p->x) : !p->x) && (carried & Y || !p->y);
}

static int is_on_condition(const struct pz_cond_phase *p)
{
    if (p->kind == WAIT_LOCKING)
        return !p->seen && is_on_mutex(&p->lock);
    unsigned carried = p->kind < sizeof carried_on_condition ? carried_on_condition[p->kind] : 0;
    return carried && !p->lock.kind && !p->lock.flag && !p->lock.reply && (carried & SEEN || !p->seen) &&
           (carried & X || !p->lock.x) && (carried & Y || !p->lock.y);
}

static int is_call(const struct pz_call *c)
{
    if (!is_thread(c->thread) || c->program > ON_CONDITION)
        return 0;
    if (c->program == ON_CONDITION)
        return is_on_condition(&c->phase);
    return !c->counter && !c->phase.seen && !c->phase.kind && is_on_mutex(&c->phase.lock);
}

/* With a word in hand: at, whose it is, and of the list's what is left of it. */
static int is_at_word(const struct pz_walk *w)
{
    const struct pz_row *r = &w->row;
    if (r->kind == WALK_MARK ? owner(r->seen) != w->thread || r->again > 1 : r->seen || r->again)
        return 0;
    if (r->of_pending)
        return r->of_pending == 1 && !r->entry && !r->offset && !r->pending && !r->loaded;
    return r->loaded >= 1 && r->loaded <= HELD;
}

static int is_walk(const struct pz_walk *w)
{
    const struct pz_row *r = &w->row;
    if (!is_thread(w->thread))
        return 0;
    if (r->kind >= WALK_LOAD_WORD)
        return r->kind <= WALK_WAKE_ONE && is_at_word(w);
    if (r->at || r->seen || r->again || r->of_pending)
        return 0;
    switch (r->kind) {
    case WALK_LOAD_FIRST:
        return !r->entry && !r->offset && !r->pending && !r->loaded;
    case WALK_LOAD_OFFSET:
        return !r->offset && !r->pending && !r->loaded;
    case WALK_LOAD_PENDING:
        return !r->pending && !r->loaded;
    default:
        return r->kind == WALK_LOAD_NEXT && r->entry != w->head && r->loaded < HELD;
    }
}

/* ---- What pz_steps.h declares. */

static uint32_t told(struct pz_access *x, int ended, struct pz_access next, unsigned point, unsigned operation)
{
    *x = ended ? asks(PZ_NONE, 0, 0, 0, 0) : next;
    x->point = (uint16_t)point;
    x->operation = (uint8_t)operation;
    return ended ? PZ_RETURNED : PZ_GOES;
}

uint32_t pz_begin(struct pz_call *c, struct pz_access *x, uint32_t operation)
{
    static const uint8_t first[] = {ANNOUNCING + LOCK_LOAD, ANNOUNCING + TRY_LOAD, UNLOCK_LOAD, CONSISTENT_LOAD};
    static const uint8_t first_at_words[] = {WAIT_LOAD_CELL, SIGNAL_LOAD_CELL, BROADCAST_LOAD_CELL};
    if (!is_thread(c->thread) || operation > PZ_OP_BROADCAST)
        return PZ_NO_SUCH;
    if (operation <= PZ_OP_CONSISTENT) {
        c->program = (uint8_t)operation;
        c->counter = 0;
        c->phase = goes(first[operation], 0, 0, 0).at;
        *x = access_on_mutex(c);
    } else {
        c->program = ON_CONDITION;
        c->phase = goes_on(first_at_words[operation - PZ_OP_WAIT], 0, 0, 0).at;
        *x = access_on_condition(c);
    }
    return PZ_GOES;
}

uint32_t pz_step(struct pz_call *c, struct pz_access *x, uint32_t answer, uint64_t value)
{
    struct answer a = answer_of(answer, value);
    struct caller who = {c->head, c->thread, c->program};
    if (!is_call(c))
        return PZ_NO_SUCH;
    int on_condition = c->program == ON_CONDITION;
    struct led led = on_condition ? after_on_condition(who, &c->phase, a) : after_on_mutex(who, &c->phase.lock, a);
    c->phase = led.at;
    if (on_condition)
        return told(x, led.at.kind == ENDED, access_on_condition(c), led.point, led.operation);
    return told(x, led.at.lock.kind == ENDED, access_on_mutex(c), led.point, led.operation);
}

/* A lock that sleeps is at its sleep, or where it goes on from it. It never had the mutex, and its entry, which is
 * pending, is to be cleared. */
uint32_t pz_expire(struct pz_call *c, struct pz_access *x)
{
    unsigned row = c->phase.lock.kind;
    if (!is_call(c) || c->program == ON_CONDITION || (row != LOCK_LOAD && row != LOCK_SLEEP))
        return PZ_NO_SUCH;
    c->phase = replies(CLEARING, ETIMEDOUT, 0).at;
    return told(x, 0, access_on_mutex(c), ETIMEDOUT, PZ_OP_TIMEDLOCK);
}

uint32_t pz_walk_begin(struct pz_walk *w, struct pz_access *x)
{
    if (!is_thread(w->thread))
        return PZ_NO_SUCH;
    w->row = (struct pz_row){.kind = WALK_LOAD_FIRST};
    *x = walk_access(w);
    return PZ_GOES;
}

uint32_t pz_walk_next(const struct pz_walk *w, struct pz_access *x)
{
    if (!is_walk(w))
        return PZ_NO_SUCH;
    *x = walk_access(w);
    return PZ_GOES;
}

/* The exchange that marks a word is the owner's death. */
uint32_t pz_walk_step(struct pz_walk *w, struct pz_access *x, uint32_t answer, uint64_t value)
{
    if (!is_walk(w))
        return PZ_NO_SUCH;
    int marked = w->row.kind == WALK_MARK && answer == PZ_EXCHANGED;
    w->row = walk_after(w, answer_of(answer, value));
    int ended = w->row.kind == walk_ended.kind;
    return marked ? told(x, ended, walk_access(w), 0, PZ_OP_DEATH) : told(x, ended, walk_access(w), PZ_NO_POINT, 0);
}

uint32_t pz_walk_again(const struct pz_walk *w, uint64_t word)
{
    if (!is_walk(w))
        return PZ_NO_SUCH;
    return w->row.kind == WALK_MARK && owner(word) != w->thread;
}
