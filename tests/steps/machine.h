/* The calling thread's part of the specified machine: its memory, and the proved program (programs.c) of the call that
 * the thread is in. One mutex of the library is two of the machine: the cell's and the slot's. */
#ifndef MACHINE_H
#define MACHINE_H
#include "cell.h"
#include "pz_steps.h"
#include "rows.h"
#include <errno.h>
#include <stdio.h>
#include <stdlib.h>
#include <string.h>

/* Places of the machine's memory. An entry is the place of its next link, and the previous one follows it. */
enum {
    HEAD = 8,
    HEAD_PENDING = HEAD + 2,
    CELL_PLACE = 16,
    CELL_ENTRY_PLACE = 18,
    SLOT_PLACE = 24,
    SLOT_ENTRY_PLACE = 26
};
enum { FOREIGN_PLACE = 32, COUNTER_PLACE = 40, PLACES = 48 };

/* What the library's call has been, as calls of the machine. */
enum stage {
    FRESH,       /* none yet */
    TRIED_CELL,  /* a trylock of the cell was EBUSY */
    LEFT_CELL,   /* a timed lock of the cell ended by its deadline */
    TRIED_SLOT,  /* a trylock of the slot was EBUSY */
    HAS_SLOT,    /* the slot was taken */
    MARKED_SLOT, /* it was, and its owner had died */
    AS_HEIR,     /* the heir's timed lock has ended; the slot is to be freed */
    TOOK_CELL,   /* reinit: the cell was taken, and is to be freed */
    REPAIRS,     /* reinit: it was a dead owner's */
    FINISHED
};
enum library_call {
    LIB_LOCK,
    LIB_TRYLOCK,
    LIB_UNLOCK,
    LIB_CONSISTENT,
    LIB_REINIT,
    LIB_WAIT,
    LIB_SIGNAL,
    LIB_BROADCAST
};

struct machine {
    uint64_t memory[PLACES];
    struct pz_call call;
    struct pz_access next;
    uint8_t is_running, is_asleep, was_late, stage, operation, on_slot;
    uint16_t reply, result;
};

/* What the library does at this moment, as far as an event depends on it. */
struct moment {
    uint64_t woken_place; /* a wake there, and how many it woke; or 0 */
    int woken;
    int sees_heir;    /* it looks at the slot, and finds an heir */
    int sees_owner;   /* it looks at the cell, and finds another thread's */
    int is_trim;      /* its exchange of the cell clears WAITERS */
    int is_remake;    /* its exchange of the cell clears UNUSABLE */
    int is_move;      /* a broadcast moves sleepers */
    int falls_asleep; /* on the counter */
    int wakes_up, is_late;
};

static struct moment moment;
static enum library_call library_call;
static int sleepers[PLACES]; /* other threads that sleep there */
static uint8_t self_id = 5;
static long visits[2][64]; /* how often each row of the programs was left */

/* Where the library's call stands after a call of the machine has returned. */
static enum stage stage_after(const struct machine *m)
{
    if (library_call == LIB_REINIT && m->operation == PZ_OP_TRYLOCK)
        return m->reply == 0 ? TOOK_CELL : m->reply == EOWNERDEAD ? REPAIRS : m->reply == EBUSY ? FINISHED : FRESH;
    if (library_call == LIB_REINIT)
        return m->operation == PZ_OP_CONSISTENT ? TOOK_CELL : FINISHED;
    if (library_call != LIB_LOCK)
        return FINISHED;
    if (m->on_slot && m->operation == PZ_OP_TRYLOCK)
        return m->reply == 0 ? HAS_SLOT : m->reply == EOWNERDEAD ? MARKED_SLOT : TRIED_SLOT;
    if (m->on_slot && m->operation == PZ_OP_CONSISTENT)
        return HAS_SLOT;
    if (m->on_slot)
        return m->result == ETIMEDOUT ? LEFT_CELL : FINISHED;
    if (m->stage == HAS_SLOT)
        return AS_HEIR;
    return m->reply == EBUSY ? TRIED_CELL : m->reply == ETIMEDOUT ? LEFT_CELL : FINISHED;
}

/* After pz_begin, pz_step or pz_expire. The call's result is its last reply, except for those on the slot. */
static void told(struct machine *m, uint32_t state)
{
    if (state == PZ_NO_SUCH) {
        fprintf(stderr, "the machine has no such step\n");
        abort();
    }
    if (state == PZ_GOES)
        return;
    m->is_running = 0;
    m->reply = m->call.phase.lock.reply;
    if (!m->on_slot)
        m->result = m->reply;
    m->stage = (uint8_t)stage_after(m);
}

static void begin(struct machine *m, int operation, int on_slot)
{
    m->call = (struct pz_call){.head = HEAD,
                               .entry = on_slot ? SLOT_ENTRY_PLACE : CELL_ENTRY_PLACE,
                               .cell = on_slot ? SLOT_PLACE : CELL_PLACE,
                               .counter = COUNTER_PLACE,
                               .thread = self_id};
    m->is_running = 1;
    m->operation = (uint8_t)operation;
    m->on_slot = (uint8_t)on_slot;
    told(m, pz_begin(&m->call, &m->next, (uint32_t)(operation == PZ_OP_TIMEDLOCK ? PZ_OP_LOCK : operation)));
}

static void answer(struct machine *m, uint32_t kind, uint64_t value)
{
    int on_cond = m->call.program == ON_CONDITION && m->call.phase.kind != WAIT_LOCKING;
    visits[on_cond][on_cond ? m->call.phase.kind : m->call.phase.lock.kind]++;
    told(m, pz_step(&m->call, &m->next, kind, value));
}

/* ---- Events. Each calls `then` with the states that it may lead to. */

typedef void states(const struct machine *);

static void on_word(struct machine *m, states *then)
{
    const struct pz_access x = m->next;
    uint64_t *w = &m->memory[x.at], was = *w;
    switch (x.kind) {
    case PZ_STORE:
        *w = x.a;
        break;
    case PZ_EXCHANGE:
        *w = was == x.a ? x.b : was;
        break;
    case PZ_XOR:
        *w = was ^ x.a;
        break;
    case PZ_OR:
        *w = was | x.a;
        break;
    case PZ_AND:
        *w = was & x.a;
        break;
    case PZ_ADD:
        *w = was + x.a;
        break;
    }
    if (x.kind == PZ_EXCHANGE)
        answer(m, was == x.a ? PZ_EXCHANGED : PZ_CHANGED, was == x.a ? 0 : was);
    else
        answer(m, x.kind == PZ_STORE ? PZ_STORED : PZ_VALUE, x.kind == PZ_STORE ? 0 : was);
    then(m);
}

/* Asleep, or the word has changed. A lock of the cell may sleep for a moment that its deadline ends: an heir's last
 * look. */
static void on_wait(struct machine *m, states *then)
{
    if ((uint32_t)m->memory[m->next.at] != (uint32_t)m->next.a)
        answer(m, PZ_AGAIN, 0);
    else if (m->next.at == COUNTER_PLACE && !moment.falls_asleep)
        return;
    else
        m->is_asleep = 1;
    then(m);
}

static void on_sleep(struct machine *m, states *then)
{
    struct machine other = *m;
    other.is_asleep = 0;
    for (int late = 0; moment.wakes_up && late <= moment.is_late; late++) {
        struct machine woken = other; /* a wait may be interrupted as its deadline passes */
        woken.was_late |= (uint8_t)late;
        answer(&woken, PZ_WOKEN, 0);
        then(&woken);
    }
    if (library_call == LIB_LOCK) {
        visits[0][LOCK_SLEEP]++;
        told(&other, pz_expire(&other.call, &other.next));
        then(&other);
    }
}

/* A wake as the library makes it; one of nobody, which it leaves out; or one that it leaves to an heir or an owner. */
static void on_wake(struct machine *m, states *then)
{
    struct machine other = *m;
    if (moment.woken_place == m->next.at) {
        answer(m, PZ_COUNT, (uint64_t)moment.woken);
        then(m);
    } else if (m->next.at == COUNTER_PLACE && !sleepers[COUNTER_PLACE]) {
        answer(m, PZ_COUNT, 0);
        then(m);
    }
    if ((moment.sees_heir || moment.sees_owner) && other.next.at == CELL_PLACE && other.next.most == 1) {
        answer(&other, PZ_COUNT, 1);
        then(&other);
    }
}

static void on_trim(struct machine *m, states *then)
{
    if (moment.is_trim && sleepers[CELL_PLACE])
        return; /* the machine's trim clears only if nobody sleeps there */
    if (moment.is_trim)
        m->memory[CELL_PLACE] &= ~WAITERS;
    answer(m, PZ_TRIMMED, (uint64_t)moment.is_trim);
    then(m);
}

static void on_move(struct machine *m, states *then)
{
    if (!moment.is_move)
        return;
    answer(m, PZ_COUNTS, 0);
    then(m);
}

static void on_begin(const struct machine *m, int operation, int on_slot, states *then)
{
    struct machine next = *m;
    begin(&next, operation, on_slot);
    then(&next);
}

static void on_lock(const struct machine *m, states *then)
{
    int stage = m->stage;
    if (stage == FRESH)
        on_begin(m, PZ_OP_TRYLOCK, 0, then);
    if (stage == TRIED_CELL || stage == LEFT_CELL)
        on_begin(m, PZ_OP_TRYLOCK, 1, then);
    if (stage == MARKED_SLOT)
        on_begin(m, PZ_OP_CONSISTENT, 1, then);
    if (stage == AS_HEIR)
        on_begin(m, PZ_OP_UNLOCK, 1, then);
    if (stage == FRESH || stage == TRIED_CELL || stage == LEFT_CELL || stage == TRIED_SLOT || stage == HAS_SLOT)
        on_begin(m, PZ_OP_TIMEDLOCK, 0, then);
}

static void on_reinit(const struct machine *m, states *then)
{
    struct machine next = *m;
    if (m->stage == REPAIRS || m->stage == TOOK_CELL)
        on_begin(m, m->stage == REPAIRS ? PZ_OP_CONSISTENT : PZ_OP_UNLOCK, 0, then);
    if (m->stage != FRESH)
        return;
    on_begin(m, PZ_OP_TRYLOCK, 0, then);
    if (!moment.is_remake)
        return;
    next.memory[CELL_PLACE] &= ~UNUSABLE;
    next.stage = FINISHED;
    next.result = 0;
    then(&next);
}

static void on_idle(const struct machine *m, states *then)
{
    static const int operation[] = {
        [LIB_TRYLOCK] = PZ_OP_TRYLOCK, [LIB_UNLOCK] = PZ_OP_UNLOCK, [LIB_CONSISTENT] = PZ_OP_CONSISTENT,
        [LIB_WAIT] = PZ_OP_WAIT,       [LIB_SIGNAL] = PZ_OP_SIGNAL, [LIB_BROADCAST] = PZ_OP_BROADCAST};
    if (m->stage == FINISHED)
        return;
    if (library_call == LIB_LOCK)
        on_lock(m, then);
    else if (library_call == LIB_REINIT)
        on_reinit(m, then);
    else
        on_begin(m, operation[library_call], 0, then);
    if (library_call == LIB_BROADCAST && !sleepers[COUNTER_PLACE])
        on_begin(m, PZ_OP_SIGNAL, 0, then); /* nobody waits, so nobody is moved */
}

static void each_event(const struct machine *m, states *then)
{
    struct machine next = *m;
    if (m->is_asleep)
        on_sleep(&next, then);
    else if (!m->is_running)
        on_idle(m, then);
    else if (m->next.kind == PZ_WAIT)
        on_wait(&next, then);
    else if (m->next.kind == PZ_WAKE)
        on_wake(&next, then);
    else if (m->next.kind == PZ_TRIM)
        on_trim(&next, then);
    else if (m->next.kind == PZ_CMP_REQUEUE)
        on_move(&next, then);
    else
        on_word(&next, then);
}
#endif
