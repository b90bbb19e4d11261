/* For checks/equal: whether pz_steps.h has each field of each struct where the proved archive has it. pz_fill writes a
 * number of its own into each; they are wanted here in the order in which the header declares them. It prints what
 * differs. */
#include "pz_steps.h"

#include <inttypes.h>
#include <stdio.h>
#include <string.h>

#define FIELD(field) same(#field, field, ++count)

static int failed;

static void same(const char *field, uint64_t is, uint64_t wanted)
{
    if (is == wanted)
        return;
    printf("%s is %" PRIu64 ", not %" PRIu64 "\n", field, is, wanted);
    failed = 1;
}

static unsigned in_call(const struct pz_call *call)
{
    unsigned count = 0;
    FIELD(call->head);
    FIELD(call->entry);
    FIELD(call->cell);
    FIELD(call->counter);
    FIELD(call->phase.lock.x);
    FIELD(call->phase.lock.y);
    FIELD(call->phase.lock.reply);
    FIELD(call->phase.lock.kind);
    FIELD(call->phase.lock.flag);
    FIELD(call->phase.seen);
    FIELD(call->phase.kind);
    FIELD(call->program);
    FIELD(call->thread);
    return count;
}

static unsigned in_walk(const struct pz_walk *walk)
{
    unsigned count = 0;
    FIELD(walk->head);
    FIELD(walk->row.at);
    FIELD(walk->row.seen);
    FIELD(walk->row.entry);
    FIELD(walk->row.offset);
    FIELD(walk->row.pending);
    FIELD(walk->row.loaded);
    FIELD(walk->row.kind);
    FIELD(walk->row.again);
    FIELD(walk->row.of_pending);
    FIELD(walk->thread);
    return count;
}

static unsigned in_access(const struct pz_access *access)
{
    unsigned count = 0;
    FIELD(access->at);
    FIELD(access->a);
    FIELD(access->b);
    FIELD(access->kind);
    FIELD(access->most);
    FIELD(access->wakes);
    FIELD(access->point);
    FIELD(access->operation);
    return count;
}

static unsigned in_plan(const struct pz_plan *plan)
{
    unsigned count = 0;
    for (int i = 0; i < 6; i++)
        FIELD(plan->at[i]);
    for (int i = 0; i < 6; i++)
        FIELD(plan->value[i]);
    FIELD(plan->operand);
    FIELD(plan->before);
    FIELD(plan->stores);
    FIELD(plan->reply);
    return count;
}

static unsigned in_short(const struct pz_short *brief)
{
    unsigned count = 0;
    for (int i = 0; i < 3; i++) {
        FIELD(brief->change[i].at);
        FIELD(brief->change[i].a);
        FIELD(brief->change[i].b);
        FIELD(brief->change[i].kind);
        FIELD(brief->change[i].most);
        FIELD(brief->change[i].wakes);
        FIELD(brief->change[i].point);
        FIELD(brief->change[i].operation);
    }
    FIELD(brief->changes);
    FIELD(brief->reply);
    return count;
}

/* A room around each, so that a struct that is larger there than here is seen: what comes after it stays. */
static struct {
    struct pz_call call;
    uint64_t behind_call;
    struct pz_walk walk;
    uint64_t behind_walk;
    struct pz_access access;
    uint64_t behind_access;
    struct pz_plan plan;
    uint64_t behind_plan;
    struct pz_short brief;
    uint64_t behind_short;
} filled;

int main(void)
{
    const uint64_t kept = UINT64_C(0x5555555555555555);
    memset(&filled, 0x55, sizeof filled);
    pz_fill(&filled.call, &filled.walk, &filled.access, &filled.plan, &filled.brief);
    unsigned count = in_call(&filled.call) + in_walk(&filled.walk) + in_access(&filled.access) + in_plan(&filled.plan) +
                     in_short(&filled.brief);
    same("what lies behind a call", filled.behind_call, kept);
    same("what lies behind a walk", filled.behind_walk, kept);
    same("what lies behind an access", filled.behind_access, kept);
    same("what lies behind a plan", filled.behind_plan, kept);
    same("what lies behind a short call", filled.behind_short, kept);
    printf("%u fields stand where the archive has them\n", failed ? 0 : count);
    return failed;
}
