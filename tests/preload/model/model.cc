// The waits of lib/preload/wait.c, all interleavings: THREADS threads lock and unlock one mutex, each CALLS times, and
// up to KILLS of them are killed before any step. Linux goes step by step too: a sleep on two words compares and queues
// one after the other; a dying thread leaves the queues, then Linux walks its list, then it looks at what is pending.
//
// Wrong are: two owners; a death that the next owner doesn't learn of, or learns of without one; an end at which a
// thread sleeps (a lost wake), or the mutex is owned. Time is a free choice: an unlock may trust an heir or not.
//
// usage: model [threads=3] [kills=1] [calls=1] [first-calls=N] [plain] [timed] [unusable] [no-heir] [new-walk] [init]
// [handler] [way] [mistake=NAME]
//   plain     the mode without a bell                   timed     the last thread's sleeps may time out
//   unusable  owners may unlock without consistent      no-heir   nobody waits awake
//   init      an owner may initialise the mutex again, once
//   handler   a handler interrupts one wait, once, and uses another robust mutex
//   new-walk  newer kernels: a pending word that another thread owns without WAITERS also wakes one
//   way       prints how the first wrong state came about
#include "unlocks.h"
#include "waits.h"

static void step(const State &s, int i)
{
    Place at = s.thread[i].at;
    if (at <= OWNED)
        lock_step(s, i);
    else if (at <= HEIR_PAUSES)
        wait_step(s, i);
    else if (at <= ASLEEP)
        sleep_step(s, i);
    else if (at <= UNUSABLE_FOUND)
        free_step(s, i);
    else if (at <= HANDLER_CALLS)
        handler_step(s, i);
    else if (at == INSIDE)
        inside_step(s, i);
    else if (at <= RELEASE)
        unlock_step(s, i);
    else if (at <= INIT_WAKE)
        init_step(s, i);
    else if (at <= END)
        hand_on_step(s, i);
    else if (at != DONE && at != DEAD)
        die_step(s, i);
}

static bool is_at_rest(const Thread &t, int i)
{
    return t.at == DONE || t.at == DEAD || (t.at == ASLEEP && !t.woken && !(timed && i == threads - 1));
}

static void explore(const State &s)
{
    bool ended = true;
    for (int i = 0; i < threads; i++) {
        const Thread &t = s.thread[i];
        ended = ended && is_at_rest(t, i);
        step(s, i);
        if (s.kills < most_kills && t.at < DONE) {
            Step x(s, i);
            x.n.kills++;
            x.n.dirty |= s.cell.owner == i + 1;
            x.go(DIES);
        }
    }
    if (!ended)
        return;
    ends++;
    for (int i = 0; i < threads; i++)
        if (s.thread[i].at == ASLEEP)
            fail("a thread sleeps forever", s);
    if (s.cell.owner || s.bell >= HEIR)
        fail("the mutex is owned, or has an heir, at the end", s);
}

static bool read(const char *word)
{
    bool *flags[] = {&plain, &timed, &may_spoil, &no_heir, &new_walk, &may_init, &may_handle, &show_way};
    const char *names[] = {"plain", "timed", "unusable", "no-heir", "new-walk", "init", "handler", "way"};
    for (size_t i = 0; i < sizeof names / sizeof *names; i++)
        if (!strcmp(word, names[i]))
            return *flags[i] = true;
    if (!strncmp(word, "mistake=", 8))
        return mistake = word + 8, true;
    return sscanf(word, "threads=%d", &threads) == 1 || sscanf(word, "kills=%d", &most_kills) == 1 ||
           sscanf(word, "calls=%d", &calls_each) == 1 || sscanf(word, "first-calls=%d", &calls_of_first) == 1;
}

int main(int count, char **words)
{
    for (int i = 1; i < count; i++)
        if (!read(words[i]) || threads > MOST)
            return fprintf(stderr, "model: what is %s?\n", words[i]), 2;
    State first;
    memset((void *)&first, 0, sizeof first);
    for (int i = 0; i < threads; i++) {
        first.thread[i].calls_left = (uint8_t)(i == 0 && calls_of_first ? calls_of_first : calls_each);
        begin(first.thread[i]);
    }
    add(first);
    while (!open_states.empty() && !wrong) {
        State s = open_states.back();
        open_states.pop_back();
        if (show_way) {
            current = index_of_open.back();
            index_of_open.pop_back();
        }
        explore(s);
    }
    printf("%s:", wrong ? "wrong" : "right");
    for (int i = 1; i < count; i++)
        printf(" %s", words[i]);
    printf(": %zu states, %zu ends\n", states, ends);
    return wrong;
}
