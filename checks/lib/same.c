/* tests/steps/programs.c next to the proved code: for calls and walks wherever they stand, and for numbers that no call
 * has, with each answer, and words, links and counts of each sort, both return the same and write the same.
 *   same [all]: hundreds of millions of cases; without `all` those of two threads alone, and of fewer standings.
 * Where the proved code can't run, build it with -DPZ_ALONE: then it prints the sum of all that programs.c returned and
 * wrote, for a comparison with a machine that has both. */
#define pz_begin      c_begin
#define pz_step       c_step
#define pz_expire     c_expire
#define pz_walk_begin c_walk_begin
#define pz_walk_next  c_walk_next
#define pz_walk_step  c_walk_step
#define pz_walk_again c_walk_again
#include "../../tests/steps/programs.c"
#ifndef PZ_ALONE
#undef pz_begin
#undef pz_step
#undef pz_expire
#undef pz_walk_begin
#undef pz_walk_next
#undef pz_walk_step
#undef pz_walk_again
#endif
#include <stdio.h>
#include <stdlib.h>
#include <string.h>
#include <inttypes.h>

uint32_t pz_begin(struct pz_call *call, struct pz_access *access, uint32_t operation);
uint32_t pz_step(struct pz_call *call, struct pz_access *access, uint32_t answer, uint64_t value);
uint32_t pz_expire(struct pz_call *call, struct pz_access *access);
uint32_t pz_walk_begin(struct pz_walk *walk, struct pz_access *access);
uint32_t pz_walk_step(struct pz_walk *walk, struct pz_access *access, uint32_t answer, uint64_t value);
uint32_t pz_walk_next(const struct pz_walk *walk, struct pz_access *access);
uint32_t pz_walk_again(const struct pz_walk *walk, uint64_t word);

#define CHECK(what) ((what) ? (void)0 : (void)(fprintf(stderr, "%s:%d: %s\n", __FILE__, __LINE__, #what), exit(1)))
static const uint16_t all_replies[] = {0,          EPERM,     ESRCH,     EAGAIN,     EFAULT,          EBUSY,
                                       EINVAL,     EDEADLK,   ETIMEDOUT, EOWNERDEAD, ENOTRECOVERABLE, PZ_X_NOMEM,
                                       PZ_X_RACED, PZ_X_HELD, PZ_X_FULL, PZ_X_STATE};
enum { REPLIES = sizeof all_replies / sizeof *all_replies };

#define COUNT(array) (sizeof(array) / sizeof *(array))

static uint64_t state = 88172645463325252;
static uint64_t any(void)
{
    state ^= state << 13;
    state ^= state >> 7;
    return state ^= state << 17;
}

/* ---- Both on copies of the same. */

static const struct pz_access untouched = {1, 2, 3, 4, 5, 6, 7, 8};
static long compared, in_progress;

static int same_access(const struct pz_access *a, const struct pz_access *b)
{
    return a->at == b->at && a->a == b->a && a->b == b->b && a->kind == b->kind && a->most == b->most &&
           a->wakes == b->wakes && a->point == b->point && a->operation == b->operation;
}

static int same_call(const struct pz_call *a, const struct pz_call *b)
{
    const struct pz_phase *p = &a->phase.lock, *q = &b->phase.lock;
    return a->head == b->head && a->entry == b->entry && a->cell == b->cell && a->counter == b->counter &&
           a->program == b->program && a->thread == b->thread && p->x == q->x && p->y == q->y && p->reply == q->reply &&
           p->kind == q->kind && p->flag == q->flag && a->phase.seen == b->phase.seen && a->phase.kind == b->phase.kind;
}

static int same_walk(const struct pz_walk *a, const struct pz_walk *b)
{
    const struct pz_row *p = &a->row, *q = &b->row;
    return a->head == b->head && a->thread == b->thread && p->at == q->at && p->seen == q->seen &&
           p->entry == q->entry && p->offset == q->offset && p->pending == q->pending && p->loaded == q->loaded &&
           p->kind == q->kind && p->again == q->again && p->of_pending == q->of_pending;
}

/* The sum of what was answered and written. */
static uint64_t sum;
static void add(uint64_t value) { sum = (sum ^ value) * 0x100000001b3; }

static void add_access(uint32_t reply, const struct pz_access *x)
{
    add((uint64_t)reply << 56 | (uint64_t)x->kind << 32 | x->most << 16 | x->point);
    add(x->at ^ (uint64_t)x->wakes << 32 ^ (uint64_t)x->operation << 56);
    add(x->a);
    add(x->b);
}

static void add_call(const struct pz_call *c)
{
    const struct pz_phase *p = &c->phase.lock;
    add(p->x);
    add(p->y);
    add((uint64_t)c->phase.seen << 32 | (uint64_t)p->kind << 24 | (uint64_t)c->phase.kind << 16 | p->reply);
    add(c->counter << 8 | p->flag);
}

static void add_walk(const struct pz_walk *w)
{
    const struct pz_row *r = &w->row;
    add(r->at ^ r->seen << 1);
    add(r->entry);
    add(r->offset ^ r->pending << 1);
    add((uint64_t)r->loaded << 32 | (uint64_t)r->kind << 24 | (uint64_t)r->again << 16 | r->of_pending);
}

static _Noreturn void differs(const char *what, uint32_t answer, uint64_t value)
{
    fprintf(stderr, "%s: answer %u, value %" PRIx64 "\n", what, answer, value);
    exit(1);
}

static void call_differs(const char *what, const struct pz_call *c, uint32_t answer, uint64_t value)
{
    const struct pz_phase *p = &c->phase.lock;
    fprintf(stderr,
            "program %u, thread %u, kind %u, flag %u, x %" PRIx64 ", y %" PRIx64
            ", reply %u; on condition %u, seen %x\n",
            c->program, c->thread, p->kind, p->flag, p->x, p->y, p->reply, c->phase.kind, c->phase.seen);
    differs(what, answer, value);
}

static void walk_differs(const struct pz_walk *w, uint32_t answer, uint64_t value)
{
    const struct pz_row *r = &w->row;
    fprintf(stderr,
            "thread %u, kind %u, at %" PRIx64 ", seen %" PRIx64 ", entry %" PRIx64 ", offset %" PRIx64
            ", pending %" PRIx64 ", loaded %u, again %u, of pending %u\n",
            w->thread, r->kind, r->at, r->seen, r->entry, r->offset, r->pending, r->loaded, r->again, r->of_pending);
    differs("pz_walk_step", answer, value);
}

/* Whether a call in progress has these numbers. */
static int step(const struct pz_call *is, uint32_t answer, uint64_t value)
{
    struct pz_call a = *is, b = *is;
    struct pz_access x = untouched, y = untouched;
    uint32_t r = pz_step(&a, &x, answer, value);
    compared++;
    if (c_step(&b, &y, answer, value) != r || !same_call(&a, &b) || !same_access(&x, &y))
        call_differs("pz_step", is, answer, value);
    add_access(r, &y);
    add_call(&b);
    return r != PZ_NO_SUCH;
}

/* Its time limit comes. */
static void expire(const struct pz_call *is)
{
    struct pz_call a = *is, b = *is;
    struct pz_access x = untouched, y = untouched;
    uint32_t r = pz_expire(&a, &x);
    compared++;
    if (c_expire(&b, &y) != r || !same_call(&a, &b) || !same_access(&x, &y))
        call_differs("pz_expire", is, 0, 0);
    add_access(r, &y);
    add_call(&b);
}

static int walk_step(const struct pz_walk *is, uint32_t answer, uint64_t value)
{
    struct pz_walk a = *is, b = *is;
    struct pz_access x = untouched, y = untouched, v = untouched, w = untouched;
    uint32_t r = pz_walk_step(&a, &x, answer, value);
    compared++;
    if (c_walk_step(&b, &y, answer, value) != r || !same_walk(&a, &b) || !same_access(&x, &y))
        walk_differs(is, answer, value);
    if (c_walk_next(is, &w) != pz_walk_next(is, &v) || !same_access(&v, &w) ||
        c_walk_again(is, value) != pz_walk_again(is, value))
        walk_differs(is, answer, value);
    add_access(r, &y);
    add_access(c_walk_again(is, value), &w);
    add_walk(&b);
    return r != PZ_NO_SUCH;
}

/* ---- What they are tried with. */

enum { MOST = 64, ANSWERS = PZ_FAULT + 2, HEAD = 40, ENTRY = 600, CELL = 599 };
static uint64_t words[MOST];
static unsigned many;

/* Cells of each owner and mark, places and their neighbours, counts at their limits, and any number. */
static void make_words(unsigned t)
{
    const uint64_t owners[] = {0, t, t ^ 1, PZ_MOST_THREADS + 1, 0x3fffffff};
    const uint64_t more[] = {HEAD, HEAD + 1,   ENTRY,          CELL,       1,          3,          4,
                             5,    1ull << 33, 1ull << 34 | t, UINT32_MAX, UINT64_MAX, 1ull << 63, any()};
    many = 0;
    for (unsigned o = 0; o < COUNT(owners); o++)
        for (uint64_t marks = 0; marks < 8; marks++)
            words[many++] = owners[o] | marks << 30;
    for (unsigned i = 0; i < COUNT(more); i++)
        words[many++] = more[i];
    CHECK(many <= MOST);
}

static void with_each_answer(const struct pz_call *c)
{
    in_progress++;
    for (uint32_t answer = 0; answer < ANSWERS; answer++)
        for (unsigned v = 0; v < many; v++)
            step(c, answer, words[v]);
    step(c, (uint32_t)any(), any());
}

static void with_each_word(struct pz_call *c, unsigned salt)
{
    for (unsigned x = 0; x < many; x++) {
        c->phase.lock.x = words[x];
        expire(c);
        if (step(c, x % ANSWERS, words[(x + salt) % many]))
            with_each_answer(c);
    }
}

/* A call of a program, standing anywhere: no row carries both a reply and y. */
static void calls(unsigned t, unsigned program, unsigned on_condition, uint32_t seen, uint64_t counter)
{
    static const uint16_t no_replies[] = {2, 132, PZ_X_NOMEM - 1, PZ_X_STATE + 1, 65535};
    static const uint64_t counts[] = {0, 1, 3, 4, HEAD, ENTRY, UINT64_MAX};
    struct pz_call c = {.head = HEAD, .entry = ENTRY, .cell = CELL, .counter = counter};
    c.program = (uint8_t)program;
    c.thread = (uint8_t)t;
    c.phase.seen = seen;
    c.phase.kind = (uint8_t)on_condition;
    for (unsigned kind = 0; kind < 256; kind += kind < 64 || kind > 250 ? 1 : 13)
        for (unsigned flag = 0; flag < 3; flag++)
            for (unsigned k = 0; k < REPLIES + COUNT(no_replies) + COUNT(counts); k++) {
                c.phase.lock = (struct pz_phase){.kind = (uint8_t)kind, .flag = (uint8_t)flag};
                if (k < REPLIES)
                    c.phase.lock.reply = all_replies[k];
                else if (k < REPLIES + COUNT(no_replies))
                    c.phase.lock.reply = no_replies[k - REPLIES];
                else
                    c.phase.lock.y = counts[k - REPLIES - COUNT(no_replies)];
                with_each_word(&c, kind + k);
            }
}

static void all_calls(unsigned t, int all)
{
    static const uint32_t seen[] = {0, 7, UINT32_MAX};
    for (unsigned program = 0; program < ON_CONDITION; program++) {
        calls(t, program, 0, 0, 0);
        if (all) {
            calls(t, program, 0, 0, 800);
            calls(t, program, 1, 0, 0);
            calls(t, program, 0, 7, 0);
        }
    }
    for (unsigned row = 0; row < WAIT_LOCKING + 3; row++)
        for (unsigned k = 0; k < (all ? COUNT(seen) : 1); k++)
            calls(t, ON_CONDITION, row, seen[k], 800);
    calls(t, ON_CONDITION, 255, 0, 800);
    calls(t, ON_CONDITION + 1, 0, 0, 0);
    calls(t, 255, 0, 0, 0);
}

static void walks(unsigned t)
{
    static const uint64_t links[] = {0, HEAD, ENTRY, 77, UINT64_MAX}, offsets[] = {0, UINT64_MAX, 5}, ats[] = {0, CELL};
    static const unsigned loaded[] = {0, 1, 2, HELD - 1, HELD, HELD + 1, 65535};
    unsigned cases = COUNT(ats) * COUNT(links) * COUNT(offsets) * COUNT(links) * COUNT(loaded) * 3 * 3;
    for (unsigned kind = 0; kind < 256; kind += kind < 12 ? 1 : 61)
        for (unsigned n = 0; n < cases; n++)
            for (unsigned s = 0; s < many; s++) {
                unsigned k = n;
                struct pz_walk w = {.head = HEAD, .thread = (uint8_t)t};
                w.row = (struct pz_row){.seen = words[s], .kind = (uint8_t)kind};
                w.row.at = ats[k % COUNT(ats)], k /= COUNT(ats);
                w.row.entry = links[k % COUNT(links)], k /= COUNT(links);
                w.row.offset = offsets[k % COUNT(offsets)], k /= COUNT(offsets);
                w.row.pending = links[k % COUNT(links)], k /= COUNT(links);
                w.row.loaded = (uint16_t)loaded[k % COUNT(loaded)], k /= COUNT(loaded);
                w.row.again = (uint8_t)(k % 3);
                w.row.of_pending = (uint8_t)(k / 3);
                if (!walk_step(&w, s % ANSWERS, words[(s + n) % many]))
                    continue;
                in_progress++;
                for (uint32_t answer = 0; answer < ANSWERS; answer++)
                    for (unsigned v = 0; v < many; v++)
                        walk_step(&w, answer, words[v]);
            }
}

static void begins(unsigned t)
{
    for (unsigned i = 0; i < 300; i++) {
        uint32_t operation = i < 256 ? i : (uint32_t)any();
        struct pz_access x = untouched, y = untouched;
        struct pz_call a, b;
        for (unsigned k = 0; k < sizeof a; k++)
            ((unsigned char *)&a)[k] = (unsigned char)any();
        a.thread = (uint8_t)t;
        b = a;
        compared++;
        if (pz_begin(&a, &x, operation) != c_begin(&b, &y, operation) || !same_call(&a, &b) || !same_access(&x, &y))
            differs("pz_begin", operation, t);
        add_access(0, &y);
        add_call(&b);
        struct pz_walk v = {.head = any(), .thread = (uint8_t)t}, w;
        v.row = (struct pz_row){any(), any(), any(), any(), any(), (uint16_t)any(), (uint8_t)any(), 1, 1};
        w = v;
        if (pz_walk_begin(&v, &x) != c_walk_begin(&w, &y) || !same_walk(&v, &w) || !same_access(&x, &y))
            differs("pz_walk_begin", 0, t);
        add_access(0, &y);
    }
}

int main(int argc, char **argv)
{
    static const unsigned threads[] = {6, PZ_MOST_THREADS + 1, PZ_MOST_THREADS, 1, 0, 255};
    int all = argc > 1 && strcmp(argv[1], "all") == 0;
    for (unsigned t = 0; t < 256; t++)
        begins(t);
    for (unsigned i = 0; i < (all ? COUNT(threads) : 2); i++) {
        make_words(threads[i]);
        all_calls(threads[i], all);
        walks(threads[i]);
    }
    printf("same: %ld comparisons, %ld standings of calls and walks; sum %016" PRIx64 "\n", compared, in_progress, sum);
    CHECK(in_progress > 1000);
    return 0;
}
