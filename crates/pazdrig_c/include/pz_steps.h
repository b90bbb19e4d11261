/* The step programs of calls on robust mutexes and condition variables, and of the walk over a dead thread's list: what the
 * archive libpazdrig_c.a has, proved. A call in progress is a plain struct. pz_begin tells its first access; whoever runs it makes
 * that access and hands its answer to pz_step, which tells the next one, or that the call has returned. Nothing here touches
 * memory but the structs that it is given. Each function that returns a state answers PZ_NO_SUCH, and writes nothing, where no
 * call or walk in progress has the numbers that it is given. Pointers point to a struct each, no two of them to the same; no
 * other argument is wrong. Addresses count 64-bit words. */
#ifndef PZ_STEPS_H
#define PZ_STEPS_H
#include <stdbool.h>
#include <stdint.h>

enum pz_state { PZ_GOES, PZ_RETURNED, PZ_NO_SUCH };

/* The ids of threads are 1 to this. The archive is proved for that many. (tests/steps/programs.c has the same programs in C.) */
#ifndef PZ_MOST_THREADS
#define PZ_MOST_THREADS 250
#endif

struct pz_phase {           /* where a call on a mutex stands */
    uint64_t x, y;
    uint16_t reply;         /* once it has returned: errno(3), or a number of the project's own */
    uint8_t kind, flag;
};

struct pz_cond_phase {      /* where a call on a condition variable stands */
    struct pz_phase lock;
    uint32_t seen;
    uint8_t kind;
};

struct pz_call {
    uint64_t head, entry, cell, counter;
    struct pz_cond_phase phase;     /* of a call on a mutex `lock` says it, and the rest is 0 */
    uint8_t program, thread;
};

struct pz_row {             /* where a walk stands */
    uint64_t at, seen, entry, offset, pending;
    uint16_t loaded;
    uint8_t kind, again, of_pending;
};

struct pz_walk {
    uint64_t head;
    struct pz_row row;
    uint8_t thread;
};

enum pz_access_kind {
    PZ_NONE, PZ_LOAD, PZ_STORE, PZ_EXCHANGE, PZ_XOR, PZ_OR, PZ_AND, PZ_ADD, PZ_WAIT, PZ_WAKE, PZ_CMP_REQUEUE, PZ_TRIM, PZ_REQUEUE
};

enum pz_operation {
    PZ_OP_LOCK, PZ_OP_TRYLOCK, PZ_OP_UNLOCK, PZ_OP_CONSISTENT, PZ_OP_WAIT, PZ_OP_SIGNAL, PZ_OP_BROADCAST, PZ_OP_DEATH,
    PZ_OP_REINIT, PZ_OP_TIMEDLOCK, PZ_OP_TIMEDWAIT
};

struct pz_access {
    uint64_t at;            /* the word; of a requeue the one whose sleepers are moved */
    uint64_t a;             /* the value stored, the operand, the expected word or its low half */
    uint64_t b;             /* the new word; of a requeue the one that they are moved to */
    uint32_t kind;          /* enum pz_access_kind */
    uint32_t most;          /* how many are woken, or moved, at most */
    uint32_t wakes;         /* how many a requeue wakes */
    uint16_t point;         /* the reply that the answer before this access decided, or PZ_NO_POINT */
    uint8_t operation;      /* enum pz_operation, of that point */
};
enum { PZ_NO_POINT = 0xffff };

enum pz_answer {
    PZ_VALUE = 1, PZ_STORED, PZ_EXCHANGED, PZ_CHANGED, PZ_AGAIN, PZ_WOKEN, PZ_COUNT, PZ_COUNTS, PZ_TRIMMED, PZ_FAULT
};

enum pz_reply { PZ_X_NOMEM = 1000, PZ_X_RACED, PZ_X_HELD, PZ_X_FULL, PZ_X_STATE };

/* head, entry, cell, counter and thread are given; the rest is written. */
uint32_t pz_begin(struct pz_call *call, struct pz_access *access, uint32_t operation);
uint32_t pz_step(struct pz_call *call, struct pz_access *access, uint32_t answer, uint64_t value);

/* The time limit of a lock has come while it sleeps, and it was given no wake: it is begun, and told till then, as
 * PZ_OP_LOCK. PZ_GOES: what is left is this access, whose point is ETIMEDOUT of PZ_OP_TIMEDLOCK. PZ_NO_SUCH: no lock
 * that sleeps. */
uint32_t pz_expire(struct pz_call *call, struct pz_access *access);

/* head and thread are given. */
uint32_t pz_walk_begin(struct pz_walk *walk, struct pz_access *access);
uint32_t pz_walk_step(struct pz_walk *walk, struct pz_access *access, uint32_t answer, uint64_t value);
/* The next access of a walk that was kept, for who goes on with it; and whether the word at it shows that this access, a mark, was made already: 1 if so. */
uint32_t pz_walk_next(const struct pz_walk *walk, struct pz_access *access);
uint32_t pz_walk_again(const struct pz_walk *walk, uint64_t word);

/* A whole call where nobody is in the way: `before` stores, then the access at the cell (of a lock an exchange of the cell given
 * for `operand`; of an unlock an exclusive or by `operand`), then the other stores. false, and nothing is written: by steps. */
struct pz_plan {
    uint64_t at[6], value[6];
    uint64_t operand;
    uint32_t before, stores, reply;
};
bool pz_plan_lock(struct pz_plan *plan, uint8_t thread, uint64_t head, uint64_t entry, uint64_t cell, uint64_t first);
bool pz_plan_unlock(struct pz_plan *plan, uint8_t thread, uint64_t head, uint64_t entry, uint64_t cell, uint64_t next, uint64_t previous);

/* A short call: one that what it loads decides. Its changes, loads left out, in their order, as pz_begin and pz_step tell
 * them but for their points; behind them PZ_NONE. `place` is the address of the mutex's cell and `counter` that of the
 * condition variable's counter; `cell` and `count` are the words seen there. false, and nothing is written: not so. */
struct pz_short {
    struct pz_access change[3];
    uint32_t changes, reply;
};
/* Of the owner, the counter not full: the count, and the wake of one. */
bool pz_plan_signal(struct pz_short *plan, uint8_t thread, uint64_t counter, uint64_t cell, uint64_t count);
/* Of the owner, the counter not full: the count, WAITERS in the cell, and the move of all who sleep on the counter. */
bool pz_plan_broadcast(struct pz_short *plan, uint8_t thread, uint64_t place, uint64_t counter, uint64_t cell,
                       uint64_t count);
/* Of the owner of an inconsistent mutex: OWNER_DIED cleared. */
bool pz_plan_consistent(struct pz_short *plan, uint8_t thread, uint64_t place, uint64_t cell);
/* The call with this operation (enum pz_operation), where its look at the cell refuses it, or of a signal or broadcast that
 * at the counter. A lock and a trylock store `entry` as the pending one before that look, and 0 behind it; the others change
 * nothing. (A lock of an unusable mutex with WAITERS wakes all first: false.) */
bool pz_plan_refusal(struct pz_short *plan, uint8_t thread, uint64_t head, uint64_t entry, uint32_t operation,
                     uint64_t cell, uint64_t count);

/* A number of its own in each field, counted from 1 (an array has one for each element, or for each field of each). */
void pz_fill(struct pz_call *call, struct pz_walk *walk, struct pz_access *access, struct pz_plan *plan,
             struct pz_short *brief);
#endif
