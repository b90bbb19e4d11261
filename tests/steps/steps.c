/* Whether each access that the library makes to a mutex or a condition variable is none to eight events of the
 * specified machine: accesses of the proved programs, in calls that follow one another as the library's protocol has
 * it. The library's own source runs over played accesses. Before each one, other threads act: they take and release the
 * cell and the slot, sleep, wake, signal, die and write hints. After it, the machine's memory must be the library's.
 * usage: steps [RUNS [SEED]] */
#include "machine.h"
#include "mutex.h"

enum { MOST_STATES = 4096, MOST_EVENTS = 8, CALLS = 12, OTHERS = 2 };

static const uint64_t AWAKE_BIT = 1ull << 32, SLEPT_BIT = 1ull << 32;

/* ---- The library's memory, and where it is in the machine's. */

static struct {
    uint64_t word[4]; /* first entry, offset, pending */
} head;
static struct {
    uint64_t previous, next;
} foreign; /* an entry of the C library */
static _Alignas(64) pz_mutex mutex;
static _Alignas(16) pz_cond cond;

static uint64_t *cell_word = &mutex.words[0], *hint_word = &mutex.words[1], *slot_word = &mutex.words[2],
                *counter_word = &cond.words[0];

static uint64_t place_of(uint64_t address)
{
    if (address == (uint64_t)&head)
        return HEAD;
    if (address == (uint64_t)&mutex.words[4])
        return CELL_ENTRY_PLACE;
    if (address == (uint64_t)&mutex.words[6])
        return SLOT_ENTRY_PLACE;
    return address == (uint64_t)&foreign.next ? FOREIGN_PLACE : address;
}

static uint64_t cell_shown(void) { return *cell_word & (2 * UNUSABLE - 1); }
static uint64_t slot_shown(void) { return *slot_word & (AWAKE_BIT - 1); }

/* The machine has no previous link of a list's first and last entry that nobody reads. */
static int is_shown(const struct machine *m)
{
    const uint64_t *w = m->memory;
    return w[CELL_PLACE] == cell_shown() && w[SLOT_PLACE] == slot_shown() && w[HEAD] == place_of(head.word[0]) &&
           w[HEAD_PENDING] == place_of(head.word[2]) && w[CELL_ENTRY_PLACE] == place_of(mutex.words[4]) &&
           w[CELL_ENTRY_PLACE + 1] == place_of(mutex.words[3]) && w[SLOT_ENTRY_PLACE] == place_of(mutex.words[6]) &&
           w[SLOT_ENTRY_PLACE + 1] == place_of(mutex.words[5]) && w[FOREIGN_PLACE] == place_of(foreign.next) &&
           w[FOREIGN_PLACE + 1] == place_of(foreign.previous) && (uint32_t)w[COUNTER_PLACE] == (uint32_t)*counter_word;
}

/* ---- The states that the machine may be in. */

static struct machine now_in[MOST_STATES], next_in[MOST_STATES];
static int now_count, next_count, depth;
static const char *what = "";

static _Noreturn void fail(const char *why)
{
    printf("FAILED: %s: %s (call %d)\n", what, why, (int)library_call);
    exit(1);
}

static void keep(const struct machine *m)
{
    for (int i = 0; i < next_count; i++)
        if (!memcmp(&next_in[i], m, sizeof *m))
            return;
    if (next_count == MOST_STATES)
        fail("too many states");
    next_in[next_count++] = *m;
}

static void explore(const struct machine *m)
{
    if (is_shown(m))
        keep(m);
    if (depth == MOST_EVENTS)
        return;
    depth++;
    each_event(m, explore);
    depth--;
}

/* After an access of the library. `asleep`: whether the machine's thread sleeps then, or -1: either. */
static void follow(int asleep)
{
    next_count = 0;
    for (int i = 0; i < now_count; i++)
        explore(&now_in[i]);
    now_count = 0;
    for (int i = 0; i < next_count; i++)
        if (asleep < 0 || next_in[i].is_asleep == asleep)
            now_in[now_count++] = next_in[i];
    memset(&moment, 0, sizeof moment);
    if (!now_count)
        fail("no events of the machine are this access");
}

/* ---- What other threads do. */

static uint64_t random_state;
static unsigned any(unsigned below)
{
    random_state ^= random_state << 13;
    random_state ^= random_state >> 7;
    random_state ^= random_state << 17;
    return (unsigned)(random_state >> 20) % below;
}

static uint64_t clock_ns = 1000000000;
static uint64_t asleep_at; /* where the library's thread sleeps; 0: nowhere */
static int was_woken, has_come;

static void show_all(void)
{
    for (int i = 0; i < now_count; i++) {
        now_in[i].memory[CELL_PLACE] = cell_shown();
        now_in[i].memory[SLOT_PLACE] = slot_shown();
        now_in[i].memory[COUNTER_PLACE] = (uint32_t)*counter_word;
    }
}

/* Wakes one of all who sleep there; returns how many. */
static int wake_any(uint64_t place)
{
    int ours = asleep_at == place && !was_woken;
    if (!sleepers[place] && !ours)
        return 0;
    if (ours && any((unsigned)sleepers[place] + 1) == 0)
        was_woken = 1;
    else if (sleepers[place])
        sleepers[place]--;
    else
        was_woken = 1;
    return 1;
}
static void wake_everybody(uint64_t place)
{
    while (wake_any(place))
        ;
}

static int somebody_sleeps(uint64_t place) { return sleepers[place] || (asleep_at == place && !was_woken); }

static void others_signal(int is_broadcast)
{
    *counter_word = (*counter_word & SLEPT_BIT) | (uint32_t)(*counter_word + 1);
    if (!(*counter_word & SLEPT_BIT))
        return;
    if (!is_broadcast) {
        if (!wake_any(COUNTER_PLACE))
            *counter_word &= ~SLEPT_BIT;
        return;
    }
    *cell_word |= WAITERS;
    sleepers[CELL_PLACE] += sleepers[COUNTER_PLACE];
    sleepers[COUNTER_PLACE] = 0;
    if (asleep_at == COUNTER_PLACE && !was_woken)
        asleep_at = CELL_PLACE;
    *counter_word &= ~SLEPT_BIT;
}

static void others_release(void)
{
    uint64_t owner = *cell_word & OWNER;
    if (*cell_word & OWNER_DIED) {
        *cell_word += UNUSABLE - OWNER_DIED - owner;
        wake_everybody(CELL_PLACE);
        return;
    }
    *cell_word -= owner;
    if ((*cell_word & WAITERS) && any(4)) /* else it is left to an heir */
        wake_any(CELL_PLACE);
}

static void owner_acts(void)
{
    switch (any(8)) {
    case 0: /* it dies */
        *cell_word = (*cell_word & ~OWNER) | OWNER_DIED;
        if (*cell_word & WAITERS)
            wake_any(CELL_PLACE);
        break;
    case 1:
        *cell_word &= ~OWNER_DIED;
        break;
    case 2:
        if (*cell_word & OWNER_DIED)
            break;
        *counter_word |= SLEPT_BIT; /* it waits */
        sleepers[COUNTER_PLACE]++;
        cond.words[1] = (uint64_t)&mutex - (uint64_t)&cond;
        others_release();
        break;
    case 3:
    case 4:
        others_signal((int)any(2));
        break;
    default:
        others_release();
    }
}

static void at_cell(void)
{
    uint64_t owner = *cell_word & OWNER;
    if (owner && any(3) == 0) { /* another thread goes to sleep there */
        *cell_word |= WAITERS;
        sleepers[CELL_PLACE] += (int)any(2);
    } else if (owner == self_id) {
        return;
    } else if (owner) {
        owner_acts();
    } else if (*cell_word & UNUSABLE) {
        if (any(4) == 0)
            *cell_word = (*cell_word & ~UNUSABLE) + TURN;
    } else if (any(8) == 0 && !somebody_sleeps(CELL_PLACE)) {
        *cell_word &= ~WAITERS;
    } else if (any(2)) {
        *cell_word = (*cell_word + TURN) | (7 + 2 * any(OTHERS));
    }
}

static void at_slot(void)
{
    uint64_t owner = *slot_word & OWNER;
    if (owner == self_id)
        return;
    if (!owner) {
        *slot_word = (*slot_word + 2 * AWAKE_BIT) | (11 + 2 * any(OTHERS));
        if (*slot_word & OWNER_DIED)
            *slot_word &= ~(AWAKE_BIT | OWNER_DIED);
        return;
    }
    switch (any(4)) {
    case 0:
        *slot_word = (clock_ns >> 10) * 2 * AWAKE_BIT | AWAKE_BIT | owner;
        break;
    case 1:
        *slot_word = (*slot_word & ~OWNER) | OWNER_DIED;
        break;
    default:
        *slot_word = (*slot_word & ~AWAKE_BIT) - owner;
    }
}

static void others_act(void)
{
    for (unsigned n = any(3); n-- > 0;)
        any(3) ? at_cell() : at_slot();
    if (any(8) == 0)
        *hint_word = (uint64_t)(uint32_t)(clock_ns / 1000 - any(1000)) << 32 | any(4);
    clock_ns += any(4) ? any(3000) : any(100000);
    show_all();
}

/* ---- The library's accesses. */

static uint64_t changed(enum played kind, uint64_t was, uint64_t is, uint64_t value)
{
    switch (kind) {
    case LOAD:
        return was;
    case COMPARE_EXCHANGE:
        return was == is ? value : was;
    case ADD:
        return was + value;
    case SUB:
        return was - value;
    case OR:
        return was | value;
    case AND:
        return was & value;
    default:
        return value;
    }
}

/* What the protocol asks for besides the machine's accesses. */
static void check_access(enum played kind, const uint64_t *w, uint64_t was, uint64_t value)
{
    int takes = kind == COMPARE_EXCHANGE && !(was & OWNER) && (value & OWNER) == self_id;
    int remakes = kind == COMPARE_EXCHANGE && (was & UNUSABLE) && !(value & UNUSABLE);
    if (w == cell_word && (takes || remakes) && value / TURN != was / TURN + 1)
        fail("the turn isn't incremented");
    if (w == counter_word && library_call == LIB_WAIT && kind == STORE &&
        cond.words[1] != (uint64_t)&mutex - (uint64_t)&cond)
        fail("SLEPT is set before the distance");
    if (w != cell_word || kind != SUB || library_call != LIB_WAIT)
        return;
    if (!(*counter_word & SLEPT_BIT) || cond.words[1] != (uint64_t)&mutex - (uint64_t)&cond)
        fail("a wait releases the mutex before it says that it may sleep");
}

/* The heir's rules (lib/heir.c): AWAKE only with the cell pending; after it goes, one more look with the cell pending.
 */
static int owes_look;
static int is_self_heir(uint64_t slot)
{
    return (slot & AWAKE_BIT) && (slot & OWNER) == self_id && !(slot & OWNER_DIED);
}
static void check_heir(const uint64_t *w, uint64_t was, uint64_t is)
{
    int cell_is_pending = head.word[2] == (uint64_t)&mutex.words[4], is_owner = (*cell_word & OWNER) == self_id;
    if (w == slot_word && is_self_heir(was) && !is_self_heir(is))
        owes_look = !is_owner;
    if (is_self_heir(*slot_word) && !cell_is_pending && !is_owner)
        fail("a thread is heir, and the cell isn't pending");
    if (w == slot_word && (was & OWNER) == self_id && !(is & OWNER) && (is & AWAKE_BIT))
        fail("the slot is freed with AWAKE");
    if (owes_look && w == cell_word && cell_is_pending)
        owes_look = 0;
    if (owes_look && !cell_is_pending)
        fail("an heir doesn't look after AWAKE is cleared");
}

uint64_t play(enum played kind, const pz_word *word, uint64_t is, uint64_t value)
{
    uint64_t *w = (uint64_t *)(uintptr_t)word;
    others_act();
    uint64_t was = *w;
    *w = changed(kind, was, is, value);
    if (kind != COMPARE_EXCHANGE || was == is)
        check_access(kind, w, was, value);
    check_heir(w, was, *w);
    if (w == cell_word && kind == COMPARE_EXCHANGE && was == is) {
        moment.is_trim = value == (is & ~WAITERS) && value != is && !(is & OWNER);
        moment.is_remake = (is & UNUSABLE) && !(value & UNUSABLE);
    }
    if (w == slot_word && kind == LOAD)
        moment.sees_heir = (was & AWAKE_BIT) && (was & OWNER) && !(was & OWNER_DIED);
    if (w == cell_word && kind == LOAD)
        moment.sees_owner = (was & OWNER) && (was & OWNER) != self_id;
    follow(-1);
    return was;
}

static uint64_t place_of_word(const pz_word *w)
{
    return (const uint64_t *)w == cell_word ? CELL_PLACE : COUNTER_PLACE;
}

/* How a sleep ends: by a wake, a signal handler, or the deadline. */
static int end_of_sleep(const struct deadline *d)
{
    for (unsigned n = any(6); n-- > 0 && !was_woken;)
        others_act();
    if (was_woken)
        return 0;
    return d && any(2) ? ETIMEDOUT : EINTR;
}

int play_sleep(pz_word *w, uint64_t is, const struct deadline *d)
{
    others_act();
    if ((uint32_t) * (uint64_t *)w != (uint32_t)is) {
        follow(0);
        return EAGAIN;
    }
    asleep_at = place_of_word(w);
    was_woken = 0;
    moment.falls_asleep = asleep_at == COUNTER_PLACE;
    follow(1);
    int r = end_of_sleep(d);
    moment.wakes_up = r != ETIMEDOUT || library_call == LIB_WAIT;
    moment.is_late = r == ETIMEDOUT && asleep_at == COUNTER_PLACE && library_call == LIB_WAIT;
    has_come |= r == ETIMEDOUT;
    asleep_at = 0;
    follow(library_call == LIB_LOCK && r == ETIMEDOUT ? -1 : 0);
    return r;
}

int play_wake(pz_word *w, int most)
{
    others_act();
    uint64_t place = place_of_word(w);
    moment.woken_place = place;
    moment.woken = sleepers[place] < most ? sleepers[place] : most;
    sleepers[place] -= moment.woken;
    int woken = moment.woken;
    follow(-1);
    return woken;
}

void play_move(pz_word *w, uint64_t is, pz_word *to)
{
    others_act();
    if ((uint32_t) * (uint64_t *)w != (uint32_t)is || (uint64_t *)to != cell_word)
        fail("a broadcast that moves nobody");
    sleepers[CELL_PLACE] += sleepers[COUNTER_PLACE];
    sleepers[COUNTER_PLACE] = 0;
    moment.is_move = 1;
    follow(-1);
}

uint64_t play_clock(void) { return clock_ns += 100 + any(20000); }
int play_has_passed(const struct deadline *d)
{
    (void)d;
    int r = any(4) == 0;
    has_come |= r;
    return r;
}

/* ---- Calls of the library. */

_Thread_local struct caller pz_caller;
static pz_word life = 7;
pz_word *_Atomic pz_life = &life;
struct caller *pz_ask(void) { fail("the caller is known"); }

static const struct timespec good_time = {1, 0}, bad_time = {1, -1};

static int call(enum library_call which, int is_timed, int is_bad)
{
    const struct timespec *t = is_bad ? &bad_time : &good_time;
    switch (which) {
    case LIB_LOCK:
        return is_timed ? pz_mutex_clocklock(&mutex, CLOCK_MONOTONIC, t) : pz_mutex_lock(&mutex);
    case LIB_TRYLOCK:
        return pz_mutex_trylock(&mutex);
    case LIB_UNLOCK:
        return pz_mutex_unlock(&mutex);
    case LIB_CONSISTENT:
        return pz_mutex_consistent(&mutex);
    case LIB_REINIT:
        return pz_mutex_reinit(&mutex);
    case LIB_WAIT:
        return is_timed ? pz_cond_clockwait(&cond, &mutex, CLOCK_MONOTONIC, &good_time) : pz_cond_wait(&cond, &mutex);
    case LIB_SIGNAL:
        return pz_cond_signal(&cond, &mutex);
    default:
        return pz_cond_broadcast(&cond, &mutex);
    }
}

/* Whether the machine's calls may end here with this reply. */
static int may_reply(const struct machine *m, int reply, int is_bad)
{
    if (m->is_running || m->is_asleep)
        return 0;
    if (m->stage == TRIED_CELL)
        return is_bad && reply == EINVAL;
    if (m->stage == LEFT_CELL)
        return has_come && reply == ETIMEDOUT;
    if (m->stage != FINISHED)
        return 0;
    if (library_call == LIB_WAIT && m->result == PZ_X_STATE)
        return reply == EINVAL;
    if (library_call == LIB_WAIT && m->was_late && m->result == 0)
        return reply == ETIMEDOUT;
    return reply == m->result;
}

static void one_call(void)
{
    static const char *const names[] = {"lock",   "trylock", "unlock", "consistent",
                                        "reinit", "wait",    "signal", "broadcast"};
    int owns = (*cell_word & OWNER) == self_id, is_timed = (int)any(2), is_bad = is_timed && any(8) == 0;
    library_call = any(5) == 0 ? (enum library_call)any(8) : owns ? (enum library_call)(LIB_UNLOCK + any(6)) : LIB_LOCK;
    if (library_call == LIB_REINIT && owns)
        library_call = LIB_UNLOCK;
    what = names[library_call];
    now_in[0].stage = FRESH;
    now_in[0].reply = now_in[0].result = 0;
    now_in[0].was_late = has_come = 0;
    now_count = 1;
    int reply = call(library_call, is_timed, is_bad), found = -1;
    for (int i = 0; i < now_count && found < 0; i++)
        if (may_reply(&now_in[i], reply, is_bad && library_call == LIB_LOCK))
            found = i;
    if (found < 0) {
        printf("it replies %d\n", reply);
        for (int i = 0; i < now_count; i++)
            printf("state: running %d asleep %d late %d stage %d operation %d slot %d reply %d result %d\n",
                   now_in[i].is_running, now_in[i].is_asleep, now_in[i].was_late, now_in[i].stage, now_in[i].operation,
                   now_in[i].on_slot, now_in[i].reply, now_in[i].result);
        fail("no calls of the machine end with this reply");
    }
    struct machine after = now_in[found];
    memset(&now_in[0], 0, sizeof now_in[0]);
    memcpy(now_in[0].memory, after.memory, sizeof after.memory);
}

static void start(int has_foreign)
{
    memset(&mutex, 0, sizeof mutex);
    memset(&cond, 0, sizeof cond);
    memset(sleepers, 0, sizeof sleepers);
    memset(now_in, 0, sizeof now_in[0]);
    foreign.next = foreign.previous = (uint64_t)&head;
    head.word[0] = has_foreign ? (uint64_t)&foreign.next : (uint64_t)&head;
    head.word[2] = 0;
    pz_caller = (struct caller){.life = 7, .tid = self_id, .list = (pz_word *)head.word, .pause = 20000};
    now_count = 1;
    now_in[0].memory[HEAD] = place_of(head.word[0]);
    now_in[0].memory[FOREIGN_PLACE] = now_in[0].memory[FOREIGN_PLACE + 1] = HEAD;
}

/* Rows that the library has to reach, or this proves nothing. */
static void all_rows_were_met(void)
{
    static const int on_mutex[] = {
        CLEARING,         LINK_LOAD_FIRST,  LINK_STORE_NEXT,      LINK_STORE_PREVIOUS, LINK_STORE_BEHIND,
        LINK_STORE_FIRST, UNLINK_LOAD_NEXT, UNLINK_LOAD_PREVIOUS, UNLINK_STORE_NEXT,   UNLINK_STORE_PREVIOUS,
        LOCK_LOAD,        LOCK_TAKE,        LOCK_SET_WAITERS,     LOCK_SLEEP,          LOCK_WAKE_ALL,
        TRY_LOAD,         TRY_TAKE,         UNLOCK_LOAD,          UNLOCK_RELEASE,      UNLOCK_WAKE,
        UNLOCK_TRIM,      CONSISTENT_LOAD,  CONSISTENT_DECLARE};
    for (unsigned i = 0; i < sizeof on_mutex / sizeof *on_mutex; i++)
        if (!visits[0][on_mutex[i]]) {
            printf("row %d\n", on_mutex[i]);
            fail("a row was never met");
        }
    for (int kind = WAIT_LOAD_CELL; kind <= WAIT_UNLINKING + 3; kind++)
        if (!visits[1][kind]) {
            printf("row %d\n", kind);
            fail("a row on conditions was never met");
        }
}

int main(int argc, char **argv)
{
    long runs = argc > 1 ? atol(argv[1]) : 20000;
    random_state = 88172645463325252ull + (argc > 2 ? strtoull(argv[2], NULL, 10) : 0);
    for (long i = 0; i < runs; i++) {
        start((int)any(2));
        for (int k = 0; k < CALLS; k++)
            one_call();
        if ((*cell_word & OWNER) == self_id)
            *cell_word = 0;
    }
    all_rows_were_met();
    printf("%ld calls: each access is the machine's\n", runs * CALLS);
    return 0;
}
