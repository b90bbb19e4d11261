// The scenarios: what each thread does, and what may happen to it; and the mutations, each with the scenario that shows
// it.
#ifndef MODEL_SCENARIOS_H
#define MODEL_SCENARIOS_H
#include "state.h"

// A thread is a string of calls, each followed by the number of its mutex: L lock, T timed lock, Y trylock, U unlock,
// W wait, w timed wait, S signal, B broadcast, R reinit.
struct Scenario {
    const char *name, *threads[THREADS];
    // k=N kills, r=N ids that are used again, i interrupted sleeps, h handlers that empty pending, s owners that leave
    // a dead owner's mutex unusable, d the mutex's owner has died before, b stores that wait in buffers, n the newest
    // walk, o the walk of kernels before 6.2
    const char *options;
};
enum { QUICK_SCENARIOS = 21 };
const Scenario scenarios[] = {
    {"2 lock, ids again", {"L0U0", "L0U0"}, "k=2 r=2 i"},
    {"2 lock twice, ids again", {"L0U0L0U0", "L0U0L0U0"}, "k=2 r=1 i"},
    {"3 lock", {"L0U0", "L0U0", "L0U0"}, "k=2"},
    {"3 lock, newest walk", {"L0U0", "L0U0", "L0U0"}, "k=1 n"},
    {"2 timed, lock", {"T0U0", "T0U0", "L0U0"}, "k=1 i"},
    {"timed, lock, trylock", {"T0U0", "L0U0", "Y0U0"}, "k=2 n"},
    {"3 lock, unusable", {"L0U0", "L0U0", "L0U0"}, "k=2 s"},
    {"lock, timed, reinit", {"L0U0", "T0U0", "R0L0U0"}, "k=2 s"},
    {"wait, 2 signals", {"L0W0U0", "L0S0U0", "L0S0U0"}, "k=1 i"},
    {"2 waits, signal", {"L0W0U0", "L0W0U0", "L0S0S0U0"}, "k=1"},
    {"2 waits, broadcast", {"L0W0U0", "L0W0U0", "L0B0U0"}, "k=1"},
    {"wait, broadcast, lock", {"L0W0U0", "L0B0U0", "L0U0"}, "k=1 b"},
    {"2 waits in turn, 2 signals", {"L0W0W0U0", "L0S0U0L0S0U0"}, "k=1 i b"},
    {"timed wait, broadcast, signal", {"L0w0U0", "L0B0U0", "L0S0U0"}, "k=1"},
    {"handlers", {"L0W0U0", "T0U0", "L0S0U0"}, "k=1 h"},
    {"two mutexes", {"L0L1U1U0", "L0U0", "L1U1"}, "k=1"},
    {"two mutexes, timed", {"L0L1U0U1", "T1T0U0U1"}, "k=2 i"},
    {"2 timed, lock, 2 kills", {"T0U0", "T0U0", "L0U0"}, "k=2"},
    {"wait, broadcast, lock, 2 kills", {"L0W0U0", "L0B0U0", "L0U0"}, "k=2 n"},
    {"3 lock, 3 kills", {"L0U0", "L0U0", "L0U0"}, "k=3"},
    {"2 waits, broadcast, 2 kills", {"L0W0U0", "L0W0U0", "L0B0U0"}, "k=2"},
    // the larger ones, for --long
    {"3 lock, ids again", {"L0U0", "L0U0", "L0U0"}, "k=2 r=1"},
    {"4 lock", {"L0U0", "L0U0", "L0U0", "L0U0"}, "k=0"},
    {"2 waits, broadcast, lock", {"L0W0U0", "L0W0U0", "L0B0U0", "L0U0"}, "k=0"},
    {"unusable, reinit, wait, broadcast", {"L0U0", "L0U0", "R0L0B0U0", "L0W0U0"}, "k=0 s d"},
    {"2 lock twice, lock", {"L0U0L0U0", "L0U0L0U0", "L0U0"}, "k=1"},
    {"4 lock, 1 kill", {"L0U0", "L0U0", "L0U0", "L0U0"}, "k=1"},
};

// Small scenarios that show a mutation soon.
const Scenario small[] = {
    {"two", {"L0U0", "L0U0"}, "k=2 r=2 i"},
    {"three", {"L0U0", "L0U0", "L0U0"}, "k=1"},
    {"timed", {"T0U0", "T0U0", "L0U0"}, "k=1"},
    {"try", {"Y0U0", "L0U0", "T0U0"}, "k=2"},
    {"waits", {"L0W0U0", "L0W0U0", "L0B0U0"}, "k=1"},
    {"signals", {"L0W0U0", "L0S0U0", "L0S0U0"}, "k=1 i"},
    {"many signals", {"L0W0W0U0", "L0W0U0", "L0S0U0L0S0U0"}, "k=0"},
    {"late", {"L0w0U0", "L0B0U0", "L0U0"}, "k=0"},
    {"spoils", {"L0U0", "L0U0", "R0L0U0"}, "k=1 s d"},
    {"reinit", {"L0U0", "L0U0", "R0L0B0U0", "L0W0U0"}, "k=0 s d"},
    {"handled", {"L0U0", "L0U0"}, "k=1 h"},
    {"buffers", {"T0U0", "T0U0", "L0U0"}, "k=0 b"},
    {"old walk", {"L0U0", "L0U0"}, "k=1 o"},
};

// What a mutation does is in its name; `shown_by` names one of the small scenarios, and `why` the law that breaks.
// Those without a law do no harm, for the reason given: the search has to end without one.
struct Mutant {
    Mutation mutation;
    const char *shown_by, *why;
    bool is_harmless;
};
const Mutant mutants[] = {
    {heir_is_awake_before_pending, "two", "nobody answers", false},
    {heir_is_awake_before_link, "two", "neither on the list nor pending", false},
    {heir_sleeps_awake, "two", "nobody answers", false},
    {heir_gives_up_without_last_look, "three", "nobody answers", false},
    {heir_times_out_without_last_look, "timed", "nobody answers", false},
    {heir_clears_pending_before_awake, "timed", "nobody answers", false},
    {heir_frees_slot_before_awake, "two", "nobody answers", false},
    {heir_frees_slot_before_link, "two", "neither on the list nor pending", false},
    {heir_trusts_first_look_at_unusable, "reinit", "nobody answers", false},
    {heir_clears_awake_by_a_store, "buffers", "nobody answers", false},
    {slot_is_not_listed, "two", "neither on the list nor pending", false},
    {slot_keeps_a_dead_heirs_awake, "two", "nobody answers", false},
    {slot_is_declared_before_awake_is_cleared, "two", "nobody answers", false},
    {take_keeps_the_turn, "three", "WAITERS was cleared", false},
    {trim_after_a_wake, "three", "WAITERS was cleared", false},
    {trim_without_compare, "three", "WAITERS was cleared", false},
    {unlock_looks_at_slot_before_release, "two", "nobody answers", false},
    {unlock_trusts_awake_alone, "two", "nobody answers", false},
    {unlock_trusts_waiters_alone, "two", "nobody answers", false},
    {unlock_wakes_before_release, "two", "nobody answers", false},
    {unlock_releases_without_pending, "two", "nobody answers", false},
    {lock_takes_without_pending, "two", "neither on the list nor pending", false},
    {woken_sleeper_goes_to_the_slot_unseen, "waits", "nobody answers", false},
    {sleep_leaves_pending_empty, "handled", "neither on the list nor pending", false},
    {sleep_sets_no_waiters, "two", "without WAITERS", false},
    {wait_releases_without_pending, "waits", "nobody answers", false},
    {wait_counts_after_release, "signals", "signal was counted", false},
    {wait_says_nothing, "signals", "says so is clear", false},
    {late_by_the_clock_alone, "late", "timed out", false},
    {signal_always_clears_waited, "many signals", "says so is clear", false},
    {signal_wakes_nobody, "signals", "woke nobody", false},
    {signal_wakes_before_it_counts, "signals", "woke nobody", false},
    {broadcast_sets_no_waiters, "waits", "without WAITERS", false},
    {broadcast_moves_to_the_slot, "waits", "sleeps on a slot", false},
    {reinit_forgets_waiters, "reinit", "without WAITERS", false},
    {walk_takes_pending_first, "three", "nobody answers", false},
    {NO_MUTATION, "old walk", "nobody answers", false},
    {wait_says_so_after_release, "signals", "missed a thread", false},
    {unusable_wakes_one, "spoils", "each thread that wakes and finds it unusable wakes the rest", true},
    {unusable_leaves_the_wake, "spoils", "the heir's last look wakes all", true},
    {slot_is_tried_once, "three", "a thread that doesn't get the slot sleeps on the cell", true},
    {unlock_wakes_before_release, "refined: timed, lock", "no events of the machine", false},
    {heir_gives_up_without_last_look, "refined: timed, lock", "no events of the machine", false},
    {trylock_drops_pending_between_tries, "try", "between two tries it has taken nothing", true},
};
#endif
