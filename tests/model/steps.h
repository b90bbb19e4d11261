// The names of the steps and of the mutations.
#ifndef MODEL_STEPS_H
#define MODEL_STEPS_H
#include <cstdint>

// Each access to a shared word, each system call, and each change of the thread's list is one step.
#define STEPS(X)                                                                                                       \
    X(IDLE)                                                                                                            \
    X(DONE)                                                                                                            \
    X(DEAD)                                                                                                            \
    X(LOCK_LOOK)                                                                                                       \
    X(LOCK_PEND)                                                                                                       \
    X(LOCK_LOAD)                                                                                                       \
    X(LOCK_TAKE)                                                                                                       \
    X(LOCK_WAKE_ALL)                                                                                                   \
    X(LOCK_LINK)                                                                                                       \
    X(LOCK_END)                                                                                                        \
    X(SLOT_MARK)                                                                                                       \
    X(SLOT_PEND)                                                                                                       \
    X(SLOT_LOAD)                                                                                                       \
    X(SLOT_TAKE)                                                                                                       \
    X(SLOT_LINK)                                                                                                       \
    X(SLOT_PEND_NOTHING)                                                                                               \
    X(SLOT_CLEAR)                                                                                                      \
    X(SLOT_DECLARE)                                                                                                    \
    X(SLOT_LEFT)                                                                                                       \
    X(SLEEP_LOAD)                                                                                                      \
    X(SLEEP_MARK)                                                                                                      \
    X(SLEEP)                                                                                                           \
    X(ASLEEP)                                                                                                          \
    X(SLEEP_PEND)                                                                                                      \
    X(SLEEP_LOOK)                                                                                                      \
    X(HEIR_PEND)                                                                                                       \
    X(HEIR_AWAKE)                                                                                                      \
    X(HEIR_LOOK)                                                                                                       \
    X(HEIR_TAKE)                                                                                                       \
    X(HEIR_HAS)                                                                                                        \
    X(HEIR_LINK)                                                                                                       \
    X(HEIR_CLEAR)                                                                                                      \
    X(HEIR_LAST_LOOK)                                                                                                  \
    X(HEIR_MARK)                                                                                                       \
    X(HEIR_WAKE_ALL)                                                                                                   \
    X(HEIR_PEND_NOTHING)                                                                                               \
    X(FREE_PEND)                                                                                                       \
    X(FREE_UNLINK)                                                                                                     \
    X(FREE_RELEASE)                                                                                                    \
    X(UNLOCK_BEGIN)                                                                                                    \
    X(UNLOCK_PEND)                                                                                                     \
    X(UNLOCK_UNLINK)                                                                                                   \
    X(UNLOCK_RELEASE)                                                                                                  \
    X(UNLOCK_SLOT)                                                                                                     \
    X(UNLOCK_OWNER)                                                                                                    \
    X(UNLOCK_WAKE)                                                                                                     \
    X(UNLOCK_TRIM)                                                                                                     \
    X(UNLOCK_END)                                                                                                      \
    X(TRY_LOAD)                                                                                                        \
    X(TRY_PEND)                                                                                                        \
    X(TRY_TAKE)                                                                                                        \
    X(WAIT_COUNT)                                                                                                      \
    X(WAIT_PEND)                                                                                                       \
    X(WAIT_UNLINK)                                                                                                     \
    X(WAIT_SAY)                                                                                                        \
    X(WAIT_RELEASE)                                                                                                    \
    X(WAIT_SLOT)                                                                                                       \
    X(WAIT_OWNER)                                                                                                      \
    X(WAIT_WAKE)                                                                                                       \
    X(WAIT_SLEEP)                                                                                                      \
    X(WAITING)                                                                                                         \
    X(WAIT_LATE)                                                                                                       \
    X(WAIT_RELOCK)                                                                                                     \
    X(SIGNAL_COUNT)                                                                                                    \
    X(SIGNAL_WAKE)                                                                                                     \
    X(SIGNAL_CLEAR)                                                                                                    \
    X(BROADCAST_COUNT)                                                                                                 \
    X(BROADCAST_MARK)                                                                                                  \
    X(BROADCAST_MOVE)                                                                                                  \
    X(BROADCAST_CLEAR)                                                                                                 \
    X(REINIT_LOAD)                                                                                                     \
    X(REINIT_SWAP)                                                                                                     \
    X(WALK_NEXT)                                                                                                       \
    X(WALK_LOAD)                                                                                                       \
    X(WALK_MARK)                                                                                                       \
    X(WALK_WAKE)                                                                                                       \
    X(WALK_END)
#define NAME(n) n,
enum Step : uint8_t { STEPS(NAME) };

// A mistake each; scenarios.h says what each one does, and which scenario shows it.
#define MUTATIONS(X)                                                                                                   \
    X(NO_MUTATION)                                                                                                     \
    X(heir_is_awake_before_pending)                                                                                    \
    X(heir_is_awake_before_link)                                                                                       \
    X(heir_sleeps_awake)                                                                                               \
    X(heir_gives_up_without_last_look)                                                                                 \
    X(heir_times_out_without_last_look)                                                                                \
    X(heir_clears_pending_before_awake)                                                                                \
    X(heir_frees_slot_before_awake)                                                                                    \
    X(heir_frees_slot_before_link)                                                                                     \
    X(heir_trusts_first_look_at_unusable)                                                                              \
    X(heir_clears_awake_by_a_store)                                                                                    \
    X(slot_is_not_listed)                                                                                              \
    X(slot_keeps_a_dead_heirs_awake)                                                                                   \
    X(slot_is_declared_before_awake_is_cleared)                                                                        \
    X(take_keeps_the_turn)                                                                                             \
    X(trim_after_a_wake)                                                                                               \
    X(trim_without_compare)                                                                                            \
    X(unlock_looks_at_slot_before_release)                                                                             \
    X(unlock_trusts_awake_alone)                                                                                       \
    X(unlock_trusts_waiters_alone)                                                                                     \
    X(unlock_wakes_before_release)                                                                                     \
    X(unlock_releases_without_pending)                                                                                 \
    X(lock_takes_without_pending)                                                                                      \
    X(woken_sleeper_goes_to_the_slot_unseen)                                                                           \
    X(sleep_leaves_pending_empty)                                                                                      \
    X(sleep_sets_no_waiters)                                                                                           \
    X(wait_releases_without_pending)                                                                                   \
    X(wait_counts_after_release)                                                                                       \
    X(wait_says_nothing)                                                                                               \
    X(late_by_the_clock_alone)                                                                                         \
    X(signal_always_clears_waited)                                                                                     \
    X(signal_wakes_nobody)                                                                                             \
    X(signal_wakes_before_it_counts)                                                                                   \
    X(broadcast_sets_no_waiters)                                                                                       \
    X(broadcast_moves_to_the_slot)                                                                                     \
    X(reinit_forgets_waiters)                                                                                          \
    X(walk_takes_pending_first)                                                                                        \
    X(wait_says_so_after_release)                                                                                      \
    X(unusable_wakes_one)                                                                                              \
    X(unusable_leaves_the_wake)                                                                                        \
    X(slot_is_tried_once)                                                                                              \
    X(trylock_drops_pending_between_tries)
enum Mutation { MUTATIONS(NAME) };
#undef NAME
#endif
