/* Where a call stands, as struct pz_call has it: the numbers of specs/Codings.antt in crates/mutex and crates/condvar.
 * checks/equal compares them with those of the proved code. */
#ifndef PZ_ROWS_H
#define PZ_ROWS_H

/* Where a call on a mutex stands. */
enum {
    ENDED,
    CLEARING,
    LINK_LOAD_FIRST,
    LINK_STORE_NEXT,
    LINK_STORE_PREVIOUS,
    LINK_STORE_BEHIND,
    LINK_STORE_FIRST,
    UNLINK_LOAD_NEXT,
    UNLINK_LOAD_PREVIOUS,
    UNLINK_STORE_NEXT,
    UNLINK_STORE_PREVIOUS,
    LOCK_LOAD = 16,
    LOCK_TAKE,
    LOCK_SET_WAITERS,
    LOCK_SLEEP,
    LOCK_WAKE_ALL,
    TRY_LOAD,
    TRY_TAKE,
    UNLOCK_LOAD,
    UNLOCK_RELEASE,
    UNLOCK_WAKE,
    UNLOCK_TRIM,
    CONSISTENT_LOAD,
    CONSISTENT_DECLARE,
    ANNOUNCING = 32 /* and the row of the cell that comes next */
};

/* What `program` of a call on a condition variable is, and where that stands. */
enum { ON_CONDITION = 4 };
enum {
    WAIT_LOAD_CELL = 1,
    WAIT_LOAD_COUNTER,
    WAIT_RELEASE,
    WAIT_WAKE,
    WAIT_SLEEP,
    SIGNAL_LOAD_CELL,
    SIGNAL_LOAD_COUNTER,
    SIGNAL_COUNT,
    SIGNAL_WAKE,
    BROADCAST_LOAD_CELL,
    BROADCAST_LOAD_COUNTER,
    BROADCAST_COUNT,
    BROADCAST_SET_WAITERS,
    BROADCAST_MOVE,
    WAIT_ANNOUNCING,
    WAIT_UNLINKING, /* four rows, in the order of UNLINK_LOAD_NEXT and the others */
    WAIT_LOCKING = 20
};
#endif
