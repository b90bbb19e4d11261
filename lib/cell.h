/* The bits of a cell, and where a robust list has its links. See futex(2), get_robust_list(2), and the kernel's
 * Documentation/locking/robust-futex-ABI.rst. */
#ifndef PZ_CELL_H
#define PZ_CELL_H
#include <stdint.h>

/* The lower half of a cell is the kernel's futex word. Above it the library has one flag and a turn, which each take
 * increments. */
#define OWNER      0x3fffffffull /* the owner's TID; 0: nobody owns it */
#define OWNER_DIED (1ull << 30)
#define WAITERS    (1ull << 31)
#define UNUSABLE   (1ull << 32)
#define TURN       (1ull << 33)

/* The kernel finds the futex word this far from an entry, which is the address of a link to the next entry. The C
 * library chose the distance for all lists of a process; the link to the previous entry is the word before. */
#define FUTEX_OFFSET (-32)
#endif
