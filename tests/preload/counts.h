/* What count.c counts. */
#ifndef COUNTS_H
#define COUNTS_H
#include <stdatomic.h>
struct counts {
    _Atomic long calls, died, consistent, unusable, refused, inits;
};
#endif
