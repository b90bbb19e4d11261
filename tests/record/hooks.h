/* What a test has the recorder do at a moment. A recorder that is built with `-include tests/record/hooks.h` calls the
 * program's functions of these names, if it has them. */
#ifndef HOOKS_H
#define HOOKS_H
#define PZ_AT(moment)  (at_##moment ? at_##moment() : (void)0)
#define MOMENT(moment) void at_##moment(void) __attribute__((weak))
MOMENT(filled_process); /* a row is filled, and isn't shown yet */
MOMENT(filled_life);
MOMENT(filled_name);
MOMENT(filled_chunk);  /* the life doesn't have it yet */
MOMENT(filled_record); /* except for its begin */
MOMENT(numbered);      /* a mutex that is initialised has its new number */
MOMENT(called);        /* the call was made, and its end isn't stamped */
MOMENT(looking);       /* the watcher has seen one of the last news and the end, and not yet the other */
#endif
