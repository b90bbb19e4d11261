/* Part of a pz-record (hooks.h): at each look, the watcher stops until the main thread waits for it. It creates the
 * file that LOOKS names, for which the program waits, so that the program doesn't end before. */
#include "shared.h"
#include <sys/syscall.h>

void at_looking(void);
void at_looking(void)
{
    close(open(getenv("LOOKS"), O_CREAT | O_WRONLY | O_CLOEXEC, 0600));
    until_in_call(getpid(), SYS_futex);
}
