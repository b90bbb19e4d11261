/* Whether a recorded thread lives, by proc(5). */
#include "program.h"
#include <errno.h>
#include <string.h>
#include <sys/stat.h>
#include <unistd.h>

enum { SECOND_NS = 1000000000, STATE = 3, START = 22 /* fields of proc(5)'s stat */ };

/* When the thread with this id started, in nanoseconds since boot, rounded down. UINT64_MAX: there is no such thread,
 * or it has ended. 0: it can't be inspected, so it counts as alive. */
static uint64_t began(uint32_t thread)
{
    char path[64], line[1024] = "", *at;
    snprintf(path, sizeof path, "/proc/%u/stat", thread);
    FILE *f = fopen(path, "re");
    if (!f)
        return errno == ENOENT ? UINT64_MAX : 0;
    line[fread(line, 1, sizeof line - 1, f)] = 0;
    fclose(f);
    at = strrchr(line, ')'); /* after the name, which may contain anything */
    for (int field = STATE - 1; at && field < START; field++) {
        at = strchr(at, ' ');
        at = at ? at + 1 : NULL;
        if (at && field == STATE - 1 && strchr("ZX", *at))
            return UINT64_MAX;
    }
    unsigned long long ticks;
    return at && sscanf(at, "%llu", &ticks) == 1 ? ticks * (SECOND_NS / (uint64_t)sysconf(_SC_CLK_TCK)) : UINT64_MAX;
}

/* Another thread may have the id by now. It started later. */
int rec_lives(const struct life *l) { return began(l->thread) <= l->since; }

/* Whether this process has the same PID namespace. */
int rec_is_in_sight(const struct process *p)
{
    struct stat st;
    return stat("/proc/self/ns/pid", &st) == 0 && p->namespace == st.st_ino;
}
