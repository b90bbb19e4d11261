/* Whether the time stamp counters of all processors can serve as one clock. */
#include "program.h"
#include <sched.h>
#include <stdio.h>
#include <stdlib.h>
#include <string.h>

#ifdef __x86_64__
static int has(const char *line, const char *flag)
{
    const char *at = strstr(line, flag);
    return at && at[-1] == ' ' && strchr(" \n", at[strlen(flag)]);
}

/* Whether each processor says that its counter has one rate at all speeds, and while it sleeps. */
static int all_tick_alike(void)
{
    FILE *f = fopen("/proc/cpuinfo", "re");
    char *line = NULL;
    size_t room = 0;
    int seen = 0, good = 0;
    while (f && getline(&line, &room, f) > 0)
        if (!strncmp(line, "flags", 5)) {
            seen++;
            good += has(line, "constant_tsc") && has(line, "nonstop_tsc");
        }
    free(line);
    if (f)
        fclose(f);
    return seen > 0 && good == seen;
}

/* Linux drops this clock if it has seen two counters differ. */
static int linux_trusts_them(void)
{
    char names[128] = "", *rest = NULL;
    FILE *f = fopen("/sys/devices/system/clocksource/clocksource0/available_clocksource", "re");
    int has_line = f && fgets(names, sizeof names, f);
    if (f)
        fclose(f);
    for (char *name = has_line ? strtok_r(names, " \n", &rest) : NULL; name; name = strtok_r(NULL, " \n", &rest))
        if (!strcmp(name, "tsc"))
            return 1;
    return 0;
}

/* Whether a thread that visits all processors sees no step back. */
static int none_is_behind(void)
{
    struct head h = {.clock = BY_TSC};
    cpu_set_t may, one;
    uint64_t last = 0;
    int good = !sched_getaffinity(0, sizeof may, &may);
    for (int i = 0; good && i < 3 * CPU_SETSIZE; i++) {
        if (!CPU_ISSET(i % CPU_SETSIZE, &may))
            continue;
        CPU_ZERO(&one);
        CPU_SET(i % CPU_SETSIZE, &one);
        good = !sched_setaffinity(0, sizeof one, &one) && stamp_before(&h) > last;
        last = stamp_after(&h);
    }
    sched_setaffinity(0, sizeof may, &may);
    return good;
}

int rec_clocks_agree(void) { return all_tick_alike() && linux_trusts_them() && none_is_behind(); }
#else
int rec_clocks_agree(void) { return 0; }
#endif
