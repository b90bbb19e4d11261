/* What the modules of pz-record share: it creates a recording, runs a program, stamps deaths, and prints histories. */
#ifndef PROGRAM_H
#define PROGRAM_H
#include "recording.h"
#include <stdio.h>

/* What the command line asks for. */
struct asked {
    const char *file, *over, *history, *names;
    uint32_t last; /* how many calls of each thread to keep; 0: all */
    uint64_t size;
    int clock; /* BY_TSC, BY_COUNTER, or NO_CLOCK: whatever the machine has */
    char **program;
};
enum { NO_CLOCK = -1 };

/* Exit statuses, as of env(1). */
enum { FAILED = 125, CANT_RUN = 127 };

/* ---- main.c: the ends of a pz-record that can't continue. */
_Noreturn void rec_fail(const char *what, const char *why);
_Noreturn void rec_fail_with(int exit_status, const char *what, const char *why);
extern const char *rec_unused_file; /* a recording without a program: a failure removes it. NULL: there is none */
void rec_read_boot(char boot[40]);

/* ---- clock.c */
int rec_clocks_agree(void);

/* ---- make.c: a new recording, mapped. */
struct recording *rec_make_file(const struct asked *a);

/* ---- run.c: the exit status, as a shell reports a program's end. */
int rec_run(const struct asked *a, struct recording *file);

/* ---- threads.c */
int rec_lives(const struct life *l);
int rec_is_in_sight(const struct process *p);

/* ---- watch.c */
int rec_watch(struct recording *file);
void rec_take_deaths(void);
void rec_end_watch(void);

/* ---- history.c: on standard output. */
int rec_print_history(const char *path);
int rec_print_names(const char *path);

/* Whether a recording has no mutex. */
static inline int rec_is_empty(struct recording *r)
{
    uint32_t n = rows(&r->head.names, NAMES);
    for (uint32_t i = 0; i < n; i++)
        if (r->name[i].object && !r->name[i].is_cond)
            return 0;
    return 1;
}
#define REC_EMPTY "no robust mutex was used, so there is nothing to judge"
#endif
