/* pz-record: the command line. */
#include "program.h"
#include "pazdrig.h"
#include <stdlib.h>
#include <string.h>
#include <unistd.h>

static const char help[] =
#include "help/pz-record.h"
    ;

enum { MIB = 1 << 20, LEAST_MIB = 64, USUAL_MIB = 8192, MOST_CALLS = 1 << 24 };

const char *rec_unused_file;

_Noreturn void rec_fail_with(int exit_status, const char *what, const char *why)
{
    fprintf(stderr, "pz-record: %s: %s\n", what, why);
    if (rec_unused_file)
        unlink(rec_unused_file);
    exit(exit_status);
}
_Noreturn void rec_fail(const char *what, const char *why) { rec_fail_with(FAILED, what, why); }

/* Prints the usage, which is a part of the help, up to an empty line. */
static _Noreturn void misused(void)
{
    const char *usage = strstr(help, "usage: ");
    fwrite(usage, 1, (size_t)(strstr(usage, "\n\n") + 1 - usage), stderr);
    exit(FAILED);
}

static uint64_t number(const char *word, uint64_t least, uint64_t most)
{
    char *end;
    unsigned long long n = strtoull(word, &end, 10);
    if (*word < '0' || *word > '9' || *end || n < least || n > most)
        misused();
    return n;
}

static int clock_of(const char *word)
{
    if (strcmp(word, "tsc") && strcmp(word, "counter"))
        misused();
    return strcmp(word, "tsc") ? BY_COUNTER : BY_TSC;
}

static void read_option(struct asked *a, const char *name, const char *value)
{
    if (!strcmp(name, "-o"))
        a->file = value;
    else if (!strcmp(name, "--over"))
        a->over = value;
    else if (!strcmp(name, "--last"))
        a->last = (uint32_t)number(value, 2, MOST_CALLS);
    else if (!strcmp(name, "--limit"))
        a->size = number(value, LEAST_MIB, UINT32_MAX) * MIB;
    else if (!strcmp(name, "--clock"))
        a->clock = clock_of(value);
    else if (!strcmp(name, "--history"))
        a->history = value;
    else if (!strcmp(name, "--names"))
        a->names = value;
    else
        misused();
}

static void read_words(struct asked *a, char **word)
{
    for (; *word && **word == '-'; word += 2) {
        if (!word[1])
            misused();
        read_option(a, word[0], word[1]);
    }
    a->program = word;
    int forms = (a->file && *word) + (a->history && !*word) + (a->names && !*word);
    if (forms != 1 || (a->file && !*word))
        misused();
}

/* Prints what -h, --help or --version ask for, if the only word is one of these, and exits. */
static void give_help(const char *word)
{
    int is_version = !strcmp(word, "--version");
    if (strcmp(word, "-h") && strcmp(word, "--help") && !is_version)
        return;
    fputs(is_version ? "pz-record " PZ_VERSION "\n" : help, stdout);
    if (fflush(stdout) || ferror(stdout))
        rec_fail("standard output", "can't write");
    exit(0);
}

int main(int argc, char **argv)
{
    struct asked a = {.clock = NO_CLOCK, .size = (uint64_t)USUAL_MIB * MIB};
    if (argc == 2)
        give_help(argv[1]);
    read_words(&a, argv + (argc > 0));
    if (a.history)
        return rec_print_history(a.history);
    if (a.names)
        return rec_print_names(a.names);
    if (a.clock == BY_TSC && !rec_clocks_agree())
        rec_fail("--clock tsc", "the processors' time stamp counters don't agree on this machine");
    return rec_run(&a, rec_make_file(&a));
}
