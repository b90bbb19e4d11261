/* --help and --version of the programs that the specification leaves free to have them. Either is handled before main,
 * if it is the only word: the proved code never sees it. PROGRAM and HELP are the program's name and its text. */
#include "pazdrig.h"
#include <stdio.h>
#include <stdlib.h>
#include <string.h>

static const char help[] =
#include HELP
    ;

__attribute__((constructor)) static void give_help(int argc, char **argv)
{
    const char *word = argc == 2 ? argv[1] : "";
    int is_help = !strcmp(word, "-h") || !strcmp(word, "--help");
    if (!is_help && strcmp(word, "--version"))
        return;
    fputs(is_help ? help : PROGRAM " " PZ_VERSION "\n", stdout);
    if (fflush(stdout) || ferror(stdout)) {
        fputs(PROGRAM ": cannot write\n", stderr);
        exit(1);
    }
    exit(0);
}
