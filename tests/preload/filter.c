/* Runs a program in which futex_waitv(2) is refused. usage: filter PROGRAM .. */
#include "filter.h"
#include <stdio.h>
#include <unistd.h>

int main(int argc, char **argv)
{
    if (argc < 2 || refuse_futex_waitv())
        return 77;
    execv(argv[1], argv + 1);
    perror(argv[1]);
    return 1;
}
