/* Where to read more after a fault of `rfx run`. The specified line comes first, and stays alone if standard error
 * isn't a terminal. A program that may start threads ends by _exit(2), so bin/rfx is linked with --wrap=_exit; it is
 * linked with --wrap=write, as only what it has said tells a script's fault from a failure. No proof covers this. */
#include <stdio.h>
#include <stdlib.h>
#include <string.h>
#include <sys/stat.h>
#include <unistd.h>

static const char fault[] = "rfx: line ";
static char said[sizeof fault]; /* the first bytes of standard error */
static char *script;            /* NULL: no hint is wanted */

/* rfx-explain opens the script again, so it has to be a file, and not one that is open here alone, as /dev/stdin. */
static int is_file(const char *name)
{
    struct stat s;
    return strncmp(name, "/dev/", 5) && !stat(name, &s) && S_ISREG(s.st_mode) && !access(name, R_OK);
}

static void point_to_explain(int status, void *name)
{
    const char *quote = strpbrk(name, " \t\n\"\\$&|;<>()*?[]#~`!{}") ? "'" : "";
    (void)status;
    if (!strcmp(said, fault) && is_file(name) && !strchr(name, '\''))
        dprintf(STDERR_FILENO, "(`rfx-explain %s%s%s` explains it)\n", quote, (char *)name, quote);
}

__attribute__((constructor)) static void expect_a_fault(int argc, char **argv)
{
    if (argc < 3 || strcmp(argv[1], "run") || !isatty(STDERR_FILENO))
        return;
    script = argv[argc - 1];
    on_exit(point_to_explain, script);
}

ssize_t __real_write(int to, const void *bytes, size_t count);
ssize_t __wrap_write(int to, const void *bytes, size_t count)
{
    ssize_t written = __real_write(to, bytes, count);
    size_t before = strlen(said), left = sizeof said - 1 - before;
    if (to == STDERR_FILENO && written > 0)
        memcpy(said + before, bytes, (size_t)written < left ? (size_t)written : left);
    return written;
}

_Noreturn void __real__exit(int status);
_Noreturn void __wrap__exit(int status)
{
    if (script)
        point_to_explain(status, script);
    __real__exit(status);
}
