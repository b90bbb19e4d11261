/* The first process of a booted kernel: mounts what programs need, runs the lines of /lines one after the other, and
 * prints how each ended. A line may begin with assignments, as in a shell. */
#define _GNU_SOURCE
#include <stdio.h>
#include <stdlib.h>
#include <string.h>
#include <sys/mount.h>
#include <sys/reboot.h>
#include <sys/stat.h>
#include <sys/wait.h>
#include <unistd.h>

enum { WORDS = 16 };

static void run(char *line)
{
    char shown[256], *words[WORDS];
    int n = 0, status = 0;
    snprintf(shown, sizeof shown, "%s", line);
    for (char *w = strtok(line, " "); w && n < WORDS - 1; w = strtok(NULL, " "))
        words[n++] = w;
    words[n] = NULL;
    if (!n)
        return;
    pid_t child = fork();
    if (!child) {
        char **program = words;
        while (*program && strchr(*program, '='))
            putenv(*program++);
        execv(*program, program);
        perror(*program);
        _exit(127);
    }
    while (waitpid(-1, &status, 0) != child)
        continue; /* orphans come to this process */
    printf("== %s: %s\n", shown, status == 0 ? "passed" : "FAILED");
    fflush(stdout);
}

static void mount_all(void)
{
    mkdir("/proc", 0777);
    mkdir("/dev", 0777);
    mkdir("/tmp", 0777);
    mount("proc", "/proc", "proc", 0, NULL);
    mount("dev", "/dev", "devtmpfs", 0, NULL);
    mount("tmp", "/tmp", "tmpfs", 0, NULL);
    mkdir("/dev/shm", 0777);
    mount("shm", "/dev/shm", "tmpfs", 0, NULL);
}

int main(void)
{
    char line[256];
    if (getpid() != 1)
        return 0; /* as /bin/true, which some tests execute */
    mount_all();
    FILE *lines = fopen("/lines", "r");
    while (lines && fgets(line, sizeof line, lines)) {
        line[strcspn(line, "\n")] = 0;
        run(line);
    }
    puts("== the end");
    fflush(stdout);
    sync();
    reboot(RB_POWER_OFF);
    return 1;
}
