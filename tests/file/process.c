/* What an open file costs a process: no descriptor, and after its close no memory. What calls say in words. */
#include "cases.h"
#include <dirent.h>
#include <malloc.h>
#include <sys/resource.h>

#if !__GLIBC_PREREQ(2, 33)
#define mallinfo2 mallinfo
#endif

static const struct pz_layout LAYOUT = {.mutexes = 2, .conds = 1, .data = 8};

static int descriptors(void)
{
    DIR *all = opendir("/proc/self/fd");
    int n = 0;
    CHECK(all);
    while (readdir(all))
        n++;
    closedir(all);
    return n;
}
static int mappings_of(const char *path)
{
    char line[512];
    FILE *all = fopen("/proc/self/maps", "r");
    int n = 0;
    CHECK(all);
    while (fgets(line, sizeof line, all))
        n += strstr(line, path) != NULL;
    fclose(all);
    return n;
}

/* Opened and closed; refused before and after it is mapped. */
static void opens_and_refusals(void)
{
    pz_file *f;
    struct pz_layout other = LAYOUT;
    other.mutexes = 3;
    SAME(open_with("a file", LAYOUT, &f), 0);
    SAME(pz_mutex_lock(pz_mutex_at(f, 1)), 0);
    SAME(mappings_of("/a file"), 1);
    SAME(pz_mutex_unlock(pz_mutex_at(f, 1)), 0);
    pz_close(f);
    SAME(open_with("a file", other, &f), EEXIST);
    SAME(mappings_of("/a file"), 0);
    CHECK(unlink("a file") == 0);
}

static void nothing_is_lost(void)
{
    opens_and_refusals();
    int n = descriptors();
    size_t memory = mallinfo2().uordblks;
    for (int i = 0; i < 50; i++)
        opens_and_refusals();
    SAME(descriptors(), n);
    SAME(mallinfo2().uordblks, memory);
}

static void many_open_files(void)
{
    enum { MANY = 2000 };
    static pz_file *files[MANY];
    struct rlimit few = {16, 16};
    CHECK(setrlimit(RLIMIT_NOFILE, &few) == 0);
    for (int i = 0; i < MANY; i++)
        SAME(open_with(i % 2 ? "f" : "g", LAYOUT, &files[i]), 0);
    SAME(pz_mutex_lock(pz_mutex_at(files[0], 0)), 0);
    SAME(pz_mutex_trylock(pz_mutex_at(files[MANY - 2], 0)), EBUSY);
    SAME(pz_mutex_trylock(pz_mutex_at(files[MANY - 1], 0)), 0);
}

static void no_descriptor(void)
{
    struct rlimit none = {0, 0};
    pz_file *f;
    CHECK(setrlimit(RLIMIT_NOFILE, &none) == 0);
    SAME(open_with("f", LAYOUT, &f), EMFILE);
}

/* There is no address space for the file. One that isn't there takes no space on disk, and one that is there stays. */
static void no_address_space(void)
{
    struct pz_layout large = {.mutexes = 1, .data = (size_t)64 << 20};
    struct rlimit none, all;
    pz_file *f;
    CHECK(getrlimit(RLIMIT_AS, &all) == 0);
    none = all;
    none.rlim_cur = (rlim_t)32 << 20;
    for (int is_there = 0; is_there < 2; is_there++) {
        CHECK(setrlimit(RLIMIT_AS, &none) == 0);
        int n = descriptors();
        for (int i = 0; i < 20; i++)
            SAME(open_with("f", large, &f), ENOMEM);
        SAME(descriptors(), n);
        CHECK(setrlimit(RLIMIT_AS, &all) == 0);
        SAME(size_of("f"), is_there ? 192 + (64 << 20) : 0);
        SAME(open_with("f", large, &f), 0);
        pz_close(f);
    }
}

/* A child has the file, closes it on its own, and owns nothing that its parent does. */
static void a_child(void)
{
    pz_file *f;
    SAME(open_with("a file", LAYOUT, &f), 0);
    SAME(pz_mutex_lock(pz_mutex_at(f, 0)), 0);
    pid_t child = start_child();
    if (!child) {
        SAME(pz_mutex_unlock(pz_mutex_at(f, 0)), EPERM);
        SAME(pz_mutex_owner(pz_mutex_at(f, 0)), getppid());
        SAME(pz_mutex_lock(pz_mutex_at(f, 1)), 0);
        SAME(pz_mutex_unlock(pz_mutex_at(f, 1)), 0);
        SAME(mappings_of("/a file"), 1);
        pz_close(f);
        _exit(mappings_of("/a file"));
    }
    ends_well(child);
    SAME(pz_mutex_unlock(pz_mutex_at(f, 0)), 0);
}

static int says(const char *call, int error, const char *text) { return !strcmp(pz_strerror(call, error), text); }

/* The texts are those of docs/C.md. */
static void texts(void)
{
    CHECK(says("pz_mutex_lock", EDEADLK, "the caller owns it already"));
    CHECK(says("pz_mutex_trylock", EBUSY, "a thread owns it, even if that is the caller"));
    CHECK(says("pz_mutex_reinit", EBUSY, "a thread owns it"));
    CHECK(says("pz_open", ESTALE, "it was created with another version"));
    CHECK(says("pz_mutex_trylock", EDEADLK, strerror(EDEADLK))); /* not one of its returns */
    CHECK(says("pz_open", EACCES, strerror(EACCES)));
    CHECK(says("pz_nothing", EPERM, strerror(EPERM)));
    CHECK(says(NULL, EPERM, strerror(EPERM)));
    CHECK(strstr(pz_strerror("pz_mutex_timedlock", EINVAL), "tv_nsec"));
    CHECK(!strstr(pz_strerror("pz_mutex_lock", EINVAL), "tv_nsec"));
    CHECK(*pz_strerror("pz_mutex_lock", -1) && *pz_strerror(NULL, 1 << 20));
    CHECK(!strcmp(pz_version(), PZ_VERSION));
}

int main(int argc, char **argv)
{
    static const struct one_case cases[] = {
        {"nothing_is_lost", nothing_is_lost},
        {"many_open_files", many_open_files},
        {"no_descriptor", no_descriptor},
        {"no_address_space", no_address_space},
        {"a_child", a_child},
        {"texts", texts},
    };
    return RUN_CASES(argc, argv, cases);
}
