/* Which files are opened, created and refused, and what an open leaves as it was. */
#include "cases.h"

static const struct pz_layout TWO = {.mutexes = 2, .conds = 1, .data = 8, .version = 7, .rwlocks = 1, .lanes = 3};
static char before[1 << 16], after[1 << 16];

/* Refused with this error, and left as it is. */
static void is_refused(const char *path, struct pz_layout layout, int error)
{
    pz_file *f = NULL;
    size_t n = read_file(path, before, sizeof before);
    SAME(open_with(path, layout, &f), error);
    CHECK(f == NULL);
    SAME(read_file(path, after, sizeof after), n);
    CHECK(!memcmp(before, after, n));
}

static void other_numbers(void)
{
    pz_file *f, *same;
    SAME(open_with("f", TWO, &f), 0);
    is_refused("f", (struct pz_layout){3, 1, 8, 7, 1, 3}, EEXIST);
    is_refused("f", (struct pz_layout){2, 2, 8, 7, 1, 3}, EEXIST);
    is_refused("f", (struct pz_layout){2, 1, 9, 7, 1, 3}, EEXIST);
    is_refused("f", (struct pz_layout){2, 1, 8, 7, 2, 3}, EEXIST);
    is_refused("f", (struct pz_layout){2, 1, 8, 7, 0, 0}, EEXIST);
    is_refused("f", (struct pz_layout){2, 1, 8, 7, 1, 4}, EEXIST);
    is_refused("f", (struct pz_layout){2, 1, 8, 7, 1, 0}, EINVAL);
    is_refused("f", (struct pz_layout){2, 1, 8, 7, 1, PZ_MOST_LANES + 1}, EINVAL);
    is_refused("f", (struct pz_layout){2, 1, 8, 6, 1, 3}, ESTALE);
    is_refused("f", (struct pz_layout){9, 1, 9, 8, 1, 3}, ESTALE); /* the data's version explains the rest */
    SAME(open_with("f", TWO, &same), 0);
    SAME(pz_mutex_lock(pz_mutex_at(same, 0)), 0);
    SAME(pz_mutex_trylock(pz_mutex_at(f, 0)), EBUSY);
    SAME(pz_mutex_unlock(pz_mutex_at(f, 0)), EPERM); /* another mapping of it */
    SAME(pz_mutex_unlock(pz_mutex_at(same, 0)), 0);
    pz_close(same);
    pz_close(f);
    CHECK(truncate("f", size_of("f") - 1) == 0);
    is_refused("f", TWO, EMEDIUMTYPE);
    SAME(open_with("g", (struct pz_layout){2, 1, 8, 7, 0, 0}, &f), 0);
    SAME(open_with("g", (struct pz_layout){2, 1, 8, 7, 0, 8}, &same), 0); /* lanes of no lock don't matter */
    pz_close(same);
    pz_close(f);
}

static void too_much_data(void)
{
    pz_file *f;
    SAME(open_with("f", (struct pz_layout){2, 1, SIZE_MAX, 7, 1, 3}, &f), EINVAL);
    SAME(open_with("f", (struct pz_layout){2, 1, PTRDIFF_MAX, 7, 1, 3}, &f), EINVAL);
    CHECK(access("f", F_OK) < 0 && errno == ENOENT);
}

/* Files of other programs, some of them shorter than the first word. */
static void foreign_files(void)
{
    static const char text[] = "not ours, and not to be overwritten";
    for (size_t n = 1; n <= sizeof text; n++) {
        write_file("f", text, n);
        is_refused("f", TWO, EMEDIUMTYPE);
    }
    static const char zeros[4096];
    write_file("f", zeros, sizeof zeros);
    is_refused("f", TWO, EMEDIUMTYPE);
    pz_file *f;
    SAME(open_with("/dev/null", TWO, &f), EMEDIUMTYPE);
    CHECK(mkfifo("fifo", 0600) == 0);
    SAME(open_with("fifo", TWO, &f), EMEDIUMTYPE);
    SAME(open_with(".", TWO, &f), EISDIR);
    SAME(open_with("none/f", TWO, &f), ENOENT);
}

/* Changes bytes of a file, and puts them back. */
static void is_refused_with(off_t at, const char *bytes, size_t n, int error)
{
    char was[16];
    int fd = open("f", O_RDWR);
    CHECK(fd >= 0 && pread(fd, was, n, at) == (ssize_t)n && pwrite(fd, bytes, n, at) == (ssize_t)n);
    is_refused("f", TWO, error);
    CHECK(pwrite(fd, was, n, at) == (ssize_t)n && close(fd) == 0);
}

static void other_formats(void)
{
    pz_file *f;
    SAME(open_with("f", TWO, &f), 0);
    SAME(pz_mutex_lock(pz_mutex_at(f, 1)), 0);
    read_file("f", before, 8);
    CHECK(!memcmp(before, "pazdrig5", 8));
    for (const char *digit = "3419/\xff"; *digit; digit++)
        is_refused_with(7, digit, 1, EPROTO);
    is_refused_with(6, "G", 1, EMEDIUMTYPE);
    const int32_t offset = -28; /* another C library's */
    is_refused_with(offsetof(struct pz_header, futex_offset), (const char *)&offset, sizeof offset, EPROTO);
    pz_close(f);
    SAME(open_with("f", TWO, &f), 0);
    CHECK(pz_mutex_owner(pz_mutex_at(f, 1)) == getpid());
}

/* The program's own bytes are zeros in a new file, and stay what they are made whatever the calls do. */
static void parts_are_apart(pz_file *f, const struct pz_layout *l)
{
    unsigned char *own = pz_data(f);
    CHECK((uintptr_t)own % 64 == 0);
    for (size_t i = 0; i < l->data; i++)
        CHECK(own[i] == 0);
    memset(own, 0xff, l->data);
    for (unsigned m = 0; m < l->mutexes; m++) {
        pz_mutex *mutex = pz_mutex_at(f, m);
        pz_cond *c = l->conds ? pz_cond_at(f, m % l->conds) : NULL;
        SAME(pz_mutex_lock(mutex), 0);
        if (c)
            SAME(pz_cond_signal(c, mutex), 0);
        SAME(pz_mutex_unlock(mutex), 0);
    }
    for (unsigned n = 0; n < l->rwlocks; n++) {
        SAME(pz_rwlock_wrlock(pz_rwlock_at(f, n)), 0);
        SAME(pz_rwlock_unlock(pz_rwlock_at(f, n)), 0);
    }
    for (size_t i = 0; i < l->data; i++)
        CHECK(own[i] == 0xff);
}

static void sizes(void)
{
    static const struct {
        struct pz_layout layout;
        /* 128, 64 a mutex, 128 a reader-writer lock and 64 a lane, 16 a condition variable; the data at the next
         * multiple of 64 */
        off_t size;
    } of[] = {
        {{0, 0, 0, 0, 0, 0}, 128},
        {{1, 0, 0, 0, 0, 9}, 192},
        {{1, 1, 1, 0, 1, 8}, 257 + 640},
        {{30, 4, 10000, 0, 0, 0}, 12112},
        {{100000, 70000, 3, 0, 200, 2}, 128 + 6400000 + 1120000 + 200 * 256 + 3},
    };
    for (size_t i = 0; i < sizeof of / sizeof of[0]; i++) {
        const struct pz_layout *l = &of[i].layout;
        pz_file *f;
        SAME(open_with("f", *l, &f), 0);
        SAME(size_of("f"), of[i].size);
        parts_are_apart(f, l);
        CHECK(!pz_mutex_at(f, l->mutexes) && !pz_cond_at(f, l->conds) && !pz_mutex_at(f, -1u));
        CHECK(!pz_rwlock_at(f, l->rwlocks));
        for (unsigned m = 1; m < l->mutexes; m++)
            CHECK(pz_mutex_at(f, m) == pz_mutex_at(f, m - 1) + 1);
        pz_close(f);
        CHECK(unlink("f") == 0);
    }
}

static void modes(void)
{
    static const mode_t of[][3] = {{0, 0604, 0604}, {027, 0666, 0640}};
    for (int i = 0; i < 2; i++) {
        struct stat st;
        pz_file *f;
        umask(of[i][0]);
        SAME(pz_open("f", of[i][1], &TWO, &f), 0);
        CHECK(stat("f", &st) == 0);
        SAME(st.st_mode & 07777, of[i][2]);
        pz_close(f);
        CHECK(unlink("f") == 0);
    }
}

static void no_right_to_write(void)
{
    pz_file *f;
    SAME(pz_open("f", 0444, &TWO, &f), 0);
    if (getuid() == 0) {
        CHECK(chmod(".", 0777) == 0);
        if (setuid(65534))
            not_tried("a file that may not be written, as setuid(2) is refused");
    }
    SAME(open_with("f", TWO, &f), EACCES);
}

/* A file is created through a symbolic link, and opened through one. */
static void symbolic_links(void)
{
    pz_file *f, *same;
    CHECK(symlink("f", "link") == 0);
    SAME(open_with("link", TWO, &f), 0);
    SAME(open_with("f", TWO, &same), 0);
    SAME(pz_mutex_lock(pz_mutex_at(f, 0)), 0);
    SAME(pz_mutex_trylock(pz_mutex_at(same, 0)), EBUSY);
}

static void emptied_or_removed(void)
{
    pz_file *f, *next;
    SAME(open_with("f", TWO, &f), 0);
    SAME(pz_mutex_lock(pz_mutex_at(f, 0)), 0);
    CHECK(unlink("f") == 0);
    SAME(open_with("f", TWO, &next), 0);
    SAME(pz_mutex_trylock(pz_mutex_at(next, 0)), 0);
    SAME(pz_mutex_trylock(pz_mutex_at(f, 1)), 0);
    pz_close(next);
    CHECK(truncate("f", 0) == 0);
    SAME(open_with("f", TWO, &next), 0);
    SAME(pz_mutex_owner(pz_mutex_at(next, 0)), 0);
}

static void errno_is_kept(void)
{
    pz_file *f;
    errno = 77;
    SAME(open_with("none/f", TWO, &f), ENOENT);
    SAME(errno, 77);
    SAME(open_with("f", TWO, &f), 0);
    SAME(errno, 77);
    pz_close(f);
    SAME(errno, 77);
    pz_strerror("pz_open", 12345);
    SAME(errno, 77);
}

int main(int argc, char **argv)
{
    static const struct one_case cases[] = {
        {"other_numbers", other_numbers},
        {"too_much_data", too_much_data},
        {"foreign_files", foreign_files},
        {"other_formats", other_formats},
        {"sizes", sizes},
        {"modes", modes},
        {"no_right_to_write", no_right_to_write},
        {"symbolic_links", symbolic_links},
        {"emptied_or_removed", emptied_or_removed},
        {"errno_is_kept", errno_is_kept},
    };
    return RUN_CASES(argc, argv, cases);
}
