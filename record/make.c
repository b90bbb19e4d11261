/* Creates a recording. */
#include "program.h"
#include <errno.h>
#include <fcntl.h>
#include <string.h>
#include <sys/stat.h>
#include <unistd.h>

void rec_read_boot(char boot[40])
{
    FILE *f = fopen("/proc/sys/kernel/random/boot_id", "re");
    if (!f || !fgets(boot, 40, f))
        boot[0] = 0;
    if (f)
        fclose(f);
}

static void fill(struct recording *r, const struct asked *a)
{
    struct head *h = &r->head;
    struct stat st;
    h->size = a->size;
    h->clock = a->clock != NO_CLOCK ? (uint32_t)a->clock : rec_clocks_agree() ? BY_TSC : BY_COUNTER;
    h->last = a->last;
    h->namespace = stat("/proc/self/ns/pid", &st) ? 0 : st.st_ino;
    rec_read_boot(h->boot);
    atomic_store(&h->used, sizeof *r);
    h->magic = MAGIC;
}

/* Refuses to overwrite a file that isn't a recording, for example the program itself. A recording whose start was cut
 * off begins with zeros. */
static void expect_a_recording(const char *name)
{
    struct stat s;
    struct head h = {0};
    int fd = open(name, O_RDONLY | O_NONBLOCK | O_CLOEXEC);
    if (fd < 0)
        return;
    int is_empty = !fstat(fd, &s) && S_ISREG(s.st_mode) && !s.st_size;
    ssize_t n = read(fd, &h, sizeof h);
    close(fd);
    if (!is_empty && (n != sizeof h || (h.magic && h.magic != MAGIC)))
        rec_fail(name, "exists, and isn't a recording of pz-record");
}

/* Everything before the chunks gets its disk space now, because programs write there at any time. An older recording of
 * this name may still be in use, so it is unlinked instead of truncated. */
struct recording *rec_make_file(const struct asked *a)
{
    expect_a_recording(a->file);
    unlink(a->file);
    int fd = open(a->file, O_RDWR | O_CREAT | O_EXCL | O_CLOEXEC, 0666);
    if (fd < 0)
        rec_fail(a->file, strerror(errno));
    rec_unused_file = a->file;
    if (ftruncate(fd, (off_t)a->size))
        rec_fail(a->file, strerror(errno));
    int r = posix_fallocate(fd, 0, sizeof(struct recording));
    if (r)
        rec_fail(a->file, strerror(r));
    void *at = mmap(NULL, a->size, PROT_READ | PROT_WRITE, MAP_SHARED | MAP_NORESERVE, fd, 0);
    if (at == MAP_FAILED)
        rec_fail(a->file, strerror(errno));
    close(fd);
    if (madvise(at, sizeof(struct recording), MADV_POPULATE_WRITE))
        rec_fail(a->file, errno == EINVAL ? "can't allocate it: needs Linux 5.14 or later" : strerror(errno));
    fill(at, a);
    return at;
}
