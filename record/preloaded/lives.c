/* This process and this thread in the recording, and the place for the thread's next call. If a call can't be recorded,
 * the recording ends before it, for all threads, and the program continues. */
#include "recorder.h"
#include <errno.h>
#include <fcntl.h>
#include <linux/futex.h>
#include <limits.h>
#include <stdlib.h>
#include <sys/stat.h>
#include <sys/syscall.h>
#include <unistd.h>

enum { FIRST_CHUNK = PAGE, CHUNK = 16 * PAGE };

struct recording *rec_file;
__thread struct mine rec_mine;

/* A page that the kernel wipes in a forked child, which so learns that it and its thread are new. */
static struct {
    _Atomic uint32_t process; /* a number, from 1 */
} * own;
static uint64_t namespace;
static pthread_key_t key;

/* ---- The end. */

RARE void rec_stop(void)
{
    struct head *h = &rec_file->head;
    uint64_t now = stamp_before(h), before = atomic_load(&h->ended);
    while ((!before || now < before) && !atomic_compare_exchange_weak(&h->ended, &before, now))
        ;
}

/* ---- Rows. */

static void fill_process(struct process *p)
{
    p->pid = (uint32_t)getpid();
    p->namespace = namespace;
    PZ_AT(filled_process);
    atomic_store(&p->is_shown, 1);
}

/* Returns this process's number, or 0 if there is no space. If two threads are first, one of their rows stays unused.
 */
static RARE uint32_t number_of_process(void)
{
    uint32_t is = atomic_load(&own->process), row;
    if (is)
        return is;
    row = atomic_fetch_add(&rec_file->head.processes, 1);
    if (row >= PROCESSES)
        return rec_stop(), 0;
    fill_process(&rec_file->process[row]);
    return atomic_compare_exchange_strong(&own->process, &is, row + 1) ? row + 1 : is;
}

/* Stamps the end of a process that was waited for, or that executed another program: exec ends all its threads and
 * walks their lists. */
RARE void rec_process_is_gone(uint32_t pid)
{
    uint32_t n = rows(&rec_file->head.processes, PROCESSES);
    for (struct process *p = rec_file->process; p < rec_file->process + n; p++)
        if (atomic_load(&p->is_shown) && p->pid == pid && p->namespace == namespace)
            stamp_gone(&rec_file->head, &p->gone);
}

static uint64_t since_boot(void)
{
    struct timespec t;
    clock_gettime(CLOCK_BOOTTIME, &t);
    return (uint64_t)t.tv_sec * 1000000000 + (uint64_t)t.tv_nsec;
}

/* Wakes pz-record's watcher. */
static void tell_news(struct head *h)
{
    atomic_fetch_add(&h->news, 1);
    syscall(SYS_futex, &h->news, FUTEX_WAKE, INT_MAX, NULL, NULL, 0);
}

static RARE int begin_life(struct mine *me)
{
    uint32_t process = number_of_process(), row = process ? atomic_fetch_add(&rec_file->head.lives, 1) : 0;
    if (!process || row >= LIVES)
        return rec_stop(), 0;
    struct life *l = &rec_file->life[row];
    l->self = (uint64_t)pthread_self();
    l->since = since_boot();
    l->process = process - 1;
    l->thread = (uint32_t)syscall(SYS_gettid);
    *me = (struct mine){.life = row, .process = process};
    pthread_setspecific(key, me);
    PZ_AT(filled_life);
    atomic_store(&l->is_shown, 1);
    tell_news(&rec_file->head);
    return 1;
}

/* A destructor of thread-specific data. Later destructors may still make calls. */
static void ends(void *mine)
{
    const struct mine *me = mine;
    if (me->process == atomic_load(&own->process))
        atomic_store(&rec_file->life[me->life].has_ended, 1);
}

/* ---- Chunks. */

/* Returns a chunk with disk space, so that a store there is no SIGBUS. */
static struct chunk *room_of(uint64_t size)
{
    struct head *h = &rec_file->head;
    uint64_t at = atomic_fetch_add(&h->used, size);
    if (at + size > h->size || madvise((char *)rec_file + at, size, MADV_POPULATE_WRITE))
        return rec_stop(), NULL;
    return (void *)((char *)rec_file + at);
}

static uint64_t size_of_next(const struct mine *me)
{
    uint64_t last = rec_file->head.last;
    if (last)
        return (sizeof(struct chunk) + last * sizeof(struct record) + PAGE - 1) / PAGE * PAGE;
    return me->chunk ? CHUNK : FIRST_CHUNK;
}

static void go_on_in(struct mine *me, struct chunk *c)
{
    me->chunk = c;
    me->next = c->record;
    me->end = c->record + c->records;
}

static RARE int more_room(struct mine *me)
{
    uint64_t size = size_of_next(me);
    if (rec_file->head.last && me->chunk)
        return go_on_in(me, me->chunk), 1; /* a ring */
    struct chunk *c = room_of(size);
    if (!c)
        return 0;
    c->life = me->life;
    c->records = rec_file->head.last ? rec_file->head.last : (uint32_t)(size / sizeof(struct record) - 1);
    PZ_AT(filled_chunk);
    atomic_store(me->chunk ? &me->chunk->next : &rec_file->life[me->life].chunk,
                 (uint64_t)((char *)c - (char *)rec_file));
    go_on_in(me, c);
    return 1;
}

static RARE int prepare(struct mine *me)
{
    int saved = errno;
    int is_new = !me->process || me->process != atomic_load(&own->process);
    int r = (!is_new || begin_life(me)) && (me->next != me->end || more_room(me));
    errno = saved;
    return r;
}

/* Begins a call's record, or returns NULL if it can't be recorded. Whatever was in its place, it is no record while its
 * begin is 0. */
struct record *rec_begin(enum call_kind call, uint32_t mutex, uint32_t cond, int flags)
{
    struct mine *me = &rec_mine;
    struct head *h = &rec_file->head;
    int is_ready = me->next != me->end && me->process == atomic_load_explicit(&own->process, memory_order_relaxed);
    if (__builtin_expect(atomic_load_explicit(&h->ended, memory_order_relaxed) != 0, 0) ||
        (__builtin_expect(!is_ready, 0) && !prepare(me)))
        return NULL;
    struct record *r = me->next++;
    atomic_store_explicit(&r->begin, 0, memory_order_release);
    atomic_store_explicit(&r->end, 0, memory_order_release);
    r->mutex = mutex;
    r->cond = cond;
    r->call = (uint16_t)call;
    r->flags = (uint16_t)flags;
    me->is_inside = 1;
    PZ_AT(filled_record);
    atomic_store_explicit(&r->begin, stamp_before(h), memory_order_release);
    atomic_signal_fence(memory_order_seq_cst);
    return r;
}

/* ---- The beginning. */

/* Ends the recording, because this process's calls would be missing. */
static void end_it(int fd)
{
    void *at = mmap(NULL, PAGE, PROT_READ | PROT_WRITE, MAP_SHARED, fd, 0);
    if (at == MAP_FAILED)
        return;
    rec_file = at;
    rec_stop();
    rec_file = NULL;
    munmap(at, PAGE);
}

static void *a_page_of_this_process(void)
{
    void *at = mmap(NULL, PAGE, PROT_READ | PROT_WRITE, MAP_PRIVATE | MAP_ANONYMOUS, -1, 0);
    return at == MAP_FAILED || madvise(at, PAGE, MADV_WIPEONFORK) ? NULL : at;
}

static void attach_to(int fd)
{
    struct head h;
    struct stat st;
    if (pread(fd, &h, sizeof h, 0) != sizeof h || h.magic != MAGIC)
        return;
    namespace = stat("/proc/self/ns/pid", &st) ? 0 : st.st_ino;
    own = a_page_of_this_process();
    void *at = mmap(NULL, h.size, PROT_READ | PROT_WRITE, MAP_SHARED | MAP_NORESERVE, fd, 0);
    if (!own || at == MAP_FAILED || pthread_key_create(&key, ends)) {
        end_it(fd);
        return;
    }
    rec_file = at;
    rec_process_is_gone((uint32_t)getpid());
}

__attribute__((constructor)) static void attach(void)
{
    const char *path = getenv("PZ_RECORDING");
    int fd = path ? open(path, O_RDWR | O_CLOEXEC) : -1;
    if (fd < 0)
        return;
    attach_to(fd);
    close(fd);
}
