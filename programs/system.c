/* What the proved programs need from the system besides the C library: memory, errno, and the words of their command
 * line. Rattle's toolchain has its own of these, also in C, and no proof covers either. tests/programs/system.c tests
 * each. */
#include <errno.h>
#include <stddef.h>
#include <stdint.h>
#include <stdlib.h>
#include <sys/types.h>

#if defined __x86_64__ && !__GLIBC_PREREQ(2, 33)
#include <cpuid.h>
/* The GNU C library has this from 2.33 on (<sys/platform/x86.h>). A program asks for the registers of cpuid's leaves 1
 * and 0x80000001 when it starts, and ends with status 127 if the processor isn't an x86-64-v2. */
const void *__x86_get_cpuid_feature_leaf(unsigned number)
{
    static struct {
        unsigned had[4], active[4];
    } leaves[4];
    unsigned *it = leaves[number & 3].active;
    __get_cpuid(number == 0 ? 1 : 0x80000001, &it[0], &it[1], &it[2], &it[3]);
    return &leaves[number & 3];
}
#endif

/* ---- Memory. Both words come back in registers: whether there is memory, and its address, which is never null. */

struct allocated {
    uint64_t is_there;
    void *at;
};
static _Alignas(16) char nowhere[16];

static struct allocated allocated(void *at) { return (struct allocated){at != NULL, at != NULL ? at : nowhere}; }

/* Returns `size` bytes, or `align` bytes if size is 0. The alignment divides 16, as malloc(3)'s does. */
struct allocated rattle_alloc(size_t size, size_t align) { return allocated(malloc(size != 0 ? size : align)); }

/* The first `kept` bytes stay, as realloc(3) keeps all. If there is no memory, the old bytes stay where they are. */
struct allocated rattle_realloc(void *at, size_t kept, size_t size, size_t align)
{
    (void)kept;
    return allocated(realloc(at, size != 0 ? size : align));
}

void rattle_dealloc(void *at) { free(at); }

/* ---- errno. */

int32_t rattle_errno(void) { return errno; }
void rattle_set_errno(int32_t error) { errno = error; }

/* ---- The words of the command line. */

static int count;
static char **words;

/* The GNU C library passes main's arguments to constructors. */
__attribute__((constructor)) static void keep_words(int argc, char **argv)
{
    count = argc;
    words = argv;
}

size_t rattle_arg_count(void) { return (size_t)count; }

/* Copies a word without its final null byte, and returns its length; -1: there is no such word; -2: it doesn't fit, and
 * the buffer is full. */
ssize_t rattle_arg(size_t number, uint8_t *buffer, size_t size)
{
    if (number >= (size_t)count || words[number] == NULL)
        return -1;
    size_t at = 0;
    for (const char *word = words[number]; word[at] != '\0'; at++) {
        if (at == size)
            return -2;
        buffer[at] = (uint8_t)word[at];
    }
    return (ssize_t)at;
}
