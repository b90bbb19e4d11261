/* Whether each function of programs/system.c keeps its contract, also if memory is refused. Its words are `one` and an
 * empty one. */
#include "../check.h"
#include <stddef.h>
#include <sys/resource.h>

struct allocated {
    uint64_t is_there;
    void *at;
};
struct allocated rattle_alloc(size_t size, size_t align);
struct allocated rattle_realloc(void *at, size_t kept, size_t size, size_t align);
void rattle_dealloc(void *at);
int32_t rattle_errno(void);
void rattle_set_errno(int32_t error);
size_t rattle_arg_count(void);
ssize_t rattle_arg(size_t number, uint8_t *buffer, size_t size);

static const size_t too_much = (size_t)1 << 40;

static int is_at_16(const void *at) { return (uintptr_t)at % 16 == 0; }

static void memory_is_had(void)
{
    struct allocated none = rattle_alloc(0, 16), some = rattle_alloc(100, 1);
    CHECK(none.is_there == 1 && none.at && is_at_16(none.at));
    CHECK(some.is_there == 1 && some.at && is_at_16(some.at));
    memset(none.at, 3, 16);
    memset(some.at, 7, 100);
    some = rattle_realloc(some.at, 100, 100000, 1);
    CHECK(some.is_there == 1 && is_at_16(some.at) && ((char *)some.at)[0] == 7 && ((char *)some.at)[99] == 7);
    some = rattle_realloc(some.at, 0, 0, 8);
    CHECK(some.is_there == 1 && some.at);
    memset(some.at, 5, 8);
    rattle_dealloc(none.at);
    rattle_dealloc(some.at);
}

static void memory_is_refused(void)
{
    struct allocated kept = rattle_alloc(8, 8), refused = rattle_alloc(too_much, 8);
    CHECK(kept.is_there == 1 && refused.is_there == 0 && refused.at && is_at_16(refused.at));
    memset(kept.at, 5, 8);
    refused = rattle_realloc(kept.at, 8, too_much, 8);
    CHECK(refused.is_there == 0 && refused.at && refused.at != kept.at && is_at_16(refused.at));
    CHECK(((char *)kept.at)[0] == 5 && ((char *)kept.at)[7] == 5);
    rattle_dealloc(kept.at);
}

static void errors_are_kept(void)
{
    rattle_set_errno(ENOENT);
    CHECK(errno == ENOENT && rattle_errno() == ENOENT);
    rattle_set_errno(0);
    CHECK(errno == 0 && rattle_errno() == 0);
}

static void words_are_copied(void)
{
    uint8_t buffer[4] = "....";
    EQUAL(rattle_arg_count(), 3);
    CHECK(rattle_arg(1, buffer, 3) == 3 && !memcmp(buffer, "one.", 4));
    CHECK(rattle_arg(2, buffer, 0) == 0 && rattle_arg(1, buffer, 0) == -2 && !memcmp(buffer, "one.", 4));
    memset(buffer, '.', 4);
    CHECK(rattle_arg(1, buffer, 2) == -2 && !memcmp(buffer, "on..", 4));
    CHECK(rattle_arg(3, buffer, 4) == -1 && rattle_arg(SIZE_MAX, buffer, 4) == -1 && !memcmp(buffer, "on..", 4));
}

int main(void)
{
    begin_checks(60);
    memory_is_had();
    memory_is_refused();
    errors_are_kept();
    words_are_copied();
    /* No memory at all: the heap is full, and can't grow. */
    setrlimit(RLIMIT_AS, &(struct rlimit){0, 0});
    for (size_t size = too_much; size >= 16; size /= 2)
        while (malloc(size))
            ;
    CHECK(rattle_alloc(8, 8).is_there == 0);
    CHECK(rattle_realloc(NULL, 0, 8, 8).is_there == 0);
    rattle_dealloc(NULL);
    errors_are_kept();
    words_are_copied();
    return end_checks();
}
