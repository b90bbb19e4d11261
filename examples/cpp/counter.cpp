/* A count and its copy in a file that processes share, as in examples/c/counter.c. */
#include <cstdio>
#include <mutex>
#include <pazdrig.hpp>
#include <unistd.h>

struct counter { volatile long count, copy; };  /* the same, except in the middle of a change */

int main(int argc, char **argv)
try {
    pazdrig::file file(argc > 1 ? argv[1] : "counter.pz", {1, 0, sizeof(counter), 1, 0, 0});
    counter &c = file.as<counter>();
    pazdrig::mutex mutex(file.mutex_at(0), [&] { c.copy = c.count; });  /* its owner was killed: repair */
    std::lock_guard<pazdrig::mutex> guard(mutex);
    c.count = c.count + 1;
    if (argc > 2) pause();                      /* ./counter FILE pause & sleep 1; kill -9 $! */
    c.copy = c.copy + 1;
    std::printf("%ld and %ld\n", c.count, c.copy);
} catch (const std::exception &e) {
    std::fprintf(stderr, "%s\n", e.what());
    return 1;
}
