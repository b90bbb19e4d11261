/* pazdrig.hpp: locks of the standard library over mutexes whose owners are killed, whose data can't be repaired, and
 * which become unusable during a wait; locks and waits with deadlines; files. */
#include "pazdrig.hpp"
#include <chrono>
#include <cstdio>
#include <shared_mutex>
#include <cstdlib>
#include <cstring>
#include <signal.h>
#include <sys/mman.h>
#include <sys/prctl.h>
#include <sys/wait.h>
#include <unistd.h>

#define CHECK(what) ((what) ? (void)0 : fail(__LINE__, #what))

[[noreturn]] static void fail(int line, const char *what)
{
    std::fprintf(stderr, "tests/bindings/cpp.cpp:%d: %s\n", line, what);
    std::_Exit(1);
}

/* The copy is the same, except in the middle of a change. */
struct counter {
    long count, copy;
    int is_locked, stage;
};
struct shared_memory {
    pz_mutex mutexes[2];
    pz_cond cond;
    counter data;
    PZ_RWLOCK(3) lock;
};

static shared_memory &fresh()
{
    void *at = mmap(nullptr, sizeof(shared_memory), PROT_READ | PROT_WRITE, MAP_SHARED | MAP_ANONYMOUS, -1, 0);
    CHECK(at != MAP_FAILED);
    return *static_cast<shared_memory *>(at);
}

/* A child that is killed when this process ends, so that a test that fails leaves none. */
template <class Do> static pid_t child(Do what)
{
    pid_t parent = getpid(), it = fork();
    CHECK(it >= 0);
    if (it == 0) {
        CHECK(prctl(PR_SET_PDEATHSIG, SIGKILL) == 0 && getppid() == parent);
        what();
        std::_Exit(0);
    }
    return it;
}

static void ends_well(pid_t it)
{
    int status;
    CHECK(waitpid(it, &status, 0) == it && status == 0);
}

/* Whether the process sleeps, as the kernel says 20 times in succession. */
static void until_asleep(pid_t it)
{
    char path[64], state;
    std::snprintf(path, sizeof path, "/proc/%d/stat", static_cast<int>(it));
    for (int quiet = 0; quiet < 20; quiet = state == 'S' ? quiet + 1 : 0) {
        std::FILE *f = std::fopen(path, "r");
        CHECK(f && std::fscanf(f, "%*d %*[^)]) %c", &state) == 1 && state != 'Z');
        std::fclose(f);
        usleep(500);
    }
}

/* An owner in the middle of a change, which may have broadcast before. */
static pid_t in_a_change(shared_memory &f, bool broadcasts = false)
{
    counter &c = f.data;
    __atomic_store_n(&c.is_locked, 0, __ATOMIC_SEQ_CST);
    pid_t it = child([&] {
        int r = pz_mutex_lock(&f.mutexes[0]);
        CHECK(r == 0 || r == EOWNERDEAD);
        CHECK(!broadcasts || pz_cond_broadcast(&f.cond, &f.mutexes[0]) == 0);
        c.count++;
        __atomic_store_n(&c.is_locked, 1, __ATOMIC_SEQ_CST);
        for (;;)
            pause();
    });
    while (!__atomic_load_n(&c.is_locked, __ATOMIC_SEQ_CST))
        usleep(100);
    return it;
}
static void is_killed(pid_t it) { CHECK(kill(it, SIGKILL) == 0 && waitpid(it, nullptr, 0) == it); }
static void dies_in_a_change(shared_memory &f, bool broadcasts = false) { is_killed(in_a_change(f, broadcasts)); }

/* Returns the number of the error that is thrown, or 0. */
template <class Do> static int thrown(Do what)
{
    try {
        what();
    } catch (const pazdrig::error &e) {
        return e.code().value();
    }
    return 0;
}

static void killed_owners()
{
    shared_memory &f = fresh();
    counter &c = f.data;
    int repairs = 0;
    pazdrig::mutex m(f.mutexes[0], [&] { c.copy = c.count, repairs++; }),
        other(f.mutexes[1], pazdrig::nothing_to_repair);
    dies_in_a_change(f);
    {
        std::lock_guard<pazdrig::mutex> guard(m);
        CHECK(repairs == 1 && c.count == 1 && c.copy == 1);
    }
    dies_in_a_change(f);
    {
        std::unique_lock<pazdrig::mutex> lock(m, std::try_to_lock);
        CHECK(lock.owns_lock() && m.is_mine() && repairs == 2 && c.copy == 2);
    }
    std::scoped_lock both(m, other);
    CHECK(repairs == 2 && m.is_mine() && other.is_mine());
}

static void living_owners()
{
    shared_memory &f = fresh();
    pazdrig::mutex m(f.mutexes[0], pazdrig::nothing_to_repair);
    std::unique_lock<pazdrig::mutex> lock(m);
    ends_well(child([&] { CHECK(!m.try_lock() && !m.is_mine() && m.owner() != 0); }));
    CHECK(thrown([&] { m.lock(); }) == EDEADLK);
    lock.unlock();
    CHECK(!m.is_mine() && m.owner() == 0);
    CHECK(thrown([&] { m.unlock(); }) == EPERM);
}

/* ---- Deadlines. A deadline that has to pass is near, and one that mustn't pass is far away. */

using namespace std::chrono_literals;
using std::chrono::steady_clock, std::chrono::system_clock;

/* A clock that advances by a millisecond each time that it is asked. */
struct own_clock {
    using duration = std::chrono::milliseconds;
    using rep = duration::rep;
    using period = duration::period;
    using time_point = std::chrono::time_point<own_clock>;
    static constexpr bool is_steady = true;
    static time_point now()
    {
        static int looks;
        return time_point(duration(++looks));
    }
};

template <class Clock> static void passes_by(pazdrig::mutex &m)
{
    auto until = Clock::now() + 20ms;
    CHECK(!m.try_lock_until(until) && Clock::now() >= until);
    CHECK(!m.try_lock_until(Clock::now() - 1h) && !m.try_lock_until(typename Clock::time_point()));
}

static void deadlines()
{
    shared_memory &f = fresh();
    pazdrig::mutex m(f.mutexes[0], pazdrig::nothing_to_repair);
    std::unique_lock<pazdrig::mutex> lock(m);
    ends_well(child([&] {
        auto since = steady_clock::now();
        CHECK(!m.try_lock_for(20ms) && steady_clock::now() - since >= 20ms);
        CHECK(!m.try_lock_for(-1h) && !m.try_lock_for(0s) && !m.try_lock_for(std::chrono::hours::min()));
        CHECK(!m.try_lock_for(std::chrono::duration<double>(0.001)) &&
              !m.try_lock_for(std::chrono::duration<int, std::pico>(7)));
        std::unique_lock<pazdrig::mutex> other(m, 1ms);
        CHECK(!other.owns_lock() && !other.try_lock_until(system_clock::now()) && !other.try_lock_for(1us));
        passes_by<steady_clock>(m);
        passes_by<system_clock>(m);
        passes_by<own_clock>(m);
    }));
    CHECK(thrown([&] { m.try_lock_for(1h); }) == EDEADLK);
    lock.unlock();
    CHECK(lock.try_lock_for(-1s));
    lock.unlock();
    CHECK(lock.try_lock_until(own_clock::time_point::min()));
}

/* The owner dies before a deadline that is far away, in whatever form it is passed. */
template <class Try> static void far_away(Try has_it)
{
    shared_memory &f = fresh();
    counter &c = f.data;
    pid_t owner = in_a_change(f);
    pid_t it = child([&] {
        int repairs = 0;
        pazdrig::mutex m(f.mutexes[0], [&] { c.copy = c.count, repairs++; });
        CHECK(has_it(m) && m.is_mine() && repairs == 1 && c.copy == 1);
        m.unlock();
    });
    until_asleep(it);
    is_killed(owner);
    ends_well(it);
}

static void deaths_before_a_deadline()
{
    far_away([](auto &m) { return m.try_lock_for(std::chrono::hours::max()); });
    far_away([](auto &m) { return m.try_lock_for(std::chrono::duration<double>(1e300)); });
    far_away([](auto &m) { return m.try_lock_until(steady_clock::time_point::max()); });
    far_away([](auto &m) { return m.try_lock_until(system_clock::time_point::max()); });
    far_away([](auto &m) { return m.try_lock_until(own_clock::now() + 1000h); });
    shared_memory &f = fresh();
    pazdrig::mutex m(f.mutexes[0], [] { throw std::domain_error("beyond repair"); });
    dies_in_a_change(f);
    bool is_thrown = false;
    try {
        std::unique_lock<pazdrig::mutex> lock(m, 1h);
    } catch (const std::domain_error &) {
        is_thrown = true;
    }
    CHECK(is_thrown && thrown([&] { m.try_lock_for(1h); }) == ENOTRECOVERABLE);
}

static void failed_repairs()
{
    shared_memory &f = fresh();
    pazdrig::mutex m(f.mutexes[0], [] { throw std::domain_error("beyond repair"); });
    dies_in_a_change(f);
    bool is_thrown = false;
    try {
        std::lock_guard<pazdrig::mutex> guard(m);
    } catch (const std::domain_error &) {
        is_thrown = true;
    }
    CHECK(is_thrown && !m.is_mine());
    CHECK(thrown([&] { m.lock(); }) == ENOTRECOVERABLE);
    CHECK(thrown([&] { m.try_lock(); }) == ENOTRECOVERABLE);
    m.reinit();
    std::lock_guard<pazdrig::mutex> guard(m);
}

static void notified()
{
    shared_memory &f = fresh();
    counter &c = f.data;
    pazdrig::mutex m(f.mutexes[0], pazdrig::nothing_to_repair), other(f.mutexes[1], pazdrig::nothing_to_repair);
    pazdrig::condition came(f.cond, m);
    pid_t waiter = child([&] {
        std::unique_lock<pazdrig::mutex> lock(m);
        came.wait(lock, [&] { return c.stage == 1; });
        CHECK(lock.owns_lock() && m.is_mine());
        c.stage = 2;
        came.notify_one();
    });
    until_asleep(waiter);
    CHECK(thrown([&] { came.notify_all(); }) == EPERM);
    std::unique_lock<pazdrig::mutex> lock(m);
    c.stage = 1;
    came.notify_all();
    came.wait(lock, [&] { return c.stage == 2; });
    ends_well(waiter);
    std::unique_lock<pazdrig::mutex> another(other);
    CHECK(thrown([&] { came.wait(another); }) == EPERM && another.owns_lock() && lock.owns_lock());
}

/* A wait times out, and the lock owns the mutex. */
template <class Clock> static void passes_in_a_wait_by(pazdrig::condition &came, std::unique_lock<pazdrig::mutex> &lock)
{
    auto until = Clock::now() + 20ms;
    while (came.wait_until(lock, until) == std::cv_status::no_timeout)
        ;
    CHECK(lock.owns_lock() && Clock::now() >= until);
    CHECK(came.wait_until(lock, Clock::now() - 1h) == std::cv_status::timeout);
    CHECK(came.wait_until(lock, typename Clock::time_point()) == std::cv_status::timeout);
    int looks = 0;
    CHECK(!came.wait_until(lock, Clock::now() + 20ms, [] { return false; }));
    CHECK(came.wait_until(lock, Clock::time_point::min(), [&] { return looks++ == 1; }) && looks == 2);
    CHECK(came.wait_until(lock, Clock::time_point::min(), [] { return true; }));
}

static void deadlines_of_waits()
{
    shared_memory &f = fresh();
    pazdrig::mutex m(f.mutexes[0], pazdrig::nothing_to_repair), other(f.mutexes[1], pazdrig::nothing_to_repair);
    pazdrig::condition came(f.cond, m);
    std::unique_lock<pazdrig::mutex> lock(m), another(other);
    auto since = steady_clock::now();
    CHECK(came.wait_for(lock, 20ms) == std::cv_status::timeout && steady_clock::now() - since >= 20ms);
    CHECK(came.wait_for(lock, -1h) == std::cv_status::timeout && m.is_mine());
    CHECK(!came.wait_for(lock, 1ms, [] { return false; }));
    passes_in_a_wait_by<steady_clock>(came, lock);
    passes_in_a_wait_by<system_clock>(came, lock);
    passes_in_a_wait_by<own_clock>(came, lock);
    CHECK(thrown([&] { came.wait_for(another, 1ms); }) == EPERM && another.owns_lock() && m.is_mine());
}

/* The notify comes before a deadline that is far away. */
template <class Wait> static void is_notified_before(Wait waits)
{
    shared_memory &f = fresh();
    counter &c = f.data;
    pazdrig::mutex m(f.mutexes[0], pazdrig::nothing_to_repair);
    pazdrig::condition came(f.cond, m);
    pid_t waiter = child([&] {
        std::unique_lock<pazdrig::mutex> lock(m);
        CHECK(waits(came, lock, [&] { return c.stage == 1; }) && lock.owns_lock() && m.is_mine());
    });
    until_asleep(waiter);
    {
        std::lock_guard<pazdrig::mutex> guard(m);
        c.stage = 1;
        came.notify_one();
    }
    ends_well(waiter);
}

static void notified_before_a_deadline()
{
    is_notified_before([](auto &c, auto &l, auto is_so) { return c.wait_for(l, std::chrono::hours::max(), is_so); });
    is_notified_before(
        [](auto &c, auto &l, auto is_so) { return c.wait_until(l, steady_clock::now() + 1000h, is_so); });
    is_notified_before(
        [](auto &c, auto &l, auto is_so) { return c.wait_until(l, system_clock::time_point::max(), is_so); });
    is_notified_before([](auto &c, auto &l, auto is_so) { return c.wait_until(l, own_clock::now() + 1000h, is_so); });
}

/* A thread wakes the waiter, and dies before it has unlocked the mutex. */
template <class Wait> static void repairs_in_a_wait(Wait waits)
{
    shared_memory &f = fresh();
    counter &c = f.data;
    pid_t waiter = child([&] {
        int repairs = 0;
        pazdrig::mutex m(f.mutexes[0], [&] { c.copy = c.count, repairs++; });
        pazdrig::condition came(f.cond, m);
        std::unique_lock<pazdrig::mutex> lock(m);
        waits(came, lock, [&] { return repairs != 0; });
        CHECK(lock.owns_lock() && c.count == 1 && c.copy == 1);
    });
    until_asleep(waiter);
    dies_in_a_change(f, true);
    ends_well(waiter);
}
static void repairs_in_waits()
{
    repairs_in_a_wait([](auto &c, auto &l, auto is_so) { c.wait(l, is_so); });
    repairs_in_a_wait([](auto &c, auto &l, auto is_so) { CHECK(c.wait_for(l, 1000h, is_so)); });
    repairs_in_a_wait([](auto &c, auto &l, auto is_so) { CHECK(c.wait_until(l, system_clock::now() + 1000h, is_so)); });
}

/* An owner dies, or makes the mutex unusable, during one of many short waits. */
static void until_it_has_begun(counter &c)
{
    while (!__atomic_load_n(&c.stage, __ATOMIC_SEQ_CST))
        usleep(100);
}
static void repairs_in_late_waits()
{
    shared_memory &f = fresh();
    counter &c = f.data;
    pid_t waiter = child([&] {
        int repairs = 0;
        pazdrig::mutex m(f.mutexes[0], [&] { c.copy = c.count, repairs++; });
        pazdrig::condition came(f.cond, m);
        std::unique_lock<pazdrig::mutex> lock(m);
        __atomic_store_n(&c.stage, 1, __ATOMIC_SEQ_CST);
        while (c.count == 0)
            came.wait_for(lock, 1ms);
        CHECK(lock.owns_lock() && m.is_mine() && repairs == 1 && c.copy == 1);
    });
    until_it_has_begun(c);
    dies_in_a_change(f);
    ends_well(waiter);
}
static void lost_in_late_waits()
{
    shared_memory &f = fresh();
    counter &c = f.data;
    pid_t waiter = child([&] {
        pazdrig::mutex m(f.mutexes[0], pazdrig::nothing_to_repair);
        pazdrig::condition came(f.cond, m);
        std::unique_lock<pazdrig::mutex> lock(m);
        __atomic_store_n(&c.stage, 1, __ATOMIC_SEQ_CST);
        CHECK(thrown([&] {
                  for (;;)
                      came.wait_for(lock, 1ms);
              }) == ENOTRECOVERABLE);
        CHECK(!lock.owns_lock());
    });
    int r;
    until_it_has_begun(c);
    do { /* until this process gets EOWNERDEAD, and not the other one */
        dies_in_a_change(f);
        r = pz_mutex_lock(&f.mutexes[0]);
        CHECK((r == 0 || r == EOWNERDEAD) && pz_mutex_unlock(&f.mutexes[0]) == 0);
    } while (r == 0);
    ends_well(waiter);
}

/* The mutex becomes unusable during the wait, so the lock doesn't own it afterwards. */
static void lost_in_waits()
{
    shared_memory &f = fresh();
    pazdrig::mutex m(f.mutexes[0], pazdrig::nothing_to_repair);
    pid_t waiter = child([&] {
        pazdrig::condition came(f.cond, m);
        std::unique_lock<pazdrig::mutex> lock(m);
        CHECK(thrown([&] { came.wait(lock); }) == ENOTRECOVERABLE && !lock.owns_lock());
    });
    until_asleep(waiter);
    dies_in_a_change(f);
    CHECK(pz_mutex_lock(&f.mutexes[0]) == EOWNERDEAD && pz_cond_broadcast(&f.cond, &f.mutexes[0]) == 0);
    CHECK(pz_mutex_unlock(&f.mutexes[0]) == 0);
    ends_well(waiter);
}

static void files()
{
    const char *room = std::getenv("TMPDIR");
    std::string name = std::string(room ? room : P_tmpdir) + "/pazdrig-cpp-XXXXXX";
    char *path = name.data();
    close(mkstemp(path));
    pazdrig::file f(path, {2, 1, sizeof(counter), 7, 1, 3}), moved = std::move(f);
    f = std::move(moved);
    CHECK(f.native_handle() && !moved.native_handle());
    pazdrig::mutex m(f.mutex_at(1), pazdrig::nothing_to_repair);
    pazdrig::condition came(f.cond_at(0), m);
    std::unique_lock lock(m);
    CHECK(came.wait_for(lock, 1ms) == std::cv_status::timeout);
    CHECK(f.as<counter>().count == 0 && pz_mutex_at(f.native_handle(), 1) == m.native_handle());
    int thrown_as = 0;
    try {
        f.as<char[sizeof(counter) + 1]>();
    } catch (const std::length_error &) {
        thrown_as++;
    }
    try {
        f.mutex_at(2);
    } catch (const std::out_of_range &) {
        thrown_as++;
    }
    try {
        f.rwlock_at(1);
    } catch (const std::out_of_range &) {
        thrown_as++;
    }
    CHECK(pz_rwlock_tryrdlock(&f.rwlock_at(0)) == 0 && pz_rwlock_unlock(&f.rwlock_at(0)) == 0);
    CHECK(thrown_as == 3 && thrown([] { pazdrig::file none("/no such directory/file"); }) == ENOENT);
    try {
        pazdrig::file other(path, {2, 1, sizeof(counter), 8, 1, 3});
    } catch (const pazdrig::error &e) {
        thrown_as +=
            e.code().value() == ESTALE && std::strstr(e.what(), "pz_open: it was created with another version");
    }
    CHECK(thrown_as == 4);
    unlink(path);
}

/* A handle over a mutex in a struct of the program's own is the size of a pointer and a function; std::scoped_lock
 * takes several. */
static void several()
{
    shared_memory &f = fresh();
    pazdrig::mutex m(f.mutexes[0], pazdrig::nothing_to_repair), other(f.mutexes[1], pazdrig::nothing_to_repair);
    {
        std::scoped_lock both(m, other);
        CHECK(m.is_mine() && other.is_mine() && m.owner() == getpid());
    }
    CHECK(!m.is_mine() && !other.is_mine());
}

/* ---- Reader-writer locks. */

static pz_rwlock &lock_of(shared_memory &f)
{
    CHECK(pz_rwlock_init(&f.lock.rw, 3) == 0);
    return f.lock.rw;
}
static void dies_writing(shared_memory &f)
{
    ends_well(child([&] {
        CHECK(pz_rwlock_wrlock(&f.lock.rw) == 0);
        f.data.count++;
    }));
}
static void readers_and_writers()
{
    shared_memory &f = fresh();
    pazdrig::shared_mutex m(lock_of(f), pazdrig::nothing_to_repair);
    {
        std::shared_lock<pazdrig::shared_mutex> reads(m);
        ends_well(child([&] { CHECK(m.try_lock_shared() && thrown([&] { m.lock_shared(); }) == EDEADLK); }));
        ends_well(child([&] {
            CHECK(!m.try_lock() && !m.try_lock_for(1ms) && !m.try_lock_until(system_clock::now() + 1ms) &&
                  !m.try_lock_until(own_clock::now() + 1ms) && thrown([&] { m.unlock(); }) == EPERM);
        }));
    }
    {
        std::unique_lock<pazdrig::shared_mutex> writes(m, std::try_to_lock);
        ends_well(child([&] {
            CHECK(writes.owns_lock() && !m.try_lock_shared() && !m.try_lock_shared_for(1ms) &&
                  !m.try_lock_shared_until(system_clock::now() + 1ms) &&
                  !m.try_lock_shared_until(own_clock::now() + 1ms) && !m.try_lock());
        }));
    }
    std::shared_lock<pazdrig::shared_mutex> again(m, 1h);
    CHECK(again.owns_lock());
}
static void killed_writers()
{
    shared_memory &f = fresh();
    int repairs = 0;
    pazdrig::shared_mutex m(lock_of(f), [&] { f.data.copy = f.data.count, repairs++; });
    dies_writing(f);
    {
        std::shared_lock<pazdrig::shared_mutex> reads(m);
        CHECK(repairs == 1 && f.data.copy == 1);
        ends_well(child([&] { CHECK(m.try_lock_shared()); })); /* it is a reader after the repair */
    }
    dies_writing(f);
    {
        std::unique_lock<pazdrig::shared_mutex> writes(m, 1h);
        CHECK(writes.owns_lock() && repairs == 2 && f.data.copy == 2);
        ends_well(child([&] { CHECK(!m.try_lock_shared()); }));
    }
    pazdrig::shared_mutex careless(f.lock.rw, [] { throw std::runtime_error("beyond repair"); });
    dies_writing(f);
    try {
        careless.lock_shared();
        CHECK(!"it threw");
    } catch (const std::runtime_error &) {
    }
    CHECK(thrown([&] { m.lock(); }) == ENOTRECOVERABLE);
    m.reinit();
    CHECK(m.try_lock() && repairs == 2);
}

/* Runs a case in a process of its own, in which what hangs ends. */
static bool passes(const char *name, void (*run)())
{
    int status;
    std::fflush(nullptr);
    pid_t it = fork();
    CHECK(it >= 0);
    if (it == 0) {
        alarm(std::getenv("CASE_LIMIT") ? static_cast<unsigned>(std::atoi(std::getenv("CASE_LIMIT"))) : 300);
        run();
        std::_Exit(0);
    }
    CHECK(waitpid(it, &status, 0) == it);
    std::printf("%s %s\n", status ? "FAILED" : "ok", name);
    return status == 0;
}

int main()
{
    static const struct {
        const char *name;
        void (*run)();
    } cases[] = {
        {"killed_owners", killed_owners},
        {"living_owners", living_owners},
        {"deadlines", deadlines},
        {"deaths_before_a_deadline", deaths_before_a_deadline},
        {"failed_repairs", failed_repairs},
        {"notified", notified},
        {"deadlines_of_waits", deadlines_of_waits},
        {"notified_before_a_deadline", notified_before_a_deadline},
        {"repairs_in_waits", repairs_in_waits},
        {"repairs_in_late_waits", repairs_in_late_waits},
        {"lost_in_late_waits", lost_in_late_waits},
        {"lost_in_waits", lost_in_waits},
        {"several", several},
        {"readers_and_writers", readers_and_writers},
        {"killed_writers", killed_writers},
        {"files", files},
    };
    int passed = 0, failed = 0;
    for (auto &c : cases)
        (passes(c.name, c.run) ? passed : failed)++;
    std::printf("%d passed, %d failed\n", passed, failed);
    return failed != 0;
}
