/* pazdrig.h for C++17: a mutex that std::lock_guard, std::scoped_lock and std::unique_lock take, also with deadlines, a
 * condition variable, a reader-writer lock that std::shared_lock takes, too, and a file of them.
 *
 * pazdrig::mutex, pazdrig::condition and pazdrig::shared_mutex are handles. The pz_mutex, the pz_cond and the pz_rwlock
 * themselves are in memory that processes share, for example in a struct of the program's own, and have no constructor.
 *
 * A mutex handle is created with a function that repairs what the mutex guards, so no thread gets to see data that a
 * dead owner left: a lock or a wait that gets EOWNERDEAD calls it, and declares the mutex consistent, before it
 * returns. No deadline applies to a repair. If the data can't be repaired, the function throws: the mutex becomes
 * unusable, and the lock or the wait throws the same.
 *
 * All other return values except EBUSY of try_lock() and ETIMEDOUT of a call with a deadline are thrown as
 * pazdrig::error. */
#ifndef PAZDRIG_HPP
#define PAZDRIG_HPP
#include "pazdrig.h"
#include <cerrno>
#include <chrono>
#include <condition_variable>
#include <functional>
#include <mutex>
#include <new>
#include <stdexcept>
#include <string>
#include <sys/syscall.h>
#include <system_error>
#include <type_traits>
#include <unistd.h>
#include <utility>

namespace pazdrig
{

/* code() is a number of errno(3), for example equal to std::errc::state_not_recoverable. what() is the call and what
 * pz_strerror says of its return value. */
class error : public std::system_error
{
  public:
    error(const char *call, int number)
        : std::system_error(number, std::generic_category()), text(std::string(call) + ": " + pz_strerror(call, number))
    {
    }
    const char *what() const noexcept override { return text.c_str(); }

  private:
    std::string text;
};

inline void check(const char *call, int number)
{
    if (number != 0)
        throw error(call, number);
}

/* For data that a single store changes. */
inline void nothing_to_repair() {}

class mutex
{
  public:
    mutex(pz_mutex &m, std::function<void()> repairs) : own(&m), repair(std::move(repairs)) {}
    mutex(const mutex &) = delete;
    mutex &operator=(const mutex &) = delete;

    void lock() { locked("pz_mutex_lock", pz_mutex_lock(own)); }
    /* Returns false if a thread owns the mutex. */
    bool try_lock() { return is_locked("pz_mutex_trylock", pz_mutex_trylock(own), EBUSY); }
    /* These return false if the time has come, and another thread owns the mutex. */
    template <class Rep, class Period> bool try_lock_for(const std::chrono::duration<Rep, Period> &time)
    {
        return try_lock_until(std::chrono::steady_clock::now() + in_range(time));
    }
    template <class Duration>
    bool try_lock_until(const std::chrono::time_point<std::chrono::steady_clock, Duration> &time)
    {
        return is_locked_until(CLOCK_MONOTONIC, in_range(time.time_since_epoch()));
    }
    template <class Duration>
    bool try_lock_until(const std::chrono::time_point<std::chrono::system_clock, Duration> &time)
    {
        return is_locked_until(CLOCK_REALTIME, in_range(time.time_since_epoch()));
    }
    /* With a clock of the program's own, which may run at another rate: asks it again after each attempt. */
    template <class Clock, class Duration> bool try_lock_until(const std::chrono::time_point<Clock, Duration> &time)
    {
        while (Clock::now() < time)
            if (try_lock_for(time - Clock::now()))
                return true;
        return try_lock_for(std::chrono::seconds(0));
    }
    void unlock() { check("pz_mutex_unlock", pz_mutex_unlock(own)); }
    /* Makes an unusable mutex free. The caller has rebuilt what the mutex guards. */
    void reinit() { check("pz_mutex_reinit", pz_mutex_reinit(own)); }
    /* The owner's TID, or 0. */
    pid_t owner() const noexcept { return pz_mutex_owner(own); }
    bool is_mine() const noexcept { return owner() == static_cast<pid_t>(syscall(SYS_gettid)); }
    pz_mutex *native_handle() const noexcept { return own; }

  private:
    friend class condition;
    friend class shared_mutex;

    /* Takes a time in the past as now, and a time more than 250 years away as that, so that sums with a clock's time
     * don't overflow. Rounds up, so that no deadline comes early. */
    template <class Rep, class Period>
    static std::chrono::nanoseconds in_range(const std::chrono::duration<Rep, Period> &time)
    {
        using exact = std::chrono::duration<long double, std::nano>;
        constexpr std::chrono::nanoseconds most = std::chrono::hours(24 * 365 * 250);
        exact it = time;
        return !(it < most) ? most : it < exact::zero() ? most.zero() : std::chrono::ceil<std::chrono::nanoseconds>(it);
    }
    static timespec timespec_of(std::chrono::nanoseconds time)
    {
        auto seconds = std::chrono::duration_cast<std::chrono::seconds>(time);
        timespec it = {};
        it.tv_sec = static_cast<time_t>(seconds.count());
        it.tv_nsec = static_cast<long>((time - seconds).count());
        return it;
    }
    bool is_locked_until(clockid_t clock, std::chrono::nanoseconds time)
    {
        timespec until = timespec_of(time);
        return is_locked("pz_mutex_clocklock", pz_mutex_clocklock(own, clock, &until), ETIMEDOUT);
    }
    bool is_locked(const char *call, int number, int otherwise)
    {
        if (number != otherwise)
            locked(call, number);
        return number != otherwise;
    }
    void locked(const char *call, int number)
    {
        if (number != EOWNERDEAD)
            return check(call, number);
        try {
            repair();
        } catch (...) {
            pz_mutex_unlock(own);
            throw;
        }
        check("pz_mutex_consistent", pz_mutex_consistent(own));
    }

    pz_mutex *own;
    std::function<void()> repair;
};

/* A condition variable, with the mutex that its waiters unlock. */
class condition
{
  public:
    condition(pz_cond &c, mutex &m) : own(&c), of(m) {}
    condition(const condition &) = delete;
    condition &operator=(const condition &) = delete;

    /* May return without a notify. If it throws, the lock owns the mutex exactly if the thread does. */
    void wait(std::unique_lock<mutex> &lock)
    {
        is_notified(lock, "pz_cond_wait", [&] { return pz_cond_wait(own, of.own); });
    }
    template <class Predicate> void wait(std::unique_lock<mutex> &lock, Predicate is_so)
    {
        while (!is_so())
            wait(lock);
    }
    /* These return std::cv_status::timeout if the time came before a notify. The lock owns the mutex then, too. */
    template <class Rep, class Period>
    std::cv_status wait_for(std::unique_lock<mutex> &lock, const std::chrono::duration<Rep, Period> &time)
    {
        return wait_until(lock, std::chrono::steady_clock::now() + mutex::in_range(time));
    }
    template <class Duration>
    std::cv_status wait_until(std::unique_lock<mutex> &lock,
                              const std::chrono::time_point<std::chrono::steady_clock, Duration> &time)
    {
        return status_at(lock, CLOCK_MONOTONIC, mutex::in_range(time.time_since_epoch()));
    }
    template <class Duration>
    std::cv_status wait_until(std::unique_lock<mutex> &lock,
                              const std::chrono::time_point<std::chrono::system_clock, Duration> &time)
    {
        return status_at(lock, CLOCK_REALTIME, mutex::in_range(time.time_since_epoch()));
    }
    /* With a clock of the program's own. If that clock is slow, the wait returns early, and without a notify. */
    template <class Clock, class Duration>
    std::cv_status wait_until(std::unique_lock<mutex> &lock, const std::chrono::time_point<Clock, Duration> &time)
    {
        auto now = Clock::now();
        auto status = now < time ? wait_for(lock, time - now) : wait_for(lock, std::chrono::seconds(0));
        return Clock::now() < time ? std::cv_status::no_timeout : status;
    }
    /* These return what is_so() does at the end. */
    template <class Rep, class Period, class Predicate>
    bool wait_for(std::unique_lock<mutex> &lock, const std::chrono::duration<Rep, Period> &time, Predicate is_so)
    {
        return wait_until(lock, std::chrono::steady_clock::now() + mutex::in_range(time), std::move(is_so));
    }
    template <class Clock, class Duration, class Predicate>
    bool wait_until(std::unique_lock<mutex> &lock, const std::chrono::time_point<Clock, Duration> &time,
                    Predicate is_so)
    {
        while (!is_so())
            if (wait_until(lock, time) == std::cv_status::timeout)
                return is_so();
        return true;
    }
    /* The caller owns the mutex. */
    void notify_one() { check("pz_cond_signal", pz_cond_signal(own, of.own)); }
    void notify_all() { check("pz_cond_broadcast", pz_cond_broadcast(own, of.own)); }
    pz_cond *native_handle() const noexcept { return own; }

  private:
    /* Returns false if the time has come. */
    template <class Wait> bool is_notified(std::unique_lock<mutex> &lock, const char *call, Wait waits)
    {
        if (lock.mutex() != &of)
            throw error(call, EPERM);
        try {
            return of.is_locked(call, waits(), ETIMEDOUT);
        } catch (...) {
            if (lock.owns_lock() && !of.is_mine())
                lock.release();
            throw;
        }
    }
    std::cv_status status_at(std::unique_lock<mutex> &lock, clockid_t clock, std::chrono::nanoseconds time)
    {
        timespec until = mutex::timespec_of(time);
        bool in_time =
            is_notified(lock, "pz_cond_clockwait", [&] { return pz_cond_clockwait(own, of.own, clock, &until); });
        return in_time ? std::cv_status::no_timeout : std::cv_status::timeout;
    }

    pz_cond *own;
    mutex &of;
};

/* A reader-writer lock. A reader that finds that a writer died repairs as a writer, and then becomes a reader. */
class shared_mutex
{
  public:
    shared_mutex(pz_rwlock &l, std::function<void()> repairs) : own(&l), repair(std::move(repairs)) {}
    shared_mutex(const shared_mutex &) = delete;
    shared_mutex &operator=(const shared_mutex &) = delete;

    void lock()
    {
        is_locked("pz_rwlock_wrlock", NEVER, WRITES, [&] { return pz_rwlock_wrlock(own); });
    }
    void lock_shared()
    {
        is_locked("pz_rwlock_rdlock", NEVER, READS, [&] { return pz_rwlock_rdlock(own); });
    }
    /* These return false if other threads have the lock. */
    bool try_lock()
    {
        return is_locked("pz_rwlock_trywrlock", EBUSY, WRITES, [&] { return pz_rwlock_trywrlock(own); });
    }
    bool try_lock_shared()
    {
        return is_locked("pz_rwlock_tryrdlock", EBUSY, READS, [&] { return pz_rwlock_tryrdlock(own); });
    }
    /* These return false if the time has come, and other threads have the lock. */
    template <class Rep, class Period> bool try_lock_for(const std::chrono::duration<Rep, Period> &time)
    {
        return try_lock_until(std::chrono::steady_clock::now() + mutex::in_range(time));
    }
    template <class Rep, class Period> bool try_lock_shared_for(const std::chrono::duration<Rep, Period> &time)
    {
        return try_lock_shared_until(std::chrono::steady_clock::now() + mutex::in_range(time));
    }
    template <class Clock, class Duration> bool try_lock_until(const std::chrono::time_point<Clock, Duration> &time)
    {
        return is_locked_until(time, "pz_rwlock_clockwrlock", WRITES, pz_rwlock_clockwrlock);
    }
    template <class Clock, class Duration>
    bool try_lock_shared_until(const std::chrono::time_point<Clock, Duration> &time)
    {
        return is_locked_until(time, "pz_rwlock_clockrdlock", READS, pz_rwlock_clockrdlock);
    }
    void unlock() { check("pz_rwlock_unlock", pz_rwlock_unlock(own)); }
    void unlock_shared() { unlock(); }
    /* Makes an unusable lock free. The caller has rebuilt what the lock guards. */
    void reinit() { check("pz_rwlock_reinit", pz_rwlock_reinit(own)); }
    pz_rwlock *native_handle() const noexcept { return own; }

  private:
    enum purpose { READS, WRITES };
    static constexpr int NEVER = -1; /* no call returns this */
    using clocklock = int(pz_rwlock *, clockid_t, const timespec *);

    /* Returns false if the call returned `otherwise`. */
    template <class Call> bool is_locked(const char *name, int otherwise, purpose what, Call call)
    {
        for (;;) {
            int number = call();
            if (number == otherwise)
                return false;
            if (number != EOWNERDEAD) {
                check(name, number);
                return true;
            }
            recover();
            if (what == WRITES)
                return true;
            unlock();
        }
    }
    void recover()
    {
        try {
            repair();
        } catch (...) {
            pz_rwlock_unlock(own);
            throw;
        }
        check("pz_rwlock_consistent", pz_rwlock_consistent(own));
    }
    bool is_locked_by(clockid_t clock, std::chrono::nanoseconds time, const char *name, purpose what, clocklock *call)
    {
        timespec until = mutex::timespec_of(time);
        return is_locked(name, ETIMEDOUT, what, [&] { return call(own, clock, &until); });
    }
    template <class Clock, class Duration>
    bool is_locked_until(const std::chrono::time_point<Clock, Duration> &time, const char *name, purpose what,
                         clocklock *call)
    {
        if constexpr (std::is_same_v<Clock, std::chrono::steady_clock>)
            return is_locked_by(CLOCK_MONOTONIC, mutex::in_range(time.time_since_epoch()), name, what, call);
        if constexpr (std::is_same_v<Clock, std::chrono::system_clock>)
            return is_locked_by(CLOCK_REALTIME, mutex::in_range(time.time_since_epoch()), name, what, call);
        for (;;) { /* the program's own clock may run at another rate: asks it again after each attempt */
            auto left = mutex::in_range(time - Clock::now());
            if (is_locked_until(std::chrono::steady_clock::now() + left, name, what, call))
                return true;
            if (Clock::now() >= time)
                return false;
        }
    }

    pz_rwlock *own;
    std::function<void()> repair;
};

/* An open file of mutexes, condition variables, reader-writer locks and data. It is closed at the end of its life, after all handles of its
 * parts. */
class file
{
  public:
    explicit file(const char *path, pz_layout asked = {1, 0, 0, 0, 0, 0}, mode_t mode = 0600) : layout(asked)
    {
        check("pz_open", pz_open(path, mode, &asked, &opened));
    }
    file(file &&other) noexcept : opened(std::exchange(other.opened, nullptr)), layout(other.layout) {}
    file &operator=(file &&other) noexcept
    {
        std::swap(opened, other.opened);
        std::swap(layout, other.layout);
        return *this;
    }
    ~file()
    {
        if (opened)
            pz_close(opened);
    }

    pz_mutex &mutex_at(unsigned number) const { return part(pz_mutex_at(opened, number)); }
    pz_cond &cond_at(unsigned number) const { return part(pz_cond_at(opened, number)); }
    pz_rwlock &rwlock_at(unsigned number) const { return part(pz_rwlock_at(opened, number)); }
    void *data() const noexcept { return pz_data(opened); }
    pz_file *native_handle() const noexcept { return opened; }

    /* The program's own bytes as a T, in zeros in a new file. It has no pointers and no virtual functions, and any
     * bytes are a T, since a dead owner may leave any. */
    template <class T> T &as() const
    {
        static_assert(std::is_trivially_copyable_v<T> && std::is_standard_layout_v<T>, "processes share its bytes");
        static_assert(alignof(T) <= 64, "a file's data is at a multiple of 64");
        if (layout.data < sizeof(T))
            throw std::length_error("pazdrig::file::as: the file has less data than that");
        return *std::launder(static_cast<T *>(data()));
    }

  private:
    template <class T> static T &part(T *found)
    {
        return found ? *found : throw std::out_of_range("pazdrig::file: there is none with that number");
    }

    pz_file *opened = nullptr;
    pz_layout layout;
};

} // namespace pazdrig
#endif
