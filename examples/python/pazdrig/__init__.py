"""Robust mutexes, condition variables and reader-writer locks in memory that processes share: libpazdrig, through ctypes.

    import pazdrig

    with pazdrig.File("counter.pz", data=16) as file:
        count = file.data.cast("q")

        def repair():
            count[1] = count[0]

        with file.mutex(0, repair):
            count[0] += 1
            count[1] += 1

A mutex is created with a function that repairs what it guards. If an owner was killed, the next thread to lock the mutex
calls that function and declares the mutex consistent before its block begins, so nobody uses unrepaired data. If the data
can't be repaired, the function raises an exception: the mutex becomes unusable, and the exception goes on. An exception
inside the block unlocks the mutex.

A mutex can be in a file of the library, or anywhere in a shared memory map:

    memory = mmap.mmap(-1, 4096)
    mutex = pazdrig.Mutex(memory, repair, offset=64)

A reader-writer lock lets several threads read at a time. The one that repairs is alone, even if it came to read:

    lock = pazdrig.RwLock(memory, repair, lanes=8, offset=128)
    with lock.read():
        print(count[0])
    with lock.write():
        count[0] += 1

The environment variable PAZDRIG_LIBRARY names the library; without it, this is libpazdrig.so.0 in the system's
directories. A thread that waits lets other threads run. Python handles signals when it has the mutex, or timed out.
"""

import contextlib
import ctypes
import errno
import math
import os
import threading
import time
import weakref

__all__ = ["Condition", "Error", "File", "Mutex", "RwLock", "nothing_to_repair", "rwlock_size", "version"]

MUTEX_SIZE, CONDITION_SIZE = 64, 16


class _Timespec(ctypes.Structure):
    _fields_ = [("tv_sec", ctypes.c_long), ("tv_nsec", ctypes.c_long)]


class _Layout(ctypes.Structure):
    _fields_ = [
        ("mutexes", ctypes.c_uint),
        ("conds", ctypes.c_uint),
        ("data", ctypes.c_size_t),
        ("version", ctypes.c_uint32),
        ("rwlocks", ctypes.c_uint),
        ("lanes", ctypes.c_uint),
    ]


def _load():
    """Loads the library and declares its functions."""
    library = ctypes.CDLL(os.environ.get("PAZDRIG_LIBRARY", "libpazdrig.so.0"))
    p, number, time_at = ctypes.c_void_p, ctypes.c_uint, ctypes.POINTER(_Timespec)
    library.pz_open.argtypes = [ctypes.c_char_p, number, ctypes.POINTER(_Layout), ctypes.POINTER(p)]
    library.pz_close.argtypes = library.pz_data.argtypes = [p]
    library.pz_mutex_at.argtypes = library.pz_cond_at.argtypes = library.pz_rwlock_at.argtypes = [p, number]
    library.pz_rwlock_init.argtypes = [p, number]
    library.pz_strerror.argtypes = [ctypes.c_char_p, ctypes.c_int]
    for call in "lock", "trylock", "unlock", "consistent", "reinit", "owner":
        getattr(library, f"pz_mutex_{call}").argtypes = [p]
    for call in "wait", "signal", "broadcast":
        getattr(library, f"pz_cond_{call}").argtypes = [p, p]
    for call in "rdlock", "tryrdlock", "wrlock", "trywrlock", "unlock", "consistent", "reinit":
        getattr(library, f"pz_rwlock_{call}").argtypes = [p]
    library.pz_rwlock_clockrdlock.argtypes = library.pz_rwlock_clockwrlock.argtypes = [p, ctypes.c_int, time_at]
    library.pz_mutex_clocklock.argtypes = [p, ctypes.c_int, time_at]
    library.pz_cond_clockwait.argtypes = [p, p, ctypes.c_int, time_at]
    library.pz_close.restype = None
    library.pz_data.restype = library.pz_mutex_at.restype = library.pz_cond_at.restype = p
    library.pz_rwlock_at.restype = p
    library.pz_strerror.restype = library.pz_version.restype = ctypes.c_char_p
    return library


_library = _load()


class Error(OSError):
    """A return value of the library: a number of the module errno, and what it means."""


def _check(call, error):
    if error:
        raise Error(error, f"{call}: {_library.pz_strerror(call.encode(), error).decode()}")


def _until(timeout):
    """The clock that nobody sets, and the time by it that is so many seconds from now."""
    if not timeout >= 0:
        raise ValueError("a timeout isn't negative")
    if timeout > threading.TIMEOUT_MAX:
        raise OverflowError("the timeout is too long")
    now = time.clock_gettime_ns(time.CLOCK_MONOTONIC)
    until = _Timespec(*divmod(now + math.ceil(timeout * 1e9), 1_000_000_000))
    return time.CLOCK_MONOTONIC, ctypes.byref(until)


def version():
    """The version of the library."""
    return _library.pz_version().decode()


def nothing_to_repair():
    """For data that a single store changes."""


def rwlock_size(lanes):
    """How many bytes a reader-writer lock with that many lanes has."""
    return MUTEX_SIZE * (2 + lanes)


class _Place:
    """The address of a part of shared memory, and what keeps that memory mapped."""

    def __init__(self, memory, size, offset=0, alignment=None):
        self._keeps = (ctypes.c_ubyte * size).from_buffer(memory, offset)
        self._at = ctypes.addressof(self._keeps)
        if self._at % (alignment or size):
            raise ValueError(f"it has to be at a multiple of {alignment or size}")

    def _set(self, at, keeps):
        if at is None:
            raise IndexError("the file has none with that number")
        self._at, self._keeps = at, keeps
        return self


class File:
    """A file of mutexes, condition variables, reader-writer locks and data, which is created if it doesn't exist.

    All processes that open it ask for the same numbers. `version` is a number of the program's own, for its data."""

    def __init__(self, path, mutexes=1, conditions=0, data=0, version=0, mode=0o600, rwlocks=0, lanes=8):
        layout = _Layout(mutexes, conditions, data, version, rwlocks, lanes)
        opened = ctypes.c_void_p()
        _check("pz_open", _library.pz_open(os.fsencode(path), mode, ctypes.byref(layout), ctypes.byref(opened)))
        self._opened = opened
        self._bytes = (ctypes.c_ubyte * data).from_address(_library.pz_data(opened))
        # the file stays mapped until the last view of its data and its last mutex have gone
        weakref.finalize(self._bytes, _library.pz_close, opened).atexit = False

    def _file(self):
        if self._opened is None:
            raise ValueError("the file is closed")
        return self._opened

    @property
    def data(self):
        """The program's own bytes, as a memoryview: zeros in a new file."""
        return memoryview(self._bytes).cast("B") if self._file() else None

    def mutex(self, number, repair):
        """One of the file's mutexes. `repair` is called if a dead owner left what it guards; it can be
        nothing_to_repair."""
        mutex = Mutex.__new__(Mutex)._set(_library.pz_mutex_at(self._file(), number), self._bytes)
        mutex.repair = repair
        return mutex

    def condition(self, number, mutex):
        """One of the file's condition variables. Threads wait there with that mutex."""
        condition = Condition.__new__(Condition)._set(_library.pz_cond_at(self._file(), number), self._bytes)
        condition.mutex = mutex
        return condition

    def rwlock(self, number, repair):
        """One of the file's reader-writer locks."""
        lock = RwLock.__new__(RwLock)._set(_library.pz_rwlock_at(self._file(), number), self._bytes)
        lock.repair = repair
        return lock

    def close(self):
        """Closes the file once the last view of its data, mutex, condition variable and lock has gone."""
        self._opened = self._bytes = None

    def __enter__(self):
        return self

    def __exit__(self, *_):
        self.close()


class Mutex(_Place):
    """A mutex for a with statement: 64 bytes at a multiple of 64 in writable shared memory, zeros at first."""

    def __init__(self, memory, repair, offset=0):
        super().__init__(memory, MUTEX_SIZE, offset)
        self.repair = repair

    def _locked(self, call, error):
        """Repairs what a dead owner left, if the call says so."""
        if error != errno.EOWNERDEAD:
            return _check(call, error)
        try:
            self.repair()
        except BaseException:
            _library.pz_mutex_unlock(self._at)
            raise
        _check("pz_mutex_consistent", _library.pz_mutex_consistent(self._at))

    def _lock(self, blocking, timeout):
        """The call of an acquire, its return value, and the one that says that another thread owns the mutex."""
        if not blocking:
            return "pz_mutex_trylock", _library.pz_mutex_trylock(self._at), errno.EBUSY
        if timeout == -1:
            return "pz_mutex_lock", _library.pz_mutex_lock(self._at), None
        error = _library.pz_mutex_clocklock(self._at, *_until(timeout))
        return "pz_mutex_clocklock", error, errno.ETIMEDOUT

    def acquire(self, blocking=True, timeout=-1):
        """Returns whether the thread owns the mutex: if it doesn't wait, or only for `timeout` seconds, another thread may
        own it. No timeout applies to a repair."""
        if not blocking and timeout != -1:
            raise ValueError("an acquire that doesn't wait has no timeout")
        call, error, otherwise = self._lock(blocking, timeout)
        if error == otherwise:
            return False
        self._locked(call, error)
        return True

    def release(self):
        _check("pz_mutex_unlock", _library.pz_mutex_unlock(self._at))

    def reinit(self):
        """Makes an unusable mutex free. The caller has rebuilt what it guards."""
        _check("pz_mutex_reinit", _library.pz_mutex_reinit(self._at))

    @property
    def owner(self):
        """The TID of the thread that owns it (threading.get_native_id), or 0."""
        return _library.pz_mutex_owner(self._at)

    @property
    def is_mine(self):
        """Whether the calling thread owns it."""
        return self.owner == threading.get_native_id()

    def __enter__(self):
        self.acquire()
        return self

    def __exit__(self, *_):
        if self.is_mine:  # a wait that raised an exception may have lost it
            self.release()


class Condition(_Place):
    """A condition variable: 16 bytes at a multiple of 16 in writable shared memory, zeros at first. The mutex's owner
    waits and notifies."""

    def __init__(self, memory, mutex, offset=0):
        super().__init__(memory, CONDITION_SIZE, offset)
        self.mutex = mutex

    def wait(self, timeout=None):
        """Returns False if `timeout` seconds passed without a notify. It may also return without a notify.

        The thread owns the mutex afterwards, for which it waits as long as it takes."""
        if timeout is None:
            self.mutex._locked("pz_cond_wait", _library.pz_cond_wait(self._at, self.mutex._at))
            return True
        error = _library.pz_cond_clockwait(self._at, self.mutex._at, *_until(max(timeout, 0)))
        if error == errno.ETIMEDOUT:
            return False
        self.mutex._locked("pz_cond_clockwait", error)
        return True

    def wait_for(self, is_so, timeout=None):
        """Waits until is_so() is true, or `timeout` seconds have passed. Returns what is_so() does at the end."""
        until = None if timeout is None else time.monotonic() + timeout
        so = is_so()
        while not so:
            is_notified = self.wait(None if until is None else until - time.monotonic())
            so = is_so()
            if not is_notified:
                break
        return so

    def notify(self):
        _check("pz_cond_signal", _library.pz_cond_signal(self._at, self.mutex._at))

    def notify_all(self):
        _check("pz_cond_broadcast", _library.pz_cond_broadcast(self._at, self.mutex._at))


class RwLock(_Place):
    """A reader-writer lock: rwlock_size(lanes) bytes at a multiple of 64 in writable shared memory, zeros at first. At most
    `lanes` threads read at a time."""

    def __init__(self, memory, repair, lanes=8, offset=0):
        super().__init__(memory, rwlock_size(lanes), offset, MUTEX_SIZE)
        self.repair = repair
        _check("pz_rwlock_init", _library.pz_rwlock_init(self._at, lanes))

    def _acquire(self, kind, blocking, timeout):
        if not blocking:
            if timeout != -1:
                raise ValueError("an acquire that doesn't wait has no timeout")
            return f"pz_rwlock_try{kind}", (), errno.EBUSY
        if timeout == -1:
            return f"pz_rwlock_{kind}", (), None
        return f"pz_rwlock_clock{kind}", _until(timeout), errno.ETIMEDOUT

    def _recover(self):
        try:
            self.repair()
        except BaseException:
            _library.pz_rwlock_unlock(self._at)
            raise
        _check("pz_rwlock_consistent", _library.pz_rwlock_consistent(self._at))

    def acquire_read(self, blocking=True, timeout=-1):
        """Returns whether the thread has the lock: if it doesn't wait, or only for `timeout` seconds, other threads may have
        it. No timeout applies to a repair."""
        call, more, otherwise = self._acquire("rdlock", blocking, timeout)
        while (error := getattr(_library, call)(self._at, *more)) == errno.EOWNERDEAD:
            self._recover()
            self.release()  # others may read, too
        if error == otherwise:
            return False
        _check(call, error)
        return True

    def acquire_write(self, blocking=True, timeout=-1):
        """As acquire_read, for a thread that changes what the lock guards."""
        call, more, otherwise = self._acquire("wrlock", blocking, timeout)
        error = getattr(_library, call)(self._at, *more)
        if error == otherwise:
            return False
        if error == errno.EOWNERDEAD:
            self._recover()
        else:
            _check(call, error)
        return True

    def release(self):
        _check("pz_rwlock_unlock", _library.pz_rwlock_unlock(self._at))

    def reinit(self):
        """Makes an unusable lock free. The caller has rebuilt what it guards."""
        _check("pz_rwlock_reinit", _library.pz_rwlock_reinit(self._at))

    @contextlib.contextmanager
    def read(self):
        self.acquire_read()
        try:
            yield self
        finally:
            self.release()

    @contextlib.contextmanager
    def write(self):
        self.acquire_write()
        try:
            yield self
        finally:
            self.release()
