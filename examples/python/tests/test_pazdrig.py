"""Owners are killed, and the next thread gets repaired data. Uses the library that PAZDRIG_LIBRARY names."""
import errno
import mmap
import os
import signal
import tempfile
import threading
import time
import unittest

import pazdrig


def state_of(stat):
    """A thread's state, as the kernel says."""
    with open(stat, encoding="ascii") as it:
        return it.read().rsplit(")", 1)[1].split()[0]


def until_asleep(thread, process="self"):
    quiet = 0
    while quiet < 20:
        quiet = quiet + 1 if state_of(f"/proc/{process}/task/{thread}/stat") == "S" else 0
        time.sleep(0.0005)


class Beyond(Exception):
    """The data can't be repaired."""


class Owners(unittest.TestCase):
    def setUp(self):
        self.path = os.path.join(self.enterContext(tempfile.TemporaryDirectory()), "file")
        self.file = self.open()
        self.count = self.file.data.cast("q")
        self.repairs, self.children = 0, set()
        self.addCleanup(self.kill_children)
        self.mutex = self.file.mutex(0, self.repair)
        self.came = self.file.condition(0, self.mutex)
        signal.alarm(300)

    def enterContext(self, context):  # unittest has this since Python 3.11
        self.addCleanup(context.__exit__, None, None, None)
        return context.__enter__()

    def open(self, **numbers):
        return self.enterContext(pazdrig.File(self.path, **{"mutexes": 2, "conditions": 1, "data": 32, **numbers}))

    def repair(self):
        self.count[1] = self.count[0]
        self.repairs += 1

    def child(self, does):
        """Starts a child that ends on its own or is killed. Returns its PID, and a call that waits until it tells."""
        reader, writer = os.pipe()
        pid = os.fork()
        if pid == 0:
            signal.alarm(300)  # it ends even if its parent can't kill it
            status = 1
            try:
                does(lambda: os.write(writer, b"!"))
                status = 0
            finally:
                os._exit(status)
        os.close(writer)
        self.addCleanup(os.close, reader)
        self.children.add(pid)
        return pid, lambda: os.read(reader, 1)

    def ended(self, pid):
        self.children.remove(pid)
        return os.waitpid(pid, 0)[1]

    def kill(self, pid):
        os.kill(pid, signal.SIGKILL)
        self.ended(pid)

    def kill_children(self):
        """Kills those that a test left when it failed."""
        for pid in list(self.children):
            self.kill(pid)

    def ends_well(self, pid):
        self.assertEqual(self.ended(pid), 0)

    def held(self):
        """Starts a child that owns the mutex, in the middle of a change."""

        def hold(tell):
            with self.mutex:
                self.count[0] += 1
                tell()
                signal.pause()

        pid, told = self.child(hold)
        told()
        return pid

    def kill_in_a_change(self):
        self.kill(self.held())

    def assertFails(self, number, call):
        with self.assertRaises(pazdrig.Error) as it:
            call()
        self.assertEqual(it.exception.errno, number)
        return str(it.exception)

    def test_killed_owners(self):
        self.kill_in_a_change()
        with self.mutex:
            self.assertEqual((self.repairs, *self.count[:2]), (1, 1, 1))
        self.kill_in_a_change()
        self.assertTrue(self.mutex.acquire(blocking=False))
        self.assertEqual((self.repairs, *self.count[:2]), (2, 2, 2))
        self.mutex.release()
        with self.mutex:
            self.assertEqual(self.repairs, 2)

    def test_living_owners(self):
        pid = self.held()
        self.assertFalse(self.mutex.acquire(blocking=False))
        self.assertEqual(self.mutex.owner, pid)
        self.assertFalse(self.mutex.is_mine)
        self.kill(pid)
        self.assertEqual(self.mutex.owner, 0)
        with self.mutex:
            self.assertEqual(self.mutex.owner, threading.get_native_id())
            self.assertIn("owns it already", self.assertFails(errno.EDEADLK, self.mutex.acquire))
        self.assertFails(errno.EPERM, self.mutex.release)

    def test_timeouts(self):
        owner = self.held()
        for timeout in 0, 0.02:
            since = time.monotonic()
            self.assertFalse(self.mutex.acquire(timeout=timeout))
            self.assertGreaterEqual(time.monotonic() - since, timeout)
        for timeout in -2, -0.5, float("nan"):
            self.assertRaises(ValueError, self.mutex.acquire, timeout=timeout)
        self.assertRaises(ValueError, self.mutex.acquire, False, 1)
        self.assertRaises(OverflowError, self.mutex.acquire, timeout=float("inf"))
        self.kill(owner)

    def test_a_death_before_a_timeout(self):
        owner = self.held()

        def wait(_):
            self.assertTrue(self.mutex.acquire(timeout=threading.TIMEOUT_MAX))
            self.assertEqual((self.repairs, *self.count[:2]), (1, 1, 1))
            self.assertFails(errno.EDEADLK, lambda: self.mutex.acquire(timeout=1))
            self.mutex.release()

        pid, _ = self.child(wait)
        until_asleep(pid, pid)
        self.kill(owner)
        self.ends_well(pid)
        self.assertTrue(self.mutex.acquire(timeout=0))
        self.mutex.release()

    def test_failed_repairs(self):
        def fail():
            raise Beyond

        mutex = self.file.mutex(0, fail)
        self.kill_in_a_change()
        with self.assertRaises(Beyond):
            mutex.acquire()
        self.assertFalse(mutex.is_mine)
        self.assertFails(errno.ENOTRECOVERABLE, mutex.acquire)
        self.assertFails(errno.ENOTRECOVERABLE, lambda: mutex.acquire(blocking=False))
        mutex.reinit()
        with mutex:
            pass

    def test_notified(self):
        def wait(_):
            with self.mutex:
                self.came.wait_for(lambda: self.count[2] == 1)
                self.count[2] = 2
                self.came.notify()

        pid, _ = self.child(wait)
        until_asleep(pid, pid)
        self.assertFails(errno.EPERM, self.came.notify_all)
        with self.mutex:
            self.count[2] = 1
            self.came.notify_all()
            self.came.wait_for(lambda: self.count[2] == 2)
        self.ends_well(pid)

    def test_timeouts_of_waits(self):
        with self.mutex:
            for timeout in -1, 0, 0.02:
                since = time.monotonic()
                while self.came.wait(timeout):  # a wait may return without a notify
                    pass
                self.assertGreaterEqual(time.monotonic() - since, timeout)
                self.assertTrue(self.mutex.is_mine)
                self.assertFalse(self.came.wait_for(lambda: False, timeout))
            self.assertEqual(self.came.wait_for(lambda: 7, 0), 7)
            looks = iter((0, 8))
            self.assertEqual(self.came.wait_for(lambda: next(looks), -1), 8)
            self.assertRaises(ValueError, self.came.wait, float("nan"))
            self.assertRaises(OverflowError, self.came.wait, float("inf"))
        self.assertFails(errno.EPERM, lambda: self.came.wait(0))

    def test_notified_before_a_timeout(self):
        def wait(_):
            with self.mutex:
                self.assertTrue(self.came.wait_for(lambda: self.count[2] == 1, threading.TIMEOUT_MAX / 2))

        pid, _ = self.child(wait)
        until_asleep(pid, pid)
        with self.mutex:
            self.count[2] = 1
            self.came.notify()
        self.ends_well(pid)

    def test_deaths_in_waits(self):
        for is_lost in False, True:
            for timeout in None, threading.TIMEOUT_MAX / 2:
                with self.subTest(is_lost=is_lost, timeout=timeout):
                    self.waits_during_a_death(is_lost, timeout)

    def waits_during_a_death(self, is_lost, timeout):
        """A thread broadcasts in its repair, and then dies, or gives up. The waiter repairs, or loses the mutex."""

        def wait(_):
            with self.mutex:
                if is_lost:
                    self.assertFails(errno.ENOTRECOVERABLE, lambda: self.came.wait(timeout))
                    self.assertFalse(self.mutex.is_mine)
                else:
                    self.came.wait_for(lambda: self.repairs, timeout)
                    self.assertEqual(*self.count[:2])

        def end(tell):
            self.came.notify_all()
            tell()
            if is_lost:
                raise Beyond
            signal.pause()

        def lock(tell):
            self.file.mutex(0, lambda: end(tell)).acquire()

        waiter, _ = self.child(wait)
        until_asleep(waiter, waiter)
        self.kill_in_a_change()
        last, told = self.child(lock)
        told()
        if is_lost:
            self.ended(last)
        else:
            self.kill(last)
        self.ends_well(waiter)
        if is_lost:
            self.mutex.reinit()

    def test_other_threads_run_while_one_waits(self):
        thread = threading.Thread(target=self.mutex.__enter__)
        with self.mutex:
            thread.start()
            until_asleep(thread.native_id)
        thread.join()
        with self.mutex:
            self.assertEqual(self.repairs, 1)  # the thread ended while it owned the mutex

    def test_a_view_outlives_its_file(self):
        for n in range(40):
            with self.open() as file:
                view = file.data[8:16].cast("q")
                view[0] = n
                mutex = file.mutex(1, pazdrig.nothing_to_repair)
            self.assertRaises(ValueError, lambda: file.data)
            with mutex:
                self.assertEqual(view[0], n)
        self.assertEqual(self.count[1], 39)

    def test_shared_memory(self):
        memory = mmap.mmap(-1, 4096)
        mutex = pazdrig.Mutex(memory, pazdrig.nothing_to_repair, offset=64)
        came = pazdrig.Condition(memory, mutex, offset=128)

        def wait(tell):
            with mutex:
                tell()
                came.wait_for(lambda: memory[200] == 7)

        pid, told = self.child(wait)
        told()
        with mutex:
            memory[200] = 7
            came.notify()
        self.ends_well(pid)
        self.assertRaises(ValueError, pazdrig.Mutex, memory, pazdrig.nothing_to_repair, 8)
        self.assertRaises(ValueError, pazdrig.Mutex, memory, pazdrig.nothing_to_repair, 4096)
        self.assertRaises(ValueError, pazdrig.Condition, memory, mutex, 8)
        self.assertRaises(BufferError, memory.close)

    def rwlock_held(self, acquire):
        """Starts a child that has the lock, in the middle of a change."""

        def hold(tell):
            acquire()
            self.count[0] += 1
            tell()
            signal.pause()

        pid, told = self.child(hold)
        told()
        return pid

    def test_readers_and_writers(self):
        lock = pazdrig.RwLock(mmap.mmap(-1, 4096), self.repair, lanes=2, offset=192)
        reader = self.rwlock_held(lock.acquire_read)
        with lock.read():
            self.assertFails(errno.EDEADLK, lock.acquire_read)
        self.assertFalse(lock.acquire_write(blocking=False))
        self.assertFalse(lock.acquire_write(timeout=0.001))
        self.kill(reader)
        with lock.write():
            self.assertEqual(self.repairs, 0)
        writer = self.rwlock_held(lock.acquire_write)
        self.assertFalse(lock.acquire_read(blocking=False))
        self.assertFalse(lock.acquire_read(timeout=0.001))
        self.kill(writer)
        with lock.read():
            self.assertEqual((self.repairs, self.count[1]), (1, self.count[0]))
            other = self.rwlock_held(lock.acquire_read)  # it is a reader after the repair
        self.kill(other)
        self.kill(self.rwlock_held(lock.acquire_write))
        lock.repair = lambda: 1 // 0
        self.assertRaises(ZeroDivisionError, lock.acquire_write)
        self.assertFails(errno.ENOTRECOVERABLE, lock.acquire_read)
        lock.reinit()
        with lock.write():
            pass
        self.assertFails(errno.EPERM, lock.release)
        self.assertRaises(ValueError, pazdrig.RwLock, mmap.mmap(-1, 4096), self.repair, 2, 8)
        self.assertEqual(pazdrig.rwlock_size(2), 256)

    def test_a_rwlock_in_a_file(self):
        with pazdrig.File(self.path + "2", rwlocks=1, lanes=3) as file:
            with file.rwlock(0, self.repair).write():
                pass
            self.assertRaises(IndexError, lambda: file.rwlock(1, self.repair))

    def test_numbers(self):
        self.assertIn("other numbers", self.assertFails(errno.EEXIST, lambda: self.open(mutexes=3)))
        self.assertFails(errno.ESTALE, lambda: self.open(version=1))
        self.assertRaises(IndexError, lambda: self.file.mutex(2, self.repair))
        self.assertRaises(IndexError, lambda: self.file.condition(1, self.mutex))
        self.assertFails(errno.ENOENT, lambda: pazdrig.File(os.path.dirname(self.path) + "/none/file"))
        self.assertEqual(pazdrig.version().count("."), 1)


if __name__ == "__main__":
    unittest.main()
