//! A value that processes share, which many may read at a time.
use crate::ffi::{self, PzRwlock, Timespec};
use crate::{checked, Guarded, Plain, EOWNERDEAD};
use std::ffi::CString;
use std::io;
use std::marker::PhantomData;
use std::ops::{Deref, DerefMut};
use std::os::unix::ffi::OsStrExt;
use std::path::Path;
use std::ptr::{self, NonNull};
use std::sync::atomic::{AtomicU64, Ordering};
use std::thread;
use std::time::Duration;

/// A value in a file, with a reader-writer lock.
pub struct SharedRw<T: Plain> {
    lock: NonNull<PzRwlock>,
    guarded: NonNull<Guarded<T>>,
    file: NonNull<ffi::PzFile>,
}

// SAFETY: any thread may lock, and nobody has a guard while another one has a WriteGuard.
unsafe impl<T: Plain> Send for SharedRw<T> {}
// SAFETY: as for Send, and a value is Send and has no cells.
unsafe impl<T: Plain> Sync for SharedRw<T> {}

/// What a lock returns.
pub enum Held<'a, T: Plain, G> {
    /// No writer left the value in the middle of a change.
    Whole(G),
    /// A writer died, or panicked: the value is as it left it. Nobody else can read it until it is repaired.
    WriterDied(Torn<'a, T>),
}

/// The value, while this thread reads it. Others may read it, too.
pub struct ReadGuard<'a, T: Plain> {
    shared: &'a SharedRw<T>,
    of_this_thread: PhantomData<*mut T>,
}

/// The value, while this thread alone has it. A panic leaves it as a death would.
pub struct WriteGuard<'a, T: Plain> {
    shared: &'a SharedRw<T>,
    was_panicking: bool,
    of_this_thread: PhantomData<*mut T>,
}

/// A value that has to be repaired. If it is dropped after a death, nobody can lock it any more (ENOTRECOVERABLE); after a
/// panic, it stays to be repaired.
#[must_use = "an unrepaired value may be lost"]
pub struct Torn<'a, T: Plain> {
    guard: WriteGuard<'a, T>,
    has_died: bool,
}

/// How a call waits.
#[derive(Clone, Copy)]
enum Waiting {
    Never,
    Until(Timespec),
    ForEver,
}

impl Waiting {
    fn at_most(time: Duration) -> io::Result<Self> {
        Ok(Waiting::Until(
            Timespec::now(ffi::CLOCK_MONOTONIC)?.later(time),
        ))
    }
}

impl<T: Plain> SharedRw<T> {
    const FITS: () = assert!(align_of::<T>() <= crate::ALIGNMENT);

    /// Opens the file, or creates it: then the value's bytes are zeros. At most `lanes` threads, of 1 to 256, read at a time.
    pub fn open(path: impl AsRef<Path>, lanes: u32) -> io::Result<Self> {
        let () = Self::FITS;
        let path = CString::new(path.as_ref().as_os_str().as_bytes())?;
        let layout = ffi::PzLayout {
            mutexes: 0,
            conds: 0,
            data: size_of::<Guarded<T>>(),
            version: 0,
            rwlocks: 1,
            lanes,
        };
        let mut file = ptr::null_mut();
        // SAFETY: the path ends with a zero, and `layout` and `file` are there as long as the call lasts.
        checked(unsafe { ffi::pz_open(path.as_ptr(), 0o600, &layout, &mut file) })?;
        // SAFETY: the file is open, and has one lock.
        let (lock, data) = unsafe { (ffi::pz_rwlock_at(file, 0), ffi::pz_data(file)) };
        Ok(SharedRw {
            lock: NonNull::new(lock).ok_or(io::ErrorKind::Other)?,
            guarded: NonNull::new(data.cast()).ok_or(io::ErrorKind::Other)?,
            file: NonNull::new(file).ok_or(io::ErrorKind::Other)?,
        })
    }

    /// Waits until no writer has the value. EDEADLK: this thread has it already; ENOTRECOVERABLE: nobody repaired it.
    pub fn read(&self) -> io::Result<Held<'_, T, ReadGuard<'_, T>>> {
        self.to_read(Waiting::ForEver)
    }

    /// Doesn't wait. EBUSY: a writer has the value or waits for it, or all lanes are taken.
    pub fn try_read(&self) -> io::Result<Held<'_, T, ReadGuard<'_, T>>> {
        self.to_read(Waiting::Never)
    }

    /// Waits at most that long (ETIMEDOUT, which is [`io::ErrorKind::TimedOut`]).
    pub fn try_read_for(&self, time: Duration) -> io::Result<Held<'_, T, ReadGuard<'_, T>>> {
        self.to_read(Waiting::at_most(time)?)
    }

    /// Waits until nobody else has the value.
    pub fn write(&self) -> io::Result<Held<'_, T, WriteGuard<'_, T>>> {
        self.to_write(Waiting::ForEver)
    }

    /// Doesn't wait. EBUSY: a thread has the value.
    pub fn try_write(&self) -> io::Result<Held<'_, T, WriteGuard<'_, T>>> {
        self.to_write(Waiting::Never)
    }

    /// Waits at most that long (ETIMEDOUT).
    pub fn try_write_for(&self, time: Duration) -> io::Result<Held<'_, T, WriteGuard<'_, T>>> {
        self.to_write(Waiting::at_most(time)?)
    }

    /// A reader that finds the trace of a panic goes out, and comes in as a writer. If another thread has repaired the value
    /// since, it tries to read again.
    fn to_read(&self, waiting: Waiting) -> io::Result<Held<'_, T, ReadGuard<'_, T>>> {
        loop {
            match self.locked_to_read(waiting) {
                EOWNERDEAD => return Ok(Held::WriterDied(self.torn(true))),
                error => checked(error)?,
            }
            let reads = ReadGuard {
                shared: self,
                of_this_thread: PhantomData,
            };
            if self.has_panicked().load(Ordering::Relaxed) == 0 {
                return Ok(Held::Whole(reads));
            }
            drop(reads);
            if let Held::WriterDied(torn) = self.to_write(waiting)? {
                return Ok(Held::WriterDied(torn));
            }
        }
    }

    fn to_write(&self, waiting: Waiting) -> io::Result<Held<'_, T, WriteGuard<'_, T>>> {
        match self.locked_to_write(waiting) {
            EOWNERDEAD => return Ok(Held::WriterDied(self.torn(true))),
            error => checked(error)?,
        }
        if self.has_panicked().load(Ordering::Relaxed) != 0 {
            return Ok(Held::WriterDied(self.torn(false)));
        }
        Ok(Held::Whole(self.written()))
    }

    fn locked_to_read(&self, waiting: Waiting) -> i32 {
        let lock = self.lock.as_ptr();
        // SAFETY: the lock is there as long as `self`, and a deadline as long as the call lasts.
        unsafe {
            match waiting {
                Waiting::Never => ffi::pz_rwlock_tryrdlock(lock),
                Waiting::Until(until) => {
                    ffi::pz_rwlock_clockrdlock(lock, ffi::CLOCK_MONOTONIC, &until)
                }
                Waiting::ForEver => ffi::pz_rwlock_rdlock(lock),
            }
        }
    }

    fn locked_to_write(&self, waiting: Waiting) -> i32 {
        let lock = self.lock.as_ptr();
        // SAFETY: as for a reader.
        unsafe {
            match waiting {
                Waiting::Never => ffi::pz_rwlock_trywrlock(lock),
                Waiting::Until(until) => {
                    ffi::pz_rwlock_clockwrlock(lock, ffi::CLOCK_MONOTONIC, &until)
                }
                Waiting::ForEver => ffi::pz_rwlock_wrlock(lock),
            }
        }
    }

    fn written(&self) -> WriteGuard<'_, T> {
        WriteGuard {
            shared: self,
            was_panicking: thread::panicking(),
            of_this_thread: PhantomData,
        }
    }

    fn torn(&self, has_died: bool) -> Torn<'_, T> {
        Torn {
            guard: self.written(),
            has_died,
        }
    }

    fn unlock(&self) {
        // SAFETY: the lock is there as long as `self`, and a guard's thread has it.
        unsafe { ffi::pz_rwlock_unlock(self.lock.as_ptr()) };
    }

    fn has_panicked(&self) -> &AtomicU64 {
        // SAFETY: it is there as long as `self`, and any bytes are an AtomicU64.
        unsafe { &(*self.guarded.as_ptr()).has_panicked }
    }

    fn value(&self) -> *mut T {
        // SAFETY: it is there as long as `self`.
        unsafe { (*self.guarded.as_ptr()).value.get() }
    }
}

impl<T: Plain> Drop for SharedRw<T> {
    fn drop(&mut self) {
        // SAFETY: no guard is left, and nobody calls with the file any more.
        unsafe { ffi::pz_close(self.file.as_ptr()) }
    }
}

impl<'a, T: Plain> Torn<'a, T> {
    /// Repairs the value and declares it consistent. If the repair panics, the next one to lock it has to repair it.
    pub fn repair(mut self, repair: impl FnOnce(&mut T)) -> io::Result<WriteGuard<'a, T>> {
        if self.has_died {
            // Otherwise a panic of the repair would make the lock unusable.
            self.guard.shared.has_panicked().store(1, Ordering::Release);
            // SAFETY: the lock is there as long as the guard's `SharedRw`.
            checked(unsafe { ffi::pz_rwlock_consistent(self.guard.shared.lock.as_ptr()) })?;
        }
        repair(&mut self.guard);
        self.guard.shared.has_panicked().store(0, Ordering::Release);
        Ok(self.guard)
    }
}

impl<T: Plain> Deref for ReadGuard<'_, T> {
    type Target = T;

    fn deref(&self) -> &T {
        // SAFETY: any bytes are a T, and nobody writes while this thread reads.
        unsafe { &*self.shared.value() }
    }
}

impl<T: Plain> Drop for ReadGuard<'_, T> {
    fn drop(&mut self) {
        self.shared.unlock();
    }
}

impl<T: Plain> Deref for WriteGuard<'_, T> {
    type Target = T;

    fn deref(&self) -> &T {
        // SAFETY: any bytes are a T, and the thread with the guard is alone.
        unsafe { &*self.shared.value() }
    }
}

impl<T: Plain> DerefMut for WriteGuard<'_, T> {
    fn deref_mut(&mut self) -> &mut T {
        // SAFETY: as for Deref, and nobody else borrows the guard.
        unsafe { &mut *self.shared.value() }
    }
}

impl<T: Plain> Drop for WriteGuard<'_, T> {
    /// A panic is noted next to the value.
    fn drop(&mut self) {
        if thread::panicking() && !self.was_panicking {
            self.shared.has_panicked().store(1, Ordering::Release);
        }
        self.shared.unlock();
    }
}
