//! A value that processes share, guarded by a mutex whose owners may die.
//!
//! A lock returns the value as [`Locked::Whole`], or as [`Locked::OwnerDied`] if an owner died and left it in the middle of
//! a change. Nobody can use the latter before it is repaired, since only [`Broken::repair`] makes a guard of it.
//!
//! ```no_run
//! use pazdrig::{store, Locked, Plain, Shared};
//!
//! #[derive(Clone, Copy)]
//! struct Pair {
//!     first: u64,
//!     second: u64,
//! }
//! // SAFETY: any bytes are a Pair, and it has no pointers.
//! unsafe impl Plain for Pair {}
//!
//! let pair = Shared::<Pair>::open("/dev/shm/pair")?;
//! let mut both = match pair.lock()? {
//!     Locked::Whole(both) => both,
//!     Locked::OwnerDied(broken) => broken.repair(|both| both.second = both.first)?,
//! };
//! let next = both.first + 1;
//! store(&mut both.first, next);
//! store(&mut both.second, next);
//! # Ok::<(), std::io::Error>(())
//! ```
//!
//! A value that is read more often than written goes into a [`SharedRw`], whose readers don't wait for each other.
//!
//! A program with shared memory of its own puts a [`Robust`] there, and uses it through [`Shared::in_memory`].
//!
//! A broken value can't be read, and a guard can't be sent to another thread:
//!
//! ```compile_fail
//! fn read(broken: pazdrig::Broken<'_, u64>) -> u64 {
//!     *broken
//! }
//! ```
//!
//! ```compile_fail
//! fn is_send<T: Send>() {}
//! is_send::<pazdrig::Guard<'static, u64>>();
//! ```
use std::cell::UnsafeCell;
use std::ffi::CString;
use std::io;
use std::marker::PhantomData;
use std::ops::{Deref, DerefMut};
use std::os::unix::ffi::OsStrExt;
use std::path::Path;
use std::ptr::{self, NonNull};
use std::sync::atomic::{AtomicU64, Ordering};
use std::thread;
use std::time::{Duration, SystemTime};

mod ffi;
mod rwlock;
pub use rwlock::{Held, ReadGuard, SharedRw, Torn, WriteGuard};

use ffi::{PzMutex, Timespec};

const EOWNERDEAD: i32 = 130;
/// A file's data is at a multiple of this.
const ALIGNMENT: usize = 64;

/// Values that any bytes are: new memory has zeros, and a dead owner leaves any part of what it wrote.
///
/// # Safety
///
/// Each pattern of bytes is a value of the type (so no `bool`, `char`, enum or reference), and no value contains an address,
/// since each process has the memory elsewhere.
pub unsafe trait Plain: Copy + Send + 'static {}

// SAFETY: any bytes are a u64.
unsafe impl Plain for u64 {}
// SAFETY: any bytes are an i64.
unsafe impl Plain for i64 {}
// SAFETY: an array has nothing but its elements.
unsafe impl<T: Plain, const N: usize> Plain for [T; N] {}

/// Stores now. If the thread is killed, the stores before this one are in memory, and none after it.
pub fn store<V: Plain>(to: &mut V, value: V) {
    // SAFETY: a reference can be written through.
    unsafe { ptr::write_volatile(to, value) }
}

/// What a mutex or a lock guards: the value, and whether a thread panicked in the middle of a change.
#[repr(C)]
struct Guarded<T: Plain> {
    has_panicked: AtomicU64,
    value: UnsafeCell<T>,
}

/// A value with its mutex, for shared memory of the program's own. Zeros are one that is free.
#[repr(C)]
pub struct Robust<T: Plain> {
    mutex: PzMutex,
    guarded: Guarded<T>,
}

/// A value in a file or in other shared memory. Each process that has it, and each thread, locks it in turn.
pub struct Shared<T: Plain> {
    mutex: NonNull<PzMutex>,
    guarded: NonNull<Guarded<T>>,
    file: Option<NonNull<ffi::PzFile>>,
}

// SAFETY: any thread may lock, and no two have a guard at the same time.
unsafe impl<T: Plain> Send for Shared<T> {}
// SAFETY: as for Send.
unsafe impl<T: Plain> Sync for Shared<T> {}

/// What a lock returns.
pub enum Locked<'a, T: Plain> {
    /// The last owner unlocked the value.
    Whole(Guard<'a, T>),
    /// An owner died, or panicked: the value is as it left it.
    OwnerDied(Broken<'a, T>),
}

/// The value, while this thread owns its mutex. Only this thread can unlock it.
///
/// A panic while there is a guard leaves the value as a death would: the next owner has to repair it.
pub struct Guard<'a, T: Plain> {
    shared: &'a Shared<T>,
    was_panicking: bool,
    of_this_thread: PhantomData<*mut T>,
}

/// A value that has to be repaired. If it is dropped after a death, nobody can lock it any more (ENOTRECOVERABLE); after a
/// panic, it stays to be repaired.
#[must_use = "an unrepaired value may be lost"]
pub struct Broken<'a, T: Plain> {
    guard: Guard<'a, T>,
    has_died: bool,
}

impl Timespec {
    const ZERO: Self = Timespec {
        seconds: 0,
        nanoseconds: 0,
    };

    fn now(clock: i32) -> io::Result<Self> {
        let mut now = Self::ZERO;
        // SAFETY: `now` can be written to.
        match unsafe { ffi::clock_gettime(clock, &mut now) } {
            0 => Ok(now),
            _ => Err(io::Error::last_os_error()),
        }
    }

    /// Adds a duration, up to the last time that there is.
    fn later(self, time: Duration) -> Self {
        const SECOND: i64 = 1_000_000_000;
        let nanoseconds = self.nanoseconds + i64::from(time.subsec_nanos());
        let seconds = i64::try_from(time.as_secs()).unwrap_or(i64::MAX);
        Timespec {
            seconds: self
                .seconds
                .saturating_add(seconds)
                .saturating_add(nanoseconds / SECOND),
            nanoseconds: nanoseconds % SECOND,
        }
    }
}

fn checked(error: i32) -> io::Result<()> {
    match error {
        0 => Ok(()),
        error => Err(io::Error::from_raw_os_error(error)),
    }
}

impl<T: Plain> Shared<T> {
    const FITS: () = assert!(align_of::<T>() <= ALIGNMENT);

    /// Opens the file, or creates it: then the value's bytes are zeros.
    pub fn open(path: impl AsRef<Path>) -> io::Result<Self> {
        let () = Self::FITS;
        let path = CString::new(path.as_ref().as_os_str().as_bytes())?;
        let layout = ffi::PzLayout {
            mutexes: 1,
            conds: 0,
            data: size_of::<Guarded<T>>(),
            version: 0,
            rwlocks: 0,
            lanes: 0,
        };
        let mut file = ptr::null_mut();
        // SAFETY: the path ends with a zero, and `layout` and `file` are there as long as the call lasts.
        checked(unsafe { ffi::pz_open(path.as_ptr(), 0o600, &layout, &mut file) })?;
        // SAFETY: the file is open, and has one mutex.
        let (mutex, data) = unsafe { (ffi::pz_mutex_at(file, 0), ffi::pz_data(file)) };
        Ok(Shared {
            mutex: NonNull::new(mutex).ok_or(io::ErrorKind::Other)?,
            guarded: NonNull::new(data.cast()).ok_or(io::ErrorKind::Other)?,
            file: NonNull::new(file),
        })
    }

    /// Uses a value in shared memory of the program's own.
    ///
    /// # Safety
    ///
    /// The memory is a [`Robust`] that was zeros at first, is aligned as such, stays mapped as long as the result is there,
    /// and is changed by nothing else.
    pub unsafe fn in_memory(value: NonNull<Robust<T>>) -> Self {
        let it = value.as_ptr();
        // SAFETY: the caller says that a Robust is there.
        let (mutex, guarded) = unsafe {
            (
                ptr::addr_of_mut!((*it).mutex),
                ptr::addr_of_mut!((*it).guarded),
            )
        };
        Shared {
            // SAFETY: both are inside a Robust that isn't at 0.
            mutex: unsafe { NonNull::new_unchecked(mutex) },
            // SAFETY: as above.
            guarded: unsafe { NonNull::new_unchecked(guarded) },
            file: None,
        }
    }

    /// Waits until this thread owns the value. EDEADLK: it does already; ENOTRECOVERABLE: nobody repaired a broken value.
    pub fn lock(&self) -> io::Result<Locked<'_, T>> {
        // SAFETY: the mutex is there as long as `self`.
        self.locked(unsafe { ffi::pz_mutex_lock(self.mutex.as_ptr()) })
    }

    /// Doesn't wait. EBUSY: a thread owns the value.
    pub fn try_lock(&self) -> io::Result<Locked<'_, T>> {
        // SAFETY: the mutex is there as long as `self`.
        self.locked(unsafe { ffi::pz_mutex_trylock(self.mutex.as_ptr()) })
    }

    /// Waits at most that long, by the clock that nobody sets (ETIMEDOUT, which is [`io::ErrorKind::TimedOut`]).
    /// [`Duration::MAX`] never passes.
    pub fn try_lock_for(&self, time: Duration) -> io::Result<Locked<'_, T>> {
        let now = Timespec::now(ffi::CLOCK_MONOTONIC)?;
        self.lock_until(ffi::CLOCK_MONOTONIC, now.later(time))
    }

    /// Waits at most until that time, by the system's clock (ETIMEDOUT).
    pub fn try_lock_until(&self, time: SystemTime) -> io::Result<Locked<'_, T>> {
        let since_1970 = time.duration_since(SystemTime::UNIX_EPOCH);
        let until = Timespec::ZERO.later(since_1970.unwrap_or_default());
        self.lock_until(ffi::CLOCK_REALTIME, until)
    }

    fn lock_until(&self, clock: i32, until: Timespec) -> io::Result<Locked<'_, T>> {
        // SAFETY: the mutex is there as long as `self`, and `until` as long as the call lasts.
        self.locked(unsafe { ffi::pz_mutex_clocklock(self.mutex.as_ptr(), clock, &until) })
    }

    fn locked(&self, reply: i32) -> io::Result<Locked<'_, T>> {
        if reply != 0 && reply != EOWNERDEAD {
            return Err(io::Error::from_raw_os_error(reply));
        }
        let guard = Guard {
            shared: self,
            was_panicking: thread::panicking(),
            of_this_thread: PhantomData,
        };
        let has_died = reply == EOWNERDEAD;
        if has_died || self.has_panicked().load(Ordering::Relaxed) != 0 {
            return Ok(Locked::OwnerDied(Broken { guard, has_died }));
        }
        Ok(Locked::Whole(guard))
    }

    fn has_panicked(&self) -> &AtomicU64 {
        // SAFETY: it is there as long as `self`, and any bytes are an AtomicU64.
        unsafe { &(*self.guarded.as_ptr()).has_panicked }
    }

    fn value(&self) -> *mut T {
        // SAFETY: it is there as long as `self`.
        unsafe { (*self.guarded.as_ptr()).value.get() }
    }
}

impl<T: Plain> Drop for Shared<T> {
    fn drop(&mut self) {
        if let Some(file) = self.file {
            // SAFETY: no guard is left, and nobody calls with the file any more.
            unsafe { ffi::pz_close(file.as_ptr()) }
        }
    }
}

impl<'a, T: Plain> Broken<'a, T> {
    /// Repairs the value and declares it consistent. If the repair panics, the next owner has to repair it.
    pub fn repair(mut self, repair: impl FnOnce(&mut T)) -> io::Result<Guard<'a, T>> {
        if self.has_died {
            // Otherwise a panic of the repair would make the mutex unusable.
            self.guard.shared.has_panicked().store(1, Ordering::Release);
            // SAFETY: the mutex is there as long as the guard's `Shared`.
            checked(unsafe { ffi::pz_mutex_consistent(self.guard.shared.mutex.as_ptr()) })?;
        }
        repair(&mut self.guard);
        self.guard.shared.has_panicked().store(0, Ordering::Release);
        Ok(self.guard)
    }
}

impl<T: Plain> Deref for Guard<'_, T> {
    type Target = T;

    fn deref(&self) -> &T {
        // SAFETY: any bytes are a T, and the thread with the guard owns the mutex.
        unsafe { &*self.shared.value() }
    }
}

impl<T: Plain> DerefMut for Guard<'_, T> {
    fn deref_mut(&mut self) -> &mut T {
        // SAFETY: as for Deref, and nobody else borrows the guard.
        unsafe { &mut *self.shared.value() }
    }
}

impl<T: Plain> Drop for Guard<'_, T> {
    /// A panic is noted next to the value.
    fn drop(&mut self) {
        if thread::panicking() && !self.was_panicking {
            self.shared.has_panicked().store(1, Ordering::Release);
        }
        // SAFETY: the mutex is there as long as `shared`, and this thread owns it.
        unsafe { ffi::pz_mutex_unlock(self.shared.mutex.as_ptr()) };
    }
}
