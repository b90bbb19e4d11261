//! What `pazdrig.h` declares, as far as this crate uses it.
use std::cell::UnsafeCell;
use std::ffi::{c_char, c_int, c_long, c_uint, c_void};

/// A time by a clock.
#[derive(Clone, Copy)]
#[repr(C)]
pub struct Timespec {
    pub seconds: c_long,
    pub nanoseconds: c_long,
}

pub const CLOCK_REALTIME: c_int = 0;
pub const CLOCK_MONOTONIC: c_int = 1;

/// A mutex; only the library changes it.
#[repr(C, align(64))]
pub struct PzMutex {
    words: UnsafeCell<[u64; 8]>,
}

/// A reader-writer lock, which its lanes follow.
#[repr(C, align(64))]
pub struct PzRwlock {
    gate: PzMutex,
    words: UnsafeCell<[u64; 8]>,
}

/// An open file.
#[repr(C)]
pub struct PzFile {
    hidden: [u8; 0],
}

#[repr(C)]
pub struct PzLayout {
    pub mutexes: c_uint,
    pub conds: c_uint,
    pub data: usize,
    pub version: u32,
    pub rwlocks: c_uint,
    pub lanes: c_uint,
}

extern "C" {
    pub fn pz_open(
        path: *const c_char,
        mode: c_uint,
        layout: *const PzLayout,
        out: *mut *mut PzFile,
    ) -> c_int;
    pub fn pz_close(file: *mut PzFile);
    pub fn pz_mutex_at(file: *mut PzFile, number: c_uint) -> *mut PzMutex;
    pub fn pz_data(file: *mut PzFile) -> *mut c_void;
    pub fn pz_mutex_lock(mutex: *mut PzMutex) -> c_int;
    pub fn pz_mutex_trylock(mutex: *mut PzMutex) -> c_int;
    pub fn pz_mutex_clocklock(mutex: *mut PzMutex, clock: c_int, until: *const Timespec) -> c_int;
    pub fn pz_mutex_unlock(mutex: *mut PzMutex) -> c_int;
    pub fn pz_mutex_consistent(mutex: *mut PzMutex) -> c_int;
    pub fn pz_rwlock_at(file: *mut PzFile, number: c_uint) -> *mut PzRwlock;
    pub fn pz_rwlock_rdlock(lock: *mut PzRwlock) -> c_int;
    pub fn pz_rwlock_tryrdlock(lock: *mut PzRwlock) -> c_int;
    pub fn pz_rwlock_clockrdlock(
        lock: *mut PzRwlock,
        clock: c_int,
        until: *const Timespec,
    ) -> c_int;
    pub fn pz_rwlock_wrlock(lock: *mut PzRwlock) -> c_int;
    pub fn pz_rwlock_trywrlock(lock: *mut PzRwlock) -> c_int;
    pub fn pz_rwlock_clockwrlock(
        lock: *mut PzRwlock,
        clock: c_int,
        until: *const Timespec,
    ) -> c_int;
    pub fn pz_rwlock_unlock(lock: *mut PzRwlock) -> c_int;
    pub fn pz_rwlock_consistent(lock: *mut PzRwlock) -> c_int;
    /// From the C library.
    pub fn clock_gettime(clock: c_int, now: *mut Timespec) -> c_int;
}
