//! Owners die, with SIGKILL and in a panic, and the next owner can't use what they left before it is repaired.
use pazdrig::{store, Locked, Robust, Shared};
use std::fs;
use std::io::{self, BufRead, BufReader, ErrorKind};
use std::path::PathBuf;
use std::process::{id, Child, Command, Stdio};
use std::ptr::NonNull;
use std::thread;
use std::time::{Duration, Instant, SystemTime};

const EDEADLK: i32 = 35;
const ENOTRECOVERABLE: i32 = 131;

type Pair = [u64; 2];

/// A file that one test uses.
struct Scratch(PathBuf);

impl Scratch {
    fn new(name: &str) -> Self {
        Scratch(std::env::temp_dir().join(format!("pazdrig-{name}-{}", id())))
    }

    fn open(&self) -> Shared<Pair> {
        Shared::open(&self.0).expect("a new file can be opened")
    }
}

impl Drop for Scratch {
    fn drop(&mut self) {
        let _ = fs::remove_file(&self.0);
    }
}

/// Starts a process that has changed one half of the pair, and waits.
fn in_a_change(file: &Scratch) -> Child {
    let mut child = Command::new(env!("CARGO_BIN_EXE_holder"))
        .arg(&file.0)
        .stdin(Stdio::piped())
        .stdout(Stdio::piped())
        .spawn()
        .expect("the holder can be started");
    let mut line = String::new();
    let out = child.stdout.take().expect("it is piped");
    BufReader::new(out)
        .read_line(&mut line)
        .expect("it prints what it did");
    assert_eq!(line, "half\n");
    child
}

fn killed(mut child: Child) {
    child.kill().expect("it can be killed");
    child.wait().expect("it is a child");
}

fn kill_in_a_change(file: &Scratch) {
    killed(in_a_change(file));
}

fn whole(pair: &Shared<Pair>) -> Pair {
    match pair.lock() {
        Ok(Locked::Whole(both)) => *both,
        Ok(Locked::OwnerDied(_)) => panic!("its owner died"),
        Err(error) => panic!("{error}"),
    }
}

fn repaired_by(locked: io::Result<Locked<'_, Pair>>) -> Pair {
    match locked {
        Ok(Locked::OwnerDied(broken)) => {
            *broken.repair(|both| both[1] = both[0]).expect("it is ours")
        }
        Ok(Locked::Whole(_)) => panic!("nobody died"),
        Err(error) => panic!("{error}"),
    }
}

fn repaired(pair: &Shared<Pair>) -> Pair {
    repaired_by(pair.lock())
}

fn refused(pair: &Shared<Pair>) -> Option<i32> {
    pair.lock().err().and_then(|error| error.raw_os_error())
}

#[test]
fn killed_owners() {
    let file = Scratch::new("killed");
    let pair = file.open();
    assert_eq!(whole(&pair), [0, 0]);
    kill_in_a_change(&file);
    assert_eq!(repaired(&pair), [1, 1]);
    assert_eq!(whole(&pair), [1, 1]);
}

#[test]
fn no_repair() {
    let file = Scratch::new("lost");
    let pair = file.open();
    kill_in_a_change(&file);
    drop(pair.lock());
    assert_eq!(refused(&pair), Some(ENOTRECOVERABLE));
}

#[test]
fn panics() {
    let file = Scratch::new("panic");
    let pair = file.open();
    thread::scope(|s| {
        let panicked = s.spawn(|| {
            let Ok(Locked::Whole(mut both)) = pair.lock() else {
                return;
            };
            both[0] = 7;
            panic!("in a change");
        });
        assert!(panicked.join().is_err());
    });
    assert_eq!(repaired(&pair), [7, 7]);
}

#[test]
fn panics_in_repairs() {
    let file = Scratch::new("again");
    let pair = file.open();
    kill_in_a_change(&file);
    thread::scope(|s| {
        let panicked = s.spawn(|| match pair.lock() {
            Ok(Locked::OwnerDied(broken)) => drop(broken.repair(|_| panic!("in the repair"))),
            _ => (),
        });
        assert!(panicked.join().is_err());
    });
    assert_eq!(repaired(&pair), [1, 1]);
}

#[test]
fn no_second_lock() {
    let file = Scratch::new("twice");
    let pair = file.open();
    let both = pair.lock();
    assert_eq!(refused(&pair), Some(EDEADLK));
    drop(both);
    assert_eq!(whole(&pair), [0, 0]);
}

fn is_late(locked: io::Result<Locked<'_, Pair>>) -> bool {
    locked.is_err_and(|error| error.kind() == ErrorKind::TimedOut)
}

#[test]
fn deadlines() {
    let file = Scratch::new("late");
    let pair = file.open();
    let owner = in_a_change(&file);
    let (time, since) = (Duration::from_millis(20), Instant::now());
    assert!(is_late(pair.try_lock_for(time)) && since.elapsed() >= time);
    let until = SystemTime::now() + time;
    assert!(is_late(pair.try_lock_until(until)) && SystemTime::now() >= until);
    let past = [SystemTime::UNIX_EPOCH, SystemTime::UNIX_EPOCH - time];
    assert!(past.into_iter().all(|at| is_late(pair.try_lock_until(at))));
    assert!(is_late(pair.try_lock_for(Duration::ZERO)));
    killed(owner);
    assert_eq!(repaired_by(pair.try_lock_until(past[0])), [1, 1]);
}

#[test]
fn deaths_before_a_deadline() {
    let file = Scratch::new("early");
    let pair = file.open();
    for count in 1..=2 {
        let owner = in_a_change(&file);
        let locks = thread::scope(|s| {
            let locks = s.spawn(|| match count {
                1 => repaired_by(pair.try_lock_for(Duration::MAX)),
                _ => repaired_by(
                    pair.try_lock_until(SystemTime::now() + Duration::from_secs(1 << 40)),
                ),
            });
            killed(owner);
            locks.join()
        });
        assert_eq!(locks.expect("it has the value"), [count, count]);
    }
    let both = pair.try_lock_for(Duration::ZERO);
    assert_eq!(
        pair.try_lock_for(Duration::MAX)
            .err()
            .and_then(|error| error.raw_os_error()),
        Some(EDEADLK)
    );
    drop(both);
}

#[test]
fn in_memory() {
    // SAFETY: any bytes are a Robust, and zeros are one that is free.
    let memory = Box::leak(Box::new(unsafe { std::mem::zeroed::<Robust<Pair>>() }));
    // SAFETY: the memory is never freed, and nothing else changes it.
    let pair = unsafe { Shared::in_memory(NonNull::from(memory)) };
    thread::scope(|s| {
        for _ in 0..4 {
            s.spawn(|| {
                for _ in 0..1000 {
                    match pair.lock() {
                        Ok(Locked::Whole(mut both)) => {
                            assert_eq!(both[0], both[1]);
                            let next = both[0] + 1;
                            store(&mut both[0], next);
                            store(&mut both[1], next);
                        }
                        _ => panic!("nobody died"),
                    }
                }
            });
        }
    });
    assert_eq!(whole(&pair), [4000, 4000]);
}
