//! Readers share a value, a writer has it alone, and what a dead writer left has to be repaired.
use pazdrig::{Held, SharedRw};
use std::fs;
use std::io::{self, ErrorKind};
use std::path::PathBuf;
use std::process::id;
use std::thread;
use std::time::Duration;

const EBUSY: i32 = 16;
const EDEADLK: i32 = 35;
const ENOTRECOVERABLE: i32 = 131;

type Pair = [u64; 2];

struct Scratch(PathBuf);

impl Scratch {
    fn new(name: &str) -> Self {
        Scratch(std::env::temp_dir().join(format!("pazdrig-rw-{name}-{}", id())))
    }

    fn open(&self) -> SharedRw<Pair> {
        SharedRw::open(&self.0, 3).expect("a new file can be opened")
    }
}

impl Drop for Scratch {
    fn drop(&mut self) {
        let _ = fs::remove_file(&self.0);
    }
}

fn whole<G>(held: io::Result<Held<'_, Pair, G>>) -> G {
    match held {
        Ok(Held::Whole(guard)) => guard,
        Ok(Held::WriterDied(_)) => panic!("a writer died"),
        Err(error) => panic!("{error}"),
    }
}

fn repaired<G>(held: io::Result<Held<'_, Pair, G>>) -> Pair {
    match held {
        Ok(Held::WriterDied(torn)) => *torn.repair(|both| both[1] = both[0]).expect("it is ours"),
        Ok(Held::Whole(_)) => panic!("nobody died"),
        Err(error) => panic!("{error}"),
    }
}

fn refused<G>(held: io::Result<Held<'_, Pair, G>>) -> Option<i32> {
    held.err().and_then(|error| error.raw_os_error())
}

fn is_late<G>(held: io::Result<Held<'_, Pair, G>>) -> bool {
    held.is_err_and(|error| error.kind() == ErrorKind::TimedOut)
}

/// A thread writes half of a change, and ends with its guard, which is a writer's death.
fn dies_in_a_change(pair: &SharedRw<Pair>) {
    thread::scope(|s| {
        s.spawn(|| {
            let mut both = whole(pair.write());
            both[0] += 1;
            std::mem::forget(both);
        });
    });
}

fn elsewhere<R: Send>(does: impl FnOnce() -> R + Send) -> R {
    thread::scope(|s| s.spawn(does).join().expect("it doesn't panic"))
}

#[test]
fn readers_and_writers() {
    let file = Scratch::new("both");
    let pair = file.open();
    let reads = whole(pair.read());
    assert_eq!(*reads, [0, 0]);
    assert_eq!(elsewhere(|| *whole(pair.try_read())), [0, 0]);
    assert_eq!(elsewhere(|| refused(pair.try_write())), Some(EBUSY));
    assert!(elsewhere(|| is_late(
        pair.try_write_for(Duration::from_millis(1))
    )));
    assert_eq!(refused(pair.write()), Some(EDEADLK));
    drop(reads);
    let mut writes = whole(pair.try_write_for(Duration::MAX));
    *writes = [1, 1];
    assert_eq!(elsewhere(|| refused(pair.try_read())), Some(EBUSY));
    assert!(elsewhere(|| is_late(
        pair.try_read_for(Duration::from_millis(1))
    )));
    drop(writes);
    assert_eq!(*whole(pair.try_read_for(Duration::MAX)), [1, 1]);
}

#[test]
fn killed_writers() {
    let file = Scratch::new("killed");
    let pair = file.open();
    dies_in_a_change(&pair);
    assert_eq!(repaired(pair.read()), [1, 1]);
    assert_eq!(*whole(pair.read()), [1, 1]);
    dies_in_a_change(&pair);
    assert_eq!(repaired(pair.write()), [2, 2]);
    dies_in_a_change(&pair);
    drop(pair.read());
    assert_eq!(refused(pair.read()), Some(ENOTRECOVERABLE));
}

#[test]
fn panics() {
    let file = Scratch::new("panic");
    let pair = file.open();
    thread::scope(|s| {
        let writer = s.spawn(|| {
            let mut both = whole(pair.write());
            both[0] += 1;
            panic!("in the middle of a change");
        });
        assert!(writer.join().is_err());
    });
    assert_eq!(repaired(pair.read()), [1, 1]);
    assert_eq!(*whole(pair.read()), [1, 1]);
}
