//! Locks the pair of a file, changes one half of it, prints a line, and waits to be killed: holder FILE
use pazdrig::{store, Locked, Shared};
use std::io::{self, Read};

fn main() -> io::Result<()> {
    let path = std::env::args_os().nth(1).expect("usage: holder FILE");
    let pair = Shared::<[u64; 2]>::open(path)?;
    let mut both = match pair.lock()? {
        Locked::Whole(both) => both,
        Locked::OwnerDied(broken) => broken.repair(|both| both[1] = both[0])?,
    };
    let next = both[0] + 1;
    store(&mut both[0], next);
    println!("half");
    io::stdin().read_exact(&mut [0])?;
    store(&mut both[1], next);
    Ok(())
}
