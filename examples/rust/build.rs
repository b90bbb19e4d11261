//! Links libpazdrig: the archive in the directory that PAZDRIG names; or the installed library, as pkg-config finds it; or
//! one that make and cc build here from this tree's `lib`.
use std::path::{Path, PathBuf};
use std::process::Command;
use std::{env, fs, io};

/// The directories with the library's sources, from the tree's top.
const SOURCES: [&str; 2] = ["lib", "lib/man"];

fn main() -> io::Result<()> {
    for variable in [
        "PAZDRIG",
        "PKG_CONFIG_PATH",
        "PKG_CONFIG_LIBDIR",
        "CC",
        "CFLAGS",
    ] {
        println!("cargo:rerun-if-env-changed={variable}");
    }
    if let Some(directory) = env::var_os("PAZDRIG").map(PathBuf::from) {
        let archive = directory.join("libpazdrig.a");
        println!("cargo:rerun-if-changed={}", archive.display());
        link(&directory, "static=pazdrig");
    } else if let Some(directory) = installed() {
        link(&directory, "pazdrig");
    } else {
        link(&built()?, "static=pazdrig");
    }
    Ok(())
}

fn link(directory: &Path, library: &str) {
    println!("cargo:rustc-link-search=native={}", directory.display());
    println!("cargo:rustc-link-lib={library}");
}

/// The directory of an installed library that has what this crate calls.
fn installed() -> Option<PathBuf> {
    let found = Command::new("pkg-config")
        .args(["--variable=libdir", "pazdrig >= 0.2"])
        .output()
        .ok()?;
    let directory = String::from_utf8(found.stdout).ok()?;
    (found.status.success() && !directory.trim().is_empty()).then(|| directory.trim().into())
}

/// Builds in a directory of cargo's own, since nothing else may be written to here.
fn built() -> io::Result<PathBuf> {
    let tree = directory_in("CARGO_MANIFEST_DIR").join("../..");
    let copy = directory_in("OUT_DIR").join("pazdrig");
    if !tree.join("lib/pazdrig.h").exists() {
        let none = "no libpazdrig: PAZDRIG names no directory with it, pkg-config knows none, and there is no `lib` to build";
        return Err(io::Error::new(io::ErrorKind::NotFound, none));
    }
    for part in SOURCES {
        copy_sources(&tree.join(part), &copy.join(part))?;
    }
    println!("cargo:rerun-if-changed={}", tree.join("Makefile").display());
    fs::copy(tree.join("Makefile"), copy.join("Makefile"))?;
    let made = Command::new("make")
        .arg("-C")
        .arg(&copy)
        .arg("out/libpazdrig.a")
        .env_remove("MAKEFLAGS")
        .status()?;
    if !made.success() {
        return Err(io::Error::other("make couldn't build libpazdrig.a"));
    }
    Ok(copy.join("out"))
}

fn directory_in(variable: &str) -> PathBuf {
    env::var_os(variable).expect("cargo sets it").into()
}

fn copy_sources(from: &Path, to: &Path) -> io::Result<()> {
    println!("cargo:rerun-if-changed={}", from.display());
    fs::create_dir_all(to)?;
    for entry in fs::read_dir(from)? {
        let entry = entry?;
        let (path, name) = (entry.path(), entry.file_name());
        if matches!(
            path.extension().and_then(|it| it.to_str()),
            Some("c" | "h" | "map")
        ) {
            fs::copy(&path, to.join(name))?;
        }
    }
    Ok(())
}
