//! Finds or makes the archive of the proved library, and links it.

use std::path::{Path, PathBuf};
use std::process::Command;
use std::{env, fs};

/// An archive that is already built; an absolute path, or one seen from this folder. If it is not set, the
/// toolchain proves the library and makes the archive.
const VARIABLE: &str = "SOBRIZENTA_ARCHIVE";

/// The repository, seen from this folder.
const ROOT: &str = "../..";

/// Proves the library and makes the archive, seen from the repository.
const MAKER: &str = "bindings/archive";

/// The folders of a crate that it reads. Beside them the toolchain keeps its work, in `out`.
const SOURCES: [&str; 3] = ["src", "specs", "proofs"];

/// Where it puts the archive, seen from the repository.
const MADE: &str = "target/staticlib/libsobrizenta.a";

fn main() {
    println!("cargo::rerun-if-changed=build.rs");
    println!("cargo::rerun-if-env-changed={VARIABLE}");
    link(&env::var_os(VARIABLE).map_or_else(made, |path| given(path.into())));
}

fn given(archive: PathBuf) -> PathBuf {
    println!("cargo::rerun-if-changed={}", archive.display());
    archive
}

fn made() -> PathBuf {
    let root = Path::new(ROOT);
    let crates = fs::read_dir(root.join("crates")).expect("the repository has a folder crates");
    let crates = crates.map(|entry| entry.expect("the folder crates can be read").path());
    let sources = crates.flat_map(|folder| SOURCES.map(|name| folder.join(name)));
    let files = ["crates.txt", MAKER].map(|name| root.join(name));
    for source in sources.filter(|folder| folder.exists()).chain(files) {
        println!("cargo::rerun-if-changed={}", source.display());
    }
    let status = Command::new(root.join(MAKER)).status();
    let status = status.unwrap_or_else(|error| panic!("{MAKER}: {error}"));
    assert!(
        status.success(),
        "{MAKER}: {status}; it needs rt, the command of the Rattle toolchain; or set {VARIABLE} to an archive already built"
    );
    root.join(MADE)
}

/// The archive goes into this crate, so that a program which uses it needs no setting of its own.
fn link(archive: &Path) {
    let out = PathBuf::from(env::var_os("OUT_DIR").expect("cargo sets OUT_DIR"));
    let copy = out.join("libsobrizenta_exports.a");
    fs::copy(archive, copy).unwrap_or_else(|error| panic!("{}: {error}", archive.display()));
    println!("cargo::rustc-link-search=native={}", out.display());
    println!("cargo::rustc-link-lib=static=sobrizenta_exports");
}
