//! Finds the published Rust and writes, for each of its eight files, the one `mod` line that names it by path.
//!
//! No text of the Rust is copied: `src/published.rs` includes these lines, and the compiler reads the files
//! where they lie.

use std::path::{Path, PathBuf};
use std::{env, fs, io};

/// The folder that holds the Rust's `src`. If it is not set, `DEFAULT_SOURCE` is taken.
const VARIABLE: &str = "CFSEM_SRC";

/// Seen from this crate, which lies in the repository's root.
const DEFAULT_SOURCE: &str = "../../shared/docs/src";

/// The seven files that need nothing beside them.
const FILES: [&str; 7] = [
    "src/mesh/quad2d.rs",
    "src/mesh/elements/quad2d/mapping.rs",
    "src/mesh/elements/quad2d/quad4.rs",
    "src/mesh/elements/quad2d/quad9.rs",
    "src/physics/solenoid_stress/types.rs",
    "src/physics/solenoid_stress/axisym.rs",
    "src/physics/solenoid_stress/convenience.rs",
];

/// The eighth: it says `mod hyp2f1;`, and that file is not among those published to us.
const MATH: &str = "src/math.rs";

/// Stands in for the missing file. Nothing that is compared calls these.
const HYP2F1: &str = "pub fn hyp2f1() {}\npub fn hyp2f1_par() {}\npub fn hyp2f1_scalar() {}\n";

fn main() -> io::Result<()> {
    println!("cargo::rerun-if-changed=build.rs");
    println!("cargo::rerun-if-env-changed={VARIABLE}");
    let out = PathBuf::from(env::var_os("OUT_DIR").expect("cargo sets OUT_DIR"));
    let source = source_folder();
    for file in FILES {
        name_by_path(&out, &published_file(&source, file))?;
    }
    name_by_path(&out, &linked_math(&out, &published_file(&source, MATH))?)
}

/// A relative folder is meant from this crate, where cargo runs build scripts.
fn source_folder() -> PathBuf {
    PathBuf::from(env::var_os(VARIABLE).unwrap_or_else(|| DEFAULT_SOURCE.into()))
}

fn published_file(source: &Path, file: &str) -> PathBuf {
    let path = source.join(file);
    path.canonicalize().unwrap_or_else(|error| {
        panic!("{}: {error}; set {VARIABLE} to the folder that holds the Rust's src", path.display())
    })
}

/// The compiler looks for `hyp2f1` beside the path it was given for math.rs, so that path is a link with the
/// stand-in beside it.
fn linked_math(out: &Path, math: &Path) -> io::Result<PathBuf> {
    let folder = out.join("linked");
    if folder.exists() {
        fs::remove_dir_all(&folder)?;
    }
    fs::create_dir(&folder)?;
    fs::write(folder.join("hyp2f1.rs"), HYP2F1)?;
    let link = folder.join("math.rs");
    std::os::unix::fs::symlink(math, &link)?;
    Ok(link)
}

/// Writes `OUT_DIR/NAME.rs`, which declares the file at `path` as the public module NAME.
fn name_by_path(out: &Path, path: &Path) -> io::Result<()> {
    let name = path.file_stem().expect("a published file has a name").to_string_lossy();
    fs::write(out.join(format!("{name}.rs")), format!("#[path = {path:?}]\npub mod {name};\n"))
}
