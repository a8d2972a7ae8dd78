//! Links libtickets. Its folder is TICKETS_LIB_DIR, or else the one that pkg-config knows. The shared
//! library is linked where the folder has one, unless TICKETS_STATIC is 1.

use std::env;
use std::path::{Path, PathBuf};
use std::process::Command;

/// What to do where no library is found.
const MISSING: &str =
    "libtickets was not found: set TICKETS_LIB_DIR to the folder of libtickets.so \
    or libtickets.a, or PKG_CONFIG_PATH to that of tickets.pc";

fn main() {
    println!("cargo::rerun-if-changed=build.rs");
    for variable in ["TICKETS_LIB_DIR", "TICKETS_STATIC", "PKG_CONFIG_PATH"] {
        println!("cargo::rerun-if-env-changed={variable}");
    }
    match folder().and_then(|folder| Some((library_in(&folder)?, folder))) {
        Some(((kind, file), folder)) => {
            println!("cargo::rerun-if-changed={}", file.display());
            println!("cargo::rustc-link-search=native={}", folder.display());
            println!("cargo::rustc-link-lib={kind}=tickets");
        }
        None => println!("cargo::error={MISSING}"),
    }
}

/// The folder of the library.
fn folder() -> Option<PathBuf> {
    env::var_os("TICKETS_LIB_DIR").map(PathBuf::from).or_else(folder_of_package)
}

/// The folder that pkg-config knows.
fn folder_of_package() -> Option<PathBuf> {
    let asked = Command::new("pkg-config").args(["--variable=libdir", "tickets"]).output().ok()?;
    let folder = String::from_utf8(asked.stdout).ok()?;
    (asked.status.success() && !folder.trim().is_empty()).then(|| PathBuf::from(folder.trim()))
}

/// The kind of library to link of those in the folder, and its file.
fn library_in(folder: &Path) -> Option<(&'static str, PathBuf)> {
    let wants_static = env::var_os("TICKETS_STATIC").is_some_and(|value| value == "1");
    let mut libraries =
        [("dylib", folder.join("libtickets.so")), ("static", folder.join("libtickets.a"))];
    libraries.rotate_left(usize::from(wants_static));
    let asked = if wants_static { 1 } else { libraries.len() };
    libraries.into_iter().take(asked).find(|(_, file)| file.exists())
}
