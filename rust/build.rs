//! Finds the library's archive, libsaltkernel.a, or has it written.
//!
//! An archive in the folder that SALTKERNEL_LIB_DIR names is taken as it is. Else that of the repository is taken,
//! target/staticlib/libsaltkernel.a; where it is missing or stale, tests/archive has the library proved and writes
//! it.

use std::env;
use std::path::{Path, PathBuf};
use std::process::{exit, Command};

const ARCHIVE: &str = "libsaltkernel.a";

/// Ends the build with a message.
fn give_up(message: &str) -> ! {
    eprintln!("saltkernel: {message}");
    exit(1)
}

/// Has the repository's archive written where it is missing or stale.
fn write_archive(root: &Path) {
    let why = match Command::new(root.join("tests/archive")).output() {
        Ok(done) if done.status.success() => return,
        Ok(done) => String::from_utf8_lossy(&done.stderr).into_owned(),
        Err(error) => format!("tests/archive can't be run: {error}"),
    };
    give_up(&format!(
        "{ARCHIVE} is missing or older than its source, and was not written. Install the Rattle toolchain, or name the folder of an archive in \
         SALTKERNEL_LIB_DIR.\n{why}"
    ));
}

/// The folder of the archive.
fn folder() -> PathBuf {
    if let Some(named) = env::var_os("SALTKERNEL_LIB_DIR") {
        let folder = PathBuf::from(named);
        if !folder.join(ARCHIVE).is_file() {
            give_up(&format!("SALTKERNEL_LIB_DIR is {}, and there is no {ARCHIVE} in it.", folder.display()));
        }
        return folder;
    }
    let root = Path::new(&env::var_os("CARGO_MANIFEST_DIR").expect("cargo names the crate's folder")).join("..");
    write_archive(&root);
    println!("cargo:rerun-if-changed={}", root.join("crates").display());
    println!("cargo:rerun-if-changed={}", root.join("crates.txt").display());
    root.join("target/staticlib")
}

fn main() {
    let target = env::var("CARGO_CFG_TARGET_ARCH").unwrap_or_default();
    if target != "x86_64" {
        give_up(&format!("the archive is for x86_64, and the target is {target}."));
    }
    let folder = folder();
    println!("cargo:rerun-if-changed=build.rs");
    println!("cargo:rerun-if-env-changed=SALTKERNEL_LIB_DIR");
    println!("cargo:rerun-if-changed={}", folder.join(ARCHIVE).display());
    println!("cargo:rustc-link-search=native={}", folder.display());
    println!("cargo:rustc-link-lib=static=saltkernel");
}
