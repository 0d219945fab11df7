//! Links libmouldgrey.a. It is looked for in target/lib of the repository, where `make` leaves it, or in the folder that
//! MOULDGREY_LIBRARIES names; a relative one starts from the folder in which cargo was called.

use std::env;
use std::path::{Path, PathBuf};

fn folder() -> PathBuf {
    let Some(named) = env::var_os("MOULDGREY_LIBRARIES") else {
        return Path::new(env!("CARGO_MANIFEST_DIR")).join("../../target/lib");
    };
    // A build script runs in the folder of its crate; the shell's folder is in PWD.
    let here = env::var_os("PWD").map(PathBuf::from).unwrap_or_default();
    here.join(named)
}

fn main() {
    let folder = folder();
    let file = folder.join("libmouldgrey.a");
    println!("cargo::rerun-if-env-changed=MOULDGREY_LIBRARIES");
    println!("cargo::rerun-if-changed={}", file.display());
    if !file.is_file() {
        // A warning, so that `cargo check` and `cargo doc` work without the library.
        println!(
            "cargo::warning={} is missing: run `make` in the repository, or name the library's folder in MOULDGREY_LIBRARIES",
            file.display()
        );
    }
    println!("cargo::rustc-link-search=native={}", folder.display());
    println!("cargo::rustc-link-lib=static=mouldgrey");
}
