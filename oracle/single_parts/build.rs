//! Links the library of single parts, which `./build test_probes` builds.

use std::path::Path;

fn main() {
    let root = Path::new(env!("CARGO_MANIFEST_DIR")).join("../../target/staticlib");
    println!("cargo::rustc-link-search=native={}", root.display());
    println!("cargo::rustc-link-lib=static=test_probes");
    println!(
        "cargo::rerun-if-changed={}",
        root.join("libtest_probes.a").display()
    );
}
