//! Sets `cfg(test)` in every build of this crate. The carried-over files declare `#[cfg(test)] mod tests;`, and a module
//! of ours in that place may open what is private there without a change to their text.

fn main() {
    println!("cargo::rustc-cfg=test");
    println!("cargo::rerun-if-changed=build.rs");
}
