//! Does nothing. Cargo requires it because of `links`.
fn main() {
    println!("cargo:rerun-if-changed=build.rs");
}
