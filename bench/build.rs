//! Tells where the archive of the proved libraries lies; `rt lib` in `crates/exports` makes it.

fn main() {
    let folder = concat!(env!("CARGO_MANIFEST_DIR"), "/../crates/exports/out");
    println!("cargo:rustc-link-search=native={folder}");
    println!("cargo:rerun-if-changed={folder}/libexports.a");
}
