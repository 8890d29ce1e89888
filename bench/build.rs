//! Says where the archive of proved code is that `make bench` builds first.

fn main() {
    let archives = concat!(env!("CARGO_MANIFEST_DIR"), "/../target/staticlib");
    println!("cargo:rustc-link-search=native={archives}");
    println!("cargo:rerun-if-changed={archives}/libclassifier.a");
}
