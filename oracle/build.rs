//! Where the port's archives stand. Cargo does not look at an archive by itself: with this a new one is linked anew.
use std::env;
use std::path::PathBuf;

fn main() {
    let dir = PathBuf::from(env::var_os("CARGO_MANIFEST_DIR").unwrap()).join("../target/staticlib");
    println!("cargo:rustc-link-search=native={}", dir.display());
    for archive in ["libhelmapricot.a", "libbench_parts.a"] {
        println!("cargo:rerun-if-changed={}", dir.join(archive).display());
    }
}
