//! Finds libhelmapricot.a, which `./archive helmapricot` builds: in HELMAPRICOT_LIB, or where it stands in the repository.
use std::env;
use std::path::PathBuf;

fn main() {
    println!("cargo:rerun-if-env-changed=HELMAPRICOT_LIB");
    let dir = match env::var_os("HELMAPRICOT_LIB") {
        Some(dir) => PathBuf::from(dir),
        None => PathBuf::from(env::var_os("CARGO_MANIFEST_DIR").unwrap()).join("../../target/staticlib"),
    };
    let archive = dir.join("libhelmapricot.a");
    if !archive.exists() {
        panic!("{} is not there: run `./archive helmapricot`, or name its directory in HELMAPRICOT_LIB", archive.display());
    }
    println!("cargo:rerun-if-changed={}", archive.display());
    println!("cargo:rustc-link-search=native={}", dir.display());
    println!("cargo:rustc-link-lib=static=helmapricot");
}
