//! Links libvcd.a, made by `bindings/archive`, or the one in the folder VCD_LIB_DIR.
use std::env;
use std::path::PathBuf;

fn main() {
    let made = PathBuf::from(env::var_os("CARGO_MANIFEST_DIR").expect("set by cargo")).join("../../target/staticlib");
    let folder = env::var_os("VCD_LIB_DIR").map_or(made, PathBuf::from);
    let archive = folder.join("libvcd.a");
    if !archive.is_file() {
        panic!("{} is missing: run `bindings/archive`, or set VCD_LIB_DIR", archive.display());
    }
    println!("cargo:rerun-if-env-changed=VCD_LIB_DIR");
    println!("cargo:rerun-if-changed={}", archive.display());
    println!("cargo:rustc-link-search=native={}", folder.display());
    println!("cargo:rustc-link-lib=static=vcd");
}
