//! Tells the linker where the proved archive is: in the folder that the environment variable
//! DOMAIN_STORE_LIB names, else in host/lib/, where the Makefile puts it.

use std::env;
use std::path::PathBuf;

fn main() {
    let folder = match env::var_os("DOMAIN_STORE_LIB") {
        // A build script runs in its package's folder, so a relative path would not mean what it
        // meant to the caller.
        Some(named) if PathBuf::from(&named).is_relative() => {
            panic!("DOMAIN_STORE_LIB must be an absolute path, and is {named:?}")
        }
        Some(named) => PathBuf::from(named),
        None => {
            PathBuf::from(env::var_os("CARGO_MANIFEST_DIR").expect("cargo sets it")).join("../lib")
        }
    };
    let archive = folder.join("libdomain_store.a");
    println!("cargo:rerun-if-env-changed=DOMAIN_STORE_LIB");
    println!("cargo:rerun-if-changed={}", archive.display());
    println!("cargo:rustc-link-search=native={}", folder.display());
    println!("cargo:rustc-link-lib=static=domain_store");
    if !archive.exists() {
        // `cargo check` and `cargo doc` need no archive, so this is no error yet.
        println!(
            "cargo:warning={} is not there: run `make library` at the root of the repository, \
             which proves and builds it, or set DOMAIN_STORE_LIB to its folder",
            archive.display()
        );
    }
}
