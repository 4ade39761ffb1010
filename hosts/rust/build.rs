//! Links `libcedar.a`: of the folder that CEDAR_LIB names, which `hosts/build` makes, or else the one
//! that a released crate carries.

use std::path::{Path, PathBuf};
use std::{env, fs};

/// The target of the library that a released crate carries.
const CARRIED_FOR: &str = "x86_64-unknown-linux-gnu";

fn main() {
    println!("cargo:rerun-if-env-changed=CEDAR_LIB");
    let folder = match env::var("CEDAR_LIB") {
        // The linker may run in another folder than this does.
        Ok(named) => match fs::canonicalize(&named) {
            Ok(whole) => whole,
            Err(error) => panic!("CEDAR_LIB is {named}: {error}"),
        },
        Err(_) => carried(),
    };
    let folder = folder.display();
    println!("cargo:rerun-if-changed={folder}/libcedar.a");
    println!("cargo:rustc-link-search=native={folder}");
    println!("cargo:rustc-link-lib=static=cedar");
}

/// The folder of the library that the crate carries.
fn carried() -> PathBuf {
    let crate_folder = env::var("CARGO_MANIFEST_DIR").expect("cargo names the crate's folder");
    let folder = Path::new(&crate_folder).join("lib");
    if !folder.join("libcedar.a").exists() {
        panic!("set CEDAR_LIB to the folder of libcedar.a (hosts/build makes one)");
    }
    let target = env::var("TARGET").expect("cargo names the target");
    if target != CARRIED_FOR {
        panic!(
            "the library in this crate is for {CARRIED_FOR}, and not for {target}: set CEDAR_LIB"
        );
    }
    folder
}
