//! Links libkorzhinay.a from the folder that KORZHINAY_LIB_DIR names. Every package that depends on this one gets it linked.

use std::env;
use std::path::Path;

fn main() {
    println!("cargo:rerun-if-env-changed=KORZHINAY_LIB_DIR");
    let folder = env::var("KORZHINAY_LIB_DIR")
        .expect("KORZHINAY_LIB_DIR has to name the folder that holds libkorzhinay.a");
    let archive = Path::new(&folder).join("libkorzhinay.a");
    println!("cargo:rerun-if-changed={}", archive.display());
    println!("cargo:rustc-link-search=native={folder}");
    println!("cargo:rustc-link-lib=static=korzhinay");
}
