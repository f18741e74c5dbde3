//! Finds the static library of the proved code.

use std::env;
use std::path::PathBuf;
use std::process::exit;

const LIB: &str = "libhost.a";

fn folder() -> PathBuf {
    match env::var_os("COBNUTTER_LIB") {
        Some(named) => PathBuf::from(named),
        None => {
            PathBuf::from(env::var_os("CARGO_MANIFEST_DIR").unwrap()).join("../../target/staticlib")
        }
    }
}

fn main() {
    let folder = folder();
    let lib = folder.join(LIB);
    println!("cargo:rerun-if-env-changed=COBNUTTER_LIB");
    println!("cargo:rerun-if-changed={}", lib.display());
    if !lib.is_file() {
        eprintln!(
            "cobnutter: there is no {}.\nRun `host/build` in the repository, \
             or set COBNUTTER_LIB to the folder that has {LIB}.",
            lib.display()
        );
        exit(1);
    }
    println!("cargo:rustc-link-search=native={}", folder.display());
    println!("cargo:rustc-link-lib=static=host");
}
