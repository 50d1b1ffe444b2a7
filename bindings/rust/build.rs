//! Links with the library that `bindings/build` makes.

use std::path::Path;
use std::{env, process};

fn main() {
    let folder = env::var("TACFLOW_LIB").unwrap_or_else(|_| {
        let here = env::var("CARGO_MANIFEST_DIR").unwrap_or_else(|_| ".".into());
        format!("{here}/../lib")
    });
    let library = Path::new(&folder).join("libtacflow.a");
    println!("cargo::rerun-if-env-changed=TACFLOW_LIB");
    println!("cargo::rerun-if-changed={}", library.display());
    if !library.exists() {
        eprintln!("{} is not there: run bindings/build first.", library.display());
        process::exit(1);
    }
    println!("cargo::rustc-link-search=native={folder}");
    println!("cargo::rustc-link-lib=static=tacflow");
}
