//! Links libpigeonmast.a, the proved library, from the folder PIGEONMAST_LIB (read
//! from the project's root if it is relative; by default target/staticlib,
//! where `bindings/library` writes it).

use std::path::Path;
use std::{env, process};

fn main() {
    println!("cargo:rerun-if-env-changed=PIGEONMAST_LIB");
    let package = env::var("CARGO_MANIFEST_DIR").unwrap_or_default();
    let given = env::var("PIGEONMAST_LIB").unwrap_or_else(|_| "target/staticlib".into());
    let folder = Path::new(&package).join("../..").join(given);
    let library = folder.join("libpigeonmast.a");
    if !library.is_file() {
        eprintln!(
            "pigeonmast: there is no {}: run `bash bindings/library` in the project's root, or set PIGEONMAST_LIB to the folder that has libpigeonmast.a",
            library.display()
        );
        process::exit(1);
    }
    println!("cargo:rerun-if-changed={}", library.display());
    println!("cargo:rustc-link-search=native={}", folder.display());
    println!("cargo:rustc-link-lib=static=pigeonmast");
}
