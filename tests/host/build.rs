//! Links libsaszvigom.a from the folder that SASZVIGOM_LIB names.

use std::env;
use std::path::{Path, PathBuf};

fn main() {
    let package = env::var("CARGO_MANIFEST_DIR").expect("set by cargo");
    let folder = match env::var_os("SASZVIGOM_LIB") {
        Some(folder) => PathBuf::from(folder),
        None => Path::new(&package).join("../../target/staticlib"),
    };
    println!("cargo:rerun-if-env-changed=SASZVIGOM_LIB");
    println!(
        "cargo:rerun-if-changed={}",
        folder.join("libsaszvigom.a").display()
    );
    println!("cargo:rustc-link-search=native={}", folder.display());
    println!("cargo:rustc-link-lib=static=saszvigom");
}
