//! Finds libstazzumpi.a in the folder that STAZZUMPI_LIB_DIR names, else where `make library` puts it in this project.

use std::env;
use std::path::{Path, PathBuf};

fn main() {
    println!("cargo:rerun-if-env-changed=STAZZUMPI_LIB_DIR");
    let folder = match env::var_os("STAZZUMPI_LIB_DIR") {
        Some(folder) => PathBuf::from(folder),
        None => Path::new(&env::var_os("CARGO_MANIFEST_DIR").expect("cargo names the folder"))
            .join("../../target/staticlib"),
    };
    let library = folder.join("libstazzumpi.a");
    if !library.is_file() {
        panic!(
            "{} is not there: run `make library` at the project's root, or name its folder in STAZZUMPI_LIB_DIR",
            library.display()
        );
    }
    println!("cargo:rerun-if-changed={}", library.display());
    println!("cargo:rustc-link-search=native={}", folder.display());
    println!("cargo:rustc-link-lib=static=stazzumpi");
}
