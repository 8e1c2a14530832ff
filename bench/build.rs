//! Tells the linker where the archive of the proven library lies.

use std::env;
use std::path::PathBuf;

fn main() {
    let folder = library_folder();
    println!("cargo::rerun-if-env-changed=SUNDRILGA_LIBRARY");
    println!("cargo::rerun-if-changed={}", folder.join("libexports.a").display());
    println!("cargo::rustc-link-search=native={}", folder.display());
}

fn library_folder() -> PathBuf {
    match env::var_os("SUNDRILGA_LIBRARY") {
        Some(folder) => PathBuf::from(folder),
        None => {
            let manifest = env::var_os("CARGO_MANIFEST_DIR").expect("cargo sets the manifest folder");
            PathBuf::from(manifest).join("../crates/exports/out")
        }
    }
}
