//! Links the proved libraries. POTTERBEAM_KIT_DIR names another directory to take the archives from.

use std::env;
use std::path::{Path, PathBuf};

fn main() {
    println!("cargo:rerun-if-env-changed=POTTERBEAM_KIT_DIR");
    println!("cargo:rerun-if-changed=build.rs");
    let package = env::var_os("CARGO_MANIFEST_DIR").expect("set by cargo");
    let built = Path::new(&package).join("../target/staticlib");
    let place = env::var_os("POTTERBEAM_KIT_DIR").map_or(built, PathBuf::from);
    println!("cargo:rustc-link-search=native={}", place.display());
    for library in [
        "potterbeam",
        "potterbeam_pages",
        "potterbeam_tpm",
        "potterbeam_swtpm",
    ] {
        link(library, &place.join(format!("lib{library}.a")));
    }
}

fn link(library: &str, archive: &Path) {
    if !archive.exists() {
        eprintln!(
            "{} is missing: run `tools/archives {library}` first",
            archive.display()
        );
        std::process::exit(1);
    }
    println!("cargo:rerun-if-changed={}", archive.display());
    println!("cargo:rustc-link-lib=static={library}");
}
