//! Finds the archive: in the folder that PCML_LIB names, and else in lib/out, where lib/build puts it.
use std::path::PathBuf;

fn main() {
    println!("cargo:rerun-if-env-changed=PCML_LIB");
    let folder = match std::env::var_os("PCML_LIB") {
        Some(folder) => PathBuf::from(folder),
        None => {
            PathBuf::from(std::env::var_os("CARGO_MANIFEST_DIR").expect("cargo names its folder"))
                .join("../../out")
        }
    };
    let archive = folder.join("libpcml_check.a");
    assert!(
        archive.is_file(),
        "{} is not there: lib/build makes it, or PCML_LIB names its folder",
        archive.display()
    );
    println!("cargo:rerun-if-changed={}", archive.display());
    println!("cargo:rustc-link-search=native={}", folder.display());
    println!("cargo:rustc-link-lib=static=pcml_check");
}
