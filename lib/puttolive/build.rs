//! Finds the archive of the cells: in the folder that `PCML_LIB` names, else where `lib/build` puts it, else beside the
//! crate, where a release has it. Under `--cfg schedules` a stand-in takes its place, and nothing is linked.
use std::path::{Path, PathBuf};
use std::{env, process};

const ARCHIVE: &str = "libpcml_cells.a";

fn main() {
    println!("cargo:rerun-if-env-changed=PCML_LIB");
    if env::var_os("CARGO_CFG_SCHEDULES").is_some() {
        return;
    }
    let own = PathBuf::from(env::var_os("CARGO_MANIFEST_DIR").expect("cargo names the folder of its package"));
    let folders = match env::var_os("PCML_LIB") {
        Some(named) => vec![PathBuf::from(named)],
        None => vec![own.join("../out"), own.join("lib")],
    };
    let Some(folder) = folders.iter().find(|folder| folder.join(ARCHIVE).is_file()) else {
        refuse(&folders[0]);
    };
    println!("cargo:rerun-if-changed={}", folder.join(ARCHIVE).display());
    println!("cargo:rustc-link-search=native={}", folder.display());
    println!("cargo:rustc-link-lib=static=pcml_cells");
}

fn refuse(folder: &Path) -> ! {
    println!(
        "cargo:warning={ARCHIVE} is not in {}: type `lib/build pcml_cells` at the top of the repository, or set PCML_LIB to its folder.",
        folder.display()
    );
    process::exit(1)
}
