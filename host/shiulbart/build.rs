//! Links libboard.a, which `host/archive` proves and writes to target/staticlib at the
//! repository's top. SHIULBART_ARCHIVE_DIR names another folder to take it from.

use std::env;
use std::path::{Path, PathBuf};
use std::process::exit;

const OTHER_FOLDER: &str = "SHIULBART_ARCHIVE_DIR";

fn main() {
    println!("cargo:rerun-if-changed=build.rs");
    println!("cargo:rerun-if-env-changed={OTHER_FOLDER}");

    let target = env::var("TARGET").unwrap_or_default();
    if !(target.starts_with("x86_64-") && target.contains("-linux-")) {
        fail(&format!(
            "the archive is for Linux on x86-64 and cannot be linked for {target}: \
             on another processor source host/env.sh first"
        ));
    }

    let folder = match env::var_os(OTHER_FOLDER).filter(|folder| !folder.is_empty()) {
        Some(folder) if Path::new(&folder).is_absolute() => PathBuf::from(folder),
        Some(folder) => fail(&format!(
            "{OTHER_FOLDER} must be an absolute path, and is {folder:?}"
        )),
        None => {
            let package = env::var_os("CARGO_MANIFEST_DIR").unwrap_or_default();
            Path::new(&package).join("../../target/staticlib")
        }
    };
    let archive = folder.join("libboard.a");
    if !archive.is_file() {
        fail(&format!(
            "there is no {}: run `host/archive` at the repository's top, or set {OTHER_FOLDER}",
            archive.display()
        ));
    }
    println!("cargo:rerun-if-changed={}", archive.display());
    println!("cargo:rustc-link-search=native={}", folder.display());
    println!("cargo:rustc-link-lib=static=board");
}

fn fail(why: &str) -> ! {
    eprintln!("shiulbart: {why}");
    exit(1)
}
