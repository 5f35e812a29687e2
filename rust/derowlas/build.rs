//! Finds the archive of the proved library, or says in one line how to make it.

use std::env;
use std::path::PathBuf;

/// Names the folder that holds the archive, where that is not the repository's
/// own `target/staticlib`.
const FOLDER: &str = "DEROWLAS_LIB_DIR";

const ARCHIVE: &str = "libderowlas_c.a";

fn main() {
    println!("cargo::rerun-if-env-changed={FOLDER}");
    let package = env::var_os("CARGO_MANIFEST_DIR").expect("cargo says where the package stands");
    let folder = match env::var_os(FOLDER) {
        Some(folder) => PathBuf::from(folder),
        None => PathBuf::from(package).join("../../target/staticlib"),
    };
    let archive = folder.join(ARCHIVE);
    println!("cargo::rerun-if-changed={}", archive.display());
    if !archive.is_file() {
        println!(
            "cargo::error=there is no {}: run `bin/archive` at the top of the repository, or set {FOLDER} to the folder that holds {ARCHIVE}",
            archive.display()
        );
        return;
    }
    println!("cargo::rustc-link-search=native={}", folder.display());
    println!("cargo::rustc-link-lib=static=derowlas_c");
}
