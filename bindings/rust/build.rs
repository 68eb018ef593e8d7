//! Links the archive: LEVZHADA_LIB is its path, or else it is where `.ci/archive` writes it in the repository.

use std::env;
use std::path::PathBuf;

fn main() {
    println!("cargo:rerun-if-env-changed=LEVZHADA_LIB");
    let named = env::var_os("LEVZHADA_LIB").map(PathBuf::from);
    let archive = named.unwrap_or_else(|| PathBuf::from("../../target/staticlib/liblevzhada.a"));
    let Ok(archive) = archive.canonicalize() else {
        panic!(
            "no {}: run `.ci/archive`, or set LEVZHADA_LIB to the archive's path",
            archive.display()
        );
    };
    println!("cargo:rerun-if-changed={}", archive.display());
    println!(
        "cargo:rustc-link-search=native={}",
        archive.parent().unwrap().display()
    );
    println!("cargo:rustc-link-lib=static=levzhada");
}
