//! Links the library of the C calls: from the directory that the variable `VOLKHIDAR_LIBRARY` names, or from the repository's
//! `crates/volkhidar/out`, where `rt lib` is asked to write it if it is not there.

use std::path::{Path, PathBuf};
use std::process::Command;

fn main() {
    let library = match std::env::var("VOLKHIDAR_LIBRARY") {
        Ok(directory) => PathBuf::from(directory),
        Err(_) => built_in(&Path::new(env!("CARGO_MANIFEST_DIR")).join("../..")),
    };
    let archive = library.join("libvolkhidar.a");
    assert!(archive.exists(), "{} is not there", archive.display());
    println!("cargo:rustc-link-search=native={}", library.display());
    println!("cargo:rustc-link-lib=static=volkhidar");
    println!("cargo:rerun-if-changed={}", archive.display());
    println!("cargo:rerun-if-env-changed=VOLKHIDAR_LIBRARY");
}

fn built_in(repository: &Path) -> PathBuf {
    let folder = repository.join("crates/volkhidar");
    let library = folder.join("out");
    if !library.join("libvolkhidar.a").exists() {
        let built = Command::new("rt").arg("lib").current_dir(folder).status();
        assert!(built.is_ok_and(|status| status.success()), "`rt lib` does not run in crates/volkhidar");
    }
    library
}
