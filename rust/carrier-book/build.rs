//! Links the proved archive. It is looked for in the folder that CARRIER_LIB names, or else in the repository's target/staticlib;
//! where it is missing there, `rt lib` in crates/carrier proves and writes it, and it is copied there.
use std::env;
use std::fs;
use std::path::{Path, PathBuf};
use std::process::Command;

fn make_archive(root: &Path, folder: &Path) {
    let carrier = root.join("crates/carrier");
    let status = Command::new("rt").arg("lib").current_dir(&carrier).status();
    match status {
        Ok(s) if s.success() => {}
        Ok(s) => panic!("`rt lib` in crates/carrier failed: {s}"),
        Err(e) => panic!("libcarrier.a is missing and `rt` cannot be run ({e}); set CARRIER_LIB to the archive's folder"),
    }
    fs::create_dir_all(folder).unwrap();
    fs::copy(carrier.join("out/libcarrier.a"), folder.join("libcarrier.a")).unwrap();
}

fn main() {
    let target = (env::var("CARGO_CFG_TARGET_ARCH").unwrap(), env::var("CARGO_CFG_TARGET_OS").unwrap());
    assert!(target.0 == "x86_64" && target.1 == "linux", "libcarrier.a is for x86-64 Linux");
    let folder = match env::var_os("CARRIER_LIB") {
        Some(named) => PathBuf::from(named),
        None => {
            let root = PathBuf::from(env::var("CARGO_MANIFEST_DIR").unwrap()).join("../..");
            let folder = root.join("target/staticlib");
            if !folder.join("libcarrier.a").exists() {
                make_archive(&root, &folder);
            }
            folder
        }
    };
    let archive = folder.join("libcarrier.a");
    // for the tests, which link it into programs in C and C++
    println!("cargo:rustc-env=CARRIER_ARCHIVE={}", archive.display());
    println!("cargo:rustc-link-search=native={}", folder.display());
    println!("cargo:rustc-link-lib=static=carrier");
    println!("cargo:rerun-if-env-changed=CARRIER_LIB");
    println!("cargo:rerun-if-changed={}", archive.display());
}
